"use strict";
const plain = (text) => text.normalize("NFD").replace(/\p{M}/gu, "").toLowerCase();
const part = (selector) => document.querySelector(selector);
const parts = (selector) => [...document.querySelectorAll(selector)];
const parsed = (text) => new DOMParser().parseFromString(text, "text/html");

// Leaves the rows of a table with what is typed, those of its further pages among them.
function searchTable() {
  const search = part("main .search");
  if (!search) return;
  const field = search.querySelector("input"), body = part(".searched tbody");
  const own = [...body.rows], all = [...own], more = parts(".parts a");
  search.hidden = false;
  field.addEventListener("input", async () => {
    for (const link of field.value ? more.splice(0) : []) {
      const answer = await fetch(link.href).catch(Response.error);
      // A page that does not come is asked for again with the next letter.
      if (!answer.ok) more.push(link);
      else all.push(...parsed(await answer.text()).querySelectorAll(".searched tbody tr"));
    }
    const wanted = plain(field.value);
    const found = wanted ? all.filter((row) => plain(row.textContent).includes(wanted)) : own;
    body.replaceChildren(...found);
    search.querySelector("output").value = wanted ? found.length : "";
  });
}

// Shows constituencies, places and stations with what is typed, as links.
function findNames(search) {
  const field = search.querySelector("input"), said = search.querySelector("output");
  const list = part(".found");
  let known;
  async function read() {
    const found = [[], [], []], file = await (await fetch(search.dataset.file)).json();
    for (const { con, name, places, stations, names, starts } of file.constituencies) {
      const add = (kind, of, href, beside) =>
        found[kind].push({ of, href, beside, plain: plain(of) });
      const page = (n) => starts.length
        ? `stations-${con}-${starts.filter((start) => start <= n).length}.html#${stations[n]}`
        : `con-${con}.html`;
      add(0, name, `con-${con}.html`, "");
      places.forEach((of, n) => add(1, of, `place-${con}-${n + 1}.html`, name));
      stations.forEach((code, n) => add(2, `${code} ${names[n]}`.trim(), page(n), name));
    }
    return found.flat();
  }
  const isolated = (text) =>
    Object.assign(document.createElement("bdi"), { textContent: text });
  function row({ of, href, beside }) {
    const item = document.createElement("li"), link = document.createElement("a");
    link.href = href;
    link.append(isolated(of));
    item.append(link, " ", isolated(beside));
    return item;
  }
  field.addEventListener("input", async () => {
    const typed = field.value, wanted = plain(typed.trim());
    known ??= read();
    const all = await known.catch(() => known = null) ?? [];
    const found = wanted ? all.filter((one) => one.plain.includes(wanted)) : [];
    if (field.value !== typed) return;
    list.replaceChildren(...found.slice(0, 30).map(row));
    said.value = wanted && (found.length || search.dataset.none);
  });
  field.addEventListener("keydown", (event) => {
    if (event.key === "Enter") list.querySelector("a")?.click();
  });
  search.hidden = false;
}

// The page renews itself, unless that is not wanted. While somebody types or selects something it
// says that something changed, and only its header is renewed: its state and its age.
function renewItself(control) {
  const tick = control.querySelector("input"), said = control.querySelector("output");
  const { renewed, kept, lost, gone } = said.dataset;
  const rests = () => !tick.checked || document.hidden;
  const waits = () => !getSelection().isCollapsed
    || parts("input[type=search]").some((field) => field.value);
  const reached = () => parts("a[href], input, [tabindex]");
  const keep = (write) => { try { return write(localStorage); } catch { return null; } };
  let shown = part("main").innerHTML, asked = 0, answered = 0;
  tick.checked = keep((kept) => kept.getItem("renew")) !== "no";
  function show(page, main) {
    const focus = reached().indexOf(document.activeElement);
    const moved = parts(".scroll").map((e) => e.scrollLeft);
    const isNew = main !== shown;
    shown = main;
    for (const of of isNew ? ["title", "style", "header", "main"] : ["header"]) {
      const now = page.querySelector(of);
      if (!part(of).isEqualNode(now)) part(of).replaceWith(now);
    }
    if (isNew) {
      parts(".scroll").forEach((e, n) => { e.scrollLeft = moved[n] ?? 0; });
      searchTable();
      said.value = `${renewed} ${part("header time")?.textContent ?? ""}`;
    } else if ([lost, kept].includes(said.value)) said.value = "";
    if (focus >= 0) reached()[focus]?.focus({ preventScroll: true });
  }
  // What it said may be a certificate that is withdrawn. The page may come back. (A folder without
  // its first page, and a site before its hour, answer 403.)
  function leave() {
    const stays = [part("header a[href='index.html']"), part("h1")];
    part("header").replaceChildren(...stays.filter(Boolean));
    part("main").replaceChildren();
    shown = "";
    said.value = gone;
  }
  async function renew() {
    if (rests()) return;
    const mine = ++asked;
    const answer = await fetch(location.pathname, { cache: "no-cache" }).catch(Response.error);
    const page = parsed(answer.ok ? await answer.text().catch(() => "") : "");
    // (one that is late may be of before what is shown)
    if (rests() || mine < answered) return;
    answered = mine;
    const main = page.querySelector("main")?.innerHTML ?? "";
    const isGone = [403, 404].includes(answer.status);
    if (!isGone && !main) said.value = lost;
    else if (waits() && main !== shown) said.value = kept;
    else isGone ? leave() : show(page, main);
  }
  tick.addEventListener("change", () => {
    keep((kept) => kept.setItem("renew", tick.checked ? "yes" : "no"));
    renew();
  });
  document.addEventListener("visibilitychange", renew);
  setInterval(renew, 30000);
  control.hidden = false;
}

// A page that was kept as a file has no site to ask.
if (location.protocol !== "file:") {
  renewItself(part(".renew"));
  if (part(".find")) findNames(part(".find"));
}
searchTable();
