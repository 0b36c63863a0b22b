"use strict";

// What each refusal means, and what to do.
const SENTENCES = {
  no_station: () => T.no_station,
  no_constituency: () => T.no_constituency,
  no_candidate: () => T.no_candidate,
  bad_counts: () => T.bad_counts,
  bad_note: () => T.bad_note,
  too_many_votes: () => T.too_many_votes,
  differs: () => blind() ? T.differs_blind :
    T.differs({ act: person.role === "station" ? T.tell_office : T.query_and_correct }),
  no_return: () => blind() ? T.no_return_blind : T.no_return,
  certified: () => T.certified_already,
  not_certified: () => T.not_certified,
  stale: () => blind() ? T.stale_blind : T.stale,
  exhausted: () => T.exhausted,
  wrong_status: (a) => !blind() ? T.wrong_status({ status: stateOf(a.status) }) :
    a.status === "closed" ? T.closed_already :
    T.put_aside({ status: stateOf(a.status) }),
  not_all_closed: (a) => T.not_all_closed({ number: a.left }),
  no_eligible: () => T.no_eligible,
  lot_stands: () => T.lot_stands,
  lot_not_needed: () => T.lot_not_needed,
  lot_wrong_group: (a) => T.lot_wrong_group({ lists: a.group.join(", ") }),
  lot_missing: (a) => T.lot_missing({ lists: a.group.join(", "), seats: T.seats({ number: a.seats }) }),
  already_gone: () => T.already_gone,
  not_holder: () => T.not_holder,
  not_confirmed: () => T.not_confirmed,
  bad_head: () => T.bad_head,
  head_too_long: () => T.head_too_long,
  length_required: () => T.length_required,
  bad_length: () => T.bad_length,
  body_too_long: () => T.body_too_long,
  ended_early: () => T.ended_early,
  no_route: () => T.no_route,
  no_method: () => T.no_method,
  bad_body: () => T.bad_body,
  bad_header: () => T.bad_header,
  too_long: () => T.too_long,
  other_method: () => T.other_method,
  unavailable: () => T.unavailable,
};
// Why a row of a file would not be accepted, by the word of its line and what follows there.
const CAUSES = {
  fields: (many) => T.row_fields({ number: many, wanted: constituency().lists.length + 4 }),
  bad_station: () => T.row_bad_station,
  no_station: () => T.row_no_station,
  bad_slip: () => T.row_bad_slip,
  bad_number: (column) => T.row_bad_number({ column }),
  bad_counts: (station) => T.row_station({ station, reason: REASONS[4] }),
  too_many_votes: (station) => T.row_station({ station, reason: REASONS[6] }),
  differs: (station) => T.row_station({ station, reason: REASONS[7] }),
};
// Why a row of a file was not accepted, by the number of its refusal.
const REASONS = {
  0: T.reason_unread,
  4: T.reason_counts,
  6: T.reason_votes,
  7: T.reason_differs,
};
const STATUSES = {
  0: T.no_answer,
  401: T.wrong_password,
  403: T.may_not,
  404: T.no_such_code,
  409: T.other_setup,
  412: T.other_name,
  413: T.body_too_long,
  429: T.too_often,
  502: T.away,
  504: T.too_slow,
};
// The same where nothing was to be done, and the page only asked.
const UNREAD = { ...STATUSES, 0: T.not_seen, 409: T.setup_changed, 412: T.name_changed, 502: T.not_seen, 504: T.not_seen };

const UNKNOWN = T.unknown_station;
const ROLES = { clerk: T.role_clerk, second: T.role_second, board: T.role_board, station: T.role_station };
// What a return is.
const STATES = { received: T.status_received, queried: T.status_queried, corrected: T.status_corrected, closed: T.status_closed };
const stateOf = (status) => STATES[status] || status;
// Numbers, moments and plurals, as they are written in the language of the page.
const LANGUAGE = document.documentElement.lang;
const shownAs = (value) => typeof value === "number" ? new Intl.NumberFormat(LANGUAGE, { useGrouping: "always" }).format(value) : value;
const moment = (time) => new Intl.DateTimeFormat(LANGUAGE, { dateStyle: "long", timeStyle: "long" }).format(time);
const plural = (many, forms) => forms[new Intl.PluralRules(LANGUAGE).select(many)] || forms.other;
// The forms into which a slip is typed.
const SLIPS = ["lodge", "correct", "confirm"];
// The field to look at after a refusal.
const WRONG = { differs: "slip", bad_body: "slip", too_many_votes: "total", bad_note: "note" };

// What is known, and what is shown: a command is made of what is shown, and of nothing else.
const MINUTE = 60_000;
let setup = [], setupHash = "", known = { stations: {}, former: {} }, person = { name: "", role: "" }, shown = { con: null, view: null, station: null, found: null }, busy = false, active = null;
// The moment from which on the page asks for names and the former result.
let siteAgain = 0;
// The revision of returns that this page has not seen, as far as an answer named it; the stations
// that were listed, and whether somebody asked for the list of this constituency.
const revisions = {};
let listed = [], isListed = false;
// The edition for which an order of a lot is chosen.
let typedFor = null;

const element = (id) => document.getElementById(id);
const blind = () => person.role === "second";
const constituency = () => setup.find((one) => one.code === shown.con);
const homeOf = (code) => setup.find((one) => one.stations.some((station) => station.code === code));
// A code without what is left out or written otherwise as it is typed; and the same of the part
// from some place on, without the zeros before it.
const plainCode = (code) => code.toUpperCase().replace(/[^A-Z0-9]/g, "");
const partsOf = (code) => code.split(/[-_]/).map((_, place, all) => plainCode(all.slice(place).join("")).replace(/^0+(?=.)/, ""));

// The codes of stations that somebody may mean by what was typed: that code; or the same in other
// capitals and without hyphens; or those of the chosen constituency that end with it.
function meant(typed) {
  const all = setup.flatMap((one) => one.stations.map(({ code }) => code)), plain = plainCode(typed);
  if (all.includes(typed) || !plain) return [typed];
  const alike = all.filter((code) => plainCode(code) === plain);
  if (alike.length) return alike;
  const here = constituency().stations.map(({ code }) => code), short = plain.replace(/^0+(?=.)/, "");
  const parts = here.filter((code) => partsOf(code).includes(short));
  if (parts.length) return parts;
  const ends = here.filter((code) => plainCode(code).endsWith(plain));
  return ends.length ? ends : [typed];
}
const electors = () => constituency().stations.find((one) => one.code === shown.station).electors;
const double = () => Boolean(shown.view && shown.view.entry === "double");
const total = (numbers) => numbers.reduce((sum, one) => sum + one, 0);

function made(tag, text, ...children) {
  const node = document.createElement(tag);
  if (text !== null) node.textContent = text;
  node.append(...children);
  return node;
}

// A refusal is read aloud at once.
function say(text, kind) {
  element("status").textContent = kind === "refused" ? "" : text;
  element("alert").textContent = kind === "refused" ? text : "";
  element("said").className = kind || "";
  // What has the focus is not scrolled under this message, which stays at the top.
  document.documentElement.style.scrollPaddingTop = `${element("said").offsetHeight}px`;
}

// ---- asking

// All that is asked goes with the hash of the setup that this page has and the name that it shows:
// the proxy refuses what is of another setup or name by now. A browser sends a command again by
// itself where its connection ends without an answer: by numbers at random, which no other command
// has, it is known to be the same, and has the answer of the first.
async function ask(method, target, body) {
  try {
    const headers = { ...(setupHash && { "Office-Setup": setupHash }), ...(person.name && { "Office-By": person.name }),
      ...(method === "POST" && { "Office-Once": crypto.getRandomValues(new Uint32Array(4)).join("-") }) };
    const answer = await fetch(target, { method, body, headers, cache: "no-store", redirect: "error" });
    const text = await answer.text();
    const json = (answer.headers.get("Content-Type") || "").startsWith("application/json");
    // (one that is no command's, as a 403, has no text)
    return { status: answer.status, ok: answer.ok, headers: answer.headers, text, value: json && text ? JSON.parse(text) : null };
  } catch {
    return { status: 0, ok: false, headers: new Headers(), text: "", value: null };
  }
}

// The SHA-256 of a text.
async function hashOf(text) {
  const bytes = await crypto.subtle.digest("SHA-256", new TextEncoder().encode(text));
  return [...new Uint8Array(bytes)].map((byte) => byte.toString(16).padStart(2, "0")).join("");
}

// A name or a note by itself: no letter in it turns round what is beside it.
function isolated(text) {
  const plain = text.replace(/[\u061c\u200e\u200f\u202a-\u202e\u2066-\u2069]/g, "");
  return /[\u0590-\u08ff\ufb1d-\ufdff\ufe70-\ufefc]/.test(plain) ? `\u2068${plain}\u2069` : plain;
}

function sentence(answer, statuses = STATUSES) {
  const word = answer.value && answer.value.word;
  if (Object.hasOwn(SENTENCES, word || "")) return SENTENCES[word](answer.value);
  return statuses[answer.status] || T.other_status({ status: answer.status });
}

const unread = (answer) => sentence(answer, UNREAD);

// What a form does by the button that was pressed, given as what returns an answer, or nothing
// where it was not sent. The form of a command that was accepted is emptied, and so is one whose
// answer was lost, where what was typed is recorded now; of one that was refused the field to look
// at gets the focus.
function onSubmit(id, act) {
  element(id).addEventListener("submit", async (event) => {
    event.preventDefault();
    const form = event.target, answer = busy ? null : await act(form, event.submitter);
    if (!answer) return;
    if (answer.ok || (!answer.value && isRecorded(form))) form.reset();
    if (answer.ok) goOn(true);
    else if (SLIPS.includes(id) && answer.value && answer.value.word === "differs") stop(form);
    else focusOn(form, answer.value && answer.value.word);
  });
}

// ---- a slip that differs: nothing is typed until somebody says what to do

let stopped = null;

function stop(form) {
  // (the next key of who does not look up is Enter, for the next station)
  stopped = { form, typed: true };
  element("stopped-said").textContent = element("alert").textContent;
  element("stopped-typed").textContent = "";
  element("stopped-next").hidden = !allowed(element("stopped-next"));
  element("stopped").showModal();
  element("stopped-compare").focus();
}

function leaveStopped(act) {
  element("stopped").close();
  const { form } = stopped;
  stopped = null;
  act(form);
}

const compareNow = () => leaveStopped((form) => {
  // A first entry is hidden where somebody else's is recorded: that can be queried. The next figure
  // of who does not look up is no note.
  if (!form.hidden) focusOn(form, "differs");
  else element(element("query").hidden ? "station" : "return").focus();
});
// The figures that differ are those of the paper that is put aside.
const nextNow = () => person.role === "station" ? compareNow() : leaveStopped((form) => {
  dropDraft(shown.station);
  form.reset();
  element("station").focus();
  element("station").select();
});

// Who types on without looking up types nothing, and neither the end of what was typed nor a key
// that is held down presses a button.
element("stopped").addEventListener("keydown", (event) => {
  const isTyped = event.key.length === 1 && event.key !== " ";
  if (!isTyped && !([" ", "Enter"].includes(event.key) && (stopped.typed || event.repeat))) return;
  event.preventDefault();
  stopped.typed = isTyped;
  element("stopped-typed").textContent = T.typed_for_nothing;
});
element("stopped").addEventListener("cancel", (event) => {
  event.preventDefault();
  nextNow();
});
element("stopped-compare").addEventListener("click", compareNow);
element("stopped-next").addEventListener("click", nextNow);

function isRecorded(form) {
  const typed = SLIPS.includes(form.id) ? figures(form) : null, found = shown.found;
  return Boolean(typed && found && typed.slip === found.slip && String(slipRows(typed)) === String(slipRows(found)));
}

function focusOn(form, word) {
  const large = [...form.querySelectorAll(".counts input")].find((one) => Number(one.value) > 1000000);
  const field = word === "bad_counts" ? large : word === "lot_wrong_group" ? form.querySelector("select") : form.elements[WRONG[word]];
  if (form.hidden) return;
  // Where there is none, who types on without looking up types nothing, and Enter sends the same.
  const next = field || form.querySelector("fieldset > button");
  next.focus();
  if (next.select) next.select();
}

// Sends a command, says what came of it, and asks again; its answer. The receipt has what it is
// given here.
async function command(target, body, done, receipt, isLook = () => false) {
  setBusy(true);
  say(T.sent);
  // The receipt of an earlier command says nothing of this one.
  element("receipt").open = false;
  try {
    const answer = await ask("POST", target, body), value = answer.value || {};
    // A request of the board that waits for a second name is not done.
    const waits = answer.status === 202;
    if (shown.station && (value.now || value.rev)) revisions[shown.station] = value.now || value.rev;
    if (answer.ok) shown.again = false;
    if (answer.ok && receipt.leaves) listed.filter((one) => one.code === receipt.station).forEach((one) => { one.status = receipt.leaves; });
    if (answer.ok && receipt.station) dropDraft(receipt.station);
    showOpen();
    const trouble = await look();
    const what = waits ? waitsFor(value) : answer.ok ? done(value) : sentence(answer);
    // (what the command came to is not said twice)
    say(`${what}${trouble.replace(` ${unread(answer)}`, "")}`, waits || value.word === "lot_missing" || (answer.ok && isLook(value)) ? "look" : answer.ok ? "done" : "refused");
    if (answer.ok && !waits) showReceipt(done(value), receipt);
    else element("receipt").hidden = true;
    return answer;
  } finally {
    setBusy(false);
  }
}

// Until when a request waits for a second name, who asked for the same before a return or the
// edition changed, and what others asked for in its place.
function waitsFor({ until, others, too_early: early = [] }) {
  const titles = { draw: T.draw_title, certify: T.certify_title, reopen: T.reopen_title, vacate: T.vacate_title };
  const more = others.map(({ name, act, body }) => T.other_waits({ name, act: titles[act], said: saidOf(read(body)) }));
  const ended = early.map(({ name, time, changed }) =>
    changed === "return" ? T.too_early_return({ name, time: moment(new Date(time)) })
      : changed === "edition" ? T.too_early_edition({ name, time: moment(new Date(time)) })
        : T.too_early_unknown({ name, time: moment(new Date(time)) }));
  return [T.waits_for_name({ until: moment(new Date(until)) }), ...ended, ...more].join(" ");
}

// What has the focus loses it while it is disabled, and has it again afterwards.
function setBusy(now) {
  busy = now;
  if (now) active = document.activeElement;
  for (const part of document.querySelectorAll("fieldset, button, #con, #station")) part.disabled = now;
  if (!now) active.focus();
}

// Goes to where somebody types on: the slip of a return that is to be entered, or else the next
// station.
function goOn(accepted) {
  if (!shown.station) {
    // The form of what the board did is gone: its receipt is what there is to read.
    const here = document.activeElement;
    if (accepted && (here === document.body || !here.getClientRects().length)) element("receipt").querySelector("summary").focus();
    return;
  }
  const form = blind() ? !accepted && "confirm" : { none: "lodge", queried: "correct" }[shown.found ? shown.found.status : ""];
  const next = form && !element(form).hidden ? element(form).elements.slip : element("station");
  if (next.id) proposeStation(proposedStation());
  next.focus();
  if (next.id) next.select();
}

// ---- looking: what the office has now

// Asks for what is chosen and shows it; what went wrong with that, in words. Who enters a slip a
// second time sees nothing of the return: it is not asked for.
async function look() {
  const con = shown.con, station = shown.station;
  shown.view = shown.found = null;
  const [result, seen] = await Promise.all([
    resultOf(con), station && !blind() ? ask("GET", `/now/station/${encodeURIComponent(station)}`) : null, learnSite()]);
  const view = shown.view = result.ok ? viewOf(result.value) : null;
  const open = view && isListed ? await listStations() : null;
  // Who does not see a return learns its revision from the answer to a confirmation of a former
  // one: the table of all stations would cost a large constituency too much at each choice.
  const found = station && blind() ? unseen(station) : seen;
  const there = found && (found.ok ? found.value :
    found.value && found.value.word === "no_return" ? { station, status: "none" } : null);
  // Its votes are in the order of the lists that are shown only where it is a station of this
  // constituency.
  if (constituency().stations.some((one) => one.code === station)) shown.found = there;
  if (shown.found && shown.found.status !== "none") returned.add(station);
  showProgress(view);
  if (open) showOpen();
  learn();
  showReturn();
  showView();
  // Before the hour from which results are public a station sees its own return alone.
  const isClosed = result.status === 403 && person.role === "station";
  return [...new Set([result.ok || isClosed ? "" : ` ${unread(result)}`, !found || shown.found ? "" : there ? ` ${UNKNOWN}` : ` ${unread(found)}`])].join("");
}

// The result of the office. A site that shows no seat before it is certified has none for a station
// and for who enters slips a second time: two tables without seats have what they need of it.
async function resultOf(con) {
  const result = await ask("GET", `/now/con/${con}/result`);
  if (result.status !== 404 || result.value || !["second", "station"].includes(person.role)) return result;
  const [view, progress] = await Promise.all([ask("GET", `/now/con/${con}`), ask("GET", "/now/progress")]);
  const row = progress.text.split("\n").map((line) => line.trim().split(/ +/)).find(([code]) => code === con);
  if (!view.ok || !row) return view.ok ? { ...progress, ok: false, status: progress.ok ? 502 : progress.status } : view;
  const [stations, , received, queried, corrected, closed] = row.slice(1).map(Number), { votes, seats, gone } = view.value;
  return { ...view, value: { ...view.value, stations, received, queried, corrected, closed,
    lists: votes.map((many, place) => ({ votes: many, seats: seats[place] })), holders: [],
    gone: gone.map(({ list, place, note }) => [list, place, note]) } };
}

// In place of an answer: the revision that a lodged return has, or a later one that an answer
// named.
function unseen(station) {
  return homeOf(station) ? { ok: true, value: { station, rev: revisions[station] || 1, status: "" } } : { ok: false, value: { word: "no_station" } };
}

async function refresh() {
  setBusy(true);
  const trouble = await look();
  // What was sent, and is recorded though its answer was lost, is neither to be sent nor compared.
  for (const form of SLIPS.map(element)) if (form.hidden && isRecorded(form)) form.reset();
  say(trouble || T.now, trouble ? "refused" : "");
  setBusy(false);
}

// A result of the office, with votes and seats in the order of the lists, who is gone, who holds a
// seat, and how many stations have no return.
function viewOf(result) {
  const { lists, stations, received, queried, corrected, closed } = result;
  return { ...result, votes: lists.map(({ votes }) => votes), seats: lists.map(({ seats }) => seats),
    missing: stations - received - queried - corrected - closed, gone: result.gone.map(([list, place, note]) => ({ list, place, note })),
    holders: result.holders.filter(([, place]) => place).map(([list, place, name]) => ({ list, place, name: isolated(name) })) };
}

// The lot that the votes need once all returns are closed, which the board draws: among whom, and
// for how many seats.
function lotNeeded({ status, closed, stations, question, group }) {
  return status === "lot" && closed === stations && person.role === "board" ? { group, seats: question } : null;
}

// ---- showing

function showProgress(row) {
  closings = [...closings.filter(({ con }) => con === shown.con), ...(row ? [{ con: shown.con, time: Date.now(), closed: row.closed }] : [])];
  const waiting = row && double() ? T.waiting({ number: row.received + row.corrected }) : "";
  element("progress-line").textContent = !row ? "" :
    T.progress({ closed: row.closed, stations: row.stations, missing: row.missing, received: row.received, queried: row.queried,
      corrected: row.corrected, waiting });
}

function rowsOf(pairs) {
  const body = made("tbody", null, ...pairs.map(([name, value]) => {
    const head = made("th", name), cell = made("td", shownAs(value));
    head.scope = "row";
    if (typeof value === "number") cell.className = "number";
    return made("tr", null, head, cell);
  }));
  const box = made("div", null, made("table", null, body));
  box.className = "scroll";
  return box;
}

// A return as rows, in the order of the slip.
function slipRows({ slip, votes, blank, spoiled }) {
  return [[T.slip, slip], ...constituency().lists.map((list, place) => [`${list.code} ${list.name}`, votes[place]]),
    [T.blank, blank], [T.spoiled, spoiled], [T.total, total([...votes, blank, spoiled])]];
}

const allowed = (part) => !person.role || part.dataset.for.split(" ").includes(person.role);

function shows(id, condition) {
  element(id).hidden = !(condition && allowed(element(id)));
}

function showReturn() {
  const found = shown.found, status = found ? found.status : "", again = shown.again;
  showPlace();
  const parts = !found || blind() ? [] :
    status === "none" ? [made("p", T.station_none({ station: found.station }))] : [
      made("p", T.station_status({ station: found.station, status: stateOf(status) }) + (found.note ? T.station_note({ note: isolated(found.note) }) : "")),
      ...(again ? [] : [rowsOf(slipRows(found))])];
  const open = shown.view && !shown.view.certified, entered = status === "received" || status === "corrected";
  if (open && entered && double()) parts.push(made("p", T.waits_for_second));
  element("return").replaceChildren(...parts);
  shows("confirm", open && found && blind());
  shows("close", open && entered && !again && !double());
  shows("query", open && !again && (entered || status === "closed" || (found && blind())));
  shows("correct", open && status === "queried");
  // Where one entry is enough, whoever wants types the slip again, without seeing what is recorded.
  shows("lodge", status === "none" || (again && found));
  shows("who", found);
  // (the others have this button above)
  shows("retry", !found);
  element("history").replaceChildren();
  bringDraft();
  element("compare").hidden = blind() || double() || !(entered || status === "closed");
  element("compare").textContent = again ? T.show_recorded : T.compare_button;
  element("lodge-title").textContent = again ? T.enter_again : T.lodge_title;
  proposeSlip();
  element("lodge").querySelector("button").textContent = again ? T.compare_send : T.lodge_button;
  element("confirm-rev").textContent = !found ? "" : found.rev > 1 ? T.compared_later : T.compared_first;
}

// The station in large letters, by what the paper says of it beside its code.
function showPlace() {
  const { name, place } = known.stations[shown.station] || {}, home = homeOf(shown.station);
  const own = home && home.stations.find((one) => one.code === shown.station);
  const lines = !own ? [] : [made("strong", shown.station), ...[name, place].filter(Boolean).map((one) => made("span", one)),
    made("span", own.agents ? T.electors_agents({ electors: own.electors, agents: own.agents }) : T.electors({ electors: own.electors }))];
  element("place").replaceChildren(...lines);
}

function showView() {
  const view = shown.view, holders = view ? view.holders : [], lot = view && lotNeeded(view);
  element("view").replaceChildren(...(view ? viewParts(view) : []));
  element("find").hidden = !view || view.closed === view.stations;
  shows("list-waiting", view && !view.certified);
  shows("certify", view && !view.certified);
  shows("draw", lot);
  shows("vacate", holders.length);
  shows("reopen", view && view.certified);
  shows("import", view);
  // What was done, though its answer was lost, is not to be sent again, nor what comes too late. A
  // lot that is needed at another edition is another lot.
  if (view && (!lot || view.edition !== typedFor)) element("draw").reset();
  if (view && !view.certified) element("reopen").reset();
  if (view) typedFor = view.edition;
  if (lot) showDraw(lot);
  if (view) showHolders(holders);
}

// Who was chosen as gone stays chosen, also where a look was lost; in the place of one who is no
// holder any more nobody is.
function showHolders(holders) {
  const { holder } = element("vacate").elements, chosen = holder.value;
  holder.replaceChildren(made("option", ""), ...holders.map((one) => {
    const option = made("option", T.holder_choice({ list: one.list, place: one.place, name: one.name }));
    option.value = JSON.stringify({ list: one.list, place: one.place });
    option.selected = option.value === chosen;
    return option;
  }));
}

function viewParts(view) {
  const state = view.certified ? T.state_certified : T.state_open, missing = view.stations - view.closed;
  const words = [T.con_state({ con: constituency().name, state })];
  if (!view.certified) words.push(missing ? T.still_to_close({ number: missing, stations: view.stations }) : T.all_closed);
  const lot = lotNeeded(view), needs = lot ? [Object.assign(made("p", T.lot_missing({ lists: lot.group.join(", "), seats: T.seats({ number: lot.seats }) })), { className: "look" })] : [];
  if (view.lot.length) words.push(T.lot_line({ lists: view.lot.join(", ") }));
  if (view.note) words.push(T.reopening_note({ note: isolated(view.note) }));
  const gone = view.gone.map((one) => made("p", T.gone_line({ list: one.list, place: one.place, note: isolated(one.note) })));
  return [made("p", words.join(" ")), ...needs, ...gone, rowsOf([...listRows(view), [T.blank, T.votes({ number: view.blank })], [T.spoiled, T.votes({ number: view.spoiled })]])];
}

function listRows(view) {
  return constituency().lists.map((list, place) => [`${list.code} ${list.name}`,
    view.certified ? T.votes_and_seats({ votes: T.votes({ number: view.votes[place] }), seats: T.seats_given({ number: view.seats[place] }) }) : T.votes({ number: view.votes[place] })]);
}

function showDraw(lot) {
  const help = T.lot_lists({ lists: lot.group.join(", ") });
  // What was chosen stays.
  if (element("draw-help").textContent === help) return;
  element("draw-help").textContent = help;
  element("order").replaceChildren(...lot.group.map((_, place) => {
    const choice = made("select", null, made("option", ""), ...lot.group.map((code) => made("option", code)));
    choice.required = true;
    return made("label", T.lot_place({ place: place + 1 }), choice);
  }));
}

// What was done, for the file of papers. That of a first entry has no figures: it may go with the
// slip to whoever enters it a second time.
function showReceipt(done, { title, station, open, rows }) {
  element("receipt").hidden = false;
  element("receipt").open = Boolean(open);
  element("receipt").querySelector("summary").textContent = T.receipt({ title });
  element("receipt").querySelector("div").replaceChildren(rowsOf([
    ...(station ? [[T.station, station]] : []), [T.constituency, `${constituency().name} (${shown.con})`], ...(done === T.is_done ? [] : [[T.done, done]]), ...rows(),
    [T.by_label, `${person.name}, ${ROLES[person.role] || person.role}`], [T.at_label, moment(new Date())]]));
}

// ---- a slip, and what is looked at before it is sent

function showConstituency() {
  const one = constituency();
  element("stations").replaceChildren(...one.stations.map((station) => {
    const option = made("option", null);
    option.value = station.code;
    return option;
  }));
  const names = [...one.lists.map((list) => [`${list.code} ${list.name}`, "votes"]), [T.blank, "blank"], [T.spoiled, "spoiled"],
    [T.total_of_slip, "total"]];
  for (const form of SLIPS.map(element)) {
    form.querySelector(".counts").replaceChildren(...names.map(([text, name], place) => {
      const input = made("input", null);
      Object.assign(input, { name, inputMode: "numeric", pattern: "[0-9]{1,9}", title: T.digits_alone, required: true, autocomplete: "off" });
      input.setAttribute("aria-describedby", `${form.id}-${place}`);
      return made("div", null, made("label", null, made("span", text), input));
    }));
  }
}

function fields(form, name) {
  return [...form.querySelectorAll(`input[name=${name}]`)];
}

function figures(form) {
  const of = (name) => fields(form, name).map((input) => Number(input.value));
  return { slip: form.elements.slip.value, votes: of("votes"), blank: of("blank")[0], spoiled: of("spoiled")[0] };
}

// Of the logarithm of a list's share in a return, over its share in the constituency: the standard
// deviation that is assumed over closed returns and over a former result, as if it had been seen in
// this many returns; and the least one.
const SPREAD = 0.5, FORMER_SPREAD = 0.6, ASSUMED = 8, LEAST_SPREAD = 0.1;
// A figure is far off from this many deviations on; two are exchanged where that is likelier by
// this factor (its logarithm, twice).
const FAR = 3.3, EXCHANGED = 10;
// This many closed returns say more than the former result, and of this many the spread is learned
// well enough.
const FEW = 3, ENOUGH = 300;
// The lists' votes of closed returns of a constituency, as published; how many were closed when
// that was asked for.
let learned = { con: null };

// The shares that are expected of a return, a list each, with the variance of the logarithm; null
// where nothing is known.
function expectation(votes, closed, former, spreads) {
  const isFormer = closed < FEW && former.some((many) => many > 0), sums = isFormer ? former : votes;
  const all = total(sums.map((many) => many || 0));
  if (!all || (!isFormer && !closed)) return null;
  const variance = (place) => isFormer ? FORMER_SPREAD ** 2 : (spreads[place] || SPREAD) ** 2 * (1 + 1 / closed);
  return { isFormer, lists: sums.map((many, place) => many === null ? null : { share: many / all, variance: variance(place) }) };
}

// The spread of each list over returns, without what is chance in small numbers.
function spreadsOf(returns) {
  const sums = (returns[0] || []).map((_, place) => total(returns.map((votes) => votes[place]))), all = total(sums);
  return sums.map((sum, place) => {
    const squares = returns.map((votes) => [votes[place] + 0.5, (sum / all) * total(votes) + 0.5])
      .map(([many, wanted]) => Math.min(4, Math.log(many / wanted) ** 2) - 1 / wanted);
    return Math.sqrt(Math.max(LEAST_SPREAD ** 2, (total(squares) + ASSUMED * SPREAD ** 2) / (squares.length + ASSUMED)));
  });
}

// The figures of a slip that are far from what is expected, each with its list, whether it is more,
// and the list beside it with whose figure it would fit.
function farOff(votes, wanted) {
  // The size of the return by the list in the middle, so that one wrong figure spoils no other.
  const sizes = votes.map((many, place) => [many, wanted[place]]).filter(([, one]) => one && one.share * total(votes) >= 5)
    .map(([many, { share }]) => many / share).sort((one, other) => one - other);
  const size = sizes.length < 3 ? total(votes) : (sizes[(sizes.length - 1) >> 1] + sizes[sizes.length >> 1]) / 2;
  const far = (many, one) => {
    const mean = one.share * size + 0.5;
    return Math.log((many + 0.5) / mean) / Math.sqrt(one.variance + 1 / mean);
  };
  const found = [];
  votes.forEach((many, place) => {
    if (!wanted[place]) return;
    const off = far(many, wanted[place]);
    const other = [place - 1, place + 1].find((one) => {
      if (!wanted[one]) return false;
      const here = far(votes[one], wanted[place]), there = far(many, wanted[one]);
      const gain = off ** 2 + far(votes[one], wanted[one]) ** 2 - here ** 2 - there ** 2;
      return gain > EXCHANGED && Math.abs(here) < FAR && Math.abs(there) < FAR;
    });
    if (Math.abs(off) > FAR || other !== undefined) found.push({ place, isMore: off > 0, other });
  });
  return found;
}

// Asks for the closed returns of the constituency once there are twice as many as before, and
// learns how far they are apart.
async function learn() {
  const { con, view } = shown, before = learned.con === con ? learned.closed : 0;
  if (!view || view.certified || person.role === "station" || before >= ENOUGH || view.closed < Math.max(10, 2 * before)) return;
  learned = { con, closed: view.closed, spreads: learned.con === con ? learned.spreads : [] };
  const answer = await ask("GET", `/stations-${con}-open.csv`), lists = constituency().lists.length;
  if (!answer.ok || con !== shown.con) return;
  const rows = answer.text.split("\n").slice(1).filter(Boolean).map((line) => line.split(",").slice(4).map(Number));
  const returns = rows.filter((votes) => votes.length === lists && votes.every((many) => many >= 0) && total(votes));
  learned = { con, closed: returns.length, spreads: returns.length ? spreadsOf(returns) : [] };
}

// What is unusual in a slip, each with its field: it is a reason to look at the paper once more,
// and refuses nothing. What is more than the electors is left to the office, which refuses it.
function unusual(form) {
  const { votes, blank, spoiled } = figures(form), all = total([...votes, blank, spoiled]), found = [];
  const warn = (name, place, text) => found.push({ field: fields(form, name)[place], text });
  const { lists } = constituency(), before = known.former[shown.con] || {}, { view } = shown;
  const former = lists.map(({ code }) => Object.hasOwn(before, code) ? before[code] : null);
  const wanted = expectation(view ? view.votes : [], view ? view.closed : 0, former, learned.con === shown.con ? learned.spreads : []);
  for (const { place, isMore, other } of wanted ? farOff(votes, wanted.lists) : []) {
    const text = wanted.isFormer ? (isMore ? T.more_than_before : T.less_than_before) : isMore ? T.more_than_usual : T.less_than_usual;
    warn("votes", place, text + (other === undefined ? "" : T.exchanged({ list: lists[other].code })));
  }
  if (blank > all * 0.05) warn("blank", 0, T.many_blank);
  if (spoiled > all * 0.05) warn("spoiled", 0, T.many_spoiled);
  if (all > electors() * 0.95 && all <= electors()) warn("total", 0, T.nearly_all({ electors: electors() }));
  if (all < electors() * 0.2) warn("total", 0, T.few({ electors: electors() }));
  return found;
}

const warningOf = (field) => field.closest(".counts > div").querySelector(".warning");

// Shows what is unusual beside its figure; the fields of which nobody has said yet that the paper
// says so.
function warned(form) {
  const found = unusual(form);
  for (const box of form.querySelectorAll(".warning")) {
    const one = found.find(({ field }) => warningOf(field) === box);
    if (!one || one.text !== box.firstChild.textContent) box.remove();
  }
  for (const { field, text } of found) {
    if (warningOf(field)) continue;
    const said = made("span", text), tick = made("input", null), box = made("div", null, said, made("label", null, tick, T.paper_says_so));
    said.id = field.getAttribute("aria-describedby");
    tick.type = "checkbox";
    box.className = "warning";
    field.closest("div").append(box);
  }
  return found.map(({ field }) => field).filter((field) => !warningOf(field).querySelector("input").checked);
}

// Whether what was typed as a slip is the code of another station, as where the next paper is typed
// too early.
function isStation(slip) {
  const plain = plainCode(slip);
  return plain !== plainCode(shown.station || "") && setup.some((one) => one.stations.some(({ code }) => plainCode(code) === plain));
}

// Whether the code of a slip is taken: it is no station's, and where the page proposed the station
// it follows on the slip before, or was typed twice.
function fits(form) {
  const field = form.elements.slip, proposed = form.id === "lodge" ? proposedSlip() : "";
  if (proposed) field.value = slipMeant(field.value);
  const slip = field.value, { station } = shown;
  const jumps = proposed && shown.isProposed && slip !== proposed && shown.jumped !== slip && pile.jumps < 2;
  if (!isStation(slip) && !jumps) return true;
  shown.jumped = slip;
  say(isStation(slip) ? T.slip_is_station({ slip, station }) : T.slip_jumps({ slip, proposed, station }), "refused");
  field.select();
  return false;
}

// Whether a slip may be sent: its code is taken, its figures have the total that was typed, and
// somebody looked at what is unusual.
function checked(form) {
  if (!fits(form)) return false;
  const { votes, blank, spoiled } = figures(form), sum = total([...votes, blank, spoiled]), typed = fields(form, "total")[0];
  const wrong = Number(typed.value) !== sum;
  typed.setAttribute("aria-invalid", wrong);
  const beside = form.querySelector(".fault");
  if (beside) beside.remove();
  typed.removeAttribute("aria-errormessage");
  if (wrong) {
    const fault = Object.assign(made("p", T.adds_up_to({ sum })), { className: "fault", id: `${form.id}-fault` });
    typed.closest("div").append(fault);
    typed.setAttribute("aria-errormessage", fault.id);
  }
  const open = wrong ? [] : warned(form);
  if (!wrong && !open.length) return true;
  say(wrong ? T.wrong_total({ sum, typed: Number(typed.value) }) :
    T.unusual({ figures: T.figures({ number: open.length }) }), "refused");
  // Where a slip is entered twice, who types on without looking up replaces the total alone. Else
  // nothing compares the figures but who looks at each of them.
  (!wrong ? open[0] : double() ? typed : fields(form, "votes")[0]).select();
  return false;
}

// ---- the next paper of a pile, where its slip is entered twice

// The last two stations whose slips this page entered, the later one first, and what it knows to
// have a return; of the last slip's code the part before its number, and the number; whether slips
// are numbered one after the other, which way, and how many of the last were not.
let pile = { con: null };
const returned = new Set();

function putOnPile(station, slip) {
  if (pile.con !== shown.con) pile = { con: shown.con, stations: [], head: null, digits: "", jumps: 0 };
  const [, head, digits] = /^(.*?)([0-9]{1,9})$/.exec(slip) || [null, null, ""], step = Number(digits) - Number(pile.digits);
  const follows = head === pile.head && Math.abs(step) === 1;
  Object.assign(pile, { stations: [station, pile.stations[0]], head, digits, isNumbered: follows || (pile.isNumbered && head === pile.head),
    step: follows ? step : pile.step, jumps: follows ? 0 : pile.jumps + 1, isPadded: /^0./.test(digits) || (pile.isPadded && head === pile.head) });
}

// Whoever enters the same paper a second time is proposed nothing, and types both codes from it.
const hasPile = () => person.role === "clerk" && double() && pile.con === shown.con && !shown.again;

// The station after the last one in the list, or before it where the pile goes that way, that has
// no return yet, as far as this page knows.
function proposedStation() {
  if (!hasPile()) return "";
  const codes = constituency().stations.map(({ code }) => code), [last, before] = pile.stations.map((code) => codes.indexOf(code));
  const way = before > last ? codes.slice(0, last).reverse() : codes.slice(last + 1);
  return way.find((code) => !returned.has(code)) || "";
}

const numbered = (number) => pile.head + String(number).padStart(pile.isPadded ? pile.digits.length : 1, "0");
const proposedSlip = () => hasPile() && pile.isNumbered ? numbered(Math.max(0, Number(pile.digits) + pile.step)) : "";

// The slip whose number ends with what was typed: of all such the nearest to the proposed one.
function slipMeant(typed) {
  if (!/^[0-9]+$/.test(typed) || typed.length > pile.digits.length || (!pile.head && typed.length === pile.digits.length)) return typed;
  const unit = 10 ** typed.length, wanted = Number(pile.digits) + pile.step, near = Math.floor(wanted / unit) * unit + Number(typed);
  const ends = [near, near + unit, near - unit].filter((number) => number >= 0);
  return numbered(ends.sort((one, other) => Math.abs(one - wanted) - Math.abs(other - wanted))[0]);
}

// The next station is proposed in the empty field, where Enter takes it, and the next slip beside
// its own, of which nothing is taken.
function proposeStation(code) {
  const { name } = known.stations[code] || {}, station = name ? `${code}, ${name}` : code;
  if (code) element("station").value = "";
  element("station").placeholder = code;
  element("proposed").textContent = code ? T.station_proposed({ station }) : "";
}

function proposeSlip() {
  const slip = proposedSlip();
  element("lodge").elements.slip.placeholder = slip;
  element("lodge-help").textContent = shown.again ? T.compare_help : slip ? T.slip_proposed({ slip }) : "";
}

// Whether something was typed, or an order of a lot was chosen, that was not sent.
function unsent() {
  return [...document.forms].some((form) => [...form.elements].some((field) => field.required && field.value));
}

// Whether it may go.
function leave() {
  if (unsent() && !confirm(T.not_sent({ name: shown.station || constituency().name }))) return false;
  dropDraft(shown.station);
  for (const form of document.forms) form.reset();
  return true;
}

// ---- what was typed and not sent, kept by the browser for its name

const DRAFTS = ["lodge", "correct"], DAY = 86_400_000;
const draftKey = (form, station) => `office ${setupHash.slice(0, 16)} ${person.name} ${station} ${form}`;

// A slip that is typed to be compared is kept nowhere, nor is a second entry: nobody is to find it.
// A correction is kept with the revision that it is to correct.
function keepDraft({ currentTarget: form }) {
  if (!DRAFTS.includes(form.id) || shown.again) return;
  const typed = [...form.querySelectorAll(".slip input, .counts input:not([type=checkbox])")].map((field) => field.value);
  kept((storage) => storage.setItem(draftKey(form.id, shown.station), JSON.stringify({ time: Date.now(), typed, rev: shown.found.rev })));
}

// Reads or writes what the browser keeps; null where it stores nothing.
function kept(act) {
  try {
    return act(localStorage);
  } catch {
    return null;
  }
}

// Puts into the form that is shown what was typed there before this page was closed.
function bringDraft() {
  for (const form of DRAFTS.map(element)) {
    const fields = [...form.querySelectorAll(".slip input, .counts input:not([type=checkbox])")];
    if (form.hidden || shown.again || fields.some((field) => field.value)) continue;
    const { time, typed, rev } = read(kept((storage) => storage.getItem(draftKey(form.id, shown.station))));
    if (!Array.isArray(typed) || typed.length !== fields.length || rev !== shown.found.rev || Date.now() - time > DAY) continue;
    fields.forEach((field, place) => { field.value = typed[place]; });
    element("return").append(Object.assign(made("p", T.draft({ time: moment(new Date(time)) })), { className: "look" }));
  }
}

// Forgets what was typed more than a day ago, and all that this name typed; of "", as on a page
// that does not know whose it is, what each name typed.
function dropDrafts(name) {
  kept((storage) => {
    for (const key of Object.keys(storage).filter((one) => one.startsWith("office "))) {
      const age = Date.now() - read(storage.getItem(key)).time;
      if ([key.split(" ")[2], ""].includes(name) || !(age <= DAY)) storage.removeItem(key);
    }
  });
}

function dropDraft(station) {
  for (const form of DRAFTS) kept((storage) => storage.removeItem(draftKey(form, station)));
}

// ---- forms

const isDone = () => T.is_done;
// What a command leaves a return as.
const LEAVES = { lodge: "received", query: "queried", correct: "corrected", close: "closed", confirm: "closed" };
const toStation = (name, body, done, title, rows) => command(`/station/${shown.found.station}/${name}`, JSON.stringify(body), done,
  { title, rows, station: shown.station, leaves: LEAVES[name], open: name === "close" });
const toCon = (name, body, done, title, rows) => command(`/con/${shown.con}/${name}`, JSON.stringify(body), done, { title, rows, open: true });

onSubmit("lodge", async (form) => {
  if (!checked(form)) return null;
  // (a first entry that is recorded already was sent twice, and compared with nothing)
  const { station, again } = shown, typed = figures(form);
  const answer = await toStation("lodge", typed, (value) => value.ok !== "same" ? T.lodged : again ? T.same_recorded : T.same_before,
    T.receipt_lodge, () => [[T.slip, typed.slip]]);
  if (answer.ok) putOnPile(station, typed.slip);
  return answer;
});
onSubmit("confirm", (form) => {
  const typed = figures(form);
  return checked(form) && toStation("confirm", { rev: shown.found.rev, ...typed }, () => T.same_closed,
    T.receipt_confirm, () => slipRows(typed));
});
onSubmit("close", () => {
  // (afterwards it may be another return already)
  const { found } = shown;
  return confirm(T.close_question({ station: shown.station })) &&
    toStation("close", { rev: found.rev }, isDone, T.receipt_close, () => slipRows(found));
});
onSubmit("query", async (form) => {
  const note = form.elements.note.value;
  const answer = await toStation("query", { rev: shown.found.rev, note }, isDone, T.receipt_query, () => [[T.note, note]]);
  // What was typed to be compared goes with the paper that is put aside.
  if (answer.ok) for (const slip of SLIPS) element(slip).reset();
  return answer;
});
onSubmit("correct", (form) => checked(form) && toStation("correct", { rev: shown.found.rev, ...figures(form) }, isDone,
  T.receipt_correct, () => [[T.slip, form.elements.slip.value]]));
// Whether the office has the figures that this page shows. Corrections of returns are no other
// edition, so that the office would take a certificate from who never saw them.
async function isAsShown() {
  const before = JSON.stringify(shown.view);
  setBusy(true);
  const trouble = await look();
  setBusy(false);
  if (shown.view && JSON.stringify(shown.view) === before) return true;
  say(shown.view ? `${T.figures_changed}${trouble}` : trouble.trim(), "look");
  return false;
}

onSubmit("certify", async () => {
  if (!confirm(T.certify_question({ con: constituency().name })) || !await isAsShown()) return null;
  // (afterwards it may be reopened already, or have another certificate)
  const { edition } = shown.view, isGiven = (view) => view && view.certified && view.edition === edition + 1;
  return toCon("certify", { edition }, isDone, T.receipt_certify, () => isGiven(shown.view) ? listRows(shown.view) : []);
});
onSubmit("draw", () => {
  const order = [...element("order").querySelectorAll("select")].map((choice) => choice.value);
  return toCon("draw", { edition: shown.view.edition, order }, isDone, T.receipt_draw, () => [[T.order_label, order.join(", ")]]);
});
onSubmit("reopen", (form) => {
  const note = form.elements.note.value;
  return confirm(T.reopen_question({ con: constituency().name })) &&
    toCon("reopen", { edition: shown.view.edition, note }, isDone, T.receipt_reopen, () => [[T.note, note]]);
});
onSubmit("vacate", (form) => {
  const holder = JSON.parse(form.elements.holder.value), list = constituency().lists.find((one) => one.code === holder.list);
  const name = list.candidates[holder.place - 1], note = form.elements.note.value;
  return confirm(T.vacate_question({ name, list: holder.list })) && toCon("vacate", { ...holder, note }, (value) =>
    value.next === null ? T.nobody_next : T.next({ name: list.candidates[value.next - 1], place: value.next }),
    T.receipt_vacate, () => [[T.gone_label, T.gone_value({ name, list: holder.list, place: holder.place })], [T.note, note]]);
});

// ---- files

// The rows of a file that the trial would not accept, each with its line of the file and how that
// begins; and a list of them.
let refusedLines = [], fileRows = [];
const lineOf = (row) => (fileRows[row] || { line: row + 1 }).line;
const refusedRows = () => made("ul", null, ...refusedLines.map(({ line, reason, text }) => {
  const item = made("li", T.trial_row({ line, reason }));
  if (text) item.append(" ", made("code", text));
  return item;
}));

// Where each row of a file begins, by its line, and its text, as the office divides it: an empty
// line is no row, and a field that begins with a quote may go over several lines.
function rowsOfFile(text, separator) {
  const rows = [];
  let isOpen = false;
  text.split(/\r\n|\r|\n/).forEach((line, place) => {
    if (isOpen) rows.at(-1).text += ` ${line}`;
    else if (line) rows.push({ line: place + 1, text: line });
    let begins = !isOpen;
    for (let at = 0; at < line.length; at += 1) {
      if (!isOpen) isOpen = begins && line[at] === '"';
      else if (line[at] === '"' && line[at + 1] === '"') at += 1;
      else isOpen = line[at] !== '"';
      begins = !isOpen && line[at] === separator;
    }
  });
  return rows;
}

async function readRefused(form, answer) {
  const { separator } = form.elements;
  fileRows = rowsOfFile(await tried.copy.text(), separator.value ? ";" : ",");
  refusedLines = answer.split("\n").filter(Boolean).slice(6).map((one) => one.split(" ")).map(([, row, , word, of]) => {
    const { text } = fileRows[Number(row)] || { text: "" };
    return { line: lineOf(Number(row)), reason: CAUSES[word](of), text: isolated(text.trim().slice(0, 60)) };
  });
}

// What the trial of a file came to, with a line for each row that would not be accepted, and below
// these the button that imports it. Who presses the one that tries twice, or holds Enter down, has
// not seen this, and imports nothing. With another file there is nothing to import.
function showTrial(text) {
  const lines = text.split("\n").filter(Boolean).map((line) => line.split(" "));
  const names = [T.trial_lodged, T.trial_same, T.trial_differs, T.trial_refused, T.trial_unread];
  element("trial").hidden = !text;
  element("trial-figures").replaceChildren(...(text ? [rowsOf(names.map((name, place) => [name, Number(lines[place][1])]))] : []));
  element("trial-rows").replaceChildren(...(text ? [refusedRows()] : []));
  element("trial-question").textContent = text ? T.import_question({ con: constituency().name }) : "";
}

// What was tried: the file that was chosen, and a copy of what it said then. That is imported.
let tried = { file: null, copy: null };

async function tryFile(form) {
  setBusy(true);
  say(T.sent);
  showTrial("");
  const file = form.elements.file.files[0], bytes = await file.arrayBuffer().catch(() => null);
  if (!bytes) {
    say(T.file_unread, "refused");
    setBusy(false);
    return;
  }
  tried = { file, copy: new File([bytes], file.name) };
  const answer = await ask("POST", `/con/${shown.con}/trial${form.elements.separator.value}`, tried.copy);
  if (answer.ok) {
    await readRefused(form, answer.text);
    showTrial(answer.text);
  }
  say(answer.ok ? T.trial_said : sentence(answer), answer.ok ? "" : "refused");
  setBusy(false);
  if (!answer.ok) return;
  // The page moves no further than to these, so that what imports comes under nobody's pointer.
  element("trial-figures").focus({ preventScroll: true });
  element("trial-figures").scrollIntoView({ block: "nearest" });
}

// The first line that was not accepted, with the reason of the trial, which says more, where it is
// of that line.
function firstRefused([row, refusal]) {
  const line = lineOf(row), known = refusedLines.find((one) => one.line === line), reason = known ? known.reason : REASONS[refusal] || T.other_reason({ number: refusal });
  return T.imported_first({ line, reason });
}

function importFile(form) {
  const file = tried.copy, notAccepted = ({ differs, refused, bad }) => differs + refused + bad;
  const done = (value) => T.imported({ lodged: value.lodged, same: value.same, differs: value.differs, refused: value.refused, bad: value.bad }) +
    (value.first ? firstRefused(value.first) : "");
  const rows = () => {
    // The list of the trial stays: these rows are to be found in the file yet.
    element("not-accepted").replaceChildren(...(refusedLines.length ? [made("h3", T.not_accepted({ name: file.name })), refusedRows()] : []));
    return [[T.file_label, T.file_value({ name: file.name, size: file.size })], ...refusedLines.map(({ line, reason }) => [T.line_label({ line }), reason])];
  };
  // (of what was sent the trial says nothing any more, whatever the answer is)
  showTrial("");
  return command(`/con/${shown.con}/import${form.elements.separator.value}`, file, done, { title: T.receipt_import, open: true, rows },
    (value) => notAccepted(value) > 0);
}

onSubmit("import", (form, button) => button === element("trial-import") && form.elements.file.files[0] === tried.file ? importFile(form) : tryFile(form));
for (const event of ["change", "cancel", "reset"]) element("import").addEventListener(event, () => showTrial(""));

// ---- who did what to a station

const ACTS = { lodge: T.act_lodge, confirm: T.act_confirm, query: T.act_query, correct: T.act_correct, close: T.act_close,
  import: T.act_import };

function read(text) {
  try {
    return Object(JSON.parse(text));
  } catch {
    return {};
  }
}

const isCode = (one) => typeof one === "string" && /^[A-Za-z0-9_-]{1,16}$/.test(one);
const isNumber = (one) => Number.isSafeInteger(one) && one >= 0;

// What a command said of a return. Also of one that was refused, or waits and was not looked at
// yet, codes and numbers alone are shown: else its sender could write any sentence into this line.
function saidOf({ slip, votes, blank, spoiled, note, order, list, place }) {
  const codeOf = (place) => (constituency().lists[place] || { code: "?" }).code;
  const lists = Array.isArray(votes) ? votes.slice(0, 60).map((many, place) => `${codeOf(place)} ${isNumber(many) ? many : "?"}`) : [];
  const others = isNumber(blank) && isNumber(spoiled) ? [T.said_blank({ number: blank }), T.said_spoiled({ number: spoiled })] : [];
  const drawn = Array.isArray(order) ? order.slice(0, 60).filter(isCode) : [];
  const gone = isCode(list) && isNumber(place) ? [`${list} ${place}`] : [];
  const parts = [...(isCode(slip) ? [T.said_slip({ slip })] : []), ...lists, ...others, ...drawn, ...gone,
    ...(typeof note === "string" && note ? [T.said_note({ note: isolated(note.slice(0, 200)) })] : [])];
  return parts.length ? `: ${parts.join(", ")}` : "";
}

function outcome(status, answer) {
  if ([null, 502, 503, 504].includes(status)) return T.nobody_knows;
  if (status === 403) return T.refused_name;
  if (status !== 200) return answer.word ? T.refused_because({ reason: sentence({ status, value: answer }) }) : T.refused;
  if (answer.ok === "import") return T.it_lodged({ lodged: answer.lodged, same: answer.same, differs: answer.differs, refused: answer.refused });
  return answer.ok === "same" ? T.same_before : T.is_done;
}

async function showHistory() {
  const station = shown.station;
  setBusy(true);
  const answer = await ask("GET", `/now/station/${encodeURIComponent(station)}/history`);
  const { commands, whole } = answer.value || {};
  if (answer.ok) {
    element("history").replaceChildren(
      made("p", !commands.length ? T.nothing_done({ station }) : T.history_of({ station, part: whole ? "" : T.last_done })),
      made("ol", null, ...commands.map(({ time, name, role, act, status, body, answer: given }) => {
        const at = made("time", moment(new Date(time)));
        at.dateTime = time;
        return made("li", null, at, ` ${name} (${ROLES[role] || role}) ${ACTS[act] || act}${saidOf(read(body))}. ${outcome(status, read(given))}`);
      })));
    element("history").scrollIntoView({ block: "nearest" });
  }
  say(answer.ok ? T.history_shown({ station }) : unread(answer), answer.ok ? "" : "refused");
  setBusy(false);
}

// ---- the stations that are not closed

// The stations of a constituency with what each has, from a line of the table each: its first
// columns are the code, the electors, the status and the revision. Others may follow, and none has
// a blank in it.
function readStations(text) {
  const rows = text.split("\n").slice(2).map((line) => line.split(" ").filter(Boolean)).filter((row) => row.length);
  return rows.map(([code, , status, rev]) => status === "-" ? { code, status: "none" } : { code, status, rev: Number(rev) });
}

// Asks which stations have what; what was answered.
async function listStations() {
  const con = shown.con, answer = await ask("GET", `/now/con/${con}/stations`);
  if (answer.ok && con === shown.con) {
    listed = readStations(answer.text);
    for (const one of listed) {
      revisions[one.code] = one.rev || revisions[one.code];
      if (one.rev) returned.add(one.code);
    }
  }
  return answer;
}

async function findOpen() {
  setBusy(true);
  const answer = await listStations();
  isListed = isListed || answer.ok;
  if (element("station").placeholder) proposeStation(proposedStation());
  showOpen();
  const open = listed.filter((one) => one.status !== "closed").length;
  say(answer.ok ? T.open_listed({ number: open }) : unread(answer), answer.ok ? "" : "refused");
  setBusy(false);
}

// A group of many is folded up, so that nobody has to go through its links; one that somebody
// opened or folded up stays so.
function showOpen() {
  const before = Object.fromEntries([...element("open-stations").children].map((one) => [one.dataset.status, one.open]));
  const next = double() ? T.next_second : T.next_close;
  const titles = { none: T.open_none, received: T.open_received({ next }), queried: T.open_queried, corrected: T.open_corrected({ next }) };
  element("open-stations").replaceChildren(...(isListed ? Object.entries(titles) : []).flatMap(([status, title]) => {
    const some = listed.filter((one) => one.status === status);
    const list = made("ul", null, ...some.map(({ code }) => made("li", null, Object.assign(made("a", code), { href: `#${code}` }))));
    const group = made("details", null, made("summary", `${title}: ${some.length}`), list);
    list.className = "codes";
    group.dataset.status = status;
    group.open = before[status] === undefined ? some.length <= 50 : before[status];
    return some.length ? [group] : [];
  }));
}

// ---- what waits, for whoever sees to it that all is closed

// The histories of this many stations are asked for; and how many returns were closed when, since
// this page is open.
const MOST_WAITING = 60;
let closings = [];
const hourOf = (time) => new Intl.DateTimeFormat(LANGUAGE, { hour: "2-digit", minute: "2-digit", hourCycle: "h23" }).format(new Date(time));

function pace() {
  const [first, last] = [closings[0], closings.at(-1)], minutes = (last.time - first.time) / MINUTE;
  if (minutes < 1) return [];
  const number = last.closed - first.closed;
  return [made("p", T.pace({ minutes: Math.round(minutes), number, rate: Math.round(number / minutes * 60) }))];
}

// The last command that changed a return, and whether a second entry after it was another one.
function lastOf(commands) {
  const last = commands.filter(({ status, answer }) => status === 200 && read(answer).ok !== "same").at(-1);
  const isOther = commands.some(({ n, act, answer }) => act === "confirm" && read(answer).word === "differs" && (!last || n > last.n));
  return { last, isOther };
}

// Who typed how many returns in the last hour: the board sees each name, another name its own.
function typedTable({ since, names }) {
  const acts = ["lodge", "confirm", "correct"], heads = [T.typed_name, T.typed_lodge, T.typed_confirm, T.typed_correct];
  const head = (text, scope) => Object.assign(made("th", text), { scope }), number = (many) => Object.assign(made("td", shownAs(many)), { className: "number" });
  const rows = names.map((one) => made("tr", null, head(`${one.name}, ${ROLES[one.role] || one.role}`, "row"), ...acts.map((act) => number(one[act]))));
  const table = made("table", null, made("caption", T.typed_since({ time: hourOf(since) })),
    made("thead", null, made("tr", null, ...heads.map((text) => head(text, "col")))), made("tbody", null, ...rows));
  const box = Object.assign(made("div", null, table), { className: "scroll" });
  return [rows.length ? box : made("p", T.typed_nothing({ time: hourOf(since) })), ...(person.role === "board" ? [] : [made("p", T.typed_others)])];
}

async function showWaiting() {
  setBusy(true);
  const answer = await listStations(), found = [], typed = await ask("GET", `/now/con/${shown.con}/typed`);
  const waiting = listed.filter(({ status }) => status !== "none" && status !== "closed");
  let lost = answer.ok ? null : answer;
  for (const one of answer.ok ? waiting.slice(0, MOST_WAITING) : []) {
    const history = await ask("GET", `/now/station/${one.code}/history`);
    if (!history.ok) lost = history;
    found.push({ ...one, ...lastOf((history.value && history.value.commands) || []) });
  }
  // What differs and what is queried waits for somebody to decide, the rest for its turn.
  const isUrgent = ({ isOther, status }) => 2 * isOther + (status === "queried");
  found.sort((one, other) => isUrgent(other) - isUrgent(one) || (one.last && other.last ? one.last.n - other.last.n : 0));
  const rows = found.map(({ code, status, last, isOther }) => {
    const { note } = last ? read(last.body) : {}, reason = note ? `: ${T.said_note({ note: isolated(String(note)) })}` : "";
    const since = last ? T.waits_since({ name: last.name, time: hourOf(last.time) }) + reason : "";
    return made("li", null, Object.assign(made("a", code), { href: `#${code}` }), `: ${isOther ? T.differs_now : ""}${stateOf(status)}${since}`);
  });
  if (answer.ok) {
    const more = waiting.length - found.length;
    element("waiting").replaceChildren(made("h3", T.waiting_at({ time: hourOf(Date.now()) })), ...pace(), made("ol", null, ...rows), ...(more ? [made("p", T.more_wait({ number: more }))] : []),
      ...(typed.ok ? typedTable(typed.value) : []));
    element("waiting").scrollIntoView({ block: "nearest" });
  }
  // (where who did what could not be read, what differs there is not known)
  say(lost ? unread(lost) : T.waiting_shown({ number: waiting.length }), lost ? "refused" : "");
  setBusy(false);
}

// ---- the beginning

async function choose(con, station, isProposed = false) {
  if (con !== shown.con) {
    [listed, isListed] = [[], false];
    element("not-accepted").replaceChildren();
    element("waiting").replaceChildren();
  }
  showOpen();
  shown = { con, view: null, station: station || null, found: null, again: false, isProposed };
  element("con").value = con;
  proposeStation("");
  element("station").value = station || "";
  showConstituency();
  await refresh();
  goOn();
}

// Asks for the names of stations and the former result: the press pages may have none yet when
// this page is opened.
async function learnSite() {
  if (Date.now() < siteAgain) return;
  siteAgain = Date.now() + MINUTE;
  const { ok, value } = await ask("GET", "/site.json");
  if (!ok || !value) return;
  siteAgain = Infinity;
  known = { stations: value.stations || {}, former: value.former || {} };
  for (const one of Object.values(known.stations)) for (const part of ["name", "place"]) one[part] = isolated(one[part] || "");
}

async function begin() {
  dropDrafts(null);
  const [own, file] = await Promise.all([ask("HEAD", "/clerk.html"), ask("GET", "/setup.json"), learnSite()]);
  // Without whose page it is and what is elected, nothing on it can be used but the log out.
  const main = document.querySelector("main");
  main.hidden = true;
  if (!own.ok || ![200, 404].includes(file.status)) return say(T.not_loaded, "refused");
  person = { name: own.headers.get("X-Office-Name") || "", role: own.headers.get("X-Office-Role") || "" };
  const bound = own.headers.get("X-Office-Bound-To");
  element("person").textContent = person.name ? `${person.name}, ${ROLES[person.role] || person.role}` : "";
  setup = file.value || [];
  setupHash = crypto.subtle ? await hashOf(file.text) : "";
  for (const one of setup) {
    one.name = isolated(one.name);
    for (const list of one.lists) Object.assign(list, { name: isolated(list.name), candidates: list.candidates.map(isolated) });
  }
  if (!setup.length) return say(T.no_setup, "refused");
  // A name that is bound to constituencies may act in no other.
  if (bound !== null) setup = setup.filter((one) => bound.trim().split(" ").includes(one.code));
  if (!setup.length) return say(T.nowhere, "refused");
  main.hidden = false;
  element("con").replaceChildren(...setup.map((one) => {
    const option = made("option", `${one.name} (${one.code})`);
    option.value = one.code;
    return option;
  }));
  for (const form of SLIPS.map(element)) {
    Object.assign(form.elements.slip, { maxLength: 16, autocomplete: "off", spellcheck: false, pattern: "[A-Za-z0-9_\\-]{1,16}",
      title: T.code_form });
  }
  for (const section of document.querySelectorAll("section")) section.hidden = section.id !== "of-station" && !allowed(section);
  const linked = location.hash.slice(1), station = person.role === "station" ? person.name : homeOf(linked) ? linked : null;
  const home = station ? homeOf(station) : setup[0];
  element("station").readOnly = person.role === "station";
  if (!home) {
    element("station").value = station;
    return say(UNKNOWN, "refused");
  }
  await choose(home.code, station);
  if (!station && ["clerk", "second"].includes(person.role)) element("station").focus();
}

// Goes to another constituency or station, where what was typed is not to be kept; else the choice
// is as it was.
function goTo(con, station, isProposed) {
  if (leave()) choose(con, station, isProposed);
  else [element("con").value, element("station").value] = [shown.con, shown.station || ""];
}

element("con").addEventListener("change", (event) => goTo(event.target.value, null));
// A code counts once it is typed, also where it is that of the station which is shown: it may be
// another return by now.
function pick() {
  const typed = element("station").value.trim(), [code, ...others] = meant(typed), home = homeOf(code);
  if (busy) return;
  if (others.length) {
    say(T.several_stations({ typed, stations: [code, ...others].slice(0, 5).join(", ") }), "refused");
    element("station").select();
  } else goTo(home ? home.code : shown.con, code);
}

element("station").addEventListener("change", pick);
element("station").addEventListener("keydown", (event) => {
  if (event.key !== "Enter" || element("station").readOnly) return;
  event.preventDefault();
  const { value, placeholder } = element("station");
  if (value || !placeholder) pick();
  // A key that is held down takes nothing.
  else if (!busy && !event.repeat) goTo(shown.con, placeholder, true);
});
element("again").addEventListener("click", refresh);
element("retry").addEventListener("click", refresh);
element("find").addEventListener("click", findOpen);
element("list-waiting").addEventListener("click", showWaiting);
for (const list of ["open-stations", "waiting"]) {
  element(list).addEventListener("click", (event) => {
    // In another window the link is the page with this station.
    if (event.target.tagName !== "A" || event.ctrlKey || event.metaKey || event.shiftKey) return;
    event.preventDefault();
    if (!busy) goTo(shown.con, event.target.textContent);
  });
}
element("print").addEventListener("click", () => print());
element("who").addEventListener("click", showHistory);
element("logout").addEventListener("click", () => {
  if (!leave()) return;
  dropDrafts(person.name);
  // The browser takes this name in the place of the other one, and it is nobody's.
  const asked = new XMLHttpRequest();
  asked.open("GET", "/logout", true, "logout", "logout");
  asked.addEventListener("loadend", () => {
    if (asked.status !== 204) return say(T.keeps_password, "refused");
    const again = Object.assign(made("a", T.log_in_again), { href: "/clerk.html" });
    document.body.replaceChildren(made("h1", T.logged_out), made("p", T.asks_again), made("p", null, again));
  });
  asked.send();
});
element("compare").addEventListener("click", () => {
  shown.again = !shown.again;
  if (shown.again) element("lodge").reset();
  showReturn();
  if (shown.again) element("lodge").elements.slip.focus();
});
// Enter and the arrows lead from field to field, as on the paper; after the total Enter sends.
function onKey(event) {
  const { target, key, currentTarget: form } = event;
  const all = [...form.querySelectorAll(".slip input, .counts input:not([type=checkbox])")], at = all.indexOf(target);
  const step = { Enter: 1, ArrowDown: 1, ArrowUp: -1 }[key];
  if (at < 0 || !step || (key === "Enter" && at === all.length - 1)) return;
  event.preventDefault();
  if (key === "Enter" && target.name === "slip" && target.value && !fits(form)) return;
  if (key !== "Enter" || target.reportValidity()) {
    const next = all[at + step] || target;
    next.focus();
    next.select();
  }
}

for (const form of SLIPS.map(element)) {
  form.addEventListener("keydown", onKey);
  // A figure that is typed again is looked at again.
  form.addEventListener("input", ({ target }) => {
    const box = target.type !== "checkbox" && target.name !== "slip" && warningOf(target);
    if (box) box.remove();
  });
  form.addEventListener("reset", () => form.querySelectorAll(".warning, .fault").forEach((box) => box.remove()));
  form.addEventListener("input", keepDraft);
}
// Sentences of this page in place of those of the browser, which may be in another language. A
// field that is looked at again says nothing of before.
addEventListener("invalid", ({ target }) => {
  target.setCustomValidity("");
  const { valueMissing, patternMismatch } = target.validity;
  const missing = target.matches("select, [type=file]") ? T.choose : target.name === "slip" && target.placeholder ? T.slip_end : T.fill_in;
  target.setCustomValidity(valueMissing ? missing : patternMismatch ? T.other_form({ form: target.title }) : "");
}, true);
for (const event of ["click", "input"]) {
  addEventListener(event, ({ target }) => {
    for (const field of target.form ? target.form.elements : []) field.setCustomValidity("");
  });
}
addEventListener("beforeunload", (event) => { if (unsent()) event.preventDefault(); });
begin();
