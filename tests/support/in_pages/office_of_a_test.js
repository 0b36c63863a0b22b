// In the place of an office: what a page asks is answered as a test says, and is kept. The answers
// of a request, as "GET /setup.json", come in turn, the last one again and again: status, value and
// more headers. A value that is no text is JSON; without a status the answer is lost. Where nobody
// says what the answer is, there is none of this code.
window.office = { answers: {}, asked: [], underWay: 0, isHeld: false, questions: [], yes: true,
  now: null, faults: [] };
// What fails in the page without a word fails the test.
for (const kind of ["error", "unhandledrejection"]) {
  addEventListener(kind, (event) => office.faults.push(String(event.reason || event.message)));
}
const clock = Date.now;
Date.now = () => office.now ?? clock();
window.confirm = (text) => {
  office.questions.push(text);
  return office.yes;
};
window.fetch = async (target, { method, body, headers }) => {
  const sent = body instanceof File ? body.name : body ?? null;
  const { "Office-Setup": hash = null, "Office-By": name = null, "Office-Once": once = null } = headers;
  office.asked.push([method, target, sent, hash, name, once]);
  office.underWay += 1;
  try {
    while (office.isHeld) await new Promise((done) => setTimeout(done));
    const turns = office.answers[`${method} ${target}`] || [[404, ""]];
    const [status, value, more] = turns.length > 1 ? turns.shift() : turns[0];
    if (!status) throw new TypeError("lost");
    const isText = typeof value === "string";
    return new Response(isText ? value : JSON.stringify(value), { status,
      headers: { "Content-Type": isText ? "text/plain" : "application/json", ...more } });
  } finally {
    office.underWay -= 1;
  }
};
// Waits until nothing is asked and the page is ready for more.
office.settled = async () => {
  const end = performance.now() + 30_000;
  for (let quiet = 0; quiet < 4;) {
    if (performance.now() > end) throw new Error("the page does not come to rest");
    await new Promise((done) => setTimeout(done));
    const said = document.getElementById("status").textContent;
    quiet = office.underWay || busy || said === "Loading." ? 0 : quiet + 1;
  }
};
office.fields = (id) => [...document.querySelectorAll(
  `#${id} .slip input, #${id} .counts input:not([type=checkbox])`)];
office.fill = (id, values) => {
  const fields = office.fields(id);
  values.forEach((value, place) => { fields[place].value = value; });
};
office.typed = (id) => office.fields(id).map((field) => field.value);
// What somebody sees: what is said and how, what has the focus, and which forms are shown.
office.seen = () => {
  if (office.faults.length) throw new Error(office.faults.join());
  const [said, alert, box] = ["status", "alert", "said"].map((id) => document.getElementById(id));
  const one = document.activeElement, shown = (form) => form.getClientRects().length;
  return { said: said.textContent, alert: alert.textContent, kind: box.className,
    focus: one.form && one.name ? `${one.form.id} ${one.name}` : one.id || one.tagName,
    forms: [...document.forms].filter(shown).map((form) => form.id) };
};
