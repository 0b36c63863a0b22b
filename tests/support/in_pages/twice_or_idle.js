// Each id that is there twice, and each tab stop that does not act.
const ids = [...document.querySelectorAll('[id]')].map((e) => e.id);
const acts = ['INPUT', 'SELECT', 'BUTTON', 'SUMMARY', 'A'];
const stops = [...document.querySelectorAll('*')]
  .filter((e) => e.tabIndex >= 0 && e.getClientRects().length);
return [...ids.filter((id, n) => ids.indexOf(id) < n),
        ...stops.filter((e) => !acts.includes(e.tagName)).map((e) => e.outerHTML.slice(0, 80))];
