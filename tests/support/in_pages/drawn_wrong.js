// What is wrong with the half circles of a page: a label on another, on a dot, on the line of the
// majority or outside of the picture. Also a short code that is divided, what can be moved sideways
// and is not reached by keys, and a threshold whose line has no contrast of 3 with its edge.
const wrong = [];
for (const svg of document.querySelectorAll(".seats svg")) {
  const box = svg.viewBox.baseVal;
  const texts = [...svg.querySelectorAll("text")].map((text) => [text.textContent, text.getBBox()]);
  const dots = [...svg.querySelectorAll("path:not(.hole)")].flatMap((path) =>
    [...path.getAttribute("d").matchAll(/M(\S+) (\S+)h0/g)].map(([, x, y]) =>
      [Number(x), Number(y), parseFloat(getComputedStyle(path).strokeWidth) / 2]));
  texts.forEach(([text, one], n) => {
    const right = one.x + one.width, bottom = one.y + one.height;
    if (one.x < box.x || right > box.x + box.width
        || one.y < box.y - 1 || bottom > box.y + box.height + 4) wrong.push(text + " is outside");
    for (const [other, two] of texts.slice(n + 1))
      if (one.x < two.x + two.width && two.x < right
          && one.y + 2 < two.y + two.height - 2 && two.y + 2 < bottom - 2)
        wrong.push(text + " on " + other);
    for (const [x, y, r] of dots) {
      const dx = Math.max(one.x - x, 0, x - right);
      const dy = Math.max(one.y + 2 - y, 0, y - bottom + 2);
      if (Math.hypot(dx, dy) < r - 0.5) { wrong.push(text + " on a dot"); break; }
    }
  });
}
for (const line of document.querySelectorAll(".majority")) {
  const [x1, y1, x2, y2] = ["x1", "y1", "x2", "y2"].map((end) => Number(line.getAttribute(end)));
  for (const text of line.parentElement.querySelectorAll("text")) {
    const box = text.getBBox();
    const on = (x, y) => x > box.x && x < box.x + box.width
      && y > box.y + 2 && y < box.y + box.height - 2;
    const points = [...Array(101).keys()].map((n) => n / 100);
    if (points.some((part) => on(x1 + (x2 - x1) * part, y1 + (y2 - y1) * part)))
      wrong.push(text.textContent + " on the line");
  }
}
for (const e of document.querySelectorAll(".code"))
  if (e.textContent.length < 7 && e.getClientRects().length > 1)
    wrong.push(e.textContent + " is divided");
for (const e of document.querySelectorAll(".scroll"))
  if (e.scrollWidth > e.clientWidth + 1 && e.tabIndex < 0 && !e.querySelector("a[href]"))
    wrong.push(e.textContent.trim().slice(0, 40) + " is not reached");
const light = (colour) => colour.match(/[0-9.]+/g).slice(0, 3).map((c) => c / 255)
  .map((c) => c <= 0.03928 ? c / 12.92 : ((c + 0.055) / 1.055) ** 2.4)
  .reduce((sum, c, i) => sum + c * [0.2126, 0.7152, 0.0722][i], 0);
for (const e of document.querySelectorAll(".track .threshold")) {
  const style = getComputedStyle(e), edge = style.boxShadow.match(/rgb[^)]*\)/);
  const colours = [light(style.borderLeftColor), edge ? light(edge[0]) : 9];
  const [one, two] = colours.sort((a, b) => b - a);
  if (!edge || (one + 0.05) / (two + 0.05) < 3 || e.getBoundingClientRect().width < 2)
    wrong.push("the threshold");
}
return wrong;
