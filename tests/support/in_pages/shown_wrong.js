// What is wrong with how a page is shown: an element that is wider than the window, unless it may
// be moved sideways, and a text with too little contrast to its background. Wanted are 4.5 to 1,
// after WCAG 2, and 3 to 1 where the text is large.
const wrong = [], wide = innerWidth, root = document.documentElement;
if (root.scrollWidth > wide) wrong.push("the page is " + root.scrollWidth + " wide");
const moves = (e) =>
  e && (["auto", "scroll"].includes(getComputedStyle(e).overflowX) ? e : moves(e.parentElement));
const parts = (colour) => colour.match(/[0-9.]+/g).map(Number);
const light = (colour) => parts(colour).slice(0, 3).map((c) => c / 255)
  .map((c) => c <= 0.03928 ? c / 12.92 : ((c + 0.055) / 1.055) ** 2.4)
  .reduce((sum, c, i) => sum + c * [0.2126, 0.7152, 0.0722][i], 0);
const opaque = (colour) => parts(colour).length < 4 || parts(colour)[3] === 1;
const paper = (e) => getComputedStyle(e).backgroundColor;
const behind = (e) =>
  !e ? "rgb(255, 255, 255)" : opaque(paper(e)) ? paper(e) : behind(e.parentElement);
for (const e of document.querySelectorAll("body *")) {
  const box = e.getBoundingClientRect(), style = getComputedStyle(e);
  const name = e.tagName + "." + e.className;
  if (!box.width || style.clipPath !== "none") continue;
  if ((box.right > wide + 0.5 || box.left < -0.5) && !moves(e))
    wrong.push(name + " reaches to " + box.right);
  const text = [...e.childNodes].some((n) => n.nodeType === 3 && n.data.trim());
  if (!text || e.closest("svg, :disabled")) continue;
  const [one, two] = [light(style.color), light(behind(e))].sort((a, b) => b - a);
  const size = parseFloat(style.fontSize);
  const large = size >= 24 || (size >= 18.6 && style.fontWeight >= 700);
  if ((one + 0.05) / (two + 0.05) < (large ? 3 : 4.5))
    wrong.push(name + ": " + style.color + " on " + behind(e));
}
return wrong;
