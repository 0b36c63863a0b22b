// The part that has the focus, whether it is seen that it has it, and whether it is in the window
// with nothing over the middle of what is there of it.
const e = document.activeElement, style = getComputedStyle(e), box = e.getBoundingClientRect();
if (e === document.body) return ["", true, true];
const seen = style.outlineStyle !== "none" && parseFloat(style.outlineWidth) >= 2;
const middle = (from, to, most) => (Math.max(from, 0) + Math.min(to, most)) / 2;
const over = document.elementFromPoint(middle(box.left, box.right, innerWidth),
                                       middle(box.top, box.bottom, innerHeight));
return [e.id || e.name || e.textContent.trim() || e.getAttribute("aria-label") || e.tagName, seen,
        box.bottom > 0 && box.top < innerHeight && box.right > 0 && box.left < innerWidth
        && Boolean(over) && (e.contains(over) || over.contains(e))];
