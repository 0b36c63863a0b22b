// One moment in the place of all, and a style.
for (const e of document.querySelectorAll("time"))
  e.textContent = "29 November 2026, 21:14:00 +0100";
for (const e of document.querySelectorAll(".moment"))
  for (const part of e.childNodes)
    if (part.nodeType === 3) part.data = part.data.replace(/, \d+ \w+ earlier/, "");
document.head.append(Object.assign(document.createElement("style"), { textContent: arguments[0] }));
