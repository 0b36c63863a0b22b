// The width of a text in a font: an unknown font gives that of another one.
const sheet = new OffscreenCanvas(9, 9).getContext("2d");
sheet.font = `100px "${arguments[0]}", monospace`;
return Math.round(sheet.measureText(arguments[1]).width);
