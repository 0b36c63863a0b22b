// The mean colours of the cells of a picture, row by row.
const [shot, cell, done] = arguments;
const bytes = Uint8Array.from(atob(shot), (one) => one.charCodeAt(0));
createImageBitmap(new Blob([bytes], { type: "image/png" })).then((image) => {
  const { width, height } = image, sheet = new OffscreenCanvas(width, height).getContext("2d");
  sheet.drawImage(image, 0, 0);
  const points = sheet.getImageData(0, 0, width, height).data;
  const columns = Math.ceil(width / cell), rows = Math.ceil(height / cell);
  const sums = new Float64Array(columns * rows * 4);
  for (let y = 0; y < height; y += 1)
    for (let x = 0; x < width; x += 1) {
      const from = (y * width + x) * 4;
      const to = (Math.floor(y / cell) * columns + Math.floor(x / cell)) * 4;
      for (let n = 0; n < 3; n += 1) sums[to + n] += points[from + n];
      sums[to + 3] += 1;
    }
  const means = [];
  for (let at = 0; at < sums.length; at += 4)
    for (let n = 0; n < 3; n += 1) means.push(Math.round(sums[at + n] / sums[at + 3]));
  done([columns, rows, means]);
}, (error) => done(String(error)));
