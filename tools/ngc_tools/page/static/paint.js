import { say } from './language.js';

// What a picture is painted with: lines of points by the map of a view, a grid, marks, labels. `g` is a context of a
// canvas, `m` the map of a view, `colours` the page's.
export function place(m, x, y, z) {
  return [m[0] * x + m[1] * y + m[2] * z + m[3], m[4] * x + m[5] * y + m[6] * z + m[7]];
}

export function line(g, m, points) {
  g.beginPath();
  points.forEach((point, i) => { const [x, y] = place(m, ...point); if (i) g.lineTo(x, y); else g.moveTo(x, y); });
  g.stroke();
}

// A grid of squares, seen from above.
export function grid(g, m, each, { width, height }) {
  const gap = each * m[0];
  if (gap < 7) return;
  g.beginPath();
  for (let x = m[3] % gap; x < width; x += gap) { g.moveTo(x, 0); g.lineTo(x, height); }
  for (let y = m[7] % gap; y < height; y += gap) { g.moveTo(0, y); g.lineTo(width, y); }
  g.stroke();
}

// The travel, as a box.
export function box(g, m, [lx, ly, lz], [hx, hy, hz], isFlat) {
  const corners = [[lx, ly], [hx, ly], [hx, hy], [lx, hy]];
  const ring = z => [...corners, corners[0]].map(([x, y]) => [x, y, z]);
  line(g, m, ring(lz));
  if (isFlat) return;
  line(g, m, ring(hz));
  for (const [x, y] of corners) line(g, m, [[x, y, lz], [x, y, hz]]);
}

// Axes of a point 0, an arm long, with their letters.
export function axes(g, m, [x, y, z], arm, isFlat) {
  const ends = [[arm, 0, 0, 'X'], [0, arm, 0, 'Y'], [0, 0, arm, 'Z']];
  g.textAlign = 'center';
  g.textBaseline = 'middle';
  for (const [dx, dy, dz, name] of isFlat ? ends.slice(0, 2) : ends) {
    line(g, m, [[x, y, z], [x + dx, y + dy, z + dz]]);
    g.fillText(name, ...place(m, x + 1.14 * dx, y + 1.14 * dy, z + 1.14 * dz));
  }
}

// An arrow's head at the end of a line of points.
export function head(g, m, points) {
  const b = place(m, ...points.at(-1)), isFar = ([x, y]) => Math.hypot(b[0] - x, b[1] - y) > 14;
  const a = points.map(point => place(m, ...point)).findLast(isFar);
  if (!a) return;
  const along = Math.atan2(b[1] - a[1], b[0] - a[0]);
  g.beginPath();
  g.moveTo(...b);
  for (const turn of [2.7, -2.7]) g.lineTo(b[0] + 15 * Math.cos(along + turn), b[1] + 15 * Math.sin(along + turn));
  g.fill();
}

export function ring(g, x, y, radius) {
  g.beginPath();
  g.arc(x, y, radius, 0, 7);
  g.stroke();
}

export function cross(g, x, y) {
  g.lineWidth = 2.5;
  g.beginPath();
  g.arc(x, y, 7, 0, 7);
  for (const [dx, dy] of [[1, 0], [-1, 0], [0, 1], [0, -1]]) {
    g.moveTo(x + 4 * dx, y + 4 * dy);
    g.lineTo(x + 15 * dx, y + 15 * dy);
  }
  g.stroke();
}

// A label beside a mark, within the picture.
export function label(g, text, x, y, colours, ink, width, em) {
  const says = say(text), wide = g.measureText(says).width + 12, left = x + 14 + wide > width ? x - 14 - wide : x + 14;
  g.globalAlpha = 0.88;
  g.fillStyle = colours.panel;
  g.fillRect(left, y + em * 0.9, wide, em * 1.6);
  g.globalAlpha = 1;
  g.fillStyle = ink;
  g.textAlign = 'left';
  g.textBaseline = 'middle';
  g.fillText(says, left + 6, y + em * 1.7);
}
