// The stock from above: what is deeper is darker, walls are lit from the upper left. What is cut has one colour, what
// is still to be cut another one, and red is what a traverse comes through.
import { listen } from './gestures.js';
import * as paint from './paint.js';
import { cellAt } from './stock.js';
import { View } from './view.js';

export const STOCK = 0, CUT_SO_FAR = 1, TO_BE_CUT = 2, CROSSED = 3;
const NAMES = ['stock', 'cut-high', 'cut-deep', 'left-high', 'left-deep', 'crossed', 'soft', 'faint', 'red', 'ink'];
const ROOM_PX = 20, VIEWS_PX = 60;
const ALIKE_UM = 0.5;
const DARKEST = 0.4, BRIGHTEST = 1.3, STEEP = 0.707; // of a wall; the light comes at 45 degrees

export class StockPicture {
  // `touched` is told the cell where a finger is, -1 beside the stock.
  constructor(canvas, touched) {
    Object.assign(this, { canvas, found: null, lines: [], lost: [], zero: null, cell: -1, isAfter: true });
    this.cells = document.createElement('canvas');
    this.view = new View();
    this.recolour();
    new ResizeObserver(() => this.fit()).observe(canvas);
    listen(canvas, this.view, { moved: () => this.draw(), fit: () => this.fit() });
    const look = event => touched(this.cell = this.cellUnder(event.offsetX, event.offsetY));
    for (const kind of ['pointerdown', 'pointermove']) canvas.addEventListener(kind, event => {
      look(event);
      this.draw();
    });
  }

  // `found` is what `carve` gave, `isSplit` says that some is cut and some isn't; `lines` are paths of tools without a
  // diameter, `lost` those that were never cut.
  show(found, { isSplit, lines, lost, zero }) {
    Object.assign(this, { found, isSplit, lines, lost, zero, cell: -1 });
    this.lowest = found.after.reduce((a, b) => Math.min(a, b), found.top);
    this.shade();
    this.fit();
  }

  clear() {
    this.found = null;
    this.cell = -1;
    this.draw();
  }

  choose(isAfter) {
    this.isAfter = isAfter;
    this.shade();
    this.draw();
  }

  recolour() {
    const css = getComputedStyle(document.documentElement);
    this.colours = Object.fromEntries(NAMES.map(name => [name, css.getPropertyValue(`--${name}`).trim()]));
    this.parts = Object.fromEntries(NAMES.map(name => [name, rgb(this.colours[name])]));
    if (this.found) this.shade();
    this.draw();
  }

  get heights() { return this.isAfter ? this.found.after : this.found.now; }

  // What a cell is, and by the line of which traverse, 0 for none.
  line(cell) { return (this.isAfter ? this.found.crossed : this.found.crossedNow)[cell]; }

  kind(cell) {
    const { now, after, top } = this.found;
    if (this.line(cell)) return CROSSED;
    if (this.isSplit && after[cell] < now[cell] - ALIKE_UM) return TO_BE_CUT;
    return after[cell] < top - ALIKE_UM ? CUT_SO_FAR : STOCK;
  }

  // How deep a height is: 0 at the top, 1 at the lowest.
  depth(height) {
    const { top } = this.found;
    return top > this.lowest ? (top - height) / (top - this.lowest) : 0;
  }

  // The colour of a kind at a depth, from 0 to 1.
  colour(kind, depth) {
    const { parts } = this;
    if (kind === STOCK) return parts.stock;
    if (kind === CROSSED) return mixed(parts.crossed, [0, 0, 0], 0.25 * depth);
    return kind === CUT_SO_FAR ? mixed(parts['cut-high'], parts['cut-deep'], depth)
      : mixed(parts['left-high'], parts['left-deep'], depth);
  }

  shade() {
    const { columns, rows } = this.found, g = this.cells.getContext('2d');
    Object.assign(this.cells, { width: columns, height: rows });
    const image = g.createImageData(columns, rows);
    for (let row = 0; row < rows; row++) this.shadeRow(image.data, row, 4 * columns * (rows - 1 - row));
    g.putImageData(image, 0, 0);
  }

  shadeRow(data, row, to) {
    const { columns } = this.found, { heights } = this;
    for (let column = 0; column < columns; column++) {
      const cell = row * columns + column, light = this.light(column, row);
      const [r, g, b] = this.colour(this.kind(cell), this.depth(heights[cell]));
      data.set([light * r, light * g, light * b, 255], to + 4 * column); // more than 255 is 255
    }
  }

  // How much light comes to a cell by its slope: 1 where it is level.
  light(column, row) {
    const { columns, rows, cell } = this.found, { heights } = this;
    const at = (x, y) => heights[Math.min(rows - 1, Math.max(0, y)) * columns + Math.min(columns - 1, Math.max(0, x))];
    const east = (at(column + 1, row) - at(column - 1, row)) / (2 * cell);
    const north = (at(column, row + 1) - at(column, row - 1)) / (2 * cell);
    const falls = (0.5 * east - 0.5 * north + STEEP) / Math.sqrt(1 + east * east + north * north);
    return Math.max(DARKEST, Math.min(BRIGHTEST, falls / STEEP));
  }

  fit() {
    const { canvas, found, view } = this;
    if (!found) return;
    const wide = found.columns * found.cell, deep = found.rows * found.cell;
    view.lookDown();
    view.zoom = Math.min(Math.max(canvas.clientWidth - 2 * ROOM_PX, 20) / wide,
      Math.max(canvas.clientHeight - VIEWS_PX - 2 * ROOM_PX, 20) / deep);
    view.shift = [found.low[0] + wide / 2, found.low[1] + deep / 2 + (VIEWS_PX / 2 - 12) / view.zoom];
    this.draw();
  }

  draw() {
    if (this.isAsked) return;
    this.isAsked = true;
    requestAnimationFrame(() => { this.isAsked = false; this.paint(); });
  }

  paint() {
    const { canvas, found, colours } = this, ratio = devicePixelRatio || 1, g = canvas.getContext('2d');
    Object.assign(canvas, { width: Math.round(canvas.clientWidth * ratio),
      height: Math.round(canvas.clientHeight * ratio) });
    if (!found) return;
    g.setTransform(ratio, 0, 0, ratio, 0, 0);
    const m = this.view.map(canvas.clientWidth, canvas.clientHeight);
    this.paintCells(g, m);
    this.stroke(g, m, this.lines, colours.ink, 1.5);
    this.stroke(g, m, this.lost, colours.red, 4);
    g.font = `${parseFloat(getComputedStyle(document.body).fontSize) * 0.85}px sans-serif`;
    g.strokeStyle = g.fillStyle = colours.soft;
    g.lineWidth = 1.5;
    paint.axes(g, m, this.zero, 40 / this.view.zoom, true);
    this.paintTouched(g, m);
  }

  paintCells(g, m) {
    const { low, columns, rows, cell } = this.found, [x, y] = paint.place(m, low[0], low[1] + rows * cell, 0);
    const zoom = this.view.zoom * cell;
    g.imageSmoothingEnabled = zoom < 1;
    g.drawImage(this.cells, x, y, columns * zoom, rows * zoom);
  }

  stroke(g, m, paths, colour, width) {
    g.strokeStyle = colour;
    g.lineWidth = width;
    g.lineJoin = g.lineCap = 'round';
    for (const points of paths) paint.line(g, m, points);
  }

  paintTouched(g, m) {
    if (this.cell < 0) return;
    g.strokeStyle = this.colours.ink;
    g.lineWidth = 2;
    paint.ring(g, ...paint.place(m, ...this.middle(this.cell), 0), 7);
  }

  // The middle of a cell.
  middle(at) {
    const { low, cell, columns } = this.found;
    return [low[0] + (at % columns + 0.5) * cell, low[1] + (Math.floor(at / columns) + 0.5) * cell];
  }

  cellUnder(px, py) {
    const { canvas, found, view } = this;
    if (!found) return -1;
    const m = view.map(canvas.clientWidth, canvas.clientHeight);
    return cellAt(found, (px - m[3]) / view.zoom, (m[7] - py) / view.zoom);
  }
}

const rgb = hex => [1, 3, 5].map(i => parseInt(hex.slice(i, i + 2), 16));

const mixed = (a, b, share) => a.map((value, i) => value + share * (b[i] - value));

