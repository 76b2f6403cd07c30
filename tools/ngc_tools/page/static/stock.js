// What a job leaves of its stock: the heights of a grid over X and Y, each as low as the shape of a tool came there. A
// worker computes it, and so do tests. All is in micrometres of machine coordinates, heights of the tool's tip: the
// length in force is taken off.
import { CUT, NEAR_UM, TRAVERSE, WAIT } from './job.js';
import { Cutter, Piece } from './stock_shapes.js';

const MOST_CELLS = 400;      // along the longer side
const MOST_LOOKS = 1.2e8;    // at cells: a job that takes more looks gets larger cells
const ROUNDED_UM = 2;        // points are whole micrometres
const SAGS = 0.0125;         // of an arc's chord, sixteen of them a quarter: by how much it lies inside of the arc
const TOLD_STEPS = 64;
const MARGIN = 0.05, LEAST_MARGIN_UM = 1000, WHOLE_UM = 1000; // of a stock that is assumed

// The heights. `stock` is {low: [x, y], size: [x, y], top}.
class Grid {
  constructor({ low, size, top }, cell) {
    Object.assign(this, { low, top, cell });
    [this.columns, this.rows] = size.map(long => Math.max(1, Math.ceil(long / cell - 1e-6)));
    this.heights = new Float64Array(this.columns * this.rows).fill(top);
    this.crossed = new Uint32Array(this.columns * this.rows); // the line whose traverse came there first, 0 for none
  }

  // Lowers the cells that a tool comes to along a piece; `line` is that of a traverse, 0 of a cut.
  sweep(cutter, piece, line) {
    if (piece.low >= this.top) return;
    const last = lastCell(piece.far + cutter.reach - this.low[1], this.cell, this.rows);
    for (let row = firstCell(piece.bottom - cutter.reach - this.low[1], this.cell); row <= last; row++) {
      this.sweepRow(cutter, piece, row, line);
    }
  }

  sweepRow(cutter, piece, row, line) {
    const { heights, crossed, cell } = this, { reach, margin } = cutter, before = row * this.columns;
    const dy = this.low[1] + (row + 0.5) * cell - piece.y, begin = this.low[0] + 0.5 * cell - piece.x;
    const last = before + lastCell(piece.to(reach, dy) - this.low[0], cell, this.columns);
    for (let at = before + firstCell(piece.from(reach, dy) - this.low[0], cell); at <= last; at++) {
      const was = heights[at] - margin;
      if (was <= piece.low) continue;
      const dx = begin + (at - before) * cell, aside = dx * piece.uy - dy * piece.ux;
      const height = cutter.lowest(piece, dx * piece.ux + dy * piece.uy, aside * aside);
      if (height >= was) continue;
      heights[at] = height;
      if (line && !crossed[at]) crossed[at] = line;
    }
  }
}

// The cell at a place, of what `carve` gave; -1 beside the stock.
export function cellAt({ low, cell, columns, rows }, x, y) {
  const column = Math.floor((x - low[0]) / cell), row = Math.floor((y - low[1]) / cell);
  return column >= 0 && row >= 0 && column < columns && row < rows ? row * columns + column : -1;
}

// The first cell whose middle lies at a place or after it, and the last that lies at it or before.
const firstCell = (at, cell) => Math.max(0, Math.ceil(at / cell - 0.5));
const lastCell = (at, cell, count) => Math.min(count - 1, Math.floor(at / cell - 0.5));

// Takes the steps of a job one after the other. `shapes` has by slot {tip, radius, angle}.
class Carving {
  constructor(job, grid, shapes, leftOut, told) {
    Object.assign(this, { job, grid, leftOut, told, run: 0 });
    const graze = ROUNDED_UM + SAGS * longestChord(job), near = grid.cell / 2;
    // A traverse along the wall of what was cut before isn't one through the stock, by rounding or by an arc's chords.
    this.cutters = bySlot(shapes, shape => new Cutter(shape, shape.radius, near + graze, 0));
    this.crossers = bySlot(shapes, shape => new Cutter(shape, shape.radius - graze, near, graze));
  }

  steps(from, to) {
    for (let step = from; step < to; step++) {
      const { first } = this.job;
      if (!this.leftOut?.[step]) this.take(step, this.points(step, first[step], first[step + 1]));
      if (step % TOLD_STEPS === 0) this.told(step / this.job.count);
    }
  }

  // The points of the tip, from one of the job's to before another.
  points(step, from, to) {
    const { points, inForce } = this.job, found = [];
    while (this.run + 1 < inForce.length && inForce[this.run + 1].step <= step) this.run += 1;
    const { length } = inForce[this.run];
    for (let i = 3 * from; i < 3 * to; i += 3) found.push([points[i], points[i + 1], points[i + 2] - length]);
    return found;
  }

  take(step, points) {
    const kind = this.job.kind[step], isTraverse = kind === TRAVERSE, { slot } = this.job.inForce[this.run];
    const cutter = (isTraverse ? this.crossers : this.cutters)[slot];
    if (!cutter || kind === WAIT) return;
    const line = isTraverse ? this.job.line[step] : 0;
    for (let i = 1; i < points.length; i++) this.grid.sweep(cutter, new Piece(points[i - 1], points[i]), line);
  }

  // The step under way: what of it is done, or what is left. The motors are at `at`, before its point `part`.
  half({ done, part, at }, isDone) {
    const first = this.job.first[done], next = this.job.first[done + 1];
    if (isDone) this.take(done, [...this.points(done, first, first + part), this.tip(at)]);
    else if (!this.leftOut?.[done]) this.take(done, [this.tip(at), ...this.points(done, first + part, next)]);
  }

  tip([x, y, z]) { return [x, y, z - this.job.inForce[this.run].length]; }
}

const bySlot = (shapes, makes) => Object.fromEntries(Object.entries(shapes).map(([slot, one]) => [slot, makes(one)]));

// What is left of the stock. `place` says which steps are done, of the one under way how much, if that is known, and
// which is made next: {done, part, at, next}. `lost` are paths that were never cut: steps along them, before the next
// one, cut nothing. `told` hears which share is done. Gives the heights at that place, `now`, and `after` the job, and
// where traverses come through the stock, `crossedNow` and `crossed`: the line, 0 for none.
export function carve({ job, stock, shapes, place, lost = [] }, told = () => {}) {
  const grid = new Grid(stock, cellOf(job, stock, shapes));
  const leftOut = lost.length ? alongLost(job, lost, place.next) : null;
  const carving = new Carving(job, grid, shapes, leftOut, told), isHalf = place.part > 0 && place.done < job.count;
  carving.steps(0, place.done);
  if (isHalf) carving.half(place, true);
  const now = grid.heights.slice(), crossedNow = grid.crossed.slice();
  if (isHalf) carving.half(place, false);
  carving.steps(place.done + (isHalf ? 1 : 0), job.count);
  const { cell, columns, rows } = grid;
  return { low: stock.low, top: stock.top, cell, columns, rows, now, after: grid.heights, crossedNow,
    crossed: grid.crossed };
}

// How large cells are: so many on the longer side, but fewer where all looks at them would take too long.
function cellOf(job, { size, top }, shapes) {
  const cell = Math.max(...size) / MOST_CELLS;
  let area = 0;
  eachPiece(job, (slot, a, b, isBelow) => {
    const reach = Math.max(shapes[slot]?.radius ?? 0, cell / 2);
    if (shapes[slot] && isBelow) area += 2 * reach * (Math.hypot(b[0] - a[0], b[1] - a[1]) + 2 * reach);
  }, top);
  return Math.max(cell, Math.sqrt(area / MOST_LOOKS));
}

// The steps of a job, each with what is in force.
function* stepsOf(job) {
  let run = 0;
  for (let step = 0; step < job.count; step++) {
    while (run + 1 < job.inForce.length && job.inForce[run + 1].step <= step) run += 1;
    yield [step, job.inForce[run]];
  }
}

// Calls `does` with the slot, both ends and whether one of them is below a height, of each piece of a kind, or of all.
function eachPiece(job, does, top = Infinity, kind = -1) {
  for (const [step, inForce] of stepsOf(job)) {
    if (kind < 0 ? job.kind[step] !== WAIT : job.kind[step] === kind) piecesOf(job, step, inForce, top, does);
  }
}

function piecesOf({ first, points }, step, { slot, length }, top, does) {
  for (let i = first[step] + 1; i < first[step + 1]; i++) {
    const a = 3 * i - 3, tip = at => [points[at], points[at + 1], points[at + 2] - length];
    const [from, to] = [tip(a), tip(a + 3)];
    does(slot, from, to, Math.min(from[2], to[2]) < top);
  }
}

// The longest chord of an arc, 0 without one.
function longestChord({ count, first, points }) {
  let longest = 0;
  for (let step = 0; step < count; step++) {
    if (first[step + 1] - first[step] > 2) longest = Math.max(longest, chordOf(points, first[step], first[step + 1]));
  }
  return longest;
}

function chordOf(points, from, to) {
  let longest = 0;
  for (let i = from + 1; i < to; i++) {
    const a = 3 * i - 3, b = 3 * i;
    longest = Math.max(longest, Math.hypot(points[b] - points[a], points[b + 1] - points[a + 1],
      points[b + 2] - points[a + 2]));
  }
  return longest;
}

// The steps before one that lie along paths which were never cut: those on which both quarters of one of their chords
// are.
function alongLost(job, lost, before) {
  const quarters = lost.flatMap(points => points.slice(1).map((b, i) => [0.25, 0.75].map(
    share => b.map((to, axis) => points[i][axis] + share * (to - points[i][axis])))));
  const isNear = (step, at) => job.along(step, at).off <= NEAR_UM;
  return Uint8Array.from({ length: job.count }, (_, step) => (step < before
    && quarters.some(both => both.every(at => isNear(step, at))) ? 1 : 0));
}

// ---- what is looked at before

const cutsOf = job => [...stepsOf(job)].filter(([step]) => job.kind[step] === CUT);

// The slots of tools that cut, as they come.
export const slotsOf = job => [...new Set(cutsOf(job).map(([, { slot }]) => slot))];

// The program's zeros where it cuts, as they come.
export function zerosOf(job) {
  const found = new Map(cutsOf(job).map(([, { origin }]) => [String(origin), origin]));
  return [...found.values()];
}

// The one of the first cut, by which heights are told; the machine's where nothing is cut.
export const zeroOf = job => zerosOf(job)[0] ?? [0, 0, 0];

// The paths of cuts by tools without a shape.
export const pathsWithout = (job, shapes) => cutsOf(job).filter(([, { slot }]) => !shapes[slot])
  .map(([step]) => job.pointsOf(step));

// A stock that a job may be of, if nobody says: around all that it cuts, with a margin, in whole millimetres of the
// program. Its top is the program's zero; where nothing is cut below that, the highest cut along X or Y. null without a
// cut. `isZero` says which it was.
export function assumed(job, shapes) {
  const zero = zeroOf(job), cuts = heightsOf(job), isZero = cuts.low < zero[2] - ROUNDED_UM;
  if (cuts.low === Infinity) return null;
  const top = isZero ? zero[2] : cuts.level > -Infinity ? cuts.level : cuts.high;
  const { low, high } = sidesOf(job, shapes, top);
  const margin = Math.max(LEAST_MARGIN_UM, MARGIN * Math.max(high[0] - low[0], high[1] - low[1]));
  const from = low.map((at, i) => zero[i] + WHOLE_UM * Math.floor((at - margin - zero[i]) / WHOLE_UM));
  const size = high.map((at, i) => WHOLE_UM * Math.ceil((at + margin - from[i]) / WHOLE_UM));
  return { low: from, size, top, isZero };
}

// The lowest and the highest cut, and the highest along X or Y.
function heightsOf(job) {
  const found = { low: Infinity, high: -Infinity, level: -Infinity };
  eachPiece(job, (_, a, b) => {
    found.low = Math.min(found.low, a[2], b[2]);
    found.high = Math.max(found.high, a[2], b[2]);
    if (a[2] === b[2] && (a[0] !== b[0] || a[1] !== b[1])) found.level = Math.max(found.level, a[2]);
  }, Infinity, CUT);
  return found;
}

// How far cuts go along X and Y that are at a height or below it, with the tool's radius where that is known.
function sidesOf(job, shapes, top) {
  const low = [Infinity, Infinity], high = [-Infinity, -Infinity];
  eachPiece(job, (slot, a, b, isBelow) => {
    const radius = shapes[slot]?.radius ?? 0;
    for (const axis of isBelow ? [0, 1] : []) {
      low[axis] = Math.min(low[axis], Math.min(a[axis], b[axis]) - radius);
      high[axis] = Math.max(high[axis], Math.max(a[axis], b[axis]) + radius);
    }
  }, top + ROUNDED_UM, CUT);
  return { low, high };
}
