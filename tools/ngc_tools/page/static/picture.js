// The path: what is done solid, what is under way bright, what is left pale, traverses dashed, a cross at the motors.
//
// What stays the same is painted once, on a layer; what moves comes over it. While somebody moves the picture, the
// layer is moved and magnified as it is, so that the path of a long program follows the finger. While it is turned,
// points that would lie close together are left out.
import { listen } from './gestures.js';
import { CUT, TRAVERSE, WAIT } from './job.js';
import * as paint from './paint.js';
import { View } from './view.js';

const BANDS = 5, FINE_PX = 0.6, COARSE_PX = 3, SETTLED_MS = 140;
const NAMES = ['panel', 'line', 'soft', 'faint', 'amber', 'violet', 'red', 'cross', 'grid', 'grid-strong',
  'path-now', 'path-done', 'path-deep', 'path-left', 'path-rapid'];

export class Picture {
  // `scaled` is told how many micrometres and pixels the scale is long.
  constructor(canvas, scaled = () => {}) {
    this.canvas = canvas;
    this.scaled = scaled;
    this.layer = document.createElement('canvas');
    this.view = new View();
    this.job = null;
    this.travel = null;      // [low, high] in um
    this.origin = null;      // the work zero in um
    this.done = 0;           // steps before this one are done
    this.now = -1;           // the step under way, -1 for none
    this.part = 1;           // how many of its points are done
    this.motors = null;
    this.marks = [];         // {point, colour, label}
    this.ways = [];          // {points, colour}
    this.lost = [];          // paths of what was handed out and never cut, each of points
    this.painted = 0;        // steps that the layer shows as done
    this.isFitted = false;
    this.isAsked = false;
    this.isStale = true;
    this.recolour();
    new ResizeObserver(() => this.resized()).observe(canvas);
    listen(canvas, this.view, { moved: () => this.moved(), fit: () => this.fit() });
  }

  show(job, travel) {
    this.job = job;
    this.travel = travel;
    this.fit();
  }

  // Says where the work's zero is.
  zero(origin) {
    if (String(origin) !== String(this.origin)) this.isStale = true;
    this.origin = origin;
  }

  // Says where the program and the motors are.
  at(done, now, part, motors) {
    const key = [done, now, part, motors, this.marks.length, this.isStale].join();
    if (done < this.painted) this.isStale = true;
    Object.assign(this, { done, now, part, motors });
    if (key !== this.key) this.draw();
    this.key = key;
  }

  recolour() {
    const css = getComputedStyle(document.documentElement);
    this.colours = Object.fromEntries(NAMES.map(name => [name, css.getPropertyValue(`--${name}`).trim()]));
    this.shades = shades(this.colours['path-done'], this.colours['path-deep']);
    this.redraw();
  }

  look(isFlat) {
    if (isFlat) this.view.lookDown(); else this.view.lookAslant();
    this.fit();
  }

  // Shows all cuts, and what else there is to see.
  fit() {
    const points = this.interesting();
    if (points.length) this.view.fit(points, this.width, this.height);
    this.isFitted = true;
    this.redraw();
  }

  interesting() {
    const more = [...this.ways.flatMap(way => way.points), ...this.marks.map(mark => mark.point)].flat();
    const cuts = this.job ? cutPoints(this.job) : [];
    if (cuts.length || more.length) return more.length ? [...cuts, ...more] : cuts;
    return this.travel?.flat() ?? [];
  }

  resized() {
    if (this.isFitted) this.fit(); else this.redraw();
  }

  moved() {
    this.isFitted = false;
    this.isMoving = true;
    clearTimeout(this.settles);
    this.settles = setTimeout(() => { this.isMoving = false; this.redraw(); }, SETTLED_MS);
    this.draw();
  }

  redraw() {
    this.isStale = true;
    this.draw();
  }

  draw() {
    if (this.isAsked) return;
    this.isAsked = true;
    requestAnimationFrame(() => { this.isAsked = false; this.paint(); });
  }

  get width() { return this.canvas.clientWidth || 1; }

  get height() { return this.canvas.clientHeight || 1; }

  paint() {
    const ratio = devicePixelRatio || 1, { width, height } = this;
    const size = [Math.round(width * ratio), Math.round(height * ratio)];
    for (const canvas of [this.canvas, this.layer]) this.sized(canvas, ...size);
    this.m = this.view.map(width, height);
    this.em = parseFloat(getComputedStyle(document.body).fontSize);
    if (!this.isMoving || this.isTurned) this.paintLayer(this.layer.getContext('2d'), ratio);
    const g = this.canvas.getContext('2d');
    this.copyLayer(g, ratio);
    g.setTransform(ratio, 0, 0, ratio, 0, 0);
    g.font = `${this.em}px ${getComputedStyle(document.body).fontFamily}`;
    this.paintNow(g);
    this.paintLost(g);
    this.paintWays(g);
    this.paintMotors(g);
  }

  sized(canvas, width, height) {
    if (canvas.width === width && canvas.height === height) return;
    Object.assign(canvas, { width, height });
    this.isStale = true;
  }

  // Whether the picture is turned otherwise than what the layer shows.
  get isTurned() { return this.shown?.turn !== this.view.turn || this.shown.tilt !== this.view.tilt; }

  // Puts the layer where the view has it now.
  copyLayer(g, ratio) {
    const { m, shown } = this, k = this.view.zoom / shown.zoom;
    g.setTransform(1, 0, 0, 1, 0, 0);
    g.clearRect(0, 0, this.canvas.width, this.canvas.height);
    g.setTransform(k, 0, 0, k, ratio * (m[3] - k * shown.m[3]), ratio * (m[7] - k * shown.m[7]));
    g.drawImage(this.layer, 0, 0);
  }

  paintLayer(g, ratio) {
    g.setTransform(ratio, 0, 0, ratio, 0, 0);
    if (this.isStale || this.isTurned) {
      this.shown = { turn: this.view.turn, tilt: this.view.tilt, zoom: this.view.zoom, m: this.m };
      g.clearRect(0, 0, this.width, this.height);
      this.paintGround(g);
      this.paintPath(g, 0, this.job?.count ?? 0, false);
      this.painted = 0;
      this.isStale = false;
    }
    this.paintPath(g, this.painted, this.done, true);
    this.painted = this.done;
  }

  paintGround(g) {
    const { colours, m, view } = this, grain = view.grain();
    this.scaled(grain, grain * view.zoom);
    g.setLineDash([]);
    g.lineWidth = 1;
    if (view.isFlat) {
      g.strokeStyle = colours.grid;
      paint.grid(g, m, grain / 5, this);
      g.strokeStyle = colours['grid-strong'];
      paint.grid(g, m, grain, this);
    }
    g.lineWidth = 1.5;
    g.strokeStyle = colours.line;
    if (this.travel) paint.box(g, m, ...this.travel, view.isFlat);
    g.font = `${this.em * 0.85}px ${getComputedStyle(document.body).fontFamily}`;
    g.strokeStyle = colours.faint;
    g.fillStyle = colours.soft;
    paint.axes(g, m, this.origin ?? [0, 0, 0], grain * 0.7, view.isFlat);
  }

  // Paints steps as done or as left: traverses first, then cuts, of those that are done each depth in its shade.
  paintPath(g, from, to, isDone) {
    if (!this.job || from >= to) return;
    const { colours } = this;
    g.lineJoin = g.lineCap = 'round';
    g.setLineDash(this.isMoving ? [] : [5, 5]);
    g.lineWidth = 1.2;
    g.strokeStyle = isDone ? colours.faint : colours['path-rapid'];
    this.stroke(g, from, to, TRAVERSE, -1);
    g.setLineDash([]);
    g.lineWidth = isDone ? 2.6 : 1.7;
    g.strokeStyle = colours['path-left'];
    if (!isDone) this.stroke(g, from, to, CUT, -1);
    for (let band = 0; isDone && band < BANDS; band++) {
      g.strokeStyle = this.shades[band];
      this.stroke(g, from, to, CUT, band);
    }
    if (this.view.isFlat) this.paintHoles(g, from, to, isDone);
  }

  // From above a cut that goes straight down or up is a ring.
  paintHoles(g, from, to, isDone) {
    g.strokeStyle = isDone ? this.shades[BANDS - 1] : this.colours['path-left'];
    for (let step = from; step < to; step++) {
      const point = this.job.kind[step] === CUT && this.job.hole(step);
      if (point) paint.ring(g, ...paint.place(this.m, ...point), 3.5);
    }
  }

  // One stroke through all steps of a kind, and of a band of depth if it isn't -1.
  stroke(g, from, to, kind, band) {
    const { job } = this, pen = new Pen(g, this.m, this.isMoving ? COARSE_PX : FINE_PX);
    let last = -2;
    g.beginPath();
    for (let step = from; step < to; step++) {
      if (job.kind[step] !== kind || band >= 0 && job.band[step] !== band) continue;
      pen.trace(job.points, job.first[step], job.first[step + 1], last !== step - 1);
      last = step;
    }
    pen.end();
    g.stroke();
  }

  // The step under way: bright, and what of it is done is solid.
  paintNow(g) {
    const { job, now, colours } = this;
    if (!job || now < 0 || job.kind[now] === WAIT) return;
    const points = job.pointsOf(now);
    g.lineJoin = g.lineCap = 'round';
    g.strokeStyle = colours['path-now'];
    g.lineWidth = 4;
    g.setLineDash(job.kind[now] === TRAVERSE ? [7, 6] : []);
    g.globalAlpha = 0.42;
    paint.line(g, this.m, points);
    g.globalAlpha = 1;
    if (this.motors && this.part) paint.line(g, this.m, [...points.slice(0, this.part), this.motors]);
    g.setLineDash([]);
  }

  // From above what goes straight down is a dot: a ring is seen.
  paintLost(g) {
    g.strokeStyle = this.colours.red;
    g.lineJoin = g.lineCap = 'round';
    for (const points of this.lost) {
      g.lineWidth = 9;
      paint.line(g, this.m, points);
      g.lineWidth = 2.5;
      paint.ring(g, ...paint.place(this.m, ...points[0]), 6);
    }
  }

  paintWays(g) {
    const { colours, m } = this;
    for (const way of this.ways) {
      g.strokeStyle = g.fillStyle = colours[way.colour];
      g.lineWidth = 3.5;
      g.setLineDash([10, 7]);
      paint.line(g, m, way.points);
      g.setLineDash([]);
      paint.head(g, m, way.points);
    }
    for (const mark of this.marks) {
      const [x, y] = paint.place(m, ...mark.point);
      g.strokeStyle = colours[mark.colour];
      g.lineWidth = 2.5;
      paint.ring(g, x, y, 8);
      paint.label(g, mark.label, x, y, colours, colours[mark.colour], this.width, this.em);
    }
  }

  paintMotors(g) {
    if (!this.motors) return;
    const [x, y] = paint.place(this.m, ...this.motors);
    g.strokeStyle = this.colours.cross;
    if (this.view.isFlat) {
      g.lineWidth = 1;
      g.globalAlpha = 0.35;
      g.beginPath();
      g.moveTo(0, y); g.lineTo(this.width, y);
      g.moveTo(x, 0); g.lineTo(x, this.height);
      g.stroke();
      g.globalAlpha = 1;
    }
    paint.cross(g, x, y);
  }
}

// Draws through points, without those that lie less than so many pixels beside the one before.
class Pen {
  constructor(g, m, leastPx) {
    Object.assign(this, { g, m, leastPx, x: 0, y: 0, isBehind: false, toX: 0, toY: 0 });
  }

  trace(points, from, to, begins) {
    const { m } = this;
    if (begins) this.end();
    for (let i = from; i < to; i++) {
      const px = points[3 * i], py = points[3 * i + 1], pz = points[3 * i + 2];
      this.go(m[0] * px + m[1] * py + m[2] * pz + m[3], m[4] * px + m[5] * py + m[6] * pz + m[7], begins && i === from);
    }
  }

  go(x, y, begins) {
    this.toX = x;
    this.toY = y;
    this.isBehind = !begins && Math.abs(x - this.x) + Math.abs(y - this.y) < this.leastPx;
    if (this.isBehind) return;
    if (begins) this.g.moveTo(x, y); else this.g.lineTo(x, y);
    this.x = x;
    this.y = y;
  }

  end() {
    if (this.isBehind) this.g.lineTo(this.toX, this.toY);
    this.isBehind = false;
  }
}

function cutPoints(job) {
  const isFew = job.count < 8, found = [];
  for (let step = 0; step < job.count; step++) {
    if (job.kind[step] === WAIT || job.kind[step] === TRAVERSE && !isFew) continue;
    for (let i = 3 * job.first[step]; i < 3 * job.first[step + 1]; i++) found.push(job.points[i]);
  }
  return found;
}

function shades(high, deep) {
  const [a, b] = [high, deep].map(hex => [1, 3, 5].map(i => parseInt(hex.slice(i, i + 2), 16)));
  return Array.from({ length: BANDS }, (_, band) => {
    const mixed = a.map((value, i) => Math.round(value + (b[i] - value) * band / (BANDS - 1)));
    return `rgb(${mixed.join(' ')})`;
  });
}
