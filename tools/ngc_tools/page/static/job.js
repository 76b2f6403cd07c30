// A program as it is drawn and timed: its steps, moves and waits in turn, in arrays. Points are in micrometres of
// machine coordinates.
export const TRAVERSE = 0, CUT = 1, WAIT = 2;
const KINDS = { t: TRAVERSE, c: CUT, w: WAIT };
export const NEAR_UM = 60; // a chord of an arc is at most so far beside it
const BANDS = 5;

export class Job {
  // `plain` is the server's answer: {steps: [{n, k, us, p}], segments, exact, refused}.
  constructor(plain) {
    const { steps } = plain;
    this.count = steps.length;
    this.exact = plain.exact;
    this.refused = plain.refused;
    this.tools = plain.tools ?? {};
    this.segments = plain.segments ?? {};
    this.inForce = plain.in_force ?? [{ step: 0, slot: 0, length: 0, origin: [0, 0, 0] }]; // each from a step on
    this.line = Uint32Array.from(steps, step => step.n);
    this.kind = Uint8Array.from(steps, step => KINDS[step.k]);
    this.us = Float64Array.from(steps, step => step.us ?? 0);
    this.first = firsts(steps);
    this.points = flattened(steps, this.first);
    this.before = sums(this.us);
    this.total = this.before[this.count];
    this.ramps = plain.ramps_us && this.total ? plain.ramps_us / this.total : 1; // what ramps make of the times
    this.band = bands(this);
  }

  // Where a state has the program: all steps before `done` are done, `now` is under way, or -1.
  place(state) {
    if (state.finished) return { done: this.count, now: -1 };
    const own = this.segments[state.line];
    if (state.half === 'program' && own) {
      const now = own[state.segment] ?? -1;
      if (now >= 0) return { done: now, now };
      const next = own.slice(state.segment).find(step => step >= 0);
      if (next !== undefined) return { done: next, now: -1 };
    }
    return { done: this.stepOf(state.line), now: -1 };
  }

  // The first step of a line, or of one after it.
  stepOf(line) {
    let low = 0, high = this.count;
    while (low < high) {
      const middle = (low + high) >> 1;
      if (this.line[middle] < line) low = middle + 1; else high = middle;
    }
    return low;
  }

  // The step that the motors are on: `now`, or one that was handed out shortly before, since `ngc` is ahead of them.
  reached(now, at, aheadUm) {
    let step = now, way = aheadUm, best = this.along(now, at), found = now;
    while (best.off > NEAR_UM && step > 0 && way > 0) {
      step -= 1;
      way -= this.length(step);
      const here = this.along(step, at);
      if (here.off < best.off) { best = here; found = step; }
    }
    return best.off > NEAR_UM ? { step: now, ...this.along(now, at) } : { step: found, ...best };
  }

  // How far a point is along a step: the share of its length, the points that lie before it, and how far off it is.
  along(step, at) {
    const found = { share: 0, part: 1, off: Infinity };
    if (step < 0 || this.kind[step] === WAIT) return found;
    let way = 0, best = 0;
    for (let i = this.first[step] + 1; i < this.first[step + 1]; i++) {
      const chord = nearest(this.points, i, at);
      if (chord.off < found.off - 1) {
        Object.assign(found, { off: chord.off, part: i - this.first[step] });
        best = way + chord.t * chord.length;
      }
      way += chord.length;
    }
    found.share = way ? best / way : 0;
    return found;
  }

  length(step) {
    let sum = 0;
    for (let i = this.first[step] + 1; i < this.first[step + 1]; i++) sum += chordLength(this.points, i);
    return sum;
  }

  // The mean rate of a step in mm a minute; 0 of a wait.
  rate(step) {
    return this.us[step] ? this.length(step) / this.us[step] * 60000 : 0;
  }

  // Where a step of one line goes straight down or up; null if it doesn't.
  hole(step) {
    const { first, points } = this, a = 3 * first[step], b = a + 3;
    if (first[step + 1] - first[step] !== 2 || points[a] !== points[b] || points[a + 1] !== points[b + 1]) return null;
    return points.subarray(a, a + 3);
  }

  pointsOf(step) {
    const found = [];
    for (let i = this.first[step]; i < this.first[step + 1]; i++) {
      found.push([...this.points.subarray(3 * i, 3 * i + 3)]);
    }
    return found;
  }

  // What is left from a place on, in us, without ramps.
  left(done, share) {
    return this.total - this.before[done] - (done < this.count ? share * this.us[done] : 0);
  }
}

function firsts(steps) {
  const first = new Uint32Array(steps.length + 1);
  steps.forEach((step, i) => { first[i + 1] = first[i] + (step.p ? step.p.length / (isFlat(step.p) ? 3 : 1) : 0); });
  return first;
}

const isFlat = points => typeof points[0] === 'number';

function flattened(steps, first) {
  const points = new Float64Array(3 * first[steps.length]);
  steps.forEach((step, i) => { if (step.p) points.set(isFlat(step.p) ? step.p : step.p.flat(), 3 * first[i]); });
  return points;
}

function sums(each) {
  const before = new Float64Array(each.length + 1);
  each.forEach((us, i) => { before[i + 1] = before[i] + us; });
  return before;
}

// What is deeper is darker, in bands: 0 is the highest cut.
function bands(job) {
  const deep = new Float64Array(job.count).fill(Infinity), band = new Uint8Array(job.count);
  job.line.forEach((_, step) => { if (job.kind[step] === CUT) deep[step] = lowest(job, step); });
  const cuts = deep.filter(Number.isFinite);
  const top = cuts.reduce((a, b) => Math.max(a, b), -Infinity);
  const bottom = cuts.reduce((a, b) => Math.min(a, b), Infinity);
  if (top > bottom) {
    deep.forEach((z, step) => { if (z < Infinity) band[step] = Math.round((BANDS - 1) * (top - z) / (top - bottom)); });
  }
  return band;
}

function lowest(job, step) {
  let low = Infinity;
  for (let i = job.first[step]; i < job.first[step + 1]; i++) low = Math.min(low, job.points[3 * i + 2]);
  return low;
}

function chordLength(points, i) {
  const a = 3 * i - 3, b = 3 * i;
  return Math.hypot(points[b] - points[a], points[b + 1] - points[a + 1], points[b + 2] - points[a + 2]);
}

// The nearest point of the chord that ends at point i: its share of the chord, the chord's length, how far off it is.
function nearest(points, i, at) {
  const a = 3 * i - 3, b = 3 * i;
  const d = [points[b] - points[a], points[b + 1] - points[a + 1], points[b + 2] - points[a + 2]];
  const e = [at[0] - points[a], at[1] - points[a + 1], at[2] - points[a + 2]];
  const size = d[0] * d[0] + d[1] * d[1] + d[2] * d[2];
  const t = size ? Math.min(1, Math.max(0, (e[0] * d[0] + e[1] * d[1] + e[2] * d[2]) / size)) : 0;
  return { t, length: Math.sqrt(size), off: Math.hypot(e[0] - t * d[0], e[1] - t * d[1], e[2] - t * d[2]) };
}
