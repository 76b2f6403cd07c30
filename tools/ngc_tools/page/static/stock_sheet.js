// What will be left of the stock: of which stock, by which shapes of tools, and what was found.
import { AXES, clock, el, grouped, mm, text } from './dom.js';
import { NEAR_UM } from './job.js';
import { get } from './link.js';
import * as sheet from './sheet.js';
import { assumed, pathsWithout, slotsOf, zeroOf, zerosOf } from './stock.js';
import { StockEntries } from './stock_entries.js';
import { CROSSED, CUT_SO_FAR, STOCK, StockPicture, TO_BE_CUT } from './stock_picture.js';
import { ToolRow } from './stock_tool.js';
import { shown, unit } from './units.js';

const HEIGHTS = 5, MOST_LINES = 6;
const CUTS = 'The stock is cut\u2026';
const NOT_THE_PART = 'This is a picture of the program, not of the part: runout, deflection, clamps, the holder and '
  + 'what of the tool is above its tip\u2019s shape aren\u2019t in it. The tip is where the length in force has it.';
const NO_NUMBER = 'T0 is whichever tool is in, where the program calls for none.';
const NEVER_CUT = 'The thick red lines were handed out and never cut: a cut that one of them lies on is shown as not '
  + 'made at all.';
const NO_CUT = 'No line of this program cuts.';

export class StockSheet {
  // `app` has the state, the job and the place; `asks` sends a request.
  constructor(app, asks) {
    Object.assign(this, { app, asks, worker: null, isOpen: false, shapes: {} });
    this.entries = new StockEntries(() => this.renew());
  }

  async open() {
    this.canvas = el('canvas', { 'aria-label': 'The stock from above' });
    this.picture = new StockPicture(this.canvas, cell => this.tell(cell));
    this.again = sheet.button('Draw anew', () => this.begin(), false);
    this.cancel = sheet.button('Cancel', () => this.fails('Cancelled. Draw anew begins again.'), false);
    this.progress = sheet.gap();
    this.sight = this.sightBox();
    this.parts = sheet.open('What will be left', [sheet.soft('The shapes of the tools are read\u2026')],
      [sheet.button('Back', sheet.close), this.progress, this.cancel, this.again], this.sight);
    Object.assign(this, { isOpen: true, filled: null });
    sheet.ending(() => {
      this.isOpen = false;
      this.end();
    });
    const { parts } = this;
    await this.read();
    if (parts.head.isConnected && this.app.job) this.fill(); // else nobody waits for it any more
  }

  // The picture, what its colours mean, and what there is where a finger is.
  sightBox() {
    const view = (says, isAfter) => sheet.button(says, () => this.choose(isAfter));
    this.legend = el('div', { class: 'kinds' });
    this.told = el('p', { role: 'status' });
    this.views = [view('So far', false), view('After the job', true)];
    this.pair = el('div', { class: 'pair', hidden: true }, ...this.views);
    const fit = sheet.button('Fit', () => this.picture.fit());
    return el('div', { class: 'sight stock-sight' }, el('div', {}, this.canvas), this.legend, this.told,
      el('div', { class: 'views' }, this.pair, fit));
  }

  // The page is dark now, or light.
  recolour() {
    if (!this.isOpen) return;
    this.picture.recolour();
    if (this.picture.found) this.explain();
  }

  // A job is drawn, or none any more. One that goes the same way, as once its times are exact, changes nothing here.
  job() {
    if (!this.isOpen) return;
    if (!this.app.job) sheet.close(); else if (this.filled && !isSame(this.app.job, this.filled)) this.fill();
  }

  end() {
    this.worker?.terminate();
    this.worker = null;
  }

  // Reads the shapes, as they are now.
  async read() {
    const found = await get('shapes').catch(error => ({ failed: error.message, shapes: {} }));
    Object.assign(this, { failed: found.failed, shapes: found.shapes });
  }

  // ---- what is typed

  fill() {
    const { job, state } = this.app, slots = slotsOf(job);
    this.filled = job;
    this.zero = zeroOf(job);
    this.results = el('div');
    this.wrong = el('div');
    this.rows = slots.map(slot => new ToolRow(slot, this.shapes[slot] ?? null, state.yours,
      (...kept) => this.keep(...kept)));
    this.end();
    this.works(false);
    this.again.disabled = true;
    this.blank();
    this.parts.words.replaceChildren(this.results, ...slots.length ? [sheet.title('The stock, in mm'), this.entries.box,
      sheet.title('Diameters and tips'), this.wrong, ...this.rows.map(row => row.box),
      slots.includes(0) ? sheet.soft(NO_NUMBER) : '', sheet.soft(NOT_THE_PART)] : [sheet.warning(NO_CUT)]);
    if (slots.length) this.renew();
  }

  // There is no picture, rather than one of before.
  blank() {
    for (const one of [this.results, this.legend]) one.replaceChildren();
    this.picture.clear();
    this.tell(-1);
  }

  // Draws with the shapes and the stock of now.
  renew() {
    for (const row of this.rows) row.kept(this.shapes[row.slot] ?? null);
    this.wrong.replaceChildren(...this.failed ? [sheet.warning(this.failed, 'bad')] : []);
    this.entries.show(this.app.state.program.id, this.zero, assumed(this.app.job, this.radii()));
    this.begin();
  }

  // The shapes as they are computed with.
  radii() {
    return Object.fromEntries(Object.entries(this.shapes).map(([slot, { diameter, tip, angle }]) => [slot,
      { radius: 500 * diameter, tip, angle }]));
  }

  async keep(slot, shape) {
    const { parts } = this;
    if (!await this.asks('shape', { slot, diameter: null, ...shape })) return;
    await this.read();
    if (parts.head.isConnected && this.app.job) this.renew();
  }

  // ---- what is computed

  begin() {
    const { count, kind, line, first, points, inForce } = this.app.job;
    this.end();
    this.place = placeOf(this.app);
    this.works(true);
    const worker = this.worker = new Worker('stock_worker.js', { type: 'module' });
    worker.onmessage = ({ data }) => {
      if (data.found) this.show(data.found); else text(this.progress, `${CUTS} ${Math.round(100 * data.share)} %`);
    };
    worker.onerror = () => this.fails('The picture can\u2019t be computed.', 'bad');
    worker.postMessage({ job: { count, kind, line, first, points, inForce }, stock: this.entries.stock,
      shapes: this.radii(), place: this.place, lost: this.lost });
  }

  // What there is meanwhile is of before, and pale.
  works(isAtWork) {
    this.again.disabled = isAtWork;
    this.cancel.disabled = !isAtWork;
    text(this.progress, isAtWork ? CUTS : '');
    for (const one of [this.sight, this.results]) one.classList.toggle('of-before', isAtWork);
  }

  fails(why, kind = '') {
    this.end();
    this.works(false);
    this.blank();
    this.results.replaceChildren(sheet.warning(why, kind));
  }

  get lost() { return this.app.picture.lost; }

  show(found) {
    const { place, app, shapes, lost, zero } = this;
    this.end();
    this.works(false);
    this.found = found;
    this.isSplit = place.done + place.part > 0 && place.done < app.job.count;
    this.pair.hidden = !this.isSplit;
    this.picture.show(found, { isSplit: this.isSplit, lines: pathsWithout(app.job, shapes), lost, zero });
    this.choose(true);
    this.tell(-1);
    this.results.replaceChildren(...this.verdicts().filter(Boolean), sheet.facts(this.said()));
  }

  choose(isAfter) {
    this.views.forEach((button, i) => button.setAttribute('aria-pressed', String(isAfter === (i === 1))));
    if (!this.picture.found) return;
    this.picture.choose(isAfter);
    this.explain();
  }

  explain() {
    this.legend.replaceChildren(...this.scale(), ...this.kinds());
  }

  verdicts() {
    const { refused } = this.filled, without = slotsOf(this.filled).filter(slot => !this.shapes[slot]);
    const crossed = [...new Set(this.found.crossed)].filter(Boolean).sort((a, b) => a - b);
    const which = this.entries.typed ? 'the stock' : 'the assumed stock';
    return [crossed.length && sheet.warning(crossing(crossed, which), 'bad'),
      !crossed.length && !without.length && sheet.warning(`No traverse comes through ${which}.`, 'fine'),
      without.length && sheet.warning(withoutWords(without)),
      refused && sheet.warning(`ngc refuses line ${grouped(refused.line)}: the job ends before it.`, 'bad'),
      this.lost.length && sheet.warning(NEVER_CUT, 'bad')];
  }

  // What was assumed, and what is known.
  said() {
    const { zero, entries } = this, { low, size, top, isZero } = entries.stock;
    const span = i => `${AXES[i]} ${this.length(low[i] - zero[i])} to ${this.length(low[i] + size[i] - zero[i])}`;
    const assumes = `assumed: around all cuts, with a margin; its top is ${isZero ? 'the program\u2019s zero'
      : 'the highest cut along X or Y'}`;
    return [
      ['Stock', sheet.code(`${span(0)}   ${span(1)}   top Z ${this.length(top - zero[2])} ${unit.name}`)],
      ['Which is', entries.typed ? 'as it was typed' : assumes],
      ['Zero', zerosOf(this.filled).length > 1 && 'the program has several: here it is that of its first cut'],
      ['Lowest', sheet.code(`Z ${this.length(this.picture.lowest - zero[2])} ${unit.name}`)],
      ['Cells', `${this.length(this.found.cell)} ${unit.name}, as low as their middle, or as a tip that crosses them`],
      ['Cut so far', this.isSplit && placeWords(this.app, this.place)]];
  }

  // Micrometres in the unit that is chosen.
  length(um) { return shown(BigInt(Math.round(um * 1000))); }

  // Colours by their heights.
  scale() {
    const { picture, found: { top } } = this, kinds = this.isSplit ? [CUT_SO_FAR, TO_BE_CUT] : [CUT_SO_FAR];
    const step = (_, i) => {
      const depth = i / (HEIGHTS - 1), height = top - depth * (top - picture.lowest) - this.zero[2];
      return el('span', {}, ...kinds.map(kind => swatch(picture.colour(kind, depth))), this.length(height));
    };
    const steps = picture.lowest < top ? Array.from({ length: HEIGHTS }, step) : [];
    return [...steps, el('span', {}, `Z in ${unit.name}`)];
  }

  kinds() {
    const named = this.isSplit ? [[CUT_SO_FAR, 'cut so far'], [TO_BE_CUT, 'still to be cut']] : [];
    return [[STOCK, 'not cut'], ...named, [CROSSED, 'by a traverse']].map(
      ([kind, says]) => el('span', {}, swatch(this.picture.colour(kind, 0)), says));
  }

  tell(cell) {
    const { picture, zero } = this;
    if (cell < 0 || !picture.found) {
      text(this.told, picture.found ? 'Touch the stock: its height there, and which traverse came through' : '');
      return;
    }
    const [x, y] = picture.middle(cell), at = [x, y, picture.heights[cell]];
    const is = { [STOCK]: 'not cut', [CUT_SO_FAR]: 'cut', [TO_BE_CUT]: 'still to be cut',
      [CROSSED]: `the traverse of line ${grouped(picture.line(cell))} comes through` };
    const where = AXES.map((axis, i) => `${axis} ${this.length(at[i] - zero[i])}`).join('  ');
    text(this.told, `${where} ${unit.name}: ${is[picture.kind(cell)]}`);
  }
}

function isSame(job, other) {
  return job.points.length === other.points.length && job.points.every((um, i) => um === other.points[i])
    && job.line.every((line, i) => line === other.line[i])
    && JSON.stringify(job.inForce) === JSON.stringify(other.inForce);
}

function crossing(lines, which) {
  const more = lines.length > MOST_LINES ? ` and ${grouped(lines.length - MOST_LINES)} more` : '';
  const few = lines.slice(0, MOST_LINES).map(grouped).join(', ');
  return `Red: traverses come through ${which}, at ${lines.length > 1 ? 'lines' : 'line'} ${few}${more}.`;
}

function withoutWords(slots) {
  const which = slots.map(slot => `T${slot}`).join(', ');
  return `No diameter is known of: ${which}. Such cuts are the path\u2019s lines alone, and lower nothing: where they `
    + 'cut, what is left and what is red may be wrong.';
}

function swatch(parts) {
  const one = el('i');
  one.style.background = `rgb(${parts.map(Math.round).join(' ')})`;
  return one;
}

// Which steps are done where the job is, and how much of the one under way, if the motors are on it.
function placeOf({ job, state, place, reached, picture: { motors } }) {
  const isOn = state.motors && reached.step >= 0 && reached.off <= NEAR_UM;
  const found = isOn ? nearest(job, reached.step, motors) : null;
  return found ? { done: found.step, part: found.part, at: motors, next: place.done }
    : { done: place.done, part: 0, at: null, next: place.done };
}

// The step before another one that the motors are on, where they are nearer to it.
function nearest(job, step, at) {
  let found = { step, ...job.along(step, at) };
  for (let before = step - 1; before >= 0; before--) {
    const one = job.along(before, at);
    if (one.off >= found.off) break;
    found = { step: before, ...one };
  }
  return found;
}

// That place in words: when, the line, and by what it is known.
function placeWords({ job, state }, { done, part }) {
  const by = state.past_mm ? `, by the player\u2019s record, \u00b1 ${mm(state.past_mm)} mm` : '';
  const rest = part ? 'as far in it as the motors are' : 'and nothing of that';
  return `at ${clock(new Date())} to line ${grouped(job.line[done])}, ${rest}${by}`;
}
