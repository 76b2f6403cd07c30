// Setting up: home, jog, the probe, work zero, touch-off, and what becomes of a job whose page is lost.
import { $, AXES, el, may, systemName, text } from './dom.js';
import { Jog } from './jog.js';
import { Keys, whyNoJog } from './keys.js';
import { languageChoice } from './language_choice.js';
import { Offsets } from './offsets.js';
import { Probing } from './probing.js';
import { button } from './sheet.js';
import { means } from './steady.js';
import { Switches } from './switches.js';
import { choose, follow, lengthEntry, nanometres, place, shown, typedLength, typedNanometres, unit, unitName }
  from './units.js';

const SEEKS = [['X', 1], ['X', -1], ['Y', 1], ['Y', -1], ['Z', -1]];
const SIGNS = { 1: '+', [-1]: '\u2212' };
const SEEK_RATE = '60';      // mm a minute

export class Setup {
  constructor(asks, refuse, calls) {
    this.asks = asks;
    this.jog = new Jog(asks, refuse);
    this.keys = new Keys(this.jog, () => whyNoJog(this.shown, whyNot));
    this.homed = el('span');
    this.home = ['', ...AXES].map(axes => button(axes || 'Home all', () => asks('home', { axes })));
    this.touched = el('span');
    const changed = () => { if (this.shown) this.show(this.shown); };
    this.within = lengthEntry('10', 'How far the probe is sought', changed);
    this.seeks = SEEKS.map(([axis, sign]) => button(axis + SIGNS[sign], () => this.seek(axis, sign)));
    this.probing = new Probing(asks);
    this.work = button('Probe the work\u2026', () => this.probing.open());
    this.switches = new Switches(asks);
    this.system = el('span');
    this.value = lengthEntry('0', 'Work coordinate of this place', changed);
    this.byProbe = toggle('Where the probe was touched', () => { flip(this.byProbe); changed(); });
    this.used = el('p', { class: 'hint' });
    this.zero = [...AXES, 'XY'].map(axes => button(`Set ${axes}`, () => this.sets(axes)));
    this.height = lengthEntry('', 'Machine Z of the setter', changed);
    this.length = el('p', { class: 'hint' });
    this.setter = el('label', { class: 'entry-row' }, 'Setter at machine Z', this.height, unitName());
    this.touch = button('', () => this.touchOff());
    this.top = lengthEntry('0', 'Work coordinate of what the tool stands on', changed);
    this.workRow = el('label', { class: 'entry-row' }, 'Or the work, at Z', this.top, unitName());
    this.workLength = el('p', { class: 'hint' });
    this.onWork = button('', () => asks('touch', { slot: this.slot, work: typed(this.top) }));
    this.measure = button('', () => asks('measure', {}));
    this.down = lengthEntry('', 'Machine Z from which the setter is sought', changed);
    this.deep = lengthEntry('', 'How far at most, from there', changed);
    this.keep = button('Keep both heights',
      () => asks('measurefrom', { down: typed(this.down), within: typed(this.deep) }));
    this.from = el('div', { class: 'heights' },
      el('label', { class: 'entry-row' }, 'Sought from machine Z', this.down, unitName()),
      el('label', { class: 'entry-row' }, 'At most, down from there', this.deep, unitName()), this.keep);
    this.measures = toggle('Measure at tool changes', () => asks('switch', { name: 'measures',
      on: !isChosen(this.measures) }));
    this.undo = button('', () => asks('undo', {}));
    this.offsets = new Offsets(asks);
    this.table = button('Offsets\u2026', () => this.offsets.open());
    this.inches = toggle('Inches, read and typed', () => choose(!unit.isInch));
    this.loss = toggle('Job goes on if this page is lost', () => asks('loss', { goes: !isChosen(this.loss) }));
    for (const one of [this.touch, this.onWork, this.undo, this.table, this.work, this.measure, this.keep]) one.className = 'wide';
    this.why = el('p', { class: 'hint why' });
    this.noSeek = el('p', { class: 'hint' });
    this.parts = {
      home: part('Home', this.homed, el('div', { class: 'four' }, ...this.home)),
      jog: el('section', { class: 'part' }, this.jog.box, ...this.keys.box),
      zero: part('Work zero', this.system,
        el('label', { class: 'entry-row' }, 'This place is', this.value, unitName()), this.byProbe, this.used,
        el('div', { class: 'four' }, ...this.zero), this.undo, this.table),
      probe: part('Seek the probe', this.touched,
        el('label', { class: 'entry-row' }, 'At most', this.within, unitName()),
        el('div', { class: 'five' }, ...this.seeks), this.noSeek, this.work),
      tool: part('Touch off a tool', null, this.setter, this.length, this.touch,
        this.workRow, this.workLength, this.onWork, this.measure, this.from, this.measures),
      switches: part('Switches', null, ...this.switches.box),
      macros: part('Macros', null, ...this.switches.macros),
      page: part('This page', null, this.loss, this.inches, languageChoice(), ...calls.box),
    };
    $('tab-setup').append(this.why, ...Object.values(this.parts));
    follow(() => this.showUnit());
    this.switches.fetch();
  }

  show(s) {
    this.shown = s;
    const hasMoves = s.machine !== null && s.machine !== undefined;
    for (const name of ['home', 'jog', 'probe']) this.parts[name].hidden = !hasMoves;
    this.parts.home.hidden ||= s.homes === ''; // the machine's file doesn't say how
    text(this.why, hasMoves ? whyNot(s) || wantsOff(s) : '');
    this.why.hidden = !this.why.textContent;
    text(this.homed, s.homed ? `homed: ${[...s.homed].join(' ')}` : 'not homed');
    text(this.system, systemName(s.system));
    const isHome = i => i === 0 || (s.homes ?? 'XYZ').includes(AXES[i - 1]);
    this.home.forEach((one, i) => { one.disabled = !may(s, 'home') || !isHome(i); });
    this.jog.told = s.press;
    const isBusy = s.busy && (!s.waits || s.machine !== 'stands'); // while a tool is waited for it jogs too
    this.jog.enable(may(s, 'jog'), isBusy, s.ends);
    this.keys.show(s);
    this.within.disabled = !may(s, 'seek');
    const leads = isWay(this.within);
    this.within.classList.toggle('wrong', !leads);
    for (const one of this.seeks) one.disabled = this.within.disabled || !leads;
    this.work.disabled = !may(s, 'measure'); // a sheet, where a routine is dead as long as the probe isn't in
    this.work.hidden = !s.ball;
    this.probing.show(may(s, 'probe'), whyNoProbe(s), whyNoZ(s));
    text(this.noSeek, isTouching(s) ? TOUCHES : '');
    this.noSeek.hidden = !isTouching(s);
    for (const one of [this.value, this.byProbe]) one.disabled = !may(s, 'zero');
    for (const one of this.zero) one.disabled = !may(s, 'zero') || typed(this.value) === null;
    text(this.touched, s.touched ? `touched: ${place(s.touched)} ${unit.name}` : '');
    this.showUsed(s);
    this.showTool(s);
    this.offsets.show(s);
    this.switches.show(s);
    this.undo.hidden = !s.undo;
    this.undo.disabled = !may(s, 'undo');
    text(this.undo, `Undo: ${s.undo ?? ''}`);
    means(this.undo, this.undo.textContent);
    this.loss.setAttribute('aria-checked', String(s.on_loss === 'go'));
    this.loss.disabled = !s.yours;
  }

  showUnit() {
    this.inches.setAttribute('aria-checked', String(unit.isInch));
    if (this.shown) this.show(this.shown);
  }

  // Which machine point a zero takes. One at which the probe was touched is chosen anew for each touch.
  showUsed(s) {
    const key = String(s.touched ?? '');
    if (!s.touched || key !== this.seen) this.byProbe.setAttribute('aria-checked', 'false');
    this.seen = key;
    this.byProbe.hidden = !s.touched;
    const other = this.value.value.trim() ? `${this.value.value.trim()} isn\u2019t a number of ${unit.name}`
      : `Which coordinate is this place to have, in ${unit.name}?`;
    text(this.used, typed(this.value) === null ? other
      : this.probe() ? `Takes machine ${place(s.touched)} ${unit.name}, where the probe was touched`
        : s.known ? `Takes machine ${place(s.at)} ${unit.name}, where the motors are`
          : 'Where the machine stands isn\u2019t known');
  }

  showTool(s) {
    this.slot = s.slot;
    this.needsHeight = s.setter === null || s.setter === undefined;
    this.setter.hidden = !this.needsHeight;
    this.height.disabled = !may(s, 'touch');
    const isHigh = !this.needsHeight || typedLength(this.height.value) !== null;
    this.touch.disabled = !may(s, 'touch') || !s.slot || !isHigh || s.has_probe && !s.touched;
    text(this.touch, s.slot ? `Tool ${s.slot} stands on the setter` : 'No tool is in the spindle');
    means(this.touch, this.touch.textContent);
    this.showMeasure(s);
    this.showLength(s);
    this.showOnWork(s);
  }

  // The length that a tool would get which stands on the work, at a coordinate of it.
  showOnWork(s) {
    const top = typedNanometres(this.top.value), at = nanometres(s.at[2]), zero = nanometres(s.origin[2]);
    for (const one of [this.workRow, this.workLength, this.onWork]) one.hidden = !s.slot;
    this.top.disabled = !may(s, 'touch');
    this.top.classList.toggle('wrong', top === null);
    this.onWork.disabled = !may(s, 'touch') || top === null;
    text(this.onWork, `Tool ${s.slot} stands on the work`);
    means(this.onWork, this.onWork.textContent);
    text(this.workLength, top === null ? 'Which Z of the work does it stand on?'
      : `Length ${shown(at - zero - top)} ${unit.name}: machine Z is ${shown(at)}, the work there at ${shown(zero + top)}`);
  }

  // The setter is gone to by itself, where the machine's file says where it is.
  showMeasure(s) {
    const hasSetter = s.measures !== null && s.measures !== undefined;
    for (const one of [this.measure, this.from, this.measures]) one.hidden = !hasSetter;
    const isGood = one => (one === this.deep ? isWay(one) : typedLength(one.value) !== null);
    for (const one of [this.down, this.deep]) {
      one.disabled = !may(s, 'tool'); // a setting, as a tool's length is
      one.classList.toggle('wrong', one.value.trim() !== '' && !isGood(one));
    }
    this.keep.disabled = !may(s, 'tool') || ![this.down, this.deep].every(isGood);
    this.measure.disabled = !may(s, 'measure') || !s.slot;
    text(this.measure, s.slot ? `Measure tool ${s.slot}\u2026` : 'Measure the tool');
    means(this.measure, this.measure.textContent);
    this.measures.setAttribute('aria-checked', String(Boolean(s.measures)));
    this.measures.disabled = !may(s, 'measures');
  }

  // The length that a touch-off would give, and by which machine point.
  showLength(s) {
    const height = this.needsHeight ? typedNanometres(this.height.value) : nanometres(s.setter);
    const at = nanometres(s.touched ? s.touched[2] : s.at[2]), has = s.tools[s.slot - 1];
    const where = s.touched ? 'touched at machine Z' : 'machine Z is';
    const before = has === undefined ? 'no length yet' : `${shown(nanometres(has))} by now`;
    this.length.hidden = !s.slot;
    text(this.length, s.has_probe && !s.touched
      ? 'The setter wasn\u2019t touched since the last motion: seek it by Z\u2212 first'
      : height === null ? 'At which machine Z would a tool of length 0 touch the setter?'
        : `Length ${shown(at - height)} ${unit.name}, ${before}: ${where} ${shown(at)}, setter at ${shown(height)}`);
  }

  seek(axis, sign) {
    this.asks('seek', { axis, sign, rate: SEEK_RATE, within: typedLength(this.within.value) });
  }

  sets(axes) {
    const value = typedLength(this.value.value);
    this.asks('zero', { axes: Object.fromEntries([...axes].map(axis => [axis, value])), probe: this.probe() });
  }

  touchOff() {
    const height = this.needsHeight ? typedLength(this.height.value) : undefined;
    this.asks('touch', { slot: this.slot, height, probe: Boolean(this.shown.touched) });
  }

  probe() { return !this.byProbe.hidden && isChosen(this.byProbe); }
}

const isOn = s => Boolean(s.spindle || s.mist || s.flood);

// Why home, jog and the probe are disabled, where that isn't for what is under way.
function whyNot(s) {
  if (!s.yours) return 'This page watches: Take over, to move the machine from here.';
  if (s.busy || s.ended || s.player_gone) return '';
  if (s.door_open) return 'The door is open: nothing moves until it is closed.';
  if (s.inputs.includes('emergency_stop')) return 'The emergency stop is on: nothing moves until it is released.';
  if (s.alarm) return 'After the alarm home comes first.';
  if (s.does === 'held') return 'A line is held: Continue or Stop comes before the axes are jogged or homed.';
  if (s.held_motors && s.behind) return 'The motors are held with lines in hand: Go on carries them out first.';
  return wantsOff(s);
}

// Said while something moves too, so that what is below it stays where it is.
const wantsOff = s => (isOn(s) ? 'Spindle or coolant is on: home and the probe want both off.' : '');

const TOUCHES = 'The probe is on: it touches something, or its wire is broken.';

const isTouching = s => s.inputs.includes('probe');

// Why the probe touches no work, where that isn't why nothing moves.
function whyNoProbe(s) {
  if (isTouching(s)) return TOUCHES;
  return s.is_probe_in ? '' : 'The probe isn\u2019t in the spindle: change to it first.';
}

// Nor finds it a Z: that is by its length, which has to be in force.
function whyNoZ(s) {
  const length = s.tools[s.ball?.slot - 1];
  if (length === undefined) return 'The probe has no length yet: give it one under Tools first.';
  if (Number(length) === Number(s.tool_length)) return '';
  return 'The probe\u2019s length isn\u2019t in force: give it by G43 first.';
}

function part(title, beside, ...content) {
  return el('section', { class: 'part' }, el('h2', {}, title, beside), ...content);
}

function toggle(says, does) {
  return el('button', { role: 'switch', 'aria-checked': 'false', class: 'wide switch', onclick: does }, el('i'),
    el('span', {}, says));
}

const isChosen = one => one.getAttribute('aria-checked') === 'true';

const flip = one => one.setAttribute('aria-checked', String(!isChosen(one)));

// Whether an entry has a length that leads somewhere.
const isWay = input => (typedNanometres(input.value) ?? 0n) > 0n;

// The number of an entry; null, which is shown, if it is none.
function typed(input) {
  const number = typedLength(input.value);
  input.classList.toggle('wrong', number === null);
  return number;
}
