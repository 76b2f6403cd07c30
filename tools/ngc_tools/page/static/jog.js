// Jogging. A button moves an axis while a finger is on it: the page says so again and again, and the machine stops
// where it says nothing any more. With a length it goes that far at each touch. A finger that begins to scroll there
// moves nothing: it has to rest first, or, with a length, to be lifted where it came down.
import { el, text } from './dom.js';
import { now } from './link.js';
import { means } from './steady.js';
import { follow, inMillimetres, typedLength, typedNanometres, unit } from './units.js';

// How often it is said that a jog goes on, how many are asked for at once, and after how long a page that stood still
// doesn't know any more what it missed.
const BY_BUTTON = { everyMs: 100, stoodMs: Infinity, most: 1 };
const BY_KEYS = { everyMs: 30, stoodMs: 100, most: 3 };
const REST_MS = 180, MOST_PX = 8;
const RATES = [['Slow', '100'], ['Medium', '600'], ['Fast', '3000']]; // mm a minute
const LENGTHS = { mm: ['10', '1', '0.1', '0.01'], in: ['1', '0.1', '0.01', '0.001'] };
const PAD = [['Y', 1, 'up'], ['X', -1, 'left'], ['X', 1, 'right'], ['Y', -1, 'down'], ['Z', 1, 'above'],
  ['Z', -1, 'below']];

export class Jog {
  constructor(asks, refuse) {
    Object.assign(this, { asks, refuse });
    this.told = 0;           // the highest press that the server knows
    this.rate = '600';
    this.length = null;
    this.timer = this.rests = 0;
    this.finger = null;      // where one came down that may be about to scroll
    this.down = '';          // the stamp as it came: a hold after that ends its press
    this.press = 0;          // grows with each, above what the server told: one that was let go starts nothing any more
    this.isOn = false;
    this.buttons = PAD.map(([axis, sign, where]) => this.button(axis, sign, where));
    this.rates = choices('Rate', RATES, rate => { this.rate = rate; }, this.rate);
    this.lengths = el('div', { class: 'lengths' });
    follow(() => this.showLengths());
    this.ends = el('p', { class: 'hint' });
    this.box = el('div', { class: 'jog' }, this.lengths, el('div', { class: 'pad' }, ...this.buttons), this.rates,
      this.ends);
    for (const kind of ['blur', 'pagehide']) window.addEventListener(kind, () => this.stop());
    document.addEventListener('visibilitychange', () => { if (document.hidden) this.stop(); });
  }

  // The steps there are in the unit that is chosen: it goes on first, as long as none is.
  showLengths() {
    this.length = null;
    const steps = LENGTHS[unit.name].map(step => [step, step]), chosen = length => { this.length = length; };
    const group = choices(`A step, in ${unit.name}`, [['Cont.', null], ...steps], chosen, null);
    this.lengths.replaceChildren(group, unit.name);
    means(this.lengths, unit.name);
  }

  button(axis, sign, where) {
    const name = `${axis}${sign > 0 ? '+' : '\u2212'}`;
    const button = el('button', { class: where, oncontextmenu: event => event.preventDefault() }, name);
    button.addEventListener('pointerdown', event => {
      this.stop();
      if (event.button !== 0 || button.disabled) return;
      if (event.pointerType !== 'mouse') {
        this.comes(event, axis, sign);
        return;
      }
      event.preventDefault();
      button.setPointerCapture(event.pointerId);
      this.down = now();
      this.start(axis, sign);
    });
    button.addEventListener('pointermove', event => {
      const was = this.finger;
      if (was && Math.hypot(event.clientX - was.x, event.clientY - was.y) > MOST_PX) this.forget();
    });
    // Once it jogs, the finger that trembles doesn't scroll.
    button.addEventListener('touchmove', event => { if (this.isOn) event.preventDefault(); }, { passive: false });
    button.addEventListener('pointerup', () => {
      if (this.finger && this.length !== null) this.start(axis, sign);
      this.stop();
    });
    for (const kind of ['pointercancel', 'lostpointercapture']) button.addEventListener(kind, () => this.stop());
    return button;
  }

  // A finger came down, or a pen: it may be about to scroll.
  comes(event, axis, sign) {
    this.finger = { x: event.clientX, y: event.clientY };
    this.down = now();
    if (this.length === null) this.rests = setTimeout(() => this.start(axis, sign), REST_MS);
  }

  forget() {
    clearTimeout(this.rests);
    this.finger = null;
  }

  start(axis, sign) {
    this.forget();
    const { rate, length } = this;
    if (length !== null) this.asks('jog', { axis, sign, rate, length: typedLength(length) });
    else this.keepOn({ axis, sign, rate, down: this.down }, BY_BUTTON);
  }

  // Says again and again that it goes on, each time by what `says` makes of the wish. At most so many are asked for at
  // once: what waits in a slow network would come after the finger is gone.
  keepOn(how, { everyMs, stoodMs, most }, says = wish => wish) {
    const press = this.press = Math.max(this.press, this.told) + 1;
    this.isOn = true;
    let asked = 0, last = performance.now();
    const again = async () => {
      const before = last;
      last = performance.now();
      if (last - before > stoodMs) this.stop();
      if (asked === most || this.press !== press || !this.isOn) return;
      asked += 1;
      const refused = why => { if (this.isOn && this.press === press) this.refuse(why); }; // once
      const answer = await this.asks('jog', says({ ...how, press }), refused);
      asked -= 1;
      if (!answer?.goes && this.press === press) this.stop();
    };
    this.timer = setInterval(again, everyMs);
    again();
  }

  // By a key or a gamepad, until `stop`. The server is told when each is said: one that comes late moves nothing.
  // `down` is the stamp of its press.
  goes(axis, sign, rate, down = now()) {
    this.stop();
    this.keepOn({ axis, sign, rate, down }, BY_KEYS, wish => ({ ...wish, said: now() }));
  }

  // So many steps of the length that is chosen, as they were asked for; it waits for their end.
  steps(axis, count, said) {
    const length = inMillimetres(BigInt(Math.abs(count)) * typedNanometres(this.length));
    return this.asks('step', { axis, sign: Math.sign(count), rate: this.rate, length, said });
  }

  now() { return now(); }

  // The rate that is chosen, or one that is so many steps slower.
  slower(steps) {
    const at = RATES.findIndex(([, rate]) => rate === this.rate);
    return RATES[Math.max(0, at - steps)][1];
  }

  // The finger is gone, or somebody wants to hold.
  stop() {
    this.forget();
    clearInterval(this.timer);
    if (this.isOn) this.asks('jogstop', { press: this.press });
    this.isOn = false;
  }

  // While something is under way a jog that goes on may turn, and none goes by a step: that goes to its end. Where the
  // travel ends, as `ends` has it, none begins; the button that a finger is on hears of it as that is lifted.
  enable(isFree, isBusy, ends) {
    const isDown = this.isOn || this.finger;
    this.buttons.forEach((button, i) => {
      const [axis, sign] = PAD[i], isAtEnd = ends.includes(`${axis}${sign > 0 ? '+' : '-'}`);
      button.disabled = !isFree || isBusy && this.length !== null || isAtEnd && !isDown;
    });
    text(this.ends, isFree && ends.length ? `The travel ends there: ${ends.join(' ').replaceAll('-', '\u2212')}` : '');
    this.ends.hidden = !this.ends.textContent;
    if (!isFree) this.stop();
  }
}

function choices(name, options, chosen, first) {
  const box = el('div', { class: 'choices', role: 'group', 'aria-label': name });
  const choose = value => event => {
    for (const one of box.children) one.setAttribute('aria-pressed', String(one === event.currentTarget));
    chosen(value);
  };
  box.append(...options.map(([says, value]) =>
    el('button', { 'aria-pressed': String(value === first), onclick: choose(value) }, says)));
  return box;
}
