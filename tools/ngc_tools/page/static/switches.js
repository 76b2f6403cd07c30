// Switches and macros: each button is a line of G-code, or a few, which Log shows.
import { clock, el, may, text, typedNumber } from './dom.js';
import { get } from './link.js';
import { button } from './sheet.js';
import { means } from './steady.js';

const TURNS = [['clockwise', 'Clockwise', 'M3'], ['counter-clockwise', 'Reverse', 'M4'],
  ['spindle off', 'Off', 'M5']];
const COOLANT = [['flood', 'Flood', 'M8'], ['mist', 'Mist', 'M7'], ['coolant off', 'Off', 'M9']];

export class Switches {
  constructor(asks) {
    this.asks = asks;
    this.speed = el('input', { value: '1000', inputMode: 'numeric', 'aria-label': 'Speed of the spindle',
      oninput: () => this.show(this.shown) });
    const named = ([name, says, code]) => button(`${says} ${code}`, () => this.turn(name));
    this.turns = TURNS.map(named);
    this.coolant = COOLANT.map(named);
    this.above = button('Above work zero, Z up first', () => asks('above', {}));
    this.park = button('Park: off, Z up, to X Y of home', () => asks('park', {}));
    this.names = el('div', { class: 'macros' });
    this.why = el('p', { class: 'hint' });
    this.read = button('Read the macros', () => this.fetch(true));
    for (const one of [this.above, this.park, this.read]) one.className = 'wide';
    this.box = [el('label', { class: 'entry-row' }, 'Spindle at', this.speed, 'a minute'),
      el('div', { class: 'three' }, ...this.turns), el('div', { class: 'three' }, ...this.coolant),
      this.above, this.park];
    this.macros = [this.names, this.why, this.read];
    Object.assign(this, { shown: null, fetches: 0, isAsked: false });
  }

  turn(name) { this.asks('turn', { name, speed: Math.round(Number(typedNumber(this.speed.value) ?? 0)) }); }

  show(s) {
    this.shown = s;
    if (!s) return;
    const speed = Number(typedNumber(this.speed.value) ?? -1), isSpeed = Number.isInteger(speed) && speed > 0;
    this.speed.classList.toggle('wrong', !isSpeed);
    // M5 and M9, the last of each, are taken where two places are told too
    const isOff = i => i === TURNS.length - 1;
    this.turns.forEach((one, i) => { one.disabled = isOff(i) ? !may(s, 'mdi') : !may(s, 'turn') || !isSpeed; });
    this.coolant.forEach((one, i) => { one.disabled = !may(s, isOff(i) ? 'mdi' : 'turn'); });
    this.above.disabled = !may(s, 'above');
    this.park.disabled = !may(s, 'park');
    this.park.hidden = !s.has_park;
    for (const one of this.names.children) one.disabled = !may(s, 'macro');
  }

  // The macros of the file, as it is now. What somebody asked for is said, as it may be what was there before; where
  // they are asked for once more meanwhile, the later answer says it.
  async fetch(isAsked = false) {
    this.isAsked ||= isAsked;
    const number = this.fetches += 1, found = await get('macros').catch(() => null);
    if (number !== this.fetches) return;
    if (found) this.list(found);
    const none = `No macros: ${found?.path}, beside the settings, has lines as Lift = ["M5", "G53 G0 Z0"]`;
    const says = found ? found.failed || (found.macros.length ? '' : none)
      : 'The server doesn\u2019t answer: no macro was read';
    text(this.why, says || (this.isAsked ? `Read at ${clock(new Date())}: ${found.macros.length} in all` : ''));
    this.isAsked = false;
    this.why.hidden = !this.why.textContent;
    this.show(this.shown);
  }

  list(found) {
    this.names.replaceChildren(...found.macros.map(({ name, lines }) => el('button', { title: lines.join('\n'),
      translate: 'no', onclick: () => this.asks('macro', { name }) }, name)));
    means(this.names, found.macros.map(one => one.name).join('|'));
  }
}
