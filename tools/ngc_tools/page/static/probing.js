// Probing: which routine, where the probe is put before, and by which lengths. What it moves the server says, and asks.
import { el } from './dom.js';
import { get } from './link.js';
import * as sheet from './sheet.js';
import { picture } from './touches.js';
import { entered, follow, nanometres, typedLength, typedNanometres, unit } from './units.js';

const TITLES = { edge: 'Edge', outside: 'Outside corner', inside: 'Inside corner', surface: 'Surface', bore: 'Bore',
  boss: 'Boss', pocket: 'Pocket', web: 'Web' };
const LENGTHS = { within: 'At most, to each face', along: 'Along each edge', size: 'Its width, about',
  down: 'Down beside it' };
const MINUS = '\u2212';
let table = null; // the routines, once they are fetched

export class Probing {
  constructor(asks) {
    this.asks = asks;
    this.why = el('div'); // a routine can't begin
    follow(() => { this.typed = {}; }); // lengths that somebody typed, by their names
  }

  // Whether a routine may begin, and why the probe is none for any of them, or for one along Z.
  show(isFree, why, whyNoZ) {
    Object.assign(this, { isFree, noProbe: why, noZ: whyNoZ });
    if (this.start?.isConnected) this.check();
  }

  // The sheet on which a routine is chosen.
  async open() {
    table ??= (await get('routines').catch(() => null))?.routines ?? null;
    if (!table) return;
    const choices = table.map(one => el('button', { onclick: () => this.choose(one, waysOf(one)[0]) },
      picture(one.name, waysOf(one)[0]), TITLES[one.name]));
    sheet.open('Probe the work', [el('div', { class: 'routines' }, ...choices)],
      [sheet.button('Back', sheet.close), sheet.gap('Nothing moves yet.')]);
  }

  // The sheet of one routine.
  choose(routine, ways) {
    this.name = routine.name;
    this.start = sheet.go('Probe', () => this.begin(routine, ways));
    const entries = Object.entries(routine.lengths).map(([name, usual]) => this.entry(name, usual));
    const all = waysOf(routine).map(one => el('button', { 'aria-pressed': String(one === ways),
      onclick: () => this.choose(routine, one) }, one.replaceAll('-', MINUS)));
    sheet.open(TITLES[routine.name], [
      el('div', { class: 'routine' }, picture(routine.name, ways), el('div', {},
        sheet.said(`Put the probe ${routine.where}. It goes from there along the arrows, one axis at a time.`),
        all.length > 1 ? el('div', { class: 'choices', role: 'group', 'aria-label': 'Towards the work' }, ...all) : '',
        ...entries, this.why))],
    [sheet.button('Back', () => this.open()), sheet.gap('It says first what moves, and asks.'), this.start]);
    this.check();
  }

  entry(name, usual) {
    const value = this.typed[name] ?? (Number(usual) ? entered(nanometres(usual)) : '');
    this.typed[name] = value;
    const input = el('input', { value, inputMode: 'decimal', 'aria-label': `${LENGTHS[name]}, in ${unit.name}` });
    input.addEventListener('input', () => {
      this.typed[name] = input.value;
      this.check();
    });
    return el('label', { class: 'entry-row' }, LENGTHS[name], input, unit.name);
  }

  // A routine begins with lengths alone, and with a probe.
  check() {
    const no = this.noProbe || (this.name === 'surface' && this.noZ) || '';
    this.why.replaceChildren(no ? sheet.warning(no) : '');
    const inputs = [...document.querySelectorAll('#over .routine input')];
    const isWrong = one => !((typedNanometres(one.value) ?? 0n) > 0n);
    for (const one of inputs) one.classList.toggle('wrong', isWrong(one) && one.value.trim() !== '');
    this.start.disabled = !this.isFree || no !== '' || inputs.some(isWrong);
  }

  begin(routine, ways) {
    const lengths = Object.fromEntries(Object.keys(routine.lengths).map(name => [name, typedLength(this.typed[name])]));
    sheet.close();
    this.asks('probe', { routine: routine.name, ways, lengths });
  }
}

// The axes and directions that it can be done in, as it is typed.
function waysOf({ ways, is_directed: isDirected }) {
  if (!ways) return [''];
  if (!isDirected) return ['X', 'Y'];
  const one = ['X+', 'X-', 'Y+', 'Y-'];
  return ways === 1 ? one : one.slice(0, 2).flatMap(x => one.slice(2).map(y => `${x} ${y}`));
}
