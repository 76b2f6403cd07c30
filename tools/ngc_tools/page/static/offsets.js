// The offsets: origins of G54 to G59.3, G92, the tool length in force, as the device has them. One is chosen, and
// written anew: what it was, what it would be and the difference stand there before.
import { AXES, el, may, text } from './dom.js';
import * as sheet from './sheet.js';
import { means } from './steady.js';
import { entered, follow, nanometres, shown, typedLength, typedNanometres, unit } from './units.js';

const SYSTEMS = ['G54', 'G55', 'G56', 'G57', 'G58', 'G59', 'G59.1', 'G59.2', 'G59.3'];
const LENGTH = 'G43';
const NAMES = [...SYSTEMS, 'G92', LENGTH];

export class Offsets {
  constructor(asks) {
    this.asks = asks;
    this.parts = null;
    this.chosen = 'G54';
    this.gave = this.comesBack = false; // once a question that takes its place is answered
    follow(() => this.draw());
  }

  get isOpen() { return Boolean(this.parts?.head.isConnected); }

  open() {
    this.rows = NAMES.map(name => this.row(name));
    this.editor = el('div', { class: 'sight words' });
    this.undo = sheet.button('Undo', () => this.gives('undo', {}));
    this.parts = sheet.open('Offsets', [el('div', { class: 'offsets' }, ...this.rows.map(row => row.button))],
      [sheet.button('Back', sheet.close), sheet.gap(`Nothing moves by these. All is in ${unit.name}.`), this.undo],
      this.editor);
    this.gave = this.comesBack = false;
    this.draw();
  }

  row(name) {
    const origin = el('span'), here = el('small'), says = el('b', {}, name === LENGTH ? 'Length' : name);
    const button = el('button', { 'aria-pressed': 'false', onclick: () => { this.chosen = name; this.draw(); } }, says,
      el('span', {}, origin, here));
    return { name, button, origin, here };
  }

  show(s) {
    const before = this.isOpen && this.state ? keyOf(this.state) : '';
    this.state = s;
    if (s.question && this.isOpen) this.comesBack = this.gave;
    if (this.comesBack && !s.busy && !s.question) this.open();
    if (!this.isOpen) return;
    this.showRows();
    if (keyOf(s) !== before) this.edit();
    else this.check();
  }

  // All of it, in the unit that is chosen.
  draw() {
    if (!this.isOpen || !this.state) return;
    this.showRows();
    this.edit();
  }

  showRows() {
    const s = this.state, { offsets } = s;
    for (const { name, button, origin, here } of this.rows) {
      button.setAttribute('aria-pressed', String(name === this.chosen));
      button.classList.toggle('here', name === SYSTEMS[s.system - 1]);
      const at = SYSTEMS.includes(name) && offsets.here?.[SYSTEMS.indexOf(name)];
      text(origin, name === LENGTH ? lengthWords(s) : axesWords(numbers(s, name)));
      text(here, at ? `machine here: ${axesWords(at)}` : besides(s, name));
    }
    this.undo.disabled = !may(s, 'undo') || !s.undo;
    text(this.undo, s.undo ? `Undo: ${s.undo}` : 'Undo');
    means(this.undo, this.undo.textContent);
  }

  // What writes the one that is chosen.
  edit() {
    const name = this.chosen, s = this.state;
    const title = { [LENGTH]: 'Tool length in force', G92: 'G92 offset in force' }[name] ?? `Origin of ${name}`;
    this.entries = [];
    const content = name === LENGTH ? this.lengths(s) : AXES.map((axis, i) => this.entry(axis, numbers(s, name)[i]));
    this.set = sheet.go(`Set ${name}`, () => this.sets());
    this.none = name === LENGTH || name === 'G92' ? sheet.button(name === 'G92' ? 'None: G92.1' : 'None: G49',
      () => this.gives('offset', { name: name === 'G92' ? 'G92.1' : 'G49' })) : '';
    this.editor.replaceChildren(sheet.title(title), ...content, el('div', { class: 'four' },
      name === LENGTH ? '' : this.set, this.none));
    this.check();
  }

  entry(axis, before) {
    const was = nanometres(before);
    const input = el('input', { value: entered(was), inputMode: 'decimal', autocomplete: 'off',
      'aria-label': `${this.chosen} ${axis}, in ${unit.name}`, oninput: () => this.check() });
    const differs = el('small');
    input.addEventListener('keydown', event => { if (event.key === 'Enter' && !this.set.disabled) this.sets(); });
    this.entries.push({ axis, input, was, differs, first: input.value });
    return el('label', { class: 'confirm' }, el('b', {}, axis), input, el('span', {}, unit.name), differs);
  }

  // A button for each length of the tool table.
  lengths(s) {
    const slots = s.tools.map((length, i) => sheet.button(`H${i + 1}: ${shown(nanometres(length))} ${unit.name}`,
      () => this.gives('offset', { name: LENGTH, slot: i + 1 }), may(s, 'offset')));
    return [sheet.said(slots.length ? 'G43 takes the length of a slot:' : 'No tool has a length yet.'),
      el('div', { class: 'slots' }, ...slots)];
  }

  // What is no number is marked, and can't be set; nor can what is as it was.
  check() {
    const s = this.state, isFree = may(s, 'offset');
    for (const { input, was, differs, first } of this.entries) {
      const now = typedNanometres(input.value), by = now === null ? 0n : now - was;
      input.classList.toggle('wrong', now === null);
      input.disabled = !isFree;
      const sign = by > 0n ? '+' : '';
      text(differs, now === null ? 'not a number' : input.value === first || !by ? ''
        : `${exact(was)} to ${exact(now)} ${unit.name}, by ${sign}${exact(by)}`);
    }
    const changed = this.changed();
    this.set.disabled = !isFree || !Object.keys(changed).length || Object.values(changed).includes(null);
    const isNone = this.chosen === LENGTH ? !Number(s.tool_length) : !s.offsets.g92.some(Number);
    if (this.none) this.none.disabled = !isFree || isNone;
    this.editor.querySelectorAll('.slots button').forEach((one, i) => {
      one.disabled = !isFree || Number(s.tools[i]) === Number(s.tool_length);
    });
  }

  // The axes that are written, with what is typed.
  changed() {
    const all = this.entries.filter(({ input, first }) => input.value !== first);
    return Object.fromEntries(all.map(({ axis, input }) => [axis, typedLength(input.value)]));
  }

  sets() { this.gives('offset', { name: this.chosen, axes: this.changed() }); }

  gives(what, words) {
    for (const { input } of this.entries) input.blur();
    this.gave = true;
    this.asks(what, words);
  }
}

// All but the place: where that changes, what is being typed stays.
const keyOf = s => JSON.stringify([{ ...s.offsets, here: null }, s.tools, s.slot, s.tool_length]);

const exact = nm => entered(nm).replace('-', '\u2212');

const numbers = (s, name) => (name === 'G92' ? s.offsets.g92 : s.offsets.origins[SYSTEMS.indexOf(name)]);

const axesWords = at => AXES.map((axis, i) => `${axis} ${shown(nanometres(at[i]))}`).join('  ');

function lengthWords(s) {
  if (!Number(s.tool_length)) return 'none';
  return `${shown(nanometres(s.tool_length))} ${unit.name}`;
}

// What is told beside G92 and the tool length.
function besides(s, name) {
  const { offsets } = s, isOn = offsets.g92.some(Number), slots = offsets.length_slots;
  if (name === LENGTH) {
    const own = s.slot ? `T${s.slot} is in` : 'no tool is in';
    const whose = slots.length ? `as slot ${slots.join(', ')} has` : 'no slot has it';
    return Number(s.tool_length) ? `${whose}; ${own}` : own;
  }
  if (name !== 'G92') return '';
  if (isOn) return 'in force until the program\u2019s end';
  return offsets.g92_stored.some(Number) ? `not in force; stored: ${axesWords(offsets.g92_stored)}` : 'not in force';
}
