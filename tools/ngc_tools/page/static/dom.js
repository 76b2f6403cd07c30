// Elements, and numbers as people read them. All text becomes text: nothing that a program says is read as HTML. What
// is said is said in the language of the page, but in elements with translate: 'no', which have what people wrote.
import { attribute, put, words } from './language.js';

export const $ = id => document.getElementById(id);

const SYSTEMS = ['G54', 'G55', 'G56', 'G57', 'G58', 'G59', 'G59.1', 'G59.2', 'G59.3'];
export const AXES = ['X', 'Y', 'Z'];

const READ = ['aria-label', 'title', 'placeholder']; // attributes that people read

// Makes an element. `props` are its properties, and attributes where it has no such property.
export function el(tag, props = {}, ...children) {
  const made = document.createElement(tag), isOwn = props.translate === 'no';
  for (const [name, value] of Object.entries(props)) {
    if (name === 'class') made.className = value;
    else if (READ.includes(name) && !isOwn) attribute(made, name, value);
    else if (name in made && name !== 'translate') made[name] = value;
    else made.setAttribute(name, value);
  }
  const shown = child => (typeof child === 'string' && !isOwn ? words(child) : child);
  made.append(...children.filter(child => child !== null && child !== undefined && child !== '').map(shown));
  return made;
}

// What is a person's own: it stays as it was written.
export const own = (...written) => el('span', { translate: 'no' }, ...written);

export const text = put;

export const grouped = number => Number(number).toLocaleString('en');

export const counted = (count, what) => `${grouped(count)} ${what}${count === 1 ? '' : 's'}`;

// Millimetres to a thousandth, with a true minus sign.
export function mm(number, digits = 3) {
  const fixed = Number(number).toFixed(digits);
  return Number(fixed) === 0 ? (0).toFixed(digits) : fixed.replace('-', '\u2212');
}

export const point = at => AXES.map((axis, i) => `${axis} ${mm(at[i])}`).join('   ');

export const micrometres = at => at.map(number => Math.round(Number(number) * 1000));

// Where the work's zero is in a state, with the tool's length in it, in micrometres of machine coordinates.
export const zeroOf = s => AXES.map((_, i) => Math.round(1e6 * (s.work ? (s.motors ?? s.at)[i] - s.work[i]
  : s.origin[i])) / 1000);

// A number that somebody typed, as ngc reads it; null if it is none.
export function typedNumber(typed) {
  const plain = typed.trim().replace(',', '.').replace('\u2212', '-');
  return /^[-+]?(\d{1,7}\.?\d{0,6}|\.\d{1,6})$/.test(plain) ? plain : null;
}

export function lasting(us) {
  const s = Math.max(0, us / 1e6);
  if (s < 60) return `${s.toFixed(1)} s`;
  const whole = Math.round(s), two = n => String(n).padStart(2, '0');
  const h = Math.floor(whole / 3600), m = Math.floor(whole / 60) % 60;
  return h ? `${h}:${two(m)}:${two(whole % 60)} h` : `${m}:${two(whole % 60)} min`;
}

// How far the motors may be past the player's record, by what the server says of it.
export const byRecord = past => `By the player\u2019s record. ${past}, and more if the disk was slower at the very `
  + 'end; and a motor that turned went on for a while.';

export const systemName = number => SYSTEMS[number - 1] ?? '';

export const clock = date => date.toTimeString().slice(0, 8);

// The number of a line in the program that it is of, where the stored text leads to one of its lines first.
export function numbered(s, line) {
  const [way, first] = s.program.way;
  return line > way ? line - way + first - 1 : `${line} of the way`;
}

// Whether this page commands, and all holds that a command needs.
export const may = (s, command) => s.yours && s.can[command];
