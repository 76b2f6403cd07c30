// The unit of the readout and of what is typed, for this browser: mm, or inches. All is reckoned in whole nanometres,
// of which an inch has 25,400,000. What is typed goes to the server with its unit.
import { AXES, el, text, typedNumber } from './dom.js';
import { attribute } from './language.js';

const INCH = 25400000n;
const listeners = [];
const entries = []; // of which what is typed is turned into the unit that is chosen

export const unit = {
  isInch: localStorage.unit === 'in',
  get name() { return this.isInch ? 'in' : 'mm'; },
};

// Chooses it. What stands in entries stays the same length.
export function choose(isInch) {
  const lengths = entries.map(({ input, nm, says }) => (input.value === says ? nm : typedNanometres(input.value)));
  unit.isInch = isInch;
  localStorage.unit = unit.name;
  entries.forEach((entry, i) => {
    if (lengths[i] !== null) entry.input.value = entered(lengths[i]);
    Object.assign(entry, { nm: lengths[i], says: entry.input.value });
  });
  for (const does of listeners) does();
}

// What is done now, and once another unit is chosen.
export function follow(does) {
  listeners.push(does);
  does();
}

// A whole quotient, rounded half away from zero.
function rounded(number, by) {
  const half = (2n * (number < 0n ? -number : number) + by) / (2n * by);
  return number < 0n ? -half : half;
}

// Millionths, of a number with at most six decimals.
function millionths(text) {
  const [, sign, whole, decimals = ''] = /^([-+]?)(\d*)\.?(\d*)$/.exec(text);
  const size = BigInt(`0${whole}${decimals.padEnd(6, '0')}`);
  return sign === '-' ? -size : size;
}

// Nanometres of millimetres as the server tells them.
export const nanometres = text => millionths(text);

// Nanometres of what is typed in the unit that is chosen; null if it is no number.
export function typedNanometres(typed) {
  const plain = typedNumber(typed);
  if (plain === null) return null;
  return unit.isInch ? rounded(millionths(plain) * INCH, 1000000n) : millionths(plain);
}

// What is typed, with its unit, as the server takes it; null if it is no number.
export function typedLength(typed) {
  const plain = typedNumber(typed);
  return plain === null ? null : `${plain}${unit.name}`;
}

// The same as the server takes it.
export function inMillimetres(nm) {
  const size = String(nm < 0n ? -nm : nm).padStart(7, '0');
  return `${nm < 0n ? '-' : ''}${size.slice(0, -6)}.${size.slice(-6)}`;
}

// Nanometres in the unit that is chosen, with so many decimals, and a true minus sign.
export function shown(nm, digits = unit.isInch ? 4 : 3) {
  const count = rounded(nm * 10n ** BigInt(digits), unit.isInch ? INCH : 1000000n);
  const size = String(count < 0n ? -count : count).padStart(digits + 1, '0');
  return `${count < 0n ? '\u2212' : ''}${size.slice(0, -digits)}.${size.slice(-digits)}`;
}

// The same without zeros at its end, as it may be typed.
export const entered = nm => shown(nm, 6).replace(/\.?0+$/, '').replace('\u2212', '-');

// A machine point, or one of the work, as the server tells it.
export const place = at => AXES.map((axis, i) => `${axis} ${shown(nanometres(at[i]))}`).join('   ');

// The name of the unit, as it stands beside an entry.
export function unitName() {
  const name = el('span');
  follow(() => text(name, unit.name));
  return name;
}

// An entry for a length that stays on the page; `millimetres` is what stands in it first, nothing for nothing.
export function lengthEntry(millimetres, label, oninput) {
  const nm = millimetres === '' ? null : nanometres(millimetres), says = nm === null ? '' : entered(nm);
  const input = el('input', { value: says, inputMode: 'decimal', oninput });
  entries.push({ input, nm, says });
  follow(() => attribute(input, 'aria-label', `${label}, in ${unit.name}`));
  return input;
}
