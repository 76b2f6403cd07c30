// The stock as it is typed, in mm of the program: a corner, a size, the height of its top. It is assumed until then.
import { el, micrometres, typedNumber } from './dom.js';
import { button } from './sheet.js';

const LABELS = ['Corner X', 'Corner Y', 'Size X', 'Size Y', 'Top Z'];
const LEAST_MM = 0.1;

export class StockEntries {
  // `changed` is called once another stock is typed, or none any more.
  constructor(changed) {
    Object.assign(this, { changed, typed: null, program: null });
    this.inputs = LABELS.map(label => el('input', { inputMode: 'decimal', 'aria-label': `${label} of the stock, in mm`,
      onchange: () => this.take() }));
    this.asAssumed = button('As assumed', () => {
      this.typed = null;
      changed();
    });
    const [x, y, wide, deep, top] = this.inputs, row = (...parts) => el('div', { class: 'extents' }, ...parts);
    this.box = el('div', {}, row('Corner X, Y', x, y), row('Size X, Y', wide, deep), row('Top Z', top, this.asAssumed));
  }

  // What is typed is of one program, in its coordinates, wherever its zero is; `assumed` has machine coordinates.
  show(program, zero, assumed) {
    if (program !== this.program) this.typed = null;
    Object.assign(this, { program, zero, assumed });
    const { low, size, top } = this.stock;
    [low[0] - zero[0], low[1] - zero[1], ...size, top - zero[2]].forEach((um, i) => {
      this.inputs[i].value = String(Math.round(um) / 1000);
      this.inputs[i].classList.remove('wrong');
    });
    this.asAssumed.disabled = !this.typed;
  }

  // The stock in machine coordinates.
  get stock() {
    const { typed, zero } = this;
    if (!typed) return this.assumed;
    const [x, y, wide, deep, top] = typed;
    return { low: [x + zero[0], y + zero[1]], size: [wide, deep], top: top + zero[2] };
  }

  // Takes what stands in the entries, if it is a stock.
  take() {
    const numbers = this.inputs.map(input => typedNumber(input.value)), isSize = i => i === 2 || i === 3;
    const isWrong = (number, i) => number === null || isSize(i) && !(Number(number) >= LEAST_MM);
    this.inputs.forEach((input, i) => input.classList.toggle('wrong', isWrong(numbers[i], i)));
    if (numbers.some(isWrong)) return;
    this.typed = micrometres(numbers);
    this.changed();
  }
}
