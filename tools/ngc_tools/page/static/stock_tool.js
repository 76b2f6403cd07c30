// The shape of a tool, as it is typed: its diameter, its tip, of a V the angle. It is kept beside the settings.
import { el, typedNumber } from './dom.js';
import { button } from './sheet.js';

const TIPS = { flat: 'Flat', ball: 'Ball', v: 'V' };
const MOST_MM = 1000, MOST_DEGREES = 180;

export class ToolRow {
  // `has` is the shape that is kept, null for none; `keeps` is told another one, or null.
  constructor(slot, has, isYours, keeps) {
    const name = `T${slot}`, changed = () => this.check();
    Object.assign(this, { slot, has, isYours, tip: has?.tip ?? 'flat' });
    const entry = (value, label) => el('input', { value, inputMode: 'decimal', 'aria-label': label, oninput: changed });
    this.diameter = entry(has ? String(has.diameter) : '', `Diameter of ${name}, in mm`);
    this.angle = entry(has?.angle ? String(has.angle) : '', `Angle of ${name}, in degrees`);
    this.tips = Object.keys(TIPS).map(tip => el('button', { onclick: () => this.choose(tip) }, TIPS[tip]));
    this.angled = el('label', { class: 'angle' }, 'degrees, both sides', this.angle);
    this.keep = button('Keep', () => keeps(slot, this.typed));
    this.box = el('div', { class: 'shape' }, el('b', {}, name), this.diameter,
      el('div', { class: 'choices', role: 'group', 'aria-label': `Tip of ${name}` }, ...this.tips), this.keep,
      this.angled);
    this.check();
  }

  choose(tip) {
    this.tip = tip;
    this.check();
  }

  // What is typed; null where no diameter is.
  get typed() {
    const diameter = typedNumber(this.diameter.value), { tip } = this;
    if (diameter === null) return null;
    return tip === 'v' ? { diameter, tip, angle: typedNumber(this.angle.value) } : { diameter, tip };
  }

  // What isn't a shape is marked, and can't be kept; without a diameter it is forgotten.
  check() {
    const isNone = !this.diameter.value.trim(), isV = this.tip === 'v';
    const isRight = isWithin(this.diameter, MOST_MM), isAngle = isWithin(this.angle, MOST_DEGREES - 1e-6);
    this.diameter.classList.toggle('wrong', !isNone && !isRight);
    this.angle.classList.toggle('wrong', isV && this.angle.value.trim() !== '' && !isAngle);
    this.angled.hidden = !isV;
    Object.keys(TIPS).forEach((tip, i) => this.tips[i].setAttribute('aria-pressed', String(tip === this.tip)));
    this.keep.disabled = !this.isYours || (isNone ? !this.has : !isRight || isV && !isAngle);
  }

  // The file has this now.
  kept(has) {
    this.has = has;
    this.check();
  }
}

function isWithin(input, most) {
  const number = Number(typedNumber(input.value) ?? 0);
  return number > 0 && number <= most;
}
