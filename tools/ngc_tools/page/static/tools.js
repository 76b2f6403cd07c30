// The tool table: a length for each slot, which the device keeps, and how wide the probe's ball is.
import { $, el } from './dom.js';
import { warning } from './sheet.js';
import { entered, nanometres, typedLength, typedNanometres, unit } from './units.js';

let shown = '';

export function show(s, isIdle, asks) {
  const key = JSON.stringify([s.tools, s.slot, s.ball, s.yours, isIdle, unit.name]);
  if (key === shown || document.activeElement?.closest?.('#tab-tools input')) return;
  shown = key;
  const lengths = [...s.tools, ''].slice(0, s.most_slots);
  const rows = lengths.map((length, i) => row(i + 1, length, s, isIdle, asks));
  $('tab-tools').replaceChildren(
    el('p', { class: 'hint' }, `Lengths in ${unit.name}. A new length counts from the next G43 on. Slots that are `
      + 'passed over get 0, as of a tool that isn\u2019t measured.'), ...rows, ...s.ball ? ball(s, asks) : []);
}

// The slot of the probe, and how wide its ball is.
function ball({ ball: { slot, diameter, wrong }, yours }, asks) {
  const input = el('input', { value: diameter === null ? '' : entered(nanometres(diameter)), inputMode: 'decimal',
    disabled: !yours, placeholder: 'a diameter', 'aria-label': `Diameter of the ball of the probe, T${slot}` });
  const give = () => {
    input.blur();
    asks('shape', { slot, diameter: typedLength(input.value), tip: 'ball' });
  };
  const button = el('button', { onclick: give }, 'Set');
  const check = () => {
    const typed = typedNanometres(input.value) ?? 0n, isRight = typed > 0n;
    input.classList.toggle('wrong', !isRight && input.value.trim() !== '');
    button.disabled = !yours || !isRight || diameter !== null && typed === nanometres(diameter);
  };
  input.addEventListener('input', check);
  check();
  return [el('p', { class: 'hint' }, `T${slot} is the probe. How wide is its ball?`),
    el('div', { class: 'slot ball' }, el('b', { translate: 'no' }, '\u2300'), input, unit.name, button),
    wrong ? warning(wrong, 'bad') : ''];
}

function row(slot, length, s, isIdle, asks) {
  const isNew = length === '';
  const input = el('input', { value: isNew ? '' : entered(nanometres(length)), inputMode: 'decimal',
    disabled: !isIdle, placeholder: isNew ? 'a length' : '', 'aria-label': `Length of tool ${slot}` });
  const number = el('input', { value: String(slot), inputMode: 'numeric', disabled: !isIdle,
    'aria-label': 'Number of a new tool' });
  const typed = () => [isNew ? slotNumber(number.value, slot, s.most_slots) : slot, typedLength(input.value)];
  const give = () => {
    const [own, length] = typed();
    for (const one of [input, number]) one.blur();
    asks('tool', { slot: own, length });
  };
  const button = el('button', { onclick: give }, isNew ? 'Add' : 'Set');
  const check = () => { // what isn't a number is marked, and can't be given
    const [own, length] = typed();
    input.classList.toggle('wrong', length === null && input.value.trim() !== '');
    number.classList.toggle('wrong', own === null);
    button.disabled = !isIdle || own === null || length === null;
  };
  for (const one of [input, number]) one.addEventListener('input', check);
  input.addEventListener('keydown', event => { if (event.key === 'Enter' && !button.disabled) give(); });
  check();
  const isIn = s.slot === slot ? 'in' : '';
  return el('div', { class: `slot ${isIn}` }, isNew ? number : el('b', {}, `T${slot}`), input, unit.name, button);
}

// The number of a slot that isn't in the table yet; null for another one.
function slotNumber(typed, first, most) {
  const number = /^\s*T?\s*(\d{1,3})\s*$/i.exec(typed)?.[1];
  return number && number >= first && number <= most ? Number(number) : null;
}
