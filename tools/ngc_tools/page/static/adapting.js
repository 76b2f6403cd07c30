// A CAM system's text as it is written for ngc: each changed line, and what a person has to say first.
import { counted, el, typedNumber } from './dom.js';
import * as sheet from './sheet.js';

const ASKS = {
  lift: () => [['Machine Z that the tool is lifted to there', 'mm']],
  park: () => [['Machine X that the table is brought to there', 'mm'],
    ['Machine Y that the table is brought to there', 'mm']],
  tool: need => [[`Slot of tool ${need.tool}`, '']],
};

// What is changed.
export function changed({ changes, count, whole, warnings }) {
  return [
    sheet.warning(`As it is, ngc refuses this file. Adapted, ${counted(count, 'line')} of it `
      + `${count === 1 ? 'is' : 'are'} written otherwise, with the same motions. Each stands here.`),
    ...warnings.map(one => sheet.warning(`Line ${one.line}: ${one.what}`, 'bad')),
    ...whole.map(sheet.said),
    ...changes.map(one => el('div', { class: 'finding change' },
      el('h3', {}, `Line ${one.line}  `, el('span', {}, one.why)),
      el('pre', { translate: 'no' }, el('del', { translate: 'no' }, `\u2212 ${one.before}`), '\n',
        el('ins', { translate: 'no' }, `+ ${one.after}`)))),
    count > changes.length ? sheet.soft(`and ${counted(count - changes.length, 'more line')}`) : null,
  ].filter(Boolean);
}

// What a person has to say before. `ready` is told the answers once all are given, null else.
export function needed({ needs }, before, ready) {
  const entries = needs.flatMap(need => ASKS[need.what](need).map(([says, unit], place) => {
    const input = el('input', { inputMode: 'decimal', 'aria-label': says });
    return { need, place, input, row: el('label', { class: 'entry-row' }, says, input, unit) };
  }));
  const told = () => {
    const answers = { ...before, tools: { ...before.tools } };
    const isGiven = entries.map(one => take(answers, one)).every(Boolean);
    ready(isGiven ? answers : null);
  };
  for (const { input } of entries) input.addEventListener('input', told);
  return needs.flatMap(need => [sheet.code(need.line),
    ...entries.filter(one => one.need === need).map(one => one.row)]);
}

// Takes an answer; whether it is one.
function take(answers, { need, place, input }) {
  const number = typedNumber(input.value);
  if (number === null) return false;
  if (need.what === 'lift') answers.lift = number;
  if (need.what === 'park') answers.park = Object.assign([...answers.park ?? ['', '']], { [place]: number });
  if (need.what !== 'tool') return true;
  const slot = Number(number);
  answers.tools[need.tool] = slot;
  return Number.isInteger(slot) && slot >= 1 && slot <= 128;
}
