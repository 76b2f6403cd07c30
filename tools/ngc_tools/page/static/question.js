// What the session asks a person: a yes, or a number. Its text is the terminal's, which ends with what a yes does.
import { el, typedNumber } from './dom.js';
import * as sheet from './sheet.js';

const YES = /\s*\byes ([^:;,.]+)(?:, Enter holds)?(?:[,;] anything else ([^:]+))?:\s*$/i;
const GO = /, and type go; anything else ([^:]+):\s*$/;

// The text of a question without its end, what its answers do, and whether it wants a tool.
function read(question) {
  const whole = question.text.replaceAll('\n', ' '), tool = GO.exec(whole), found = tool ?? YES.exec(whole);
  if (!found) return { says: whole.trim().replace(/:$/, ''), yes: 'Yes', no: 'No' };
  const says = whole.slice(0, found.index).trim(), [yes, no] = tool ? ['', tool[1]] : found.slice(1, 3);
  return { says, isTool: tool !== null, yes: tool ? 'It is done' : `Yes: ${yes.trim()}`,
    no: no ? `No: ${no.trim()}` : 'No' };
}

// Its last sentence.
export const short = question => read(question).says.split(/(?<=[.?!]) /).pop() || 'Go on?';

// The parts of a sheet for a question: what was said before it, its text, an entry where a number is asked for, what is
// to be looked at, and the buttons. What was ticked stays on the sheet alone: whoever sees it anew looks anew.
export function parts(question, said, canAnswer, asks) {
  const { says, yes, no, isTool } = read(question), before = says ? said : said.slice(0, -1);
  const content = [sheet.lines(before), el('p', { class: 'asked' }, says || said.at(-1) || 'Go on?')];
  const answer = what => asks('answer', { question: question.id, ...what });
  const refuse = sheet.button(no, () => answer({ yes: false }), canAnswer);
  if (question.purpose === 'look') return looked(question, says, yes, refuse, canAnswer, answer);
  if (question.kind !== 'yes' && !isTool) return entry(question, content, refuse, canAnswer, answer);
  const agree = sheet.go(yes, () => answer(isTool ? { text: 'go' } : { yes: true }), canAnswer);
  return { content, buttons: [refuse, agree] };
}

// What somebody has to have looked at before anything moves: each is touched.
function looked(question, says, yes, refuse, canAnswer, answer) {
  const seen = question.looks.map(() => false);
  const agree = sheet.go(yes, () => answer({ yes: true, seen: seen.filter(Boolean).length }), false);
  const look = i => event => {
    seen[i] = !seen[i];
    event.currentTarget.setAttribute('aria-pressed', String(seen[i]));
    agree.disabled = !(canAnswer && seen.every(Boolean));
  };
  const looks = question.looks.map((one, i) => el('button', { 'aria-pressed': 'false', disabled: !canAnswer,
    onclick: look(i) }, one));
  const content = [sheet.title(`${says.split('. ')[0]}. Look:`), el('div', { class: 'look' }, ...looks)];
  return { content, buttons: [refuse, agree] };
}

function entry(question, content, refuse, canAnswer, answer) {
  const unit = / in mm a minute\? /.test(question.text) ? ' mm/min' : ' mm';
  const value = /Nothing takes ([\d.]+):\s*$/.exec(question.text)?.[1] ?? '';
  const input = el('input', { value, inputMode: 'decimal', disabled: !canAnswer, 'aria-label': 'Answer' });
  const give = sheet.go('Go on', () => answer({ text: typedNumber(input.value) }), canAnswer && value !== '');
  input.addEventListener('input', () => { give.disabled = !canAnswer || typedNumber(input.value) === null; });
  return { content: [...content, el('div', { class: 'entry' }, input, unit)], buttons: [refuse, give] };
}
