// Sheets over the middle of the page: a question, findings, recovery. The state and Hold stay in sight.
import { $, el, may } from './dom.js';
import { means, rest, sizes } from './steady.js';

// What a sheet asks, and what its buttons answer: where that changes they are dead for a second.
const asked = '#over h1, #over h2, #over .asked, #over .foot button';
new MutationObserver(() => {
  if (!$('over').hidden) means($('over'), [...document.querySelectorAll(asked)].map(one => one.textContent).join('|'));
}).observe($('over'), { childList: true, subtree: true, characterData: true });

let ends = () => {}; // what is done for the sheet that is open ends

// What has to be done as the sheet that is open is closed, or another one opens in its place.
export function ending(does) {
  ends = does;
}

function end() {
  const does = ends;
  ends = () => {};
  does();
}

// Opens a sheet. Returns its parts, so that what is on it can be changed.
export function open(name, content, buttons, beside = null) {
  const sheet = { head: el('div', { class: 'head' }, el('h1', {}, name)), words: el('div', { class: 'words' }),
    foot: el('div', { class: 'foot' }) };
  sheet.words.append(...content.filter(Boolean));
  sheet.foot.append(...buttons.filter(Boolean));
  const middle = beside ? el('div', { class: 'two' }, sheet.words, beside) : sheet.words;
  if ($('over').hidden) rest($('over'));
  end();
  $('over').replaceChildren(sheet.head, middle, sheet.foot);
  $('over').hidden = false;
  sizes.observe(sheet.words);
  return sheet;
}

export function close() {
  end();
  if (!$('over').hidden) rest(...document.querySelectorAll('main > .place, main > .side, .path .views'));
  $('over').hidden = true;
  $('over').replaceChildren();
}

// Asks for a yes, and does then what was wanted, by a command. Returns the parts of its sheet.
export function ask(name, content, yes, command, does) {
  return open(name, content, [gap(), button('Back', close), asking(command, go(yes, () => { close(); does(); }))]);
}

// ---- buttons that ask for commands: while one isn't taken they are dead, also where that changes below the sheet

const needs = new Map();
let told = null; // the last state

// Gives a button which asks for a command back. `holds` is what it wants of a state besides.
export function asking(command, node, holds = () => true) {
  const isFree = s => may(s, command) && holds(s);
  needs.set(node, isFree);
  node.disabled = !told || !isFree(told);
  return node;
}

export function show(s) {
  told = s;
  for (const [node, isFree] of needs) {
    if (node.isConnected) node.disabled = !isFree(s);
    else needs.delete(node);
  }
}

// ---- what stands on a sheet

export const title = says => el('h2', {}, says);

export const said = (...says) => el('p', {}, ...says);

export const soft = says => el('p', { class: 'soft' }, says);

export const warning = (says, kind = '') => el('div', { class: `warn ${kind}` }, says);

export const facts = pairs => el('dl', { class: 'facts' },
  ...pairs.filter(([, what]) => what).flatMap(([name, what]) => [el('dt', {}, name), el('dd', {}, what)]));

export const code = says => el('span', { class: 'code', translate: 'no' }, says);

export const lead = says => el('div', { class: 'lead' }, says);

export const lines = texts => el('pre', { class: 'all' }, texts.join('\n'));

// ---- below it

export const gap = (says = '') => el('span', { class: 'gap' }, says);

export const button = (says, does, isEnabled = true) => el('button', { onclick: does, disabled: !isEnabled }, says);

export function go(says, does, isEnabled = true) {
  return el('button', { class: 'go', onclick: does, disabled: !isEnabled }, says);
}
