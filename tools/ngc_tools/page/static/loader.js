// A program is looked at before it is loaded: where it goes, which is drawn first, what ngc refuses, with carets, and
// what is dangerous.
import { changed, needed } from './adapting.js';
import { counted, el, grouped, micrometres, own, text, zeroOf } from './dom.js';
import { Job } from './job.js';
import { drawChecked, post, upload } from './link.js';
import * as sheet from './sheet.js';
import { Sight } from './sight.js';

const AGAIN_MS = 250;
const DOES = {
  adapt: () => 'ngc refuses it as it is; it is tried as ngc-adapt writes it\u2026',
  lines: told => `Line ${grouped(told.done)} of ${grouped(told.of)} is looked at\u2026`,
  warnings: () => 'No line is refused; what may be meant otherwise is looked for\u2026',
};

export async function load(file, app, asks, answers = {}) {
  const sight = new Sight(), wait = waiting(), wanted = new AbortController();
  const back = sheet.button('Cancel', sheet.close);
  const parts = sheet.open(`Load ${file.name}`, [wait.box], [sheet.gap(), back], sight.box);
  sheet.ending(() => {
    wait.end();
    wanted.abort();
  });
  sight.look(true);
  draw(() => upload('draw', file, wanted.signal), app, sight.picture);
  try {
    const found = await upload('check', file, wanted.signal, answers);
    if (wait.isOver || found.ended) return;
    show(found, parts, asks, answers, again => load(file, app, asks, again));
    if (found.adapted && !found.adapted.needs.length) {
      draw(() => drawChecked(found.id, wanted.signal), app, sight.picture);
    }
  } catch (error) {
    if (wait.isOver) return;
    parts.words.replaceChildren(sheet.warning(error.message, 'bad'));
  }
  wait.end();
  text(back, 'Back');
}

// How far the check is, asked for again and again.
function waiting() {
  const says = sheet.soft('ngc looks at each line\u2026'), bar = el('i');
  const wait = { box: el('div', {}, says, el('div', { class: 'track' }, bar)), isOver: false };
  const look = async () => {
    const { told } = await post('checking').catch(() => ({}));
    if (!told || wait.isOver) return;
    text(says, DOES[told.what](told));
    bar.style.width = `${100 * told.done / told.of}%`;
  };
  const timer = setInterval(look, AGAIN_MS);
  wait.end = () => {
    wait.isOver = true;
    clearInterval(timer);
  };
  return wait;
}

function show(found, parts, asks, answers, again) {
  const { adapted } = found, size = sheet.soft(`${grouped(found.bytes)} bytes, ${counted(found.count, 'line')}`);
  const needs = adapted?.needs.length > 0;
  const adapt = sheet.go('Adapt', () => again(adapt.answers), false);
  const ready = given => {
    adapt.answers = given;
    adapt.disabled = given === null;
  };
  const asked = needs ? [sheet.warning('As it is, ngc refuses this file. Before it can be adapted, say what these '
    + 'lines are to do.'), ...needed(adapted, answers, ready)] : [];
  const changes = adapted && !needs ? changed(adapted) : [];
  parts.words.replaceChildren(...[size, needs ? null : verdict(found), ...asked, ...changes,
    ...found.refusals.map(refusal), ...found.warnings.map(warning)].filter(Boolean));
  if (!found.unreadable) parts.foot.append(needs ? adapt : loading(found, asks));
}

// What can't be drawn stays away: what is wrong with it is told beside it.
async function draw(asked, app, picture) {
  const { state, travel } = app;
  picture.zero(zeroOf(state));
  picture.at(0, -1, 0, micrometres(state.motors ?? state.at));
  picture.show(app.preview = null, travel);
  try {
    app.preview = new Job(await asked());
    picture.show(app.preview, travel);
  } catch { /* the path stays away */ }
}

function verdict({ refusals, warnings, more, unreadable, adapted }) {
  if (unreadable) return sheet.warning(unreadable, 'bad');
  if (refusals.length) {
    const count = new Set(refusals.map(one => one.line)).size; // a line may have several faults
    const still = adapted ? 'Adapted, still ' : '';
    return sheet.warning(`${still}${counted(count, 'line')} refused${more ? ', and more' : ''}. A refused line stops `
      + 'the program there. Mend these, and load it again.', 'bad');
  }
  const none = adapted ? 'Adapted, no line is refused' : 'No line is refused';
  if (!warnings.length) return sheet.warning(`${none}, and there are no warnings.`, 'fine');
  return sheet.warning(`${none}. ${counted(warnings.length, 'warning')}: what is valid may be meant `
    + 'otherwise.');
}

function refusal(one) {
  const name = own(`${one.code} ${one.name}`), carets = el('b', { translate: 'no' }, one.carets);
  return el('div', { class: 'finding' }, el('h3', {}, `Line ${one.line}  `, name),
    one.text.trim() ? el('pre', { translate: 'no' }, one.text, '\n', carets) : null,
    el('p', {}, one.cause), one.cure ? el('p', {}, `Mend: ${one.cure}.`) : null);
}

function warning(one) {
  const where = one.line ? `Line ${one.line}  ` : '';
  return el('div', { class: 'finding mild' }, el('h3', {}, where, el('span', {}, 'Warning')),
    one.text.trim() ? el('pre', { translate: 'no' }, one.text) : null, el('p', {}, one.what));
}

function loading(found, asks) {
  const isRefused = found.refusals.length > 0, does = found.adapted ? 'Adapt and load' : 'Load';
  const give = () => {
    sheet.close();
    asks('load', { id: found.id });
  };
  if (!isRefused) return sheet.asking('load', sheet.go(does, give));
  return sheet.asking('load', sheet.button(found.adapted ? `${does} all the same` : 'Load it all the same', give));
}
