// The page: what the server says is shown, what people touch is asked. It decides nothing.
import { Alarm, isThere } from './alarm.js';
import { $, byRecord, el, grouped, lasting, may, micrometres, mm, numbered, own, text, zeroOf } from './dom.js';
import { Calls } from './calls.js';
import { Job, TRAVERSE } from './job.js';
import { Jobs, record } from './jobs.js';
import { say } from './language.js';
import { connect, get, hold as asksHold, post } from './link.js';
import { load } from './loader.js';
import { Log } from './log.js';
import { Picture } from './picture.js';
import { Program } from './program.js';
import * as question from './question.js';
import { Readout } from './readout.js';
import { Recovery } from './recovery.js';
import { Setup } from './setup.js';
import * as sheet from './sheet.js';
import * as sight from './sight.js';
import { StockSheet } from './stock_sheet.js';
import { dead, means, rest, sizes } from './steady.js';
import * as tools from './tools.js';
import { place, unit } from './units.js';
import { givenBack, lostOf } from './ways.js';

const app = {
  state: null, job: null, neverCut: null, travel: null, programId: null, jobId: null, failed: '', asked: '',
  asking: null, preview: null,
};
window.ngc = app; // for who looks at the page from outside, as tests do

// The commands by which lines of the program run.
const PROGRAM = ['run', 'from', 'resume', 'recover', 'release'];

const log = new Log();
const program = new Program();
const readout = new Readout(asks);
const calls = new Calls();
const setup = new Setup(asks, why => log.refuse(why), calls);
const jobs = new Jobs(app, asks, log);
const picture = new Picture($('canvas'), (um, px) => {
  text($('scale'), um >= 1000 ? `${grouped(um / 1000)} mm` : `${um} µm`);
  $('scale').style.width = `${px}px`;
});
const recovery = app.recovery = new Recovery(app, asks, log);
const stock = new StockSheet(app, asks);
const alarm = new Alarm(asks, () => { if (recovery.isOpen) recovery.later(); });
Object.assign(app, { picture, program, readout, stock, dead, keys: setup.keys });
$('run').addEventListener('click', () => rest($('run'))); // the second tap of two means nothing
// What moves buttons as it comes or goes.
document.querySelectorAll('header, header button, .tab > *, .program-head > *, footer > *, .switches > *')
  .forEach(part => sizes.observe(part));

new MutationObserver(() => { if (app.state) showControls(app.state); })
  .observe($('over'), { attributes: true, attributeFilter: ['hidden'] });

// Asks the server for something. Gives its answer, or null where it isn't done; `refused` is told why.
async function asks(what, body, refused = why => log.refuse(why)) {
  try {
    return await post(what, body);
  } catch (error) {
    refused(error.message);
    return null;
  }
}

const run = () => asks('run');
let quitting = null; // the sheet that asks whether the session is to end

// ---- what the server says

function show(s) {
  if (app.state && app.state.session !== s.session) {
    location.reload(); // what is on the page is of another session
    return;
  }
  if (app.state && app.state.program.id !== s.program.id) letGoOfJob();
  app.state = s;
  sheet.show(s);
  alarm.show(s);
  showWords(s);
  showControls(s);
  const reached = progress(s);
  readout.show(s, rate(s, reached));
  const isOfProgram = s.half === 'program' || s.half === 'none' && s.busy && PROGRAM.includes(s.command?.word);
  program.way = s.program.way;
  program.follow(s.line, isOfProgram, s.finished);
  setup.show(s);
  calls.show(s);
  tools.show(s, may(s, 'tool'), asks);
  log.show(s.log, noticed(s));
  text($('version'), s.version);
  recovery.show(s);
  showQuestion(s);
  const isHalf = s.half !== 'none' && !s.busy && s.does === 'idle' && !s.ended;
  if (isHalf && !s.alarm && !recovery.isOpen && !recovery.isLater) recovery.begin();
  if (s.half === 'none') recovery.isLater = false;
  fetchNew(s);
}

// What is seen beside the finger: a question shows by itself what was said before it, the band an alarm, and the sheet
// after a loss of power what was never cut.
function noticed(s) {
  if (!s.yours || s.question) return [];
  return s.alarm ? ['refused'] : ['refused', 'warning'];
}

function showWords(s) {
  document.body.dataset.tone = s.tone;
  text($('word'), s.word);
  $('detail').translate = !s.message || s.detail !== s.message; // else it is the program's own
  text($('detail'), s.word === 'Question' ? question.short(s.question) : s.detail);
  document.title = `${say(s.word)} \u2013 ngc`;
  document.body.classList.toggle('blind', Boolean(s.stale));
  const others = s.pages - 1;
  const watched = others > 0 ? `${others} more page${others > 1 ? 's' : ''}` : '';
  text($('role'), s.yours ? watched : 'This page watches');
}

function showControls(s) {
  $('takeover').hidden = s.yours;
  $('load').disabled = !may(s, 'load');
  $('quit').disabled = !may(s, 'quit') || Boolean(quitting?.head.isConnected); // what it opens is open
  $('restart').hidden = !(s.yours && !s.over && (s.ended || s.broken));
  $('line').disabled = !may(s, 'mdi');
  enableDo();
  $('stock').disabled = !app.job;
  $('hold').disabled = !s.can.hold;
  $('stop').disabled = !may(s, 'stop');
  $('rewind').hidden = !may(s, 'rewind') || s.program.way[0] > 0; // Run asks for the way by itself
  showFrom(s);
  showOff(s);
  for (const name of ['single', 'optional', 'delete']) {
    $(name).setAttribute('aria-checked', String(Boolean(s[name])));
    $(name).disabled = !may(s, name);
  }
  const [says, isEnabled, does] = running(s);
  text($('run'), says);
  means($('run'), says);
  $('run').disabled = !isEnabled;
  $('run').onclick = does;
}

// A line that was touched may be the one to go on from; with the first one Run begins.
function showFrom(s) {
  $('from').hidden = !program.chosen || program.chosen < s.program.second || !s.yours;
  $('from').disabled = !may(s, 'from') || !$('over').hidden;
  if (!program.chosen) return;
  text($('from'), `From line ${program.chosen}\u2026`);
  means($('from'), program.chosen);
}

// What is on can be switched off while the motors stand. The switches beside it make room.
function showOff(s) {
  const on = [s.spindle && 'spindle', (s.mist || s.flood) && 'coolant'].filter(Boolean).join(' and ');
  $('off').hidden = !on || s.player_gone || s.ended;
  means($('off').parentElement, $('off').hidden ? '' : on);
  $('off').disabled = !may(s, 'off');
  text($('off'), `${on.charAt(0).toUpperCase()}${on.slice(1)} off`);
}

// A line has to be there.
function enableDo() {
  $('do').disabled = $('line').disabled || !$('line').value.trim();
}

// What the large button does now.
function running(s) {
  const isHalf = s.half !== 'none' && !s.busy && s.does === 'idle';
  if (s.ended) return ['Run', false, null];
  if (s.question) return ['Answer first', false, null];
  if (isThere(s)) return alarm.button(s);
  if (s.command?.word === 'stop') return ['Stopping\u2026', false, null];
  const isIn = s.waits_tool ? `Tool ${s.waits_tool} is in` : 'Tool is out';
  if (s.waits && !s.player_gone) return [isIn, may(s, 'go'), () => asks('go', { tool: s.waits_tool, shown: s.motors })];
  if (s.door_open && s.held_by && !isHalf) return ['Close the door', false, null];
  if (s.busy && s.held_by && s.held_by !== 'here') return ['Go on', may(s, 'release'), () => asks('release')];
  if (isHalf) return ['Recover', s.yours && !recovery.isOpen, () => recovery.begin()];
  if (s.player_gone) return ['Run', false, null];
  const isFree = $('over').hidden; // on a sheet something is asked already, perhaps the same
  if (s.recover?.left && !s.busy && s.half === 'none') return ['Recover', s.yours && isFree, takeUpLines];
  if (s.held_motors && s.behind && s.does !== 'held' && !s.busy) return ['Go on', may(s, 'release'), () => asks('release')];
  if (s.does === 'held') return ['Continue', may(s, 'run'), run];
  const canRun = may(s, 'run') && isFree;
  if (s.unsure || s.apart.some(Boolean) || isNowhere(s)) return ['Where is it?', canRun, whereIsIt];
  if (s.does === 'stopped') return ['Continue', canRun, () => (s.typed ? goOn(s, 'Continue') : run())];
  const from = `Run from ${s.place > 0 ? numbered(s, s.line) : s.program.way[1]}`;
  if (s.place > 0 && !s.busy) return [from, canRun && s.known, () => goOn(s, from)];
  if (s.program.way[0] && !s.busy) return [from, canRun && s.known, run];
  return ['Run', canRun && s.known && s.program.lines > 0 && !app.job?.refused, run];
}

// What tells where the machine is.
function toldOf(s) {
  if (s.known && s.apart.some(Boolean)) return 'Two places are told';
  return s.known ? 'The motors moved as their last player ended' : 'The player alone tells a place';
}

// Nothing is half-done, and nobody told since where the machine is: as after a line was given up.
const isNowhere = s => !s.known && s.half === 'none' && ['idle', 'stopped'].includes(s.does) && Boolean(s.motors);

// The motors rest at another place than where ngc takes them to be: as after power was lost in a jog.
function whereIsIt() {
  const s = app.state, hasHome = s.machine !== null && s.homes !== '';
  const off = s.past_mm ? `, \u00b1 ${mm(s.past_mm)} mm` : '';
  const does = (what, body) => () => { sheet.close(); asks(what, body); };
  sheet.open('Where is the machine?', [
    sheet.warning(`${toldOf(s)}. Look at the machine: a line goes from the place that is true.`),
    sheet.facts([['The player counts', sheet.code(`${place(s.motors)} ${unit.name}`)],
      ['The last line ended at', s.known && sheet.code(`${place(s.at)} ${unit.name}`)]]),
    s.past && sheet.said(byRecord(s.past)),
    hasHome && sheet.said('Where steps may be lost, as after a loss of power, home it.')],
  [sheet.button('Back', sheet.close), sheet.gap('Nothing moves by the first.'),
    sheet.asking('reference',
      sheet.button(`Where the player counts${off}`, does('reference', { at: 'player', shown: s.motors }))),
    hasHome ? sheet.asking('home', sheet.go('Home all', does('home', { axes: '' }))) : '']);
}

// A question that isn't of the recovery comes as a sheet of its own, and stays there as long as it is asked.
function showQuestion(s) {
  const id = s.question ? `${s.question.id} ${s.yours}` : '', isShown = app.asking?.head.isConnected;
  if (recovery.isOpen || id === app.asked && (!id || isShown)) return;
  if (id) {
    const said = log.since(s.command?.since ?? Infinity, ['said', 'warning', 'refused']);
    const { content, buttons } = question.parts(s.question, said, s.yours, asks);
    app.asking = sheet.open('A question', content, [sheet.gap(), ...buttons]);
  } else if (isShown) {
    sheet.close();
  }
  app.asked = id;
}

// Where the program is, in the picture, the bar and the times. Gives the step that the motors are on.
function progress(s) {
  const { job } = app, motors = micrometres(s.motors ?? s.at), place = job ? job.place(s) : { done: 0, now: -1 };
  if (s.does_move) place.now = -1; // no line is under way
  const ahead = 1000 * (s.behind_mm ?? 2) + 1000;
  const reached = place.now >= 0 ? job.reached(place.now, motors, ahead) : { step: -1, share: 0, part: 1 };
  const done = place.now >= 0 ? reached.step : place.done;
  Object.assign(app, { place, reached });
  picture.zero(zeroOf(s));
  picture.at(done, reached.step, reached.part, motors);
  showTimes(s, done, s.busy || s.does === 'held' ? reached.share : 0);
  return reached;
}

function showTimes(s, done, share) {
  const { job } = app;
  if (!job || !s.program.lines) {
    const drawing = app.failed || 'The path is being drawn\u2026';
    text($('share'), s.command?.word === 'load' ? 'ngc tries the program\u2026' : s.program.lines ? drawing : '');
    text($('left'), '');
    $('bar').style.width = '0';
    return;
  }
  const left = job.left(done, share), percent = job.total ? 100 * (1 - left / job.total) : 0;
  $('bar').style.width = `${percent}%`;
  const whole = lasting(job.total * job.ramps), of = `${Math.floor(percent)} % of ${whole}`;
  const rest = lasting(left * job.ramps * 100 / (s.percent ?? 100));
  text($('share'), job.refused ? `Ends refused at line ${numbered(s, job.refused.line)}` : s.finished ? 'Done' : of);
  text($('left'), s.finished ? whole : `${job.exact ? '' : 'about '}${rest} left`);
}

// How fast the motors go, by the step that they are on.
function rate(s, { step }) {
  if (!app.job || step < 0 || s.tone !== 'run' || s.half === 'none' || s.does_move) return null;
  const mean = app.job.rate(step) * (s.percent ?? 100) / 100;
  return mean ? { feed: mean, isTraverse: app.job.kind[step] === TRAVERSE } : null;
}

async function fetchNew(s) {
  await fetchOnce('programId', s.program.id, 'program', got => program.show(got.name, got.text));
  await fetchOnce('jobId', app.state.job, 'job', showJob);
}

// Fetches what isn't on the page yet. What fails is asked for again with the next state; an answer that comes once
// something newer was asked for is let go.
async function fetchOnce(name, id, what, shows) {
  if (app[name] === id) return;
  app[name] = id;
  const got = await get(what).catch(() => null);
  if (app[name] !== id) return;
  if (got) shows(got); else app[name] = null;
}

// What was drawn is of another program.
function letGoOfJob() {
  Object.assign(app, { job: null, jobId: null, failed: '', neverCut: null });
  picture.lost = [];
  $('never-cut').hidden = true;
  picture.show(null, app.travel);
  stock.job();
}

function showJob(got) {
  app.job = got.job ? new Job(got.job) : null;
  app.failed = got.failed;
  app.travel = [got.low, got.high];
  app.neverCut = got.never_cut;
  picture.lost = lostOf(app.neverCut);
  $('never-cut').hidden = !picture.lost.length;
  picture.show(app.job, app.travel);
  recovery.job();
  show(app.state);
  stock.job();
}

// Lines stand in OUT that no motor carried out, and no block is half-done.
function takeUpLines() {
  const { words } = app.state.recover, does = what => () => { sheet.close(); asks(what); };
  // on a way that was held nothing is cut off
  const drop = sheet.asking('drop', sheet.button('Drop', does('drop')), s => !s.behind);
  sheet.open('Lines that no motor carried out', [el('p', { class: 'asked' }, words), ...givenBack(app.state),
    sheet.said('Recover lets the motors go there, each step asked. Drop cuts these lines off, and nothing makes them '
      + 'any more.')],
  [sheet.button('Back', sheet.close), sheet.gap('Nothing moves yet.'), drop,
    sheet.asking('recover', sheet.go('Recover', does('recover')), s => !s.recover?.problem)]);
}

// From the middle of a program what is on stays as it is, and a cut may come first: it is rehearsed before. Where
// something else is asked meanwhile, or the sheet is closed, nobody waits for that any more.
async function goOn(s, title) {
  const opened = sheet.open(title, [sheet.soft('ngc rehearses it over a copy of the device; nothing moves\u2026')],
    [sheet.gap(), sheet.button('Back', sheet.close)]);
  const found = await asks('rehearse');
  if (!opened.head.isConnected) return;
  if (!found) {
    sheet.close();
    return;
  }
  const does = what => () => { sheet.close(); asks(what); };
  opened.words.replaceChildren(...goingOn(s, found).filter(Boolean));
  const restore = s.restore?.length ? sheet.asking('restore', sheet.button('Restore', does('restore'))) : '';
  opened.foot.append(restore, sheet.asking('run', sheet.go(title, does('run'))));
}

// What is said before the program goes on.
function goingOn(s, found) {
  const turns = s.spindle === 1 ? 'clockwise' : 'counter-clockwise';
  const spindle = s.spindle ? `The spindle turns ${turns} at ${grouped(s.speed)}.`
    : 'The spindle is off, and nothing switches it on by itself: give M3 as a line first, unless it is meant so.';
  return [
    found.refused && sheet.warning(found.refused, 'bad'),
    ...(found.differs ?? []).map(one => sheet.warning(one, 'bad')),
    s.restore?.length ? sheet.said(`Restore puts back what your lines left in force: ${s.restore.join(', ')}`) : null,
    sheet.warning(spindle, s.spindle ? 'fine' : ''), sheet.lead(own(program.line(s.line))),
    sheet.said(`The tool goes on from where it is now: ${place(s.at)} ${unit.name}. Look that the way is free.`),
    sheet.lines(found.lines.slice(1))];
}

// ---- what people touch

function hold() {
  app.pressed = performance.now();
  setup.jog.stop();
  asksHold().catch(error => log.refuse(error.message));
}

function stop() {
  setup.jog.stop();
  asks('stop');
}

for (const [name, does] of [['hold', hold], ['stop', stop]]) {
  $(name).addEventListener('pointerdown', event => {
    event.preventDefault();
    if (!$(name).disabled) does();
  });
  $(name).addEventListener('click', event => { if (event.detail === 0) does(); }); // by the keyboard
}
$('off').onclick = () => asks('off');
$('from').onclick = () => asks('from', { line: program.chosen });
$('program-space').addEventListener('click', () => { if (app.state) showFrom(app.state); });
$('rewind').onclick = () => sheet.ask('From line 1?', [sheet.said('The program begins anew at its first line, as if it '
  + 'were loaded again. Nothing moves yet.')], 'From line 1', 'rewind', () => asks('rewind'));
document.addEventListener('keydown', event => {
  const isTyping = event.target.closest?.('input') && !event.target.disabled;
  if (event.code !== 'Space' || event.repeat || isTyping && !app.state?.busy) return;
  event.preventDefault();
  hold();
});
document.addEventListener('keyup', event => {
  if (event.code === 'Space' && event.target.tagName === 'BUTTON') event.preventDefault();
});
$('takeover').onclick = () => asks('takeover');
$('restart').onclick = () => asks('restart');
let typed = ''; // the last line, for the key that goes up
$('line').addEventListener('keydown', event => {
  if (event.key === 'ArrowUp' && typed) $('line').value = typed;
  enableDo();
});
$('line').addEventListener('input', enableDo);
$('typed').addEventListener('submit', async event => {
  event.preventDefault();
  const line = $('line').value.trim();
  if (!line || !await asks('mdi', { line })) return;
  typed = line;
  if ($('line').value.trim() === line) $('line').value = ''; // else the next one is typed already
  enableDo();
});
for (const name of ['single', 'optional', 'delete']) {
  $(name).onclick = () => asks('switch', { name, on: $(name).getAttribute('aria-checked') !== 'true' });
}
$('load').onclick = () => (app.state.jobs ? jobs.open(() => $('file').click()) : $('file').click());
$('runs').onclick = record;
$('file').onchange = () => {
  const [file] = $('file').files;
  if (file) load(file, app, asks);
  $('file').value = '';
};
$('quit').onclick = () => {
  const isHalf = app.state.half !== 'none';
  const stays = isHalf ? 'A line stays half-done: it is taken up or given up in the next session.'
    : 'What is stored stays.';
  quitting = sheet.ask('End the session?', [sheet.said(stays)], 'Quit', 'quit', () => asks('quit'));
};

function look(isFlat) {
  $('view-top').setAttribute('aria-pressed', String(isFlat));
  $('view-solid').setAttribute('aria-pressed', String(!isFlat));
  picture.look(isFlat);
}

$('view-top').onclick = () => look(true);
$('view-solid').onclick = () => look(false);
$('fit').onclick = () => picture.fit();
$('stock').onclick = () => stock.open();

const tabs = [...document.querySelectorAll('[data-tab]')];

function choose(tab) {
  for (const button of tabs) {
    const isChosen = button.dataset.tab === tab;
    button.setAttribute('aria-selected', String(isChosen));
    $(`tab-${button.dataset.tab}`).hidden = !isChosen;
    if (isChosen) button.classList.remove('news');
  }
}

for (const button of tabs) button.onclick = () => choose(button.dataset.tab);

function theme(name) {
  document.documentElement.dataset.theme = name;
  localStorage.theme = name;
  text($('theme'), name === 'light' ? 'Dark' : 'Light');
  picture.recolour();
  sight.recolour();
  stock.recolour();
}

$('theme').onclick = () => theme(document.documentElement.dataset.theme === 'light' ? 'dark' : 'light');
theme(localStorage.theme ?? 'dark');

function lost(isOver) {
  const s = app.state;
  const running = s?.on_loss === 'go' ? 'The job goes on, as was chosen.'
    : 'The machine holds, unless its power is gone too.';
  const silent = 'The server doesn\u2019t answer, or four pages are open already.';
  const says = isOver ? 'The session has ended.' : !s ? silent
    : s.busy ? running : 'Nothing was running when it was lost.';
  text($('lost-says'), says);
  $('lost').hidden = false;
}

connect({
  state: s => {
    show(s);
    if (app.pressed && s.does === 'held') {
      app.holdMs = performance.now() - app.pressed;
      app.pressed = 0;
    }
  },
  lost,
  back: () => {
    $('lost').hidden = true;
    app.jobId = app.programId = null;
  },
});
