// The connection to the server: one stream of states in, requests out, and a line of its own for Hold.
const SILENT_MS = 2500;
const BEAT_MS = 400;          // so often the server hears at most what came here last
const HELD_MS = 250;          // without an answer for so long Hold is asked for by a request too
const TAKES_MS = 2000, TRIES = 10;
const AGAIN_MS = 500;
const MOST_BYTES = 1048576; // of a program on a large device
const page = sessionStorage.page ??= named();
let stamp = '0-0', heard = 0; // the newest of the server's, and when it came: they tell how old a request is
let line = null, opened = -Infinity, held = () => {};
let beaten = 0, beats = false;

function named() {
  const bytes = crypto.getRandomValues(new Uint8Array(16));
  return Array.from(bytes, byte => byte.toString(16).padStart(2, '0')).join('');
}

// Opens the stream. `state` gets each state, `lost` is called once nothing comes any more, `back` once it does again.
export function connect({ state, lost, back }) {
  let source, last = performance.now(), isLost = false, isOver = false;
  const comes = said => {
    last = performance.now();
    if (isLost) back();
    isLost = false;
    newer(said);
    openLine();
    beat(said);
  };
  const open = () => {
    source?.close();
    source = new EventSource(`events?page=${page}`);
    source.addEventListener('stamp', event => comes(event.data));
    source.onmessage = event => {
      const said = JSON.parse(event.data);
      comes(said.stamp);
      isOver = Boolean(said.ended);
      state(said);
    };
  };
  const look = () => {
    if (performance.now() - last < SILENT_MS) return;
    if (!isLost) lost(isOver);
    isLost = true;
    if (source.readyState === EventSource.CLOSED) open();
  };
  open();
  setInterval(look, 250);
}

// The stamp of a touch: the newest one, and how long ago that came.
export function now() {
  const [ms, holds] = stamp.split('-');
  return `${Number(ms) + Math.round(performance.now() - heard)}-${holds}`;
}

const after = (one, other) => parseInt(one, 10) >= parseInt(other, 10);

function newer(said) {
  if (!said || !after(said, stamp)) return;
  stamp = said;
  heard = performance.now();
}

// ---- the line: it waits for no other request of this page, and says that the stream is read

// It is opened once the stream is, and again behind one that broke.
function openLine() {
  if (line || performance.now() - opened < AGAIN_MS) return;
  opened = performance.now();
  const mine = line = new WebSocket(new URL(`line?page=${page}`, location).href.replace('http', 'ws'));
  line.onmessage = event => {
    const [word, said] = event.data.split(' ');
    newer(said);
    if (word === 'held') held();
  };
  line.onclose = () => { if (line === mine) line = null; };
}

const isOpen = () => line?.readyState === WebSocket.OPEN;

function beat(said) {
  if (beats || performance.now() - beaten < BEAT_MS) return;
  beaten = performance.now();
  if (isOpen()) {
    line.send(`beat ${said}`);
    return;
  }
  beats = true;
  post('beat', { stamp: said }).catch(() => {}).finally(() => { beats = false; });
}

// Holds: by the line, and by requests until something answers. Throws an Error that says why it isn't done.
export async function hold() {
  const touch = named(); // so that it counts once
  let isHeld = false;
  const answer = new Promise(done => { held = done; }).then(() => { isHeld = true; });
  if (isOpen()) {
    line.send(`hold ${touch}`);
    await Promise.race([answer, pause(HELD_MS)]);
  }
  for (let tries = 1; !isHeld; tries += 1) {
    const asked = post('hold', { touch }, AbortSignal.timeout(TAKES_MS)).then(() => { isHeld = true; });
    try {
      await Promise.race([asked, answer]);
    } catch (error) {
      if (tries === TRIES) throw error;
      await Promise.race([answer, pause(AGAIN_MS)]);
    }
  }
}

const pause = ms => new Promise(done => { setTimeout(done, ms); });

// ---- requests

async function answered(request) {
  const answer = await request;
  newer(answer.headers.get('X-Stamp'));
  let said = {};
  try { said = await answer.json(); } catch { said = { why: answer.statusText }; }
  if (!answer.ok) throw new Error(said.why || answer.statusText);
  return said;
}

// Asks for something, by a touch that has a name, so that it is done once, however often it is sent. Throws an Error
// that says why it isn't done.
export function post(what, body = {}, signal = undefined) {
  const headers = { 'Content-Type': 'application/json', 'X-Page': page, 'X-Stamp': now(), 'X-Touch': named() };
  return answered(fetch(what, { method: 'POST', headers, body: JSON.stringify(body), signal }));
}

// Sends a program, to be looked at by `check`, or drawn by `draw`; `answers` are what a person said of it. Nobody wants
// it any more once `signal` is given.
export function upload(what, file, signal, answers = {}) {
  if (file.size > MOST_BYTES) {
    throw new Error(`${file.size.toLocaleString('en')} bytes: a program has at most 131,072, on a large device `
      + '1,048,576. ngc-split parts it.');
  }
  return send(what, file, { 'X-Name': encodeURIComponent(file.name), 'X-Answers': JSON.stringify(answers) }, signal);
}

// Asks for the drawing of a program that was looked at.
export const drawChecked = (id, signal) => send('draw', '', { 'X-Checked': id }, signal);

const before = {}; // one of each at a time: a browser has six connections, and commands need one

function send(what, body, more, signal) {
  const headers = { 'Content-Type': 'application/octet-stream', 'X-Page': page, ...more };
  const asked = () => answered(fetch(what, { method: 'POST', body, headers, signal }));
  const mine = Promise.resolve(before[what]).then(asked);
  before[what] = mine.catch(() => {});
  return mine;
}

export const get = what => answered(fetch(what, { headers: { 'X-Page': page } }));
