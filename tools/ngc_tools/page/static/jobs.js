// The folder of programs: each with a small picture, its size, its time, and how its last run ended. Which file it is
// the server knows by a number; it is looked at and loaded as one that is chosen here.
import { el, grouped, lasting, text } from './dom.js';
import { get } from './link.js';
import { load } from './loader.js';
import * as sheet from './sheet.js';

const AGAIN_MS = 1000, SELDOM_MS = 5000; // while something is worked out, and then

export class Jobs {
  constructor(app, asks, log) {
    Object.assign(this, { app, asks, log });
    this.rows = new Map(); // by the number of a file
  }

  // The sheet on which a program is chosen; `other` chooses a file of this computer.
  async open(other) {
    const list = el('div', { class: 'jobs' }, sheet.soft('The folder is looked at\u2026'));
    this.rows.clear();
    const { head } = sheet.open('Load', [list], [sheet.button('Back', sheet.close), sheet.gap(),
      sheet.button('A file of this device\u2026', () => { sheet.close(); other(); })]);
    while (head.isConnected && await this.fetch(list));
  }

  // Shows the list as it is now, and waits; whether it is asked for again.
  async fetch(list) {
    const found = await get('jobs').catch(error => ({ failed: error.message, jobs: [] }));
    if (found.failed) {
      list.replaceChildren(sheet.warning(found.failed, 'bad'));
      return false;
    }
    for (const job of found.jobs) this.show(job);
    const rows = found.jobs.map(job => this.rows.get(job.id).row);
    const none = sheet.soft(`No programs in ${found.folder}`);
    if (rows.length !== list.children.length || rows[0] !== list.firstChild) {
      list.replaceChildren(...(rows.length ? rows : [none]));
    }
    const ms = found.jobs.some(job => job.pending) ? AGAIN_MS : SELDOM_MS;
    await new Promise(done => { setTimeout(done, ms); });
    return true;
  }

  // A row stays the same button: one that is made anew under the finger would lose its touch.
  show(job) {
    if (!this.rows.has(job.id)) this.rows.set(job.id, this.row(job));
    const { row, picture, facts, more } = this.rows.get(job.id);
    row.disabled = Boolean(job.why);
    if (job.us !== null && !picture.src) picture.src = `jobpicture?id=${job.id}`;
    text(facts, job.why || [`${grouped(job.bytes)} bytes`, timeOf(job)].filter(Boolean).join(', '));
    text(more, job.why ? '' : [job.failed && `Refused: ${job.failed}`, job.last && `Last run: ${job.last}`]
      .filter(Boolean).join('. '));
  }

  row(job) {
    const picture = el('img', { alt: '' }), facts = el('small'), more = el('small');
    const words = el('span', {}, el('b', { translate: 'no' }, job.name), facts, more);
    return { row: el('button', { onclick: () => this.take(job) }, picture, words), picture, facts, more };
  }

  async take({ id, name }) {
    const answer = await fetch(`jobtext?id=${id}`).catch(() => null);
    if (!answer?.ok) {
      this.log.refuse((await answer?.json().catch(() => null))?.why ?? 'The server doesn\u2019t answer');
      return;
    }
    load(new File([await answer.blob()], name), this.app, this.asks);
  }
}

function timeOf({ us, ramps, pending }) {
  if (us === null) return pending ? 'its time is worked out\u2026' : '';
  return `${ramps ? '' : 'about '}${lasting(us)}`;
}

// The record of runs, newest first.
export async function record() {
  const found = await get('runs').catch(() => null);
  if (!found) return;
  const lines = found.lines.length ? found.lines.reverse() : ['No run is recorded yet'];
  sheet.open('Record of runs', [sheet.lines(lines)], [sheet.button('Back', sheet.close), sheet.gap()]);
}
