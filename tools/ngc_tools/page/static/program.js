// The program's text: only the rows in sight are made, so a long program costs no more than a short one.
import { $, counted, el, text } from './dom.js';

const LINE_EM = 1.8, MORE = 6;
const MOST_PX = 8e6;       // browsers don't scroll through much more; a longer text goes by faster
const FOLLOW_AGAIN_MS = 6000;

export class Program {
  constructor() {
    this.box = $('program');
    this.space = $('program-space');
    this.lines = [];
    this.rows = new Map();   // those in sight, by their place among the lines
    this.here = 0;           // the line that is under way, or comes next
    this.isRunning = false;
    this.followed = 0;       // the line that was brought into sight last
    this.touched = -Infinity;
    this.isAsked = false;
    this.way = [0, 1];       // how many lines lead to a line of a longer program, and the number of that line
    this.chosen = null;      // the line that somebody touched, by its number in the program
    this.space.addEventListener('click', event => this.choose(event.target.closest('.row')));
    this.box.addEventListener('scroll', () => this.draw(), { passive: true });
    for (const kind of ['wheel', 'pointerdown', 'touchmove', 'keydown']) {
      this.box.addEventListener(kind, () => { this.touched = performance.now(); }, { passive: true });
    }
    new ResizeObserver(() => { this.followed = 0; this.draw(); }).observe(this.box);
  }

  show(name, whole) {
    this.lines = whole === '' ? [] : whole.replace(/\r?\n$/, '').split(/\r?\n/);
    text($('program-name'), this.lines.length ? `${name || 'The stored program'}, ${counted(this.lines.length, 'line')}`
      : 'No program is stored');
    this.followed = 0;
    this.chosen = null;
    this.rows.clear();
    this.draw();
  }

  // A touch on a line chooses it, another one lets it go.
  choose(row) {
    const number = Number(row?.dataset.number);
    if (!number) return;
    this.chosen = number === this.chosen ? null : number;
    this.draw();
  }

  line(number) { return this.lines[number - 1] ?? ''; }

  follow(number, isRunning, isFinished) {
    const here = isFinished ? this.lines.length + 1 : number;
    if (here === this.here && isRunning === this.isRunning) return;
    Object.assign(this, { here, isRunning });
    this.draw();
  }

  draw() {
    if (this.isAsked) return;
    this.isAsked = true;
    requestAnimationFrame(() => { this.isAsked = false; this.render(); });
  }

  render() {
    const { box, lines } = this, seen = box.clientHeight;
    if (!seen) return;
    const height = parseFloat(getComputedStyle(box).fontSize) * LINE_EM, whole = lines.length * height + 8;
    const tall = Math.min(whole, MOST_PX), times = tall > seen ? (whole - seen) / (tall - seen) : 1;
    this.space.style.height = `${tall}px`;
    if (this.here !== this.followed && performance.now() - this.touched > FOLLOW_AGAIN_MS) {
      box.scrollTop = Math.max(0, ((this.here - 1) * height - seen * 0.38) / times);
      this.followed = this.here;
    }
    const top = box.scrollTop * times, first = Math.max(0, Math.floor(top / height) - MORE);
    const last = Math.min(lines.length, Math.ceil((top + seen) / height) + MORE);
    const rows = Array.from({ length: Math.max(0, last - first) }, (_, i) => this.row(first + i));
    rows.forEach((row, i) => { row.style.top = `${box.scrollTop + (first + i) * height - top}px`; });
    this.put(rows);
  }

  // Rows that are there stay: one that goes under a finger, and comes again, would never hear of the touch.
  put(rows) {
    const kept = new Set(rows);
    for (const one of [...this.space.children]) if (!kept.has(one)) one.remove();
    rows.forEach((row, i) => {
      if (this.space.children[i] !== row) this.space.insertBefore(row, this.space.children[i] ?? null);
    });
    this.rows = new Map(rows.map(row => [row.line, row]));
  }

  row(line) {
    const number = line + 1, here = this.isRunning ? 'here' : 'next';
    const kind = number < this.here ? 'past' : number === this.here ? here : '';
    const [way, first] = this.way, named = number > way ? number - way + first - 1 : 0;
    const chosen = named && named === this.chosen ? 'chosen' : '';
    const row = this.rows.get(line) ?? el('div', { translate: 'no' }, el('span', {}), this.lines[line]);
    row.line = line;
    row.className = `row ${kind} ${chosen}`;
    row.dataset.number = named;
    text(row.firstChild, named ? String(named) : '\u2193');
    return row;
  }
}
