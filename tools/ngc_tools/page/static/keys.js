// Jogging by keys, by a wheel that sends keys, and by a gamepad, once a switch turns them on. It is off as the page is
// loaded, and goes off by itself: after a minute without a key, in a window that isn't in front, and where keys mean
// something else, as in an entry. One axis moves at a time, for as long as its key is heard of; another key ends that.
import { $, el, may, text } from './dom.js';
import { notice } from './notice.js';
import { Pad } from './pad.js';

const WAYS = { ArrowRight: ['X', 1], ArrowLeft: ['X', -1], ArrowUp: ['Y', 1], ArrowDown: ['Y', -1], PageUp: ['Z', 1],
  PageDown: ['Z', -1] };
const WHEEL = { '+': 1, '-': -1 };
const TICK_MS = 10;
const OFF_MS = 60000;
const SILENT_MS = 110;  // so long an axis goes on behind a key that came, or repeats: its release may be lost
const FIRST_MS = 1100;  // within so long a key that is down repeats
const CLICK_MS = 100;                // a click of the wheel that couldn't be done for so long isn't done any more
const TYPED = 'input, textarea, select, [contenteditable], #program'; // what takes these keys itself

export class Keys {
  // `whyNot` says why nothing jogs now, nothing where it does.
  constructor(jog, whyNot) {
    Object.assign(this, { jog, whyNot });
    this.ms = { off: OFF_MS };
    this.isOn = false;
    this.down = new Set(); // the keys of ways that are down
    this.held = null;      // the one that jogs: when it was heard of last, and whether its axis rests until it repeats
    this.clicks = [];
    this.axis = 'X';       // of the wheel
    this.isAsked = false;
    this.pad = new Pad(jog, () => this.refusal());
    this.toggle = el('button', { role: 'switch', 'aria-checked': 'false', class: 'wide switch',
      onclick: () => this.turn(!this.isOn) }, el('i'), el('span', {}, 'By keys or gamepad'));
    this.hint = el('p', { class: 'hint', hidden: true });
    this.box = [this.toggle, this.hint];
    document.addEventListener('keydown', event => this.comes(event), { capture: true });
    document.addEventListener('keyup', event => this.goes(event), { capture: true });
    document.addEventListener('focusin', event => { if (event.target.matches(TYPED)) this.turn(false); });
    for (const kind of ['blur', 'pagehide']) window.addEventListener(kind, () => this.turn(false));
    document.addEventListener('visibilitychange', () => { if (document.hidden) this.turn(false); });
    setInterval(() => { if (this.isOn) this.look(); }, TICK_MS);
  }

  turn(isOn, why = '') {
    if (this.isOn && !isOn) this.end(why);
    if (isOn) document.activeElement?.closest?.(TYPED)?.blur();
    this.isOn = isOn;
    this.used = performance.now();
    this.down.clear();
    this.clicks = [];
    this.pad.forget();
    this.toggle.setAttribute('aria-checked', String(isOn));
    document.body.classList.toggle('keys', isOn);
    this.says();
  }

  says() {
    this.hint.hidden = !this.isOn;
    text(this.hint, 'Arrows: X Y. Page up, down: Z. A wheel by + and \u2212: a step along '
      + `${this.axis}; x, y, z choose. Gamepad: while a shoulder button is held`);
  }

  // What stands now: another page may have taken over.
  show(s) {
    this.toggle.disabled = !s.yours;
    if (this.isOn && !s.yours) this.turn(false);
  }

  // Why nothing is jogged now; nothing where it is.
  refusal() { return $('over').hidden ? this.whyNot() : 'A sheet is open: close it first.'; }

  comes(event) {
    if (!this.isOn) return;
    const way = WAYS[event.key], isAxis = /^[xyz]$/i.test(event.key), isMine = way || isAxis || WHEEL[event.key];
    const hasMore = event.ctrlKey || event.altKey || event.metaKey || way && event.shiftKey;
    if (isMine && !hasMore) event.preventDefault();
    if (event.repeat) {
      if (way) this.used = performance.now();
      if (this.held?.code === event.code) this.repeats();
      return;
    }
    const isAnew = this.held?.rests && this.held.code === event.code; // it was let go unseen
    if (this.held && !isAnew || this.pad.goes) this.end('Another key: it stops. Let all of them go.');
    else if (isMine && !hasMore) this.takes(event, way, isAxis);
    if (way) this.down.add(event.code);
  }

  // Takes a key that stands for something, while none is held.
  takes(event, way, isAxis) {
    this.used = performance.now();
    const isFree = [...this.down].every(code => code === event.code); // that one was let go unseen
    const why = isAxis ? '' : this.refusal() || (isFree ? '' : 'Another key is down: let all of them go first.')
      || (!way && this.jog.length === null ? 'Choose a step for the wheel, as 0.1.' : '');
    if (why) this.jog.refuse(why);
    else if (isAxis) this.axis = event.key.toUpperCase();
    else if (way && this.jog.length === null) this.begin(event.code, way);
    else this.click(...(way ?? [this.axis, WHEEL[event.key]]));
    this.says();
  }

  begin(code, way) {
    this.held = { code, way, at: performance.now(), rests: false, down: this.jog.now() };
    this.jog.goes(...way, this.jog.rate, this.held.down);
  }

  goes(event) {
    this.down.delete(event.code);
    if (this.held?.code === event.code) this.end();
  }

  // The key is down: its axis goes on, or again. What somebody held since that key came, the server refuses.
  repeats() {
    const { held } = this;
    held.at = performance.now();
    if (!held.rests) return;
    const why = this.refusal();
    held.rests = false;
    if (!why) {
      this.jog.goes(...held.way, this.jog.rate, held.down);
      return;
    }
    this.held = null;
    this.jog.refuse(why);
  }

  end(why = '') {
    if (why && (this.held || this.pad.goes)) notice(why, 'warning');
    this.held = null;
    this.pad.forget();
    this.jog.stop();
  }

  // Looks again and again whether all is still as it has to be.
  look() {
    const now = performance.now();
    if (!document.hasFocus()) this.turn(false);
    else if (now - this.used > this.ms.off && !this.held) this.turn(false);
    else if (this.held) this.lookAtKey(now);
    if (!this.isOn) return;
    if (!this.held && this.pad.look()) this.used = now;
    this.pump(now);
  }

  // The axis of a key that isn't heard of rests, until that repeats; so each does behind the first moment, as keyboards
  // repeat late. One that ended otherwise, as at a limit or by a hold, doesn't go again.
  lookAtKey(now) {
    const { held } = this, ms = now - held.at;
    if (held.rests ? ms > FIRST_MS : !this.jog.isOn) {
      this.held = null;
    } else if (!held.rests && ms > SILENT_MS) {
      held.rests = true;
      this.jog.stop();
    }
  }

  // A step, by a key or by a click of the wheel.
  click(axis, sign) {
    this.clicks.push({ axis, sign, at: performance.now(), said: this.jog.now() });
    this.pump(performance.now());
  }

  // Does the steps that were asked for last, at once; those that came while another one was under way aren't kept.
  async pump(now) {
    if (this.isAsked) return;
    const [first, ...more] = this.clicks.filter(one => now - one.at < CLICK_MS);
    this.clicks = [];
    if (!first) return;
    const count = more.filter(one => one.axis === first.axis).reduce((sum, one) => sum + one.sign, first.sign);
    if (!count) return;
    this.isAsked = true;
    await this.jog.steps(first.axis, count, first.said);
    this.isAsked = false;
  }
}

// Why nothing jogs; nothing where it does.
export function whyNoJog(s, whyNot) {
  if (!s) return 'Nothing is known of the machine yet.';
  if (may(s, 'jog')) return '';
  const why = whyNot(s);
  if (why) return why;
  if (s.ended) return 'ngc has ended: nothing jogs.';
  if (s.player_gone) return 'The player is gone: nothing jogs.';
  if (s.busy) return `${s.word}: Hold comes before the axes are jogged.`;
  return s.machine === null ? 'This player makes no moves by itself: nothing jogs.' : 'Nothing jogs now.';
}
