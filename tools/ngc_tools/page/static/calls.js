// Calls somebody who isn't at the page: the browser's own notification at a stop, a tool change, the end and a failure,
// once it was asked for; and a screen that stays on while a job runs.
import { el, text } from './dom.js';
import { say } from './language.js';

const SAYS = { granted: 'This browser tells you of stops, tool changes and the end',
  denied: 'This browser doesn\u2019t tell you of stops: its settings for this page forbid it' };

export class Calls {
  constructor() {
    this.ran = false;        // a job was seen to run, and nobody was called since
    this.wanted = true;      // somebody is wanted, as the last state said
    this.lock = null;
    this.ask = el('button', { class: 'wide', onclick: () => this.allow() });
    this.why = el('p', { class: 'hint' });
    this.box = [this.ask, this.why];
    document.addEventListener('visibilitychange', () => this.keepOn(this.isOn));
    this.showAsk();
  }

  async allow() {
    await Notification.requestPermission();
    this.showAsk();
  }

  showAsk() {
    const state = globalThis.Notification?.permission ?? 'denied';
    this.ask.hidden = state !== 'default';
    text(this.ask, 'Tell me at a stop, a tool change, the end');
    text(this.why, SAYS[state] ?? '');
    this.why.hidden = state === 'default';
  }

  show(s) {
    this.keepOn(s.tone === 'run' || s.waits);
    const isWanted = s.tone === 'ask' || s.tone === 'fail' || s.finished && !s.busy;
    const said = s.finished ? [say('The job is done'), s.program.name]
      : [say(s.word), s.detail === s.message ? s.message : say(s.detail)];
    // a job may come to its first stop before any state says that it runs
    if (isWanted && !this.wanted && (this.ran || s.moving && !s.does_move)) this.tell(...said);
    this.wanted = isWanted;
    this.ran = s.tone === 'run' && !s.does_move || this.ran && !isWanted && s.busy;
  }

  // Whoever looks at the page sees it there.
  tell(title, body) {
    if (globalThis.Notification?.permission !== 'granted' || !document.hidden && document.hasFocus()) return;
    const call = new Notification(title, { body, tag: 'ngc' });
    call.onclick = () => { globalThis.focus(); call.close(); };
  }

  // A browser lets go of it where the page is hidden.
  async keepOn(isOn) {
    this.isOn = isOn;
    if (isOn && !this.lock && !document.hidden && navigator.wakeLock) {
      this.lock = 'asked';
      const lock = await navigator.wakeLock.request('screen').catch(() => null);
      lock?.addEventListener('release', () => { this.lock = null; });
      this.lock = lock;
    }
    if (!this.isOn && this.lock?.release) {
      const { lock } = this;
      this.lock = null;
      lock.release().catch(() => {});
    }
  }
}
