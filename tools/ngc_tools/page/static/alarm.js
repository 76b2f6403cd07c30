// While an alarm stands: home, and where that leaves an axis, a person tells where it stands.
import { AXES, el, mm, typedNumber } from './dom.js';
import * as sheet from './sheet.js';

// Whether one stands that something can be done about here: `ngc` and the player are there.
export const isThere = s => Boolean(s.alarm) && !s.ended && !s.player_gone;

export class Alarm {
  // `asks` sends a request, and gives its answer, or null. `opens` is called before a sheet of this opens.
  constructor(asks, opens) {
    Object.assign(this, { asks, opens, left: '' });
  }

  // The way back opens by itself, once. A sheet goes once the axes on it are homed, or the alarm is over.
  show(s) {
    this.s = s;
    const stands = isThere(s);
    if (this.left && (this.left !== s.left || !stands)) this.close();
    if (!stands && this.frees?.isConnected) sheet.close();
    if (this.frees?.isConnected) this.showFrees();
    if (stands && !s.left && !s.busy && s.yours && !this.isTold) this.home();
    this.isTold = stands && (this.isTold || !s.busy && s.yours);
  }

  // What the large button says, whether it is enabled, and what it does. What it opens isn't open yet.
  button(s) {
    const isFree = s.yours && !s.busy;
    if (s.left) return [`Where is ${named(s.left)}?`, isFree && !this.give?.isConnected, () => this.ask()];
    return ['Home all', isFree && !this.frees?.isConnected, () => this.home()];
  }

  // The way back: what it came by, what has to be free, home, and what follows. Asked for, since the large button was
  // another one a moment before.
  home() {
    this.opens();
    this.frees = el('div');
    const start = sheet.go('Home', () => { sheet.close(); this.asks('home', { axes: '' }); });
    sheet.open('Home all axes?', [sheet.lead(this.s.came_by), this.frees,
      sheet.said('Where the tool stands in the work, free it by hand first. Then each axis goes to its switch, in the '
        + 'order of the machine\u2019s file, and away from one that is on.'),
      sheet.said('What was under way is half-done after that, and the page leads on, as after a loss of power.')],
    [sheet.button('Back', sheet.close), sheet.gap('Nothing moves yet.'), sheet.asking('home', start)]);
    this.showFrees();
  }

  // What is on now, and has to be free before, or leaves a way by itself.
  showFrees() {
    const { inputs } = this.s, isStopped = inputs.includes('emergency_stop');
    const limits = inputs.filter(name => name.startsWith('limit')).map(name => name.replaceAll('_', ' '));
    this.frees.replaceChildren(...[
      isStopped && sheet.warning('The emergency stop is on. Release it, once all is safe.', 'bad'),
      this.s.door_open && sheet.warning('The door is open: nothing moves until it is closed.'),
      limits.length && sheet.warning(`On: ${limits.join(', ')}. Home leads away from its own switches alone; free an `
        + 'axis that stands on another one by hand.')].filter(Boolean));
  }

  // Asks where the axes stand that aren't homed. Nothing stands in an entry but what somebody writes.
  ask() {
    this.opens();
    this.left = this.s.left;
    this.refusal = el('div');
    this.give = sheet.go(this.left.length > 1 ? 'They stand there' : 'It stands there', () => this.tell(), false);
    this.entries = [...this.left].map(axis => el('input', { inputMode: 'decimal', 'aria-label': `Machine ${axis}`,
      oninput: () => { this.give.disabled = this.numbers().includes(null); } }));
    sheet.open(`Where is ${named(this.left)}?`, [this.refusal,
      sheet.said('After the stop it may be elsewhere than the player counts. Measure it, and write the machine '
        + 'coordinate in mm; or home it, where the machine\u2019s file says how.'),
      ...this.entries.map((entry, i) => this.row(this.left[i], entry))],
    [sheet.button('Back', () => this.close()), sheet.gap('Nothing moves by it.'), this.give]);
  }

  row(axis, entry) {
    const counts = mm((this.s.motors ?? this.s.at)[AXES.indexOf(axis)]);
    const home = sheet.asking('home', sheet.button(`Home ${axis}`, () => {
      this.close();
      this.asks('home', { axes: axis });
    }));
    return el('div', { class: 'confirm' }, el('b', {}, axis), entry, home,
      el('small', {}, `not homed; the player counts ${counts}`));
  }

  numbers() { return this.entries.map(entry => typedNumber(entry.value)); }

  // The sheet stays where that isn't taken, and says why.
  async tell() {
    const numbers = this.numbers();
    const answer = await this.asks('stands', { at: Object.fromEntries([...this.left].map((axis, i) => [axis,
      numbers[i]])) });
    if (this.left && answer?.refused) this.refusal.replaceChildren(sheet.warning(answer.refused, 'bad'));
  }

  close() {
    this.left = '';
    if (this.give.isConnected) sheet.close();
  }
}

const named = axes => [...axes].join(' and ');
