// A gamepad: the left stick is X and Y, the right one Z, while a shoulder button is held. It goes along one axis, by
// the stick that was pushed farthest, until that is let go; one that is pushed half goes a step slower. What the
// browser says of it is looked at again and again: one that is gone goes nowhere.
import { notice } from './notice.js';

const SHOULDERS = [4, 5];
const STICKS = [[0, 'X', 1], [1, 'Y', -1], [3, 'Z', -1]]; // a stick that is pulled down says more
const UNKNOWN = 'The browser doesn\u2019t know which button of this gamepad is which: nothing jogs by it.';
const DEAD = 0.3;
const FAR = 0.75, NEAR = 0.65; // above the one it is fast, until it is below the other

export class Pad {
  constructor(jog, refusal) {
    Object.assign(this, { jog, refusal });
    this.goes = null;    // along which stick, and how
    this.isFree = false; // the sticks stood in the middle since the button is held, and since it stopped
    this.isTold = false; // that a gamepad can't be used
    window.addEventListener('gamepaddisconnected', event => {
      if (this.goes?.index === event.gamepad.index) this.stop('The gamepad is gone: it stops.');
    });
  }

  // Jogs, or stops; whether a shoulder button is held.
  look() {
    const pad = held(this.goes?.index);
    if (!pad && !this.isTold && isUnknown()) {
      this.isTold = true;
      this.jog.refuse(UNKNOWN);
    }
    if (!pad) {
      if (this.goes) this.stop();
      this.isFree = false;
      return false;
    }
    const [stick, push] = farthest(pad, this.goes?.stick);
    if (this.goes) this.follows(pad, stick, push);
    else if (Math.abs(push) < DEAD) this.isFree = true;
    else if (this.isFree) this.begin(pad, stick, push);
    return true;
  }

  begin(pad, stick, push) {
    const why = this.refusal();
    this.forget();
    if (why) {
      this.jog.refuse(why);
      return;
    }
    const [, axis, sign] = stick, isFar = Math.abs(push) > FAR;
    this.goes = { index: pad.index, stick, sign: Math.sign(push), isFar };
    this.jog.goes(axis, sign * Math.sign(push), this.jog.slower(isFar ? 0 : 1));
  }

  // Goes on, slower or faster, or stops.
  follows(pad, stick, push) {
    const { goes } = this, size = Math.abs(push);
    if (size < DEAD || Math.sign(push) !== goes.sign || !this.jog.isOn) {
      this.stop();
    } else if (goes.isFar ? size < NEAR : size > FAR) {
      this.jog.stop();
      this.begin(pad, stick, push);
    }
  }

  stop(why = '') {
    if (why) notice(why, 'warning');
    this.forget();
    this.jog.stop();
  }

  forget() {
    this.goes = null;
    this.isFree = false;
  }
}

const pads = () => [...(navigator.getGamepads?.() ?? [])].filter(one => one?.connected);

// The gamepad of which a shoulder button is held: this one, or any.
function held(index) {
  return pads().find(one => (index === undefined || one.index === index) && one.mapping === 'standard'
    && SHOULDERS.some(button => one.buttons[button]?.pressed));
}

// Whether something is pressed of one whose buttons the browser doesn't know.
const isUnknown = () => pads().some(one => one.mapping !== 'standard' && one.buttons.some(button => button.pressed));

// The stick that is pushed farthest, or the one that is followed, and how far.
function farthest(pad, followed) {
  const pushes = (followed ? [followed] : STICKS).map(stick => [stick, pad.axes[stick[0]] ?? 0]);
  return pushes.reduce((one, other) => (Math.abs(other[1]) > Math.abs(one[1]) ? other : one));
}
