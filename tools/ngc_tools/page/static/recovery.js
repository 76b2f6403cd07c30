// After a loss of power: what was stored, where the machine is, a rehearsal, and then step by step. Nothing moves and
// nothing is switched before the last step.
import {
  AXES, byRecord, counted, el, grouped, lasting, may, micrometres, mm, numbered, own, point, text,
  typedNumber, zeroOf,
} from './dom.js';
import * as question from './question.js';
import * as sheet from './sheet.js';
import { Sight } from './sight.js';
import * as ways from './ways.js';

const NAMES = ['Stored', 'Where it stands', 'Rehearsal', 'Step by step'];
const AT_ANY_MOMENT = 'Hold and the space bar work at any moment.';
const SAID = ['said', 'warning', 'refused'];
const CHOICES = {
  along: ['Go along the path', 'moves the tool along its very path to where the segment begins, back at the feed that '
    + 'was cut off at most.'],
  legs: ['Go by legs', 'asks for a height and a feed, and goes straight up to it, over, and straight down at that feed '
    + 'to where the segment begins.'],
  straight: ['Resume in one line', 'goes in one straight line to where the segment begins, at the feed that was cut '
    + 'off or a slower one.'],
  own: ['Resume in one line', 'goes in one straight line to where the segment begins. No player is there to go slowly: '
    + 'all of it is gone AT THE TRAVERSE RATE, down into the work too.'],
  giveUp: ['Give up', 'moves and switches nothing. The line counts as not begun, and the program stays before it. Then '
    + 'the tool is freed by lines of G-code.'],
};

// Where the machine stands as it is told, as people write it.
const standing = s => [...(s.motors ?? s.at)].map(number => number.replace(/0{1,3}$/, ''));

export class Recovery {
  // `app` has the state and the job; `asks` sends a request, and gives its answer, or null, where it can be told who is
  // to hear why; `log` knows what was said.
  constructor(app, asks, log) {
    Object.assign(this, { app, asks, log, isHoming: false });
    this.isOpen = false;
    this.isLater = false;    // somebody put it off
    this.again = sheet.button('Rehearse again', () => this.rehearseStored());
  }

  begin() {
    const { state } = this.app;
    Object.assign(this, { isOpen: true, isLater: false, step: 0, stored: null, plan: null, key: '' });
    Object.assign(this, { isRehearsing: false, refusal: '', isTelling: false });
    this.at = standing(state);
    this.told = standing(state);
    this.sure = [false, false, false];
    this.steps = el('ol', { class: 'steps' });
    const sight = new Sight();
    this.picture = sight.picture;
    this.sheet = sheet.open('After the loss of power', [], [], sight.box);
    sheet.ending(() => { if (this.isOpen) Object.assign(this, { isOpen: false, isLater: true }); }); // for another one
    this.sheet.head.append(this.steps);
    this.job();
    sight.look(true);
    this.go(0);
  }

  close() {
    this.isOpen = false;
    sheet.close();
  }

  later() {
    this.isLater = true;
    this.close();
  }

  // Home comes first, and then the steps once more.
  homeFirst() {
    this.later();
    sheet.ask('Home all axes?', [sheet.said('Each goes to its switch, in the order of the machine\u2019s file. Where '
      + 'the tool stands in the work, free it by hand first. Then come these steps again.')], 'Home', 'home',
    async () => { this.isHoming = await this.asks('home', { axes: '' }) !== null; });
  }

  // The session goes on meanwhile: what is shown follows it.
  show(s) {
    if (this.isHoming && !s.busy && s.homed) Object.assign(this, { isHoming: false, isLater: false });
    if (!this.isOpen) return;
    const isOver = !s.busy && s.half === 'none' || s.moving || s.goes_on; // it comes anew once the motors rest
    if (s.ended || isOver && !s.question) {
      this.close();
      return;
    }
    if (s.question && this.step < 3) { // it isn't of these steps, as that of a stop: it has a sheet of its own
      this.later();
      return;
    }
    this.mark();
    const key = this.shownOf(s);
    if (this.follows(s)) this.go(Math.min(this.step, 1));
    else if (key !== this.key) this.go(this.step);
    this.key = this.shownOf(s);
  }

  // Motors that rest elsewhere than they did, since they came to rest only now, or went on a way that was held, or as
  // somebody moved them: each axis that moved is confirmed anew. One that nobody wrote goes with them; at the last step
  // each does, since what was written is of before the way. Whether one moved.
  follows(s) {
    const now = standing(s), moved = now.map((number, i) => number !== this.told[i]);
    if (s.busy || s.question || s.does !== 'idle' || this.isTelling || !moved.includes(true)) return false;
    const goes = i => this.at[i] === this.told[i] || moved[i] && this.step > 2;
    this.at = this.at.map((number, i) => (goes(i) ? now[i] : number));
    this.sure = this.sure.map((isSure, i) => isSure && !moved[i]);
    this.told = now;
    return true;
  }

  // Where the motors were shown as the place was confirmed; null without a player. The server compares it.
  get shown() { return this.app.state.motors && this.told; }

  // What of a state decides what is on the sheet: while that stays, what somebody typed or ticked stays too.
  shownOf(s) {
    if (this.step < 3) return [this.step, s.yours, s.recover?.left].join();
    return s.question ? ['question', s.question.id, s.yours].join() : [s.busy, s.does, s.behind, s.yours].join();
  }

  go(step) {
    this.step = step;
    this.steps.replaceChildren(...NAMES.map((name, i) => el('li', { class: i === step ? 'now' : i < step ? 'was' : '' },
      el('b', {}, String(i + 1)), el('span', {}, name))));
    [this.showStored, this.showPlace, this.showRehearsal, this.showSteps][step].call(this);
    this.key = this.shownOf(this.app.state);
    this.mark();
  }

  put(content, buttons) {
    this.tell(content);
    this.sheet.foot.replaceChildren(...buttons.filter(Boolean));
  }

  tell(content) { this.sheet.words.replaceChildren(...content.filter(Boolean)); }

  // Tells what was found meanwhile. The buttons stay: a touch on one that is made anew under the finger would be lost.
  retell() {
    if (!this.isOpen) return;
    if (this.step === 0) this.tellStored();
    if (this.step === 2 && this.plan) this.tell(this.rehearsedWords());
    this.mark();
  }

  back(step) { return sheet.button('Back', () => this.go(step)); }

  next(says, does) { return sheet.go(says, does, this.app.state.yours); }

  // ---- the picture

  job() {
    if (!this.isOpen) return;
    this.picture.lost = ways.lostOf(this.app.neverCut);
    this.picture.show(this.app.job, this.app.travel);
    this.retell(); // what was never cut
  }

  // What the picture shows beside the path: where the segment begins, and the way there.
  mark() {
    const { picture } = this, { state, job } = this.app, at = job ? job.place(state) : { done: 0, now: -1 };
    const begins = this.plan?.begins ?? this.stored?.begins, label = 'the segment begins';
    picture.marks = begins?.length ? [{ point: micrometres(begins), colour: 'amber', label }] : [];
    const way = this.step >= 2 && this.way();
    picture.ways = way?.length ? [{ points: way, colour: 'violet' }] : []; // a tool change alone goes nowhere
    const typed = this.at.every(number => typedNumber(number) !== null) ? this.at : null;
    const here = state.busy ? state.motors ?? state.at : typed;
    picture.zero(zeroOf(state));
    picture.at(at.done, at.now, 0, here && micrometres(here));
    picture.draw();
  }

  // What recover would do, from where the record has the motors; null where it isn't that, or can't be done.
  get along() {
    const { recover, motors } = this.app.state;
    const isRecord = motors && this.at.every((number, i) => Number(number) === Number(motors[i]));
    return recover && !recover.problem && isRecord ? recover : null;
  }

  // The way that will be gone, as points.
  way() {
    const { along, plan } = this;
    if (!along) return plan?.approach ? [plan.approach.from, plan.approach.to].map(micrometres) : null;
    if (along.there) return null;
    return plan?.along ?? [along.stands, along.at].map(micrometres);
  }

  // ---- 1: what was stored

  showStored() {
    const isYours = this.app.state.yours;
    this.again.disabled = !isYours;
    this.put([], [sheet.button('Later', () => this.later()), sheet.gap('Nothing moves, and nothing is switched.'),
      this.again, this.next('Next: where it stands', () => this.go(1))]);
    this.tellStored();
    if (isYours && !this.stored && !this.isRehearsing) this.rehearseStored();
  }

  // Asks what a resume would do. `refusal` is why that isn't done.
  async rehearseStored() {
    const opened = this.sheet;
    let refusal = '';
    Object.assign(this, { isRehearsing: true, refusal });
    this.retell();
    const stored = await this.asks('rehearse', {}, why => { refusal = why; });
    if (this.sheet !== opened) return;
    Object.assign(this, { isRehearsing: false, stored, refusal });
    this.retell();
  }

  tellStored() {
    this.again.hidden = !this.refusal;
    this.tell(this.storedWords());
  }

  storedWords() {
    const { state } = this.app, found = this.stored;
    const [line, last] = [state.line, state.program.lines].map(one => numbered(state, one));
    const half = state.half === 'program' ? `line ${line} of ${last}` : 'a line of one\u2019s own';
    const way = state.half_opened === 2 ? 'the way back to segment' : 'segment';
    return [sheet.title('Everything that was acknowledged is still there'),
      sheet.lead(state.half_text.trim() ? own(state.half_text.trim()) : '(no text)'),
      sheet.facts([['Stored', `${grouped(state.entries)} entries: each is there`], ['Half-done', half],
        ['Under way', `${way} ${state.segment} of that line, counted from 0`],
        ['It begins at', found?.begins?.length && sheet.code(point(found.begins))], ['Was on there', found?.comes_on],
        ['From there to the end', found?.rest_us && lasting(found.rest_us)]]),
      found ? found.refused && sheet.warning(found.refused, 'bad') : this.notRehearsed(),
      ...ways.givenBack(state),
      ...ways.neverCut(this.app.neverCut),
      sheet.soft('In the picture solid is done, amber was under way, pale is left. The amber segment is made again '
        + 'from its beginning.')];
  }

  notRehearsed() {
    if (!this.app.state.yours) return sheet.soft('This page watches. Take over, and ngc rehearses it.');
    if (!this.refusal) return sheet.soft('ngc rehearses it over a copy of the device\u2026');
    return sheet.warning(`It isn\u2019t rehearsed: ${this.refusal}. Rehearse it again, or go on: it is rehearsed once `
      + 'more before anything moves.', 'bad');
  }

  // ---- 2: where the machine stands

  showPlace() {
    const { state } = this.app, isOut = AXES.some((_, i) => this.end(i, state.motors?.[i]) !== null);
    const isHomeFirst = Boolean(state.machine) && state.homes !== '' && (!state.homed || isOut);
    const next = (isHomeFirst ? sheet.button : sheet.go)('Next: rehearsal', () => this.rehearsal(), state.yours);
    const enable = () => { next.disabled = !(state.yours && this.sure.every(Boolean)); };
    const age = state.left_at ? ` The device was written last ${lasting(1e6 * (state.now - state.left_at))} ago.` : '';
    const past = state.past && `${byRecord(state.past)} `;
    this.put([sheet.title('Where does the machine stand now?'),
      sheet.said('Machine coordinates in mm. Look at the machine, and confirm each axis.'),
      ...AXES.map((_, i) => this.confirm(i, enable)),
      isHomeFirst && sheet.warning('Home first: a motor that turned as its power was lost may be elsewhere than the '
        + 'record says, and the rest of the job would keep that offset.'),
      sheet.soft(`${past}If you freed the tool by hand, write where it is now.${age}`)],
    [this.back(0), sheet.gap(), next, isHomeFirst && sheet.go('Home first', () => this.homeFirst(), state.yours)]);
    enable();
  }

  confirm(i, changed) {
    const { state } = this.app, button = el('button');
    const isRecord = () => state.past_mm && state.past_axes[i] && Number(this.at[i]) === Number(state.motors?.[i]);
    const off = () => (isRecord() ? `, \u00b1\u00a0${mm(state.past_mm)}\u00a0mm` : '');
    const input = el('input', { value: this.at[i], inputMode: 'decimal', 'aria-label': `Machine ${AXES[i]}` });
    const record = state.motors ? `the record says ${mm(state.motors[i])}` : 'no player is known: measure it';
    const beside = el('small');
    const set = isSure => {
      const end = this.end(i, this.at[i]);
      beside.className = end === null ? '' : 'wrong';
      text(beside, end === null ? `${record}; before the line ${mm(state.began_at[i])}`
        : `outside the travel, which ends at ${mm(end)}: the line isn\u2019t taken up from there`);
      this.sure[i] = isSure && typedNumber(input.value) !== null;
      button.setAttribute('aria-pressed', String(this.sure[i]));
      text(button, `${this.sure[i] ? '\u2713 There' : 'Confirm'}${off()}`);
      changed();
    };
    button.onclick = () => set(!this.sure[i]);
    input.addEventListener('input', () => {
      this.at[i] = typedNumber(input.value) ?? input.value;
      set(false);
      this.mark();
    });
    set(this.sure[i]);
    return el('div', { class: 'confirm' }, el('b', {}, AXES[i]), input, button, beside);
  }

  // Where the travel of an axis ends, in mm, if a number is beyond it; null else.
  end(i, number) {
    const ends = this.app.travel?.map(end => end[i] / 1000);
    if (!ends || number === undefined || typedNumber(number) === null) return null;
    return number < ends[0] ? ends[0] : number > ends[1] ? ends[1] : null;
  }

  // ---- 3: a rehearsal

  async rehearsal() {
    const asked = { at: [...this.at], recover: Boolean(this.along) };
    Object.assign(this, { plan: null, asked });
    this.go(2);
    const plan = await this.asks('rehearse', asked);
    if (!this.isOpen || this.step !== 2 || this.asked !== asked) return; // of another place, or nobody waits for it
    this.plan = plan;
    this.go(plan ? 2 : 1);
    this.picture.fit();
  }

  showRehearsal() {
    if (this.plan) {
      this.put(this.rehearsedWords(), [this.back(1), sheet.gap('Nothing has moved.'),
        this.next('Next: step by step', () => this.go(3))]);
      return;
    }
    this.put([sheet.title('Rehearsal'), sheet.soft('ngc does it over a copy of the device; nothing moves\u2026')],
      [this.back(1), sheet.gap()]);
  }

  rehearsedWords() {
    const { recover } = this.app.state;
    return [...ways.neverCut(this.app.neverCut), ...ways.told(this.along, this.plan, recover)];
  }

  // ---- 4: step by step

  showSteps() {
    const { state } = this.app;
    if (state.question) this.questioned(state);
    else if (state.busy) this.onWay(state);
    else if (state.does === 'held') this.held();
    else this.choice();
  }

  questioned(state) {
    const said = this.log.since(state.command?.since ?? 0, SAID);
    const { content, buttons } = question.parts(state.question, said, state.yours, this.asks);
    this.put(content, [sheet.gap(AT_ANY_MOMENT), ...buttons]);
  }

  onWay(state) {
    const where = state.behind ? `${counted(state.behind, 'line')} to go` : 'Please wait\u2026';
    this.put([sheet.title('On the way'), sheet.soft(where)], [sheet.gap('Hold stops it.')]);
  }

  held() {
    this.put([sheet.title('Held'), this.app.state.can.off
      && sheet.warning('Spindle and coolant stay as they are: the button below switches them off.'),
      sheet.said('Continue asks you to look once more, where nothing was cut yet. After Quit the line is still '
        + 'half-done.')],
    [sheet.button('Close', () => this.later()), sheet.gap(),
      sheet.asking('run', this.next('Continue', () => this.asks('run')))]);
  }

  choice() {
    const { recover, player, behind, player_gone: isGone } = this.app.state;
    const canResume = Boolean(this.plan?.approach) && !recover?.left;
    const isAlong = this.along && (this.along.way || this.along.there);
    const offered = isAlong ? ['along'] : this.along || player ? ['legs'] : [];
    if (canResume) offered.push(player ? 'straight' : 'own');
    const recovers = () => this.asks('recover', { at: this.at, shown: this.shown });
    const does = { along: recovers, legs: recovers, straight: () => this.resume(),
      own: () => this.resume() };
    const tells = s => may(s, 'reference'), needs = { straight: tells, own: tells };
    const buttons = offered.map((name, i) => sheet.asking('recover', (i === (this.along ? 0 : offered.length - 1)
      ? sheet.go : sheet.button)(CHOICES[name][0], does[name]), needs[name]));
    this.put([sheet.title('Take the line up, or give it up'),
      ...[...offered, 'giveUp'].map(name => sheet.said(el('b', {}, CHOICES[name][0]), ` ${CHOICES[name][1]}`)),
      sheet.said('Before anything moves, spindle and coolant are switched on as they were, and you look.'),
      behind && sheet.warning(`The motors have ${counted(behind, 'line')} in hand. The way there carries them out `
        + 'first, and Stop lets go of them. Until then the line can\u2019t be given up.'),
      isGone ? sheet.warning('The player is gone. Start it, then Start ngc again.', 'bad')
        : sheet.warning('Keep a hand at Hold, and the other at the emergency stop.')],
    [this.back(2), sheet.gap(), this.giveUp(), ...buttons]);
  }

  // It takes two touches.
  giveUp() {
    const button = sheet.button('Give up', () => {
      button.onclick = () => this.abandon();
      text(button, 'Yes, give it up');
      button.className = 'danger';
    });
    return sheet.asking('abandon', button, s => may(s, 'reference'));
  }

  resume() {
    return this.tells(async answer => { if (answer && !answer.refused) await this.asks('resume'); });
  }

  // A place outside of the travel isn't taken, and the line is given up all the same: then none is known.
  abandon() {
    return this.tells(async answer => {
      const isTold = answer && (!answer.refused || /\bX2\b/.test(answer.refused));
      if (isTold && await this.asks('abandon')) this.close();
    });
  }

  // Tells where each axis was confirmed to stand, also where the record has it elsewhere, and does what comes then.
  // Until that is over, motors that are told to be elsewhere didn't move.
  async tells(does) {
    this.isTelling = true;
    await does(await this.asks('reference', { at: this.at, anyway: true, shown: this.shown }));
    this.isTelling = false;
  }
}
