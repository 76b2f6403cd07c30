// Where the machine is, what turns and flows, how fast it goes: as the motors have it where a player tells it.
import { $, AXES, el, grouped, lasting, may, mm, systemName, text } from './dom.js';
import { words } from './language.js';
import { follow, nanometres, shown, unit } from './units.js';

const TURNS = ['', '\u21bb', '\u21ba'];
const INCH_MM = 25.4;

export class Readout {
  // `asks` sends a request: asks('percent', {percent}).
  constructor(asks) {
    this.feed = new Override($('override'), 'Feed', percent => asks('percent', { percent }));
    this.spindle = new Override($('spindle-override'), 'Spindle', percent => asks('spindle', { percent }));
    this.axes = AXES.map(axis => this.axis(axis));
    this.gauges = Object.fromEntries(['Feed', 'Spindle', 'Coolant', 'Tool'].map(name => [name, this.gauge(name)]));
    window.addEventListener('resize', () => this.fit());
    follow(() => { if (this.shown) this.show(...this.shown); });
  }

  // A length in the unit that is chosen.
  length(millimetres) { return shown(nanometres(millimetres)); }

  axis(name) {
    const work = el('output', {}, '\u2013'), at = el('b'), motors = el('b'), atName = el('span', {}, 'machine');
    const motorsBox = el('span', {}, 'motors ', motors), says = el('small');
    $('axes').append(el('div', { class: 'axis' }, el('b', {}, name, says), work,
      el('div', {}, el('span', {}, atName, ' ', at), motorsBox)));
    return { work, at, motors, atName, motorsBox, unit: says };
  }

  gauge(name) {
    const value = el('dd');
    $('gauges').append(el('div', {}, el('dt', {}, name), value));
    return value;
  }

  show(s, rate) {
    this.shown = [s, rate];
    this.axes.forEach((axis, i) => this.showAxis(axis, s, i));
    this.fit();
    this.showGauges(s, rate);
    this.feed.show(s.has_percent ? s.percent : null, s.most_percents[0], may(s, 'percent'));
    this.spindle.show(s.spindle_percent ?? null, s.most_percents[1], may(s, 'spindle'));
    this.showRisk(s);
    const modes = [systemName(s.system), `G${s.distance}`, `G${s.unit}`, `G${s.plane}`, `G${s.feed_mode}`];
    const length = Number(s.tool_length) ? `  length ${this.length(s.tool_length)} ${unit.name}` : '';
    text($('modes'), modes.join(' ') + length);
  }

  // Makes the numbers as large as the longest lets them be, all three alike.
  fit() {
    const works = this.axes.map(axis => axis.work), lengths = works.map(work => work.textContent.length);
    const key = [Math.max(...lengths), innerWidth, innerHeight].join();
    if (key === this.fitted) return;
    this.fitted = key;
    $('axes').style.setProperty('--fit', '1');
    const most = Math.max(...works.map(work => work.scrollWidth / work.clientWidth));
    if (most > 1) $('axes').style.setProperty('--fit', String(0.99 / most));
  }

  showAxis(axis, s, i) {
    const isHalf = s.half !== 'none';
    text(axis.unit, unit.name);
    axis.unit.classList.toggle('apart', unit.isInch !== (s.unit === 20)); // the program's is another one
    text(axis.work, s.work ? this.length(s.work[i]) : '\u2013');
    text(axis.atName, isHalf ? 'line began at' : 'machine');
    text(axis.at, this.length(isHalf ? s.began_at[i] : s.at[i]));
    axis.motorsBox.hidden = !s.motors;
    if (!s.motors) return;
    text(axis.motors, this.length(s.motors[i]));
    axis.motorsBox.classList.toggle('apart', s.apart[i]);
  }

  showGauges(s, rate) {
    const { gauges } = this, length = s.tools[s.slot - 1];
    const feed = millimetres => (unit.isInch ? grouped(Number((millimetres / INCH_MM).toFixed(2)))
      : grouped(Math.round(millimetres))), each = `${unit.name}/min`;
    if (rate) fill(gauges.Feed, feed(rate.feed), rate.isTraverse ? `${each} traverse` : each);
    else fill(gauges.Feed, s.feed ? feed(s.feed) : '\u2013', s.feed ? `${each} set` : '', true);
    fill(gauges.Tool, s.slot ? `T${s.slot}` : 'none', s.slot && length ? `${this.length(length)} ${unit.name}` : '',
      !s.slot);
    if (s.player_gone || s.ended) { // nobody asks the player any more
      fill(gauges.Spindle, 'not known', '', true);
      fill(gauges.Coolant, 'not known', '', true);
      return;
    }
    const speed = grouped(s.speed), percent = s.spindle_percent ?? 100;
    const times = percent === 100 ? '/min' : `\u00d7 ${percent} %`;
    if (s.spindle) fill(gauges.Spindle, `${TURNS[s.spindle]} ${speed}`, times);
    else fill(gauges.Spindle, 'off', s.again ? 'by hand' : s.speed ? `set ${speed}` : '', true);
    const flows = [s.mist && 'mist', s.flood && 'flood'].filter(Boolean);
    fill(gauges.Coolant, flows.join(' + ') || 'off', '', !flows.length);
  }

  // What a loss of power would cost now: lines that were handed out, and that no motor has carried out. Of a place that
  // isn't known any more, since when.
  showRisk(s) {
    const costs = s.behind === null || s.behind === undefined ? '' : `A loss of power costs ${cost(s)}`;
    text($('risk'), s.stale ? known(s) : costs);
    $('risk').classList.toggle('stale', Boolean(s.stale));
  }
}

// An override: ten percent less, the whole, ten percent more. `sets` asks for so many percent.
class Override {
  constructor(box, name, sets) {
    Object.assign(this, { box, name, percent: 100, most: 100 });
    const tens = (says, label, by) => el('button', { class: 'tens', 'aria-label': `${name}: 10 percent ${label}`,
      onclick: () => sets(Math.min(this.most, Math.max(10, this.percent + by))) }, says);
    this.less = tens('\u2212', 'less', -10);
    this.more = tens('+', 'more', 10);
    this.whole = el('button', { onclick: () => sets(100) });
    box.append(this.less, this.whole, this.more);
  }

  // `percent` is what the motors have, null where nothing takes one; `most` is what the machine's file allows.
  show(percent, most, isFree) {
    this.box.hidden = percent === null;
    Object.assign(this, { percent: percent ?? 100, most });
    text(this.whole, `${this.name} ${this.percent} %`);
    this.whole.classList.toggle('apart', this.percent !== 100);
    this.whole.disabled = !isFree;
    this.less.disabled = !isFree || this.percent <= 10;
    this.more.disabled = !isFree || this.percent >= most;
  }
}

function fill(box, value, small = '', isOff = false) {
  const key = `${value}|${small}|${isOff}`;
  if (box.dataset.key === key) return;
  box.dataset.key = key;
  box.className = isOff ? 'off' : '';
  box.replaceChildren(words(value), small && el('small', {}, small));
}

// Of a place that isn't known any more, since when, and by whom it was told.
function known(s) {
  if (!s.stale) return '';
  const { why, at } = s.stale, age = at ? `${lasting(1e6 * Math.max(0, s.now - at))} ago` : '';
  if (why === 'alarm') return `As counted before the alarm${age && `, told ${age}`}: home tells where it is`;
  if (s.stale.by_record) return `By the record of the player, \u00b1 ${mm(s.past_mm)} mm; told ${age}`;
  if (why === 'player') return at ? `Last known ${age}` : 'Nobody told where it is';
  return s.motors ? `By the record of the player; the device was written ${age}`
    : `Before the line that was cut off; the device was written ${age}`;
}

function cost(s) {
  if (s.keeps) return `no line${s.behind ? `: ${grouped(s.behind)} stand in OUT` : ''}`;
  if (!s.behind) return 'nothing now';
  return `${grouped(s.behind)} lines${s.behind_mm ? `, ${mm(s.behind_mm)} mm` : ''}`;
}
