// What was said, newest first. What is refused and what is warned of is shown where the finger was too.
import { $, clock, el, own } from './dom.js';
import { notice } from './notice.js';

const MOST = 400;

export class Log {
  constructor() {
    this.last = 0;
    this.entries = [];       // the newest ones, with their numbers
    this.isNew = false;      // what was said before the page came isn't news
  }

  // What is of the kinds `noticed` is shown where the finger was.
  show(entries, noticed) {
    for (const entry of entries.filter(one => one.id > this.last)) {
      this.last = entry.id;
      this.entries = [...this.entries.slice(1 - MOST), entry];
      this.add(entry.kind, entry.text, new Date(entry.at * 1000));
      if (this.isNew && noticed.includes(entry.kind)) notice(entry.text, entry.kind);
    }
    this.isNew = true;
  }

  add(kind, says, at = new Date()) {
    $('log').prepend(el('li', { class: kind }, el('time', {}, clock(at)), ...parts(kind, says)));
    if ($('log').children.length > MOST) $('log').lastChild.remove();
    if (kind !== 'refused' || !$('tab-log').hidden) return;
    document.querySelector('[data-tab=log]').classList.add('news');
  }

  // What was said behind an entry, of some kinds.
  since(id, kinds) {
    return this.entries.filter(entry => entry.id > id && kinds.includes(entry.kind)).map(entry => entry.text);
  }

  // Says why something that was asked for here isn't done.
  refuse(says) {
    this.add('refused', says);
    notice(says, 'refused');
  }
}

// A message of the program is somebody's own words.
function parts(kind, says) {
  const at = kind === 'message' ? says.indexOf(': ') + 2 : 0;
  return at > 1 ? [says.slice(0, at), own(says.slice(at))] : [says];
}
