// The language of this page. The code speaks English; what it says is translated as it is shown, by a catalogue of
// texts with places for what is put in. ngc_tools/language.py does the same by the same rules. What people wrote
// themselves, as lines of a program and names of files, stands in elements with translate="no", and stays as it is.
const MOST = 4096;         // answers that are kept
const LOOKS = 8;           // so many parts of a text are looked for as one at most
const WEAK = 8;            // a template of one word with fewer letters isn't told from others by that alone
const PATIENCE_MS = 3000;
const ATTRIBUTES = ['aria-label', 'title', 'placeholder', 'alt'];
const SENTENCES = /(?<=[.?!])\s+(?=[A-Z{(])/;
const SEPARATORS = [/\n/g, /\s{2,}/g, /(?<=[.?!])\s+/g, /(?<=;)\s+/g, /(?<=:)\s+/g];
const LISTED = [/,\s+/g, /\s+and\s+/g];
const WORD = /[A-Za-z]{2,}/, WORDS = /[A-Za-z]{2,}/g;
const OWN_WORDS = /(?<![A-Za-z0-9\0])[A-Za-z]{2,}(?![A-Za-z0-9\0])/g;
const PROSE = /(?:^|\s)[A-Za-z][a-z]{2,}[,;:.]?\s+(?:\S+\s+)*[A-Za-z][a-z]{2,}[.,;:?!]?(?:\s|$)/;
const AROUND = /^(\s*)(.*?)(\s*)$/s;
const DATED = /^(\d{4}-\d\d-\d\d \d\d:\d\d(?::\d\d [-+]\d{4})? )(.*)$/;
const HEAD = /^([^A-Za-z]+)([A-Za-z].*)$/s;

const line = text => text.replace(/\s+/g, ' ');
const bare = text => (text.endsWith('.') ? text.slice(0, -1) : text);
const placesOf = text => [...text.matchAll(/\{(\d+)\}/g)].map(found => found[1]);
const loose = literal => literal.split(/\s+/).map(part => part.replace(/[.*+?^${}()|[\]\\/-]/g, '\\$&')).join('\\s+');
const isCapital = text => /^[A-Z][a-z]/.test(text);

// A text with places, and its translation.
class Template {
  constructor(english, translated, order) {
    const pieces = english.split(/\{(\d+)\}/), literals = pieces.filter((_, i) => i % 2 === 0);
    this.places = pieces.filter((_, i) => i % 2);
    this.translated = translated.split(/\{(\d+)\}/);
    const count = (text, what) => text.match(what)?.length ?? 0;
    this.isWeak = count(literals.join(''), /\p{L}/gu) < WEAK && count(literals.join('\0'), WORDS) < 2;
    this.size = literals.join('').replace(/\s/g, '').length;
    this.word = (literals.join('\0').match(OWN_WORDS) ?? []).reduce((a, b) => (b.length > a.length ? b : a), '');
    const ends = i => [i ? '' : '^', i === literals.length - 1 ? '$' : ''];
    this.literals = literals.map((one, i) => new RegExp(ends(i).join(loose(one)), 'g'));
    this.gaps = literals.slice(1, -1).map(gap => !gap.trim()); // between its places: whether it is a blank
    this.order = order;
  }

  // What stands in its places in a text, each as little as can be; null where it is another text.
  values(text) {
    const found = [];
    let at = 0;
    for (const literal of this.literals) {
      literal.lastIndex = at;
      const match = literal.exec(text);
      if (!match) return null;
      found.push(text.slice(at, match.index));
      at = match.index + match[0].length;
    }
    return found.slice(1);
  }

  // Whether words that belong together stand in two places with a blank between them.
  partsProse(texts) { return this.gaps.some((isBlank, i) => isBlank && PROSE.test(`${texts[i]} ${texts[i + 1]}`)); }

  filled(values) { return this.translated.map((piece, i) => (i % 2 ? values.get(piece) : piece)).join(''); }
}

// A language, by its texts: English ones, and what is said for each.
export class Language {
  constructor(texts = {}) {
    this.texts = texts;
    this.isEnglish = !Object.keys(texts).length;
    this.kept = new Map();
    this.wholes = [new Map(), new Map()]; // the same of texts as one, and of what is sure
    this.exact = new Map();
    this.templates = new Map();
    const all = Object.entries(texts), seen = new Set(), own = new Map(all.filter(pair => placesOf(pair[0]).length));
    for (const [english, said] of all) if (/^[,;:.]/.test(english)) own.set(`{0}${english}`, `{0}${said}`);
    for (const [english, said] of all) if (!placesOf(english).length) this.exact.set(line(english), said);
    const parts = all.flatMap(pair => sentences(...pair));
    const wordy = new Set(this.exact.keys());
    for (const [english, said] of parts) {
      if (!placesOf(english).length && !wordy.has(english)) this.exact.set(english, said);
    }
    const later = new Map(parts.filter(([english]) => placesOf(english).length && !(english in texts)));
    for (const [english, said] of [...own, ...later]) {
      const template = new Template(english, said, seen.size), { word } = template;
      seen.add(template);
      if (!this.templates.has(word)) this.templates.set(word, []);
      this.templates.get(word).push(template);
    }
  }

  // The text in this language; what has no translation stays as it is.
  say(text) {
    if (this.isEnglish || !WORD.test(text)) return text;
    if (!this.kept.has(text)) {
      if (this.kept.size >= MOST) this.kept.clear();
      const [, before, core, after] = AROUND.exec(text);
      this.kept.set(text, before + this.said(core) + after);
    }
    return this.kept.get(text);
  }

  said(text) {
    const whole = this.whole(text);
    if (whole !== null) return text.includes('\n') ? whole : whole.replace(/\s*\n\s*/g, ' ');
    for (const separator of SEPARATORS) if (text.search(separator) >= 0) return this.byParts(text, separator);
    const listed = this.listed(text), head = HEAD.exec(text);
    return head && listed === text ? head[1] + this.say(head[2]) : listed;
  }

  // The translation of a text as one; null where there is none, or, if it has to be sure, by few words alone.
  whole(text, isSure = false) {
    const kept = this.wholes[Number(isSure)];
    if (!kept.has(text)) {
      const said = this.found(text, isSure);
      if (kept.size >= MOST) kept.clear();
      kept.set(text, said);
    }
    return kept.get(text);
  }

  found(text, isSure) {
    const dated = DATED.exec(text), all = variants(text);
    const finders = [one => this.exact.get(line(one)) ?? null, one => this.byTemplate(one, isSure)];
    if (dated) {
      const said = this.whole(dated[2], isSure);
      return said && dated[1] + said;
    }
    for (const find of finders) {
      for (const [written, end, off] of all) {
        const said = find(written);
        if (said !== null && said.endsWith(off)) return asWritten(said, written[0] !== text[0], end, off);
      }
    }
    return null;
  }

  byTemplate(text, isSure) {
    const words = new Set(['', ...text.match(WORDS) ?? []]);
    const found = [...words].flatMap(word => this.templates.get(word) ?? [])
      .sort((a, b) => b.size - a.size || a.order - b.order);
    for (const template of found.filter(one => !(isSure && one.isWeak))) {
      const values = template.values(text);
      if (values && !(template.isWeak && this.parts(template, values))) {
        return template.filled(new Map(template.places.map((place, i) => [place, this.say(values[i])])));
      }
    }
    return null;
  }

  // Whether a template with few words of its own would part what isn't known.
  parts(template, values) {
    const isList = values.some(value => /, |\n/.test(value) && this.whole(value, true) === null);
    return isList || template.partsProse(values) || !values.every(value => this.isKnown(value));
  }

  isKnown(text) {
    if (!PROSE.test(text) || this.whole(text.trim(), true) !== null) return true;
    const parts = text.split(LISTED[0]);
    return parts.length > 1 && parts.every(part => this.isKnown(part));
  }

  // The longest beginning that is known, and the rest; or the first part alone, and the rest.
  byParts(text, separator) {
    const gaps = [...text.matchAll(separator)];
    const rest = gap => gap[0] + this.say(text.slice(gap.index + gap[0].length));
    for (const gap of gaps.slice(0, LOOKS).toReversed()) {
      const known = this.whole(text.slice(0, gap.index));
      if (known !== null) return known + rest(gap);
    }
    return this.say(text.slice(0, gaps[0].index)) + rest(gaps[0]);
  }

  // A list, where each of what it lists is known; else the text as it is.
  listed(text) {
    for (const separator of LISTED.filter(one => text.search(one) >= 0)) {
      const gaps = text.match(separator), parts = text.split(separator), said = parts.map(part => this.say(part));
      const isOther = said.some((one, i) => one !== parts[i]);
      if (isOther && parts.every(part => !PROSE.test(part) || this.whole(part) !== null)) {
        return said.reduce((all, one, i) => all + gaps[i - 1].replace('and', this.texts.and ?? 'and') + one);
      }
    }
    return text;
  }
}

// Sentences of a text that has the same number of them in both languages, without a full stop.
function sentences(english, said) {
  const before = english.split(SENTENCES), after = said.split(SENTENCES);
  if (before.length !== after.length || before.length === 1 && !english.endsWith('.')) return [];
  const isSame = i => placesOf(before[i]).sort().join() === placesOf(after[i]).sort().join();
  return before.map((one, i) => [line(bare(one)), bare(after[i]), i])
    .filter(([, , i]) => WORD.test(before[i]) && isSame(i));
}

// How a text may stand in the catalogue: with what is added to its translation, and what is taken off.
function variants(text) {
  const isEnded = /[.:;]$/.test(text) && !text.endsWith('..');
  const forms = [[text, '', ''], isEnded ? [text.slice(0, -1), text.at(-1), ''] : [`${text}:`, '', ':']];
  if (!isCapital(text)) return forms;
  return [...forms, ...forms.map(([one, end, off]) => [one[0].toLowerCase() + one.slice(1), end, off])];
}

function asWritten(said, isRaised, end, off) {
  const own = said.slice(0, said.length - off.length);
  return (isRaised ? own.charAt(0).toUpperCase() + own.slice(1) : own) + end;
}

// ---- the language of this page

let chosen = new Language();
let isSwitched = false;    // it was another one before
const known = new WeakMap(); // the English of texts and attributes that were translated

export const language = { name: 'en' };

export const say = text => chosen.say(text);

// A text as it is put into the document: a string in English, a node else, whose English is known.
export function words(text) {
  if (chosen.isEnglish) return text;
  const node = document.createTextNode(chosen.say(text));
  known.set(node, { english: text, shown: node.nodeValue });
  return node;
}

// Puts a text into an element, in place of what it has.
export function put(node, text) {
  const says = node.translate === false ? text : chosen.say(text);
  if (node.textContent === says) return;
  node.textContent = says;
  if (node.firstChild && says !== text) known.set(node.firstChild, { english: text, shown: says });
}

// Gives an element an attribute that people read.
export function attribute(node, name, text) {
  const says = chosen.say(text);
  node.setAttribute(name, says);
  if (says !== text) known.set(node, { ...known.get(node), [name]: { english: text, shown: says } });
}

// Says anew what is on the page, from a node on.
function again(root) {
  const walker = document.createTreeWalker(root, NodeFilter.SHOW_TEXT | NodeFilter.SHOW_ELEMENT, one => (
    one.nodeType === Node.ELEMENT_NODE && (one.translate === false || one.matches('script, style'))
      ? NodeFilter.FILTER_REJECT : NodeFilter.FILTER_ACCEPT));
  if (walker.filter(root) === NodeFilter.FILTER_REJECT || root.parentElement?.translate === false) return;
  for (let node = root; node; node = walker.nextNode()) {
    if (node.nodeType === Node.TEXT_NODE) sayText(node);
    if (node.nodeType === Node.ELEMENT_NODE) sayAttributes(node);
  }
}

function sayText(node) {
  const before = known.get(node), english = before?.shown === node.nodeValue ? before.english : node.nodeValue;
  const shown = chosen.say(english);
  if (shown !== english) known.set(node, { english, shown }); else known.delete(node);
  if (node.nodeValue !== shown) node.nodeValue = shown;
}

function sayAttributes(node) {
  for (const name of ATTRIBUTES) {
    const says = node.getAttribute(name), before = known.get(node)?.[name];
    if (says) attribute(node, name, before?.shown === says ? before.english : says);
  }
}

// What was away as the language changed comes in the one of before.
const comers = new MutationObserver(changes => {
  for (const { addedNodes } of changes) for (const node of addedNodes) again(node);
});

function take(name, texts) {
  isSwitched ||= language.name !== name;
  chosen = new Language(texts);
  language.name = name;
  document.documentElement.lang = name;
  if (isSwitched) again(document.documentElement);
}

// The texts of the first of some languages that there are; English where the server doesn't answer.
async function fetched(wishes) {
  const answer = await fetch(`texts?language=${encodeURIComponent(wishes.join(','))}`,
    { signal: AbortSignal.timeout(PATIENCE_MS) });
  return answer.ok ? answer.json() : { language: 'en', texts: {} };
}

// The languages that there are, by their names.
export const languages = () => fetched([]).then(got => got.languages ?? {}).catch(() => ({}));

// Chooses one, for this browser; whether it could be.
export async function choose(name) {
  const got = name === 'en' ? { language: 'en', texts: {} } : await fetched([name]).catch(() => null);
  if (got?.language !== name) return false;
  localStorage.language = name;
  take(name, got.texts);
  comers.observe(document.body, { childList: true, subtree: true });
  return true;
}

const wishes = [localStorage.language, ...navigator.languages].filter(Boolean);
if (!/^en\b/i.test(wishes[0] ?? 'en')) {
  const got = await fetched(wishes).catch(() => null);
  if (got?.texts && got.language !== 'en') take(got.language, got.texts);
}
