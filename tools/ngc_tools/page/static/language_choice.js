// Which language this page speaks, of those that there are.
import { el } from './dom.js';
import { choose, language, languages } from './language.js';

export function languageChoice() {
  const names = el('div', { class: 'choices', role: 'group', 'aria-label': 'Language' });
  const box = el('div', { class: 'entry-row', hidden: true }, 'Language', names);
  const show = () => {
    for (const one of names.children) one.setAttribute('aria-pressed', String(one.lang === language.name));
  };
  const take = async name => { if (await choose(name)) show(); };
  const fill = all => {
    names.append(...Object.entries(all).map(([name, says]) => el('button', { lang: name, translate: 'no',
      onclick: () => take(name) }, says)));
    box.hidden = names.children.length < 2;
    show();
  };
  languages().then(fill);
  return box;
}
