// A picture on a sheet, with its buttons.
import { el } from './dom.js';
import { Picture } from './picture.js';
import { button } from './sheet.js';

let last = null;

export class Sight {
  constructor() {
    const canvas = el('canvas');
    this.picture = new Picture(canvas);
    this.views = [['Top', true], ['3-D', false]].map(([says, isFlat]) => button(says, () => this.look(isFlat)));
    const fit = button('Fit', () => this.picture.fit());
    this.box = el('div', { class: 'sight' }, canvas,
      el('div', { class: 'views' }, el('div', { class: 'pair' }, ...this.views), fit));
    last = this;
  }

  look(isFlat) {
    this.views.forEach((button, i) => button.setAttribute('aria-pressed', String(isFlat === (i === 0))));
    this.picture.look(isFlat);
  }
}

// The page is dark now, or light.
export const recolour = () => last?.picture.recolour();
