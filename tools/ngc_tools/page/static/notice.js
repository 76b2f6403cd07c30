// What is refused, and what is warned of, is shown where the finger was, until the next touch; Log has it too.
import { $, el } from './dom.js';
import { say } from './language.js';

const SEEN_MS = 30000, LEAST_MS = 700, GAP_PX = 8;
let touched = null;      // what the finger was on last, ..
let stood = null;        // .. and where that stood then: it may go, as a sheet that is answered does
let shown = 0;           // when the last one came
let timer = 0;

document.addEventListener('pointerdown', event => {
  if (performance.now() - shown > LEAST_MS) clear();
  touches(event.target.closest?.('button, input, label, summary') ?? event.target);
}, { capture: true, passive: true });
document.addEventListener('keydown', event => {
  if (event.key === 'Enter') touches(event.target);
}, { capture: true, passive: true });
window.addEventListener('resize', () => place());
new MutationObserver(() => place()) // a sheet that opens has buttons of its own
  .observe($('over'), { attributes: true, attributeFilter: ['hidden'], childList: true });

function touches(node) {
  touched = node;
  stood = node.getBoundingClientRect?.() ?? null;
}

export function notice(says, kind) {
  const same = [...$('toast').children].some(one => one.textContent === say(says));
  if (!same) $('toast').append(el('p', { class: kind }, says));
  if ($('toast').children.length > 3) $('toast').firstChild.remove();
  $('toast').hidden = false;
  shown = performance.now();
  clearTimeout(timer);
  timer = setTimeout(clear, SEEN_MS);
  place();
}

function clear() {
  $('toast').replaceChildren();
  $('toast').hidden = true;
}

// Above what was touched, or below it, and within the window; never over the band, a sheet's buttons, or Hold.
function place() {
  const toast = $('toast');
  if (toast.hidden) return;
  const from = $('state').getBoundingClientRect().bottom + GAP_PX;
  const foot = document.querySelector('#over:not([hidden]) .foot') ?? document.querySelector('footer');
  const to = foot.getBoundingClientRect().top - GAP_PX;
  const isSeen = touched?.isConnected && touched.checkVisibility?.();
  const at = isSeen ? touched.getBoundingClientRect() : stood ?? $('run').getBoundingClientRect();
  const { width, height } = toast.getBoundingClientRect(), middle = (at.left + at.right) / 2;
  const above = at.top - height - GAP_PX, below = at.bottom + GAP_PX;
  const top = above >= from || below + height > to ? above : below;
  toast.style.left = `${Math.max(GAP_PX, Math.min(middle - width / 2, innerWidth - width - GAP_PX))}px`;
  toast.style.top = `${Math.max(from, Math.min(top, to - height))}px`;
}
