// A button that comes to mean something else is dead for a second: the finger that is on its way to it meant what it
// said before. So are the buttons of a sheet that opens, those below one that goes, and each that a change moves.
export const dead = { ms: 1000 };
const NEVER_DEAD = ['hold', 'stop'];
const MOVED_PX = 4;

const timers = new WeakMap();

export function rest(...nodes) {
  for (const node of nodes) {
    node.inert = true;
    clearTimeout(timers.get(node));
    timers.set(node, setTimeout(() => { node.inert = false; }, dead.ms));
  }
}

// Says what a button, or a group of them, means now.
export function means(node, meaning) {
  if (node.means !== undefined && node.means !== meaning) rest(node);
  node.means = meaning;
}

// Where each button was when it was seen last.
const places = new WeakMap();

// Sees what gets another size, comes or goes, which moves the buttons behind it.
export const sizes = new ResizeObserver(() => {
  for (const node of document.querySelectorAll('button')) look(node);
});

// A button that a finger is on goes on as it was.
function look(node) {
  const at = place(node), was = places.get(node);
  if (!at) return;
  places.set(node, at);
  const isMoved = was && (Math.abs(at.x - was.x) > MOVED_PX || Math.abs(at.y - was.y) > MOVED_PX);
  if (isMoved && !NEVER_DEAD.includes(node.id) && !node.matches(':active')) rest(node);
}

// Where it is, as if nothing were scrolled; null where nobody sees it.
function place(node) {
  const box = node.getBoundingClientRect();
  let { x, y } = box;
  for (let above = node.parentElement; above; above = above.parentElement) {
    x += above.scrollLeft;
    y += above.scrollTop;
  }
  return box.width ? { x, y } : null;
}
