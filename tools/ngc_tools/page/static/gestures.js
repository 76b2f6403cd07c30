// Fingers, the mouse and its wheel on a picture: to move it, to turn it where it is seen aslant, to magnify it.
export function listen(canvas, view, { moved, fit }) {
  const held = new Map();
  const gap = () => { const [a, b] = [...held.values()]; return Math.hypot(a.x - b.x, a.y - b.y); };
  const magnify = (by, x, y) => view.magnify(by, x, y, canvas.clientWidth, canvas.clientHeight);

  canvas.addEventListener('pointerdown', event => {
    canvas.setPointerCapture(event.pointerId);
    held.set(event.pointerId, { x: event.offsetX, y: event.offsetY });
  });
  canvas.addEventListener('pointermove', event => {
    const was = held.get(event.pointerId);
    if (!was) return;
    const before = held.size === 2 ? gap() : 0, dx = event.offsetX - was.x, dy = event.offsetY - was.y;
    Object.assign(was, { x: event.offsetX, y: event.offsetY });
    if (held.size === 2 && before) magnify(gap() / before, was.x, was.y);
    else if (view.isFlat || event.shiftKey || event.buttons > 1) view.pan(dx, dy);
    else view.rotate(dx, dy);
    moved();
  });
  for (const kind of ['pointerup', 'pointercancel']) {
    canvas.addEventListener(kind, event => held.delete(event.pointerId));
  }
  canvas.addEventListener('wheel', event => {
    event.preventDefault();
    magnify(Math.exp(-event.deltaY * 0.0015), event.offsetX, event.offsetY);
    moved();
  }, { passive: false });
  canvas.addEventListener('dblclick', fit);
}
