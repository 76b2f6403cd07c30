// Pictures of the probe's routines: the work, the ball where it is put first, and its ways. Those of corners, edges and
// holes are seen from above, X to the right and Y up; a surface, a boss and a web from before, Z up.
const NS = 'http://www.w3.org/2000/svg';
const WIDTH = 120, HEIGHT = 90;

const WORK = {
  edge: ['M75 8H112V82H75Z'], outside: ['M66 8H112V50H66Z'], inside: ['M8 8H112V82H82V30H8Z'],
  surface: ['M14 58H106V82H14Z'], pocket: ['M8 8H30V82H8Z', 'M90 8H112V82H90Z'],
  bore: ['M8 8H112V82H8ZM60 75A30 30 0 1 0 60 15A30 30 0 1 0 60 75Z'], boss: ['M42 42H78V82H42Z'],
  web: ['M42 42H78V82H42Z'],
};
const BALL = { edge: [32, 45], outside: [30, 72], inside: [45, 60], surface: [60, 22], pocket: [60, 45], bore: [60, 45],
  boss: [60, 22], web: [60, 22] };
// Ways on which nothing may be touched, and those to a face.
const FREE = { outside: ['M30 65V30', 'M37 72H85'], boss: ['M54 22H18V66', 'M66 22H102V66'],
  web: ['M54 22H18V66', 'M66 22H102V66'] };
const TO = { edge: ['M39 45H70'], outside: ['M30 30H61', 'M85 72V55'], inside: ['M52 60H77', 'M45 53V35'],
  surface: ['M60 29V53'], pocket: ['M53 45H35', 'M67 45H85'], bore: ['M53 45H35', 'M67 45H85', 'M60 38V20',
    'M60 52V70'], boss: ['M18 66H37', 'M102 66H83'], web: ['M18 66H37', 'M102 66H83'] };
const BEFORE = ['surface', 'boss', 'web']; // seen from before

function made(tag, given, ...children) {
  const one = document.createElementNS(NS, tag);
  for (const [name, value] of Object.entries(given)) one.setAttribute(name, value);
  one.append(...children);
  return one;
}

// How a picture towards X+, or X+ Y+, is turned for other ways.
function turned(name, ways) {
  const signs = [...ways.matchAll(/([XY])([-+]?)/g)].map(([, axis, sign]) => [axis, sign === '-' ? -1 : 1]);
  const middle = `translate(${WIDTH / 2} ${HEIGHT / 2})`, back = `translate(${-WIDTH / 2} ${-HEIGHT / 2})`;
  if (BEFORE.includes(name) || !signs.length) return '';
  if (signs.length === 2) return `${middle} scale(${signs[0][1]} ${signs[1][1]}) ${back}`;
  const [axis, sign] = signs[0];
  return `${middle} rotate(${axis === 'X' ? 90 - 90 * sign : -90 * sign}) ${back}`;
}

export function picture(name, ways) {
  const work = WORK[name].map(d => made('path', { d, class: 'work', 'fill-rule': 'evenodd' }));
  const free = (FREE[name] ?? []).map(d => made('path', { d, class: 'free' }));
  const to = TO[name].flatMap(d => [made('path', { d, class: 'to' }), head(d)]);
  const [cx, cy] = BALL[name];
  const all = made('g', { transform: turned(name, ways) }, ...work, ...free, ...to,
    made('circle', { cx, cy, r: 7, class: 'ball' }));
  const axis = /^[XY]$/.test(ways) ? ways : 'X';
  const axes = BEFORE.includes(name) ? [axis, 'Z'] : ['X', 'Y'];
  const label = (says, x, y) => { const one = made('text', { x, y }); one.textContent = says; return one; };
  return made('svg', { viewBox: `0 0 ${WIDTH} ${HEIGHT}`, class: 'touches', 'aria-hidden': 'true' }, all,
    made('path', { d: 'M4 70V86H20', class: 'axes' }), label(axes[0], 22, 89), label(axes[1], 1, 67));
}

// The point of an arrow at the end of a way `M x y H x` or `M x y V y`.
function head(d) {
  const [, x, y, along, end] = /^M(\d+) (\d+)([HV])(\d+)$/.exec(d);
  const [ex, ey] = along === 'H' ? [Number(end), Number(y)] : [Number(x), Number(end)];
  const sign = Math.sign(along === 'H' ? ex - x : ey - y);
  const [a, b] = along === 'H' ? [[ex - 6 * sign, ey - 4], [ex - 6 * sign, ey + 4]]
    : [[ex - 4, ey - 6 * sign], [ex + 4, ey - 6 * sign]];
  return made('path', { d: `M${ex} ${ey}L${a.join(' ')}L${b.join(' ')}Z`, class: 'point' });
}
