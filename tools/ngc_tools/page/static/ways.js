// What a rehearsal says of the way back to where a half-done segment begins.
import { el, lasting, mm, point } from './dom.js';
import * as sheet from './sheet.js';

const FREE = 'Z isn\u2019t lifted first: it goes through whatever stands between. Where the violet line isn\u2019t '
  + 'free, free the tool by hand, go back, and tell where it is then.';
const LEFT = 'Lines stand in OUT that no motor carried out. Legs alone lead back to them from where you say that it '
  + 'stands, not this straight line.';

// What was handed out before the segment and never cut, and what earlier losses of power left: red in the picture, if
// it is anything.
export function neverCut(found) {
  if (!found) return [];
  const red = says => sheet.warning(`Red in the picture. ${says}.`, 'bad');
  const last = found.words && (found.lines ? red(found.words) : sheet.soft(`${found.words}.`));
  return [last, ...found.earlier.map(one => red(one.words))];
}

// What was chosen before power was lost, and is given back or isn't.
export const givenBack = ({ given_back: given, not_given_back: lost }) => [
  given.length && sheet.said(`Given back, as it was: ${given.join(', ')}.`),
  lost.length && sheet.warning(`Not given back, since the player doesn\u2019t take it: ${lost.join(', ')}.`, 'bad')];

// Its paths, each of points in micrometres.
export const lostOf = found => [found, ...found?.earlier ?? []].map(one => one?.points ?? [])
  .filter(points => points.length);

// `along` is what recover would do, or null; `plan` the rehearsal of a resume.
export function told(along, plan, recover) {
  const way = along ? alongOut(along, plan) : plan.approach ? straight(plan) : [];
  const isStuck = !along && recover?.left;
  return [...way, recover?.problem && sheet.warning(recover.problem, 'bad'), isStuck && sheet.warning(LEFT, 'bad'),
    plan.refused && sheet.warning(plan.refused, 'bad'),
    el('details', {}, el('summary', {}, 'All that the rehearsal says'), sheet.lines(plan.lines))];
}

// The straight way of a resume, and what lies in it.
function straight(plan) {
  const way = plan.approach, isThere = Number(way.length) === 0;
  const title = isThere ? 'The tool is there already: nothing moves before the cut'
    : `The way back: one straight line of ${mm(way.length)} mm`;
  const dangers = way.warnings.map(one => sheet.warning(one));
  const isFine = !dangers.length && !isThere;
  return [sheet.title(title), ...dangers,
    isFine && sheet.warning('It doesn\u2019t go down, and stays where cuts are finished.', 'fine'),
    sheet.facts([['From', sheet.code(point(way.from))], ['To', sheet.code(point(way.to))],
      ['Lowest', sheet.code(`Z ${mm(way.lowest)}`)], ['It goes at', way.rate], ['That takes', way.time],
      ['Comes on first', plan.comes_on], ['Then, to the end', lasting(plan.rest_us)]]),
    isThere ? null : sheet.said(FREE)];
}

// The way of recover, along OUT or by legs.
function alongOut(recover, plan) {
  const { way } = recover, length = way && Number(way.length) ? `: ${mm(way.length)} mm` : '';
  const how = way?.back ? 'Back through what was cut' : 'On along what was handed out';
  const title = recover.there ? 'The motors are where the segment begins'
    : way ? `${how}${length}` : 'By legs: up, over, and down';
  return [sheet.title(title),
    way && !recover.there ? sheet.warning('No line is lost: the tool goes along its very path.', 'fine') : null,
    sheet.facts([['It goes', recover.words], ['To', sheet.code(point(recover.at))], ['Was on there', plan.comes_on],
      ['Then, to the end', lasting(plan.rest_us)]])];
}
