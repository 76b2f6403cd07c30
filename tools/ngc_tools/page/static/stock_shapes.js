// The shapes of tools, from the tip up, and how low they come beside the path of their tip. All in micrometres.
//
// Each shape knows the lowest that it comes at a point beside a straight piece of path: `aside2` is the square of how
// far the point lies beside the line, `z` the tip's height where the point is abreast, and `slope` what that rises
// along the line. The tip is looked at from `low` to `high` along the line, measured from there.
class Flat {
  lowest(aside2, low, high, z, slope) { return z + slope * (slope > 0 ? low : high); }
}

class Ball {
  constructor(radius) { this.radius = radius; }

  // The height z + slope v + radius - sqrt(radius2 - aside2 - v2) is least where its derivative is 0.
  lowest(aside2, low, high, z, slope) {
    const room = Math.max(0, this.radius * this.radius - aside2);
    const v = within(-slope * Math.sqrt(room / (1 + slope * slope)), low, high);
    return z + slope * v + this.radius - Math.sqrt(Math.max(0, room - v * v));
  }
}

class Vee {
  constructor(degrees) { this.rise = 1 / Math.tan(degrees * Math.PI / 360); }

  // The height z + slope v + rise sqrt(aside2 + v2) is least where its derivative is 0, or at an end of a steep path.
  lowest(aside2, low, high, z, slope) {
    const steep = this.rise * this.rise - slope * slope;
    const best = steep > 0 ? -slope * Math.sqrt(aside2 / steep) : -slope * Infinity;
    const v = within(best, low, high);
    return z + slope * v + this.rise * Math.sqrt(aside2 + v * v);
  }
}

const within = (value, low, high) => Math.max(low, Math.min(high, value));

function shapeOf({ tip, radius, angle }) {
  if (tip === 'ball') return new Ball(radius);
  return tip === 'v' ? new Vee(angle) : new Flat();
}

// A tool that moves over the cells of a grid.
export class Cutter {
  // It comes `radius` far. Nearer than `near` to the tip's path the tip itself is the lowest, as in cells that the path
  // crosses. What it would lower by less than `margin` it leaves.
  constructor(said, radius, near, margin) {
    this.shape = shapeOf(said);
    this.radius2 = radius > 0 ? radius * radius : -1;
    this.near2 = near * near;
    this.reach = Math.max(radius, near);
    this.margin = margin;
  }

  // The lowest that it comes at a point `along` a piece and `aside2` beside its line; Infinity where it doesn't come.
  lowest(piece, along, aside2) {
    const here = piece.z + piece.slope * along, back = -along, ahead = piece.length - along;
    const nearest = within(0, back, ahead);
    const tip = aside2 + nearest * nearest <= this.near2 ? here + piece.slope * nearest : Infinity;
    if (aside2 > this.radius2) return tip;
    const wide = Math.sqrt(this.radius2 - aside2);
    if (back > wide || ahead < -wide) return tip;
    return Math.min(tip, this.shape.lowest(aside2, Math.max(back, -wide), Math.min(ahead, wide), here, piece.slope));
  }
}

// A straight piece of the path of a tool's tip. One that goes straight down or up is its lowest point.
export class Piece {
  constructor([ax, ay, az], [bx, by, bz]) {
    const length = Math.hypot(bx - ax, by - ay), isAlong = length > 0;
    this.x = ax;
    this.y = ay;
    this.low = Math.min(az, bz);
    this.length = length;
    this.z = isAlong ? az : this.low;
    this.slope = isAlong ? (bz - az) / length : 0;
    this.ux = isAlong ? (bx - ax) / length : 1;
    this.uy = isAlong ? (by - ay) / length : 0;
    this.left = Math.min(ax, bx);
    this.right = Math.max(ax, bx);
    this.bottom = Math.min(ay, by);
    this.far = Math.max(ay, by);
    this.lean = this.uy ? this.ux / this.uy : 0;
    this.wide = this.uy ? 1 / Math.abs(this.uy) : Infinity;
  }

  // From where to where along X a tool of some reach comes, so far beside the beginning in Y.
  from(reach, dy) { return Math.max(this.left - reach, this.x + dy * this.lean - reach * this.wide); }

  to(reach, dy) { return Math.min(this.right + reach, this.x + dy * this.lean + reach * this.wide); }
}
