// How a picture is looked at: from above, or aslant. A point goes to the screen by an affine map.
const LEAST_ZOOM = 1e-6, MOST_ZOOM = 2; // pixels a micrometre
const ROOM = { side: 76, ends: 128, down: 12 };

export class View {
  constructor() {
    this.zoom = 1e-3;
    this.shift = [0, 0];
    this.lookDown();
  }

  get isFlat() { return this.tilt === 0; }

  lookDown() { this.turn = 0; this.tilt = 0; }

  lookAslant() { this.turn = -0.62; this.tilt = 1.02; }

  // The numbers of the map: x is m[0] X + m[1] Y + m[2] Z + m[3], y the same of the last four.
  map(width, height) {
    const c = Math.cos(this.turn), s = Math.sin(this.turn), up = Math.cos(this.tilt), z = Math.sin(this.tilt);
    const k = this.zoom, x = width / 2 - this.shift[0] * k, y = height / 2 + ROOM.down + this.shift[1] * k;
    return [k * c, -k * s, 0, x, -k * s * up, -k * c * up, -k * z, y];
  }

  // Sets zoom and shift so that all points are in sight. They are in one array, three numbers each.
  fit(points, width, height) {
    this.zoom = 1;
    this.shift = [0, 0];
    const m = this.map(0, -2 * ROOM.down), low = [Infinity, Infinity], high = [-Infinity, -Infinity];
    for (let i = 0; i < points.length; i += 3) {
      const x = m[0] * points[i] + m[1] * points[i + 1];
      const y = m[4] * points[i] + m[5] * points[i + 1] + m[6] * points[i + 2];
      low[0] = Math.min(low[0], x); high[0] = Math.max(high[0], x);
      low[1] = Math.min(low[1], y); high[1] = Math.max(high[1], y);
    }
    const wide = Math.max(high[0] - low[0], 2000), tall = Math.max(high[1] - low[1], 2000);
    this.zoom = Math.min(Math.max(width - ROOM.side, 20) / wide, Math.max(height - ROOM.ends, 20) / tall);
    this.shift = [(low[0] + high[0]) / 2, -(low[1] + high[1]) / 2];
  }

  pan(dx, dy) { this.shift = [this.shift[0] - dx / this.zoom, this.shift[1] + dy / this.zoom]; }

  rotate(dx, dy) {
    this.turn += dx * 0.008;
    this.tilt = Math.min(1.5, Math.max(0.15, this.tilt + dy * 0.006));
  }

  // Magnifies, with the place at x, y of the screen kept where it is.
  magnify(by, x, y, width, height) {
    const zoom = Math.min(MOST_ZOOM, Math.max(LEAST_ZOOM, this.zoom * by));
    const dx = x - width / 2, dy = y - height / 2 - ROOM.down;
    this.shift = [this.shift[0] + dx / this.zoom - dx / zoom, this.shift[1] - dy / this.zoom + dy / zoom];
    this.zoom = zoom;
  }

  // A round number of micrometres that is some 90 pixels long.
  grain() {
    const want = 90 / this.zoom, ten = 10 ** Math.floor(Math.log10(want));
    return [1, 2, 5, 10].map(n => n * ten).find(n => n >= want * 0.7);
  }
}
