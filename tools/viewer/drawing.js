// Draws a world: its ground, and on it actors with their legs and bars, shots, and what is chosen.

// The radius of a body in cells.
const BODY_SHARE = 0.37;
// From so many pixels a cell on, actors have letters, and all bars are drawn.
const LETTERED_CELL = 21;
const BARRED_CELL = 26;
// Below that only bars of actors that are hurt are drawn, and below this none; nor are legs.
const LEAST_BARRED_CELL = 10;
// Smaller bodies are drawn once each, with their facing rounded to one of so many, and then copied.
const COPIED_CELL = 40;
const COPIED_FACINGS = 64;
const COPIES_SIDE = 1024;
// Of bars with more than two thirds, more than one, and less; their length tells the same.
const HEALTH_COLOURS = ['#35c28b', '#f2b01e', '#ff6b4a'];
// Where a shot hits.
const STAR = Array.from({ length: 12 }, (_, at) => [at / 6, at % 2 ? 0.45 : 1]);

// Pictures of bodies side by side on one canvas, for one size of cells. All that are wanted are made before the first
// is copied: a canvas that is drawn on and copied by turns is slow.
class Copies {
  constructor(cell, ratio) {
    this.cell = cell;
    const side = cell * 1.4 + 6;
    // Even, so that the middle lies between pixels.
    this.side = 2 * Math.ceil((side * ratio) / 2);
    this.ratio = ratio;
    this.across = Math.floor(COPIES_SIDE / this.side);
    this.places = new Map();
    this.canvas = Object.assign(document.createElement('canvas'), { width: COPIES_SIDE, height: COPIES_SIDE });
    this.path = this.canvas.getContext('2d');
  }

  // Draws the picture of a key, round the place 0, 0, where it isn't there and has room.
  make(key, draw) {
    const place = this.places.size;
    if (this.places.has(key) || place >= this.across * this.across) return;
    this.places.set(key, place);
    this.path.setTransform(this.ratio, 0, 0, this.ratio, ...this.corner(place).map((it) => it + this.side / 2));
    draw(this.path);
  }

  // Copies a picture, onto whole pixels where it is to be sharp; false where it isn't there.
  put(path, key, left, top, isSharp) {
    const place = this.places.get(key);
    if (place === undefined) return false;
    const size = this.side / this.ratio;
    const [x, y] = [left, top].map((it) => (isSharp ? Math.round(it * this.ratio) / this.ratio : it) - size / 2);
    path.drawImage(this.canvas, ...this.corner(place), this.side, this.side, x, y, size, size);
    return true;
  }

  corner(place) {
    return [(place % this.across) * this.side, Math.floor(place / this.across) * this.side];
  }
}

function crossedRing(path, x, y, radius) {
  const half = radius / 2;
  path.beginPath();
  path.arc(x, y, radius, 0, 2 * Math.PI);
  path.moveTo(x - half, y - half);
  path.lineTo(x + half, y + half);
  path.moveTo(x + half, y - half);
  path.lineTo(x - half, y + half);
  path.stroke();
}

class MapView {
  constructor(canvas, world, camera) {
    Object.assign(this, { canvas, world, match: world.match, camera });
    this.path = canvas.getContext('2d');
    this.shapes = shapesOf(this.match.kinds);
    this.isStill = this.shapes.map((it) => !MOVING_SHAPES.includes(it));
    this.letters = this.match.kinds.map((it) => Array.from(it.name).slice(0, 2).join(''));
    // What was drawn last: of each actor its id, and its place in cells and in pixels.
    this.drawn = [];
    // The shots that were drawn: who fired, and at whom.
    this.shots = [];
    this.chosen = null;
    this.differing = new Set();
    this.resize();
  }

  resize() {
    Object.assign(this, fitted(this.canvas));
    this.camera.fit(this.width, this.height);
    this.retheme();
  }

  retheme() {
    this.colours = themeColours('ore', 'outline', 'choice', 'shot', 'warn', 'bar');
    this.ground = new Ground(this);
    this.copies = null;
  }

  toPixels(x, y) {
    const { camera } = this;
    return [(x - camera.x) * camera.cell + this.width / 2, (y - camera.y) * camera.cell + this.height / 2];
  }

  toCells(x, y) {
    const { camera } = this;
    return [(x - this.width / 2) / camera.cell + camera.x, (y - this.height / 2) / camera.cell + camera.y];
  }

  // Draws the way from the world before to this one, of which `share` is gone: 1 is this world.
  draw(share = 1) {
    const { path, world } = this;
    path.setTransform(this.ratio, 0, 0, this.ratio, 0, 0);
    path.clearRect(0, 0, this.width, this.height);
    this.ground.draw();
    this.share = world.hasBefore ? share : 1;
    this.drawn = [];
    for (const actor of world.actors.values()) {
      const was = world.was(actor);
      const [fromX, fromY] = placeOf(was);
      const [toX, toY] = placeOf(actor.now);
      const [x, y] = [mixed(fromX, toX, this.share), mixed(fromY, toY, this.share)];
      const [left, top] = this.toPixels(x, y);
      const facing = facingBetween(was[FACING], actor.now[FACING], this.share);
      this.drawn.push({ actor, was, id: actor.id, x, y, left, top, facing, isStill: this.isStill[actor.now[KIND]] });
    }
    this.drawFallen();
    const margin = this.camera.cell * 2;
    const isWithin = (at, size) => at > -margin && at < size + margin;
    const shown = this.drawn.filter(({ left, top }) => isWithin(left, this.width) && isWithin(top, this.height));
    this.prepare(shown);
    for (const it of shown) this.drawLeg(it);
    for (const it of shown) if (it.isStill) this.drawActor(it);
    for (const it of shown) if (!it.isStill) this.drawActor(it);
    this.drawShots(shown);
    for (const it of shown) this.drawBars(it);
    for (const it of shown) if (this.differing.has(it.id)) this.drawRing(it, this.colours.warn, [4, 3], 1.75);
    this.drawChosen();
  }

  radius() {
    return Math.max(1.6, this.camera.cell * BODY_SHARE);
  }

  // The cell that an actor on a leg holds, and the way to it.
  drawLeg({ actor, left, top }) {
    const { path, camera } = this;
    if (!actor.now[LEG] || camera.cell < LEAST_BARRED_CELL) return;
    const [x, y] = this.toPixels(actor.now[X], actor.now[Y]);
    const inset = camera.cell * 0.1;
    path.strokeStyle = ownerColour(actor.now[OWNER]);
    path.lineWidth = Math.max(1, camera.cell / 24);
    path.globalAlpha = 0.75;
    path.beginPath();
    path.roundRect(x + inset, y + inset, camera.cell - 2 * inset, camera.cell - 2 * inset, inset);
    path.setLineDash([camera.cell * 0.12, camera.cell * 0.1]);
    path.moveTo(left, top);
    path.lineTo(x + camera.cell / 2, y + camera.cell / 2);
    path.stroke();
    path.setLineDash([]);
    path.globalAlpha = 1;
  }

  // Gives each actor its angle, and the key of its picture where it is copied.
  prepare(shown) {
    const { camera } = this;
    const isCopied = camera.cell < COPIED_CELL;
    if (!isCopied) this.copies = null;
    else if (this.copies?.cell !== camera.cell) this.copies = new Copies(camera.cell, this.ratio);
    for (const it of shown) {
      const { now } = it.actor;
      const part = Math.round((it.facing / FULL_TURN) * COPIED_FACINGS + COPIED_FACINGS) % COPIED_FACINGS;
      it.angle = it.isStill ? null : screenAngle(isCopied ? (part / COPIED_FACINGS) * FULL_TURN : it.facing);
      it.key = (now[KIND] * 256 + now[OWNER]) * COPIED_FACINGS + (it.isStill ? 0 : part);
      this.copies?.make(it.key, (path) => this.drawBody(path, now, 0, 0, it.angle));
    }
  }

  drawActor({ actor, was, left, top, angle, key }) {
    const { path } = this;
    const { now } = actor;
    if (!this.copies?.put(path, key, left, top, this.share === 1)) this.drawBody(path, now, left, top, angle);
    if (now[HEALTH] < was[HEALTH] && this.world.hasBefore) {
      path.globalAlpha = this.share < 1 ? 0.75 * (1 - this.share) : 0.3;
      tracedShape(path, this.shapes[now[KIND]], left, top, this.radius(), angle ?? 0);
      path.fillStyle = '#ffffff';
      path.fill();
      path.globalAlpha = 1;
    }
  }

  drawBody(path, now, x, y, angle) {
    const [kind, owner, radius] = [now[KIND], now[OWNER], this.radius()];
    drawnBody(path, this.shapes[kind], owner, x, y, radius, angle, this.colours.outline);
    if (this.camera.cell < LETTERED_CELL) return;
    path.fillStyle = lettersOn(ownerColour(owner));
    path.font = `600 ${Math.round(radius * 0.82)}px system-ui, sans-serif`;
    path.textAlign = 'center';
    path.textBaseline = 'middle';
    path.fillText(this.letters[kind], x, y + radius * 0.05, radius * 1.7);
  }

  drawBars({ actor, left, top }) {
    const { path, camera, colours, match } = this;
    const now = actor.now;
    const kind = match.kinds[now[KIND]];
    const isHurt = now[HEALTH] < kind.health;
    if (camera.cell < LEAST_BARRED_CELL || (!isHurt && (camera.cell < BARRED_CELL || kind.health === 1))) return;
    const [width, height] = [camera.cell * 0.76, Math.max(2, Math.min(6, camera.cell * 0.08))];
    const share = now[HEALTH] / kind.health;
    const bar = (y, part, colour) => {
      path.fillStyle = colours.bar;
      path.fillRect(left - width / 2 - 1, y - 1, width + 2, height + 2);
      path.fillStyle = colour;
      path.fillRect(left - width / 2, y, Math.max(1, width * part), height);
    };
    const above = top - this.radius() * 1.12 - height - 2;
    bar(above, share, HEALTH_COLOURS[share > 2 / 3 ? 0 : share > 1 / 3 ? 1 : 2]);
    if (now[LOAD] && camera.cell >= MARKED_CELL) bar(top + this.radius() * 1.12 + 2, now[LOAD] / kind.load, colours.ore);
    const builds = (now.length - FIRST_ACT - ACT_LENGTH * now[ACTS]) / 2;
    if (builds && camera.cell >= LETTERED_CELL) this.drawBuilds(builds, left, top);
  }

  // How many units are to be built there.
  drawBuilds(builds, left, top) {
    const { path, colours } = this;
    const radius = this.radius();
    path.font = `700 ${Math.round(radius * 0.6)}px system-ui, sans-serif`;
    const [x, y] = [left + radius * 0.85, top + radius * 0.85];
    path.fillStyle = colours.bar;
    path.beginPath();
    path.arc(x, y, radius * 0.45, 0, 2 * Math.PI);
    path.fill();
    path.fillStyle = '#ffffff';
    path.textAlign = 'center';
    path.textBaseline = 'middle';
    path.fillText(`+${builds}`, x, y);
  }

  // Where actors stood that are in the world before and not in this one.
  drawFallen() {
    const { path, camera, world } = this;
    if (!world.hasBefore) return;
    for (const { now } of world.fallen) {
      const [left, top] = this.toPixels(...placeOf(now));
      const radius = this.radius() * (0.8 + 0.5 * this.share);
      path.globalAlpha = this.share < 1 ? 1 - this.share * 0.6 : 0.5;
      path.strokeStyle = ownerColour(now[OWNER]);
      path.lineWidth = Math.max(1.5, camera.cell / 14);
      crossedRing(path, left, top, radius);
      path.globalAlpha = 1;
    }
  }

  // Where an actor's place is drawn; of one that has fallen, where it was.
  find(id) {
    const found = this.drawn.find((it) => it.id === id);
    if (found) return [found.left, found.top];
    const fallen = this.world.hasBefore && this.world.fallen.find((it) => it.id === id);
    return fallen ? this.toPixels(...placeOf(fallen.now)) : null;
  }

  // An actor has fired where its reload has risen.
  drawShots(shown) {
    const { path, camera, colours, world } = this;
    this.shots = [];
    if (!world.hasBefore) return;
    for (const { actor, was, left, top } of shown) {
      const [act] = actor.now[RELOAD] > was[RELOAD] ? actsOf(actor.now) : [];
      const to = act && act.what === ATTACK && this.find(act.a);
      if (!to) continue;
      this.shots.push([actor.id, act.a]);
      path.globalAlpha = this.share < 1 ? 1 - 0.7 * this.share : 0.8;
      path.strokeStyle = path.fillStyle = colours.shot;
      path.lineWidth = Math.max(1, camera.cell / 22);
      path.beginPath();
      path.moveTo(left, top);
      path.lineTo(...to);
      path.stroke();
      path.beginPath();
      polygon(path, ...to, Math.max(3, camera.cell * 0.22), 0.3, STAR);
      path.fill();
      path.globalAlpha = 1;
    }
  }

  drawRing({ left, top }, colour, dash, size) {
    const { path } = this;
    path.beginPath();
    path.arc(left, top, Math.max(6, this.radius() * size), 0, 2 * Math.PI);
    path.lineWidth = 2;
    path.strokeStyle = colour;
    path.setLineDash(dash);
    path.stroke();
    path.setLineDash([]);
  }

  // The actor that is chosen, and where what it is to do leads it.
  drawChosen() {
    const { path, colours, camera } = this;
    const found = this.drawn.find((it) => it.id === this.chosen);
    if (!found) return;
    this.drawRing(found, colours.bar, [], 1.5);
    this.drawRing(found, colours.choice, [], 1.42);
    path.strokeStyle = path.fillStyle = colours.choice;
    path.lineWidth = 1.5;
    path.setLineDash([2, 4]);
    path.beginPath();
    path.moveTo(found.left, found.top);
    const ends = [];
    for (const act of actsOf(found.actor.now)) {
      const to = act.what === ATTACK ? this.find(act.a) : this.toPixels(act.a + 0.5, act.b + 0.5);
      if (!to) continue;
      path.lineTo(...to);
      ends.push(to);
    }
    path.stroke();
    path.setLineDash([]);
    for (const [x, y] of ends) {
      path.beginPath();
      path.arc(x, y, Math.max(2.5, camera.cell * 0.08), 0, 2 * Math.PI);
      path.fill();
    }
  }

  // The actor that is drawn at a place of the canvas, or the nearest within a cell's half.
  actorAt(left, top) {
    let [best, least] = [null, Math.max(7, this.camera.cell * 0.55)];
    for (const it of this.drawn) {
      const far = Math.hypot(it.left - left, it.top - top);
      if (far < least) [best, least] = [it.id, far];
    }
    return best;
  }
}
