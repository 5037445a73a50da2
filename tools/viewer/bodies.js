// How actors look: where they are, the colours of their owners, and the shapes of their kinds.

const FULL_TURN = 1024;
// What a step goes east and south, by direction: 0 north, then clockwise.
const STEPS = [[0, -1], [1, -1], [1, 0], [1, 1], [0, 1], [-1, 1], [-1, 0], [-1, -1]];
const COMPASS = ['north', 'north-east', 'east', 'south-east', 'south', 'south-west', 'west', 'north-west'];
// The length of a leg to a neighbour that shares a side, and of one to a neighbour that shares a corner.
const legLength = (direction) => (direction % 2 ? 1448 : 1024);

// Colours that people who see fewer of them can tell too (Okabe and Ito). Clients from 8 on have them again, with a
// broken white ring.
const OWNER_COLOURS = ['#0072b2', '#d55e00', '#009e73', '#e69f00', '#56b4e9', '#cc79a7', '#f0e442', '#262626'];
const NOBODY_COLOUR = '#8a8f98';
const DARK_LETTERS = new Set(['#e69f00', '#56b4e9', '#cc79a7', '#f0e442', '#8a8f98']);
const ownerColour = (owner) => (owner === NOBODY ? NOBODY_COLOUR : OWNER_COLOURS[owner % OWNER_COLOURS.length]);
const isRinged = (owner) => owner !== NOBODY && owner >= OWNER_COLOURS.length;
const lettersOn = (colour) => (DARK_LETTERS.has(colour) ? '#161616' : '#ffffff');

const MOVING_SHAPES = ['circle', 'tank', 'wedge', 'hexagon'];

const byId = (id) => document.getElementById(id);

// An element of the page, with its text and its attributes.
function element(name, text = '', attributes = {}) {
  const node = document.createElement(name);
  node.textContent = text;
  for (const [key, value] of Object.entries(attributes)) node.setAttribute(key, value);
  return node;
}

// The colours of the page by their names.
function themeColours(...names) {
  const style = getComputedStyle(document.documentElement);
  return Object.fromEntries(names.map((name) => [name, style.getPropertyValue(`--${name}`).trim()]));
}

// Gives a canvas a pixel for each of the screen's; returns how many of them a pixel of the page has, and its size there.
function fitted(canvas) {
  const ratio = window.devicePixelRatio || 1;
  const { clientWidth: width, clientHeight: height } = canvas;
  [canvas.width, canvas.height] = [Math.round(width * ratio), Math.round(height * ratio)];
  return { ratio, width, height };
}

// Where an actor is, in cells: on a leg it holds the cell to which that leads, and is on the way to it.
function placeOf(now) {
  const [x, y] = [now[X] + 0.5, now[Y] + 0.5];
  if (!now[LEG]) return [x, y];
  const direction = now[LEG] - 1;
  const left = 1 - now[GONE] / legLength(direction);
  return [x - STEPS[direction][0] * left, y - STEPS[direction][1] * left];
}

const mixed = (one, other, share) => one + (other - one) * share;

// An angle between two facings, the short way round.
function facingBetween(one, other, share) {
  const turn = ((other - one + FULL_TURN * 1.5) % FULL_TURN) - FULL_TURN / 2;
  return one + turn * share;
}

// The angle of a facing on the screen, in radians clockwise from east: facings grow counter-clockwise from north.
const screenAngle = (facing) => -Math.PI / 2 - (facing / FULL_TURN) * 2 * Math.PI;

function shapesOf(kinds) {
  let moving = 0;
  return kinds.map((it) => {
    if (it.building) return 'square';
    return it.speed ? MOVING_SHAPES[moving++ % MOVING_SHAPES.length] : 'diamond';
  });
}

// Adds the shape of which each corner is given by its angle, of which 1 is a half turn, and its distance in radii.
function polygon(path, x, y, radius, angle, turns) {
  turns.forEach(([turn, far], at) => {
    const [to, of] = [angle + turn * Math.PI, radius * far];
    path[at ? 'lineTo' : 'moveTo'](x + Math.cos(to) * of, y + Math.sin(to) * of);
  });
  path.closePath();
}

const CORNERS = {
  tank: [[0.22, 1.12], [0.78, 1.12], [1.22, 1.12], [1.78, 1.12]],
  wedge: [[0, 1.3], [0.72, 1.16], [1, 0.66], [1.28, 1.16]],
  hexagon: [[0, 1.08], [1 / 3, 1.08], [2 / 3, 1.08], [1, 1.08], [4 / 3, 1.08], [5 / 3, 1.08]],
  diamond: [[0, 1.15], [0.5, 1.15], [1, 1.15], [1.5, 1.15]],
};

function tracedShape(path, shape, x, y, radius, angle) {
  path.beginPath();
  const half = radius * 1.08;
  if (shape === 'square') path.roundRect(x - half, y - half, 2 * half, 2 * half, radius * 0.28);
  else if (shape === 'circle') path.arc(x, y, radius, 0, 2 * Math.PI);
  else polygon(path, x, y, radius, shape === 'diamond' ? 0 : angle ?? 0, CORNERS[shape]);
}

// A body as it stands on the map, in lists too. One without a facing (null) has no nose.
function drawnBody(path, shape, owner, x, y, radius, angle, outline) {
  const colour = ownerColour(owner);
  if (angle !== null && radius > 2.5) {
    path.beginPath();
    polygon(path, x, y, radius, angle, [[-0.17, 0.9], [0, 1.62], [0.17, 0.9]]);
    path.fillStyle = outline;
    path.fill();
  }
  tracedShape(path, shape, x, y, radius, angle);
  path.fillStyle = colour;
  path.fill();
  path.lineWidth = Math.max(0.75, radius * 0.1);
  path.strokeStyle = outline;
  path.stroke();
  if (isRinged(owner)) {
    path.setLineDash([radius * 0.35, radius * 0.25]);
    path.lineWidth = Math.max(1, radius * 0.16);
    path.strokeStyle = '#ffffff';
    tracedShape(path, shape, x, y, radius * 0.8, angle);
    path.stroke();
    path.setLineDash([]);
  }
}
