// What the signs on the map mean, each drawn as it stands there.

const SIGN_SIZE = 40;

function groundSign(terrain) {
  return (path, view) => {
    const { ground } = view;
    path.fillStyle = ground.colours[terrain];
    path.fillRect(0, 0, SIGN_SIZE, SIGN_SIZE);
    ground.drawMark(path, terrain, 3, 5, 0, 0, SIGN_SIZE);
  };
}

function oreSign(path, { ground }) {
  path.fillStyle = ground.colours.clear;
  path.fillRect(0, 0, SIGN_SIZE, SIGN_SIZE);
  path.fillStyle = ground.colours.ore;
  for (const [x, y] of [[12, 14], [28, 14], [12, 28], [28, 28]]) {
    path.beginPath();
    polygon(path, x, y, 5, 0, DIAMOND);
    path.fill();
  }
}

function legSign(path) {
  path.strokeStyle = ownerColour(0);
  path.lineWidth = 3;
  path.setLineDash([6, 5]);
  path.strokeRect(4, 4, SIGN_SIZE - 8, SIGN_SIZE - 8);
  path.setLineDash([]);
}

function barSign(share, name) {
  return (path, { colours }) => {
    path.fillStyle = colours.bar;
    path.fillRect(2, 15, SIGN_SIZE - 4, 10);
    path.fillStyle = name ? colours[name] : HEALTH_COLOURS[0];
    path.fillRect(3, 16, (SIGN_SIZE - 6) * share, 8);
  };
}

function shotSign(path, { colours }) {
  path.fillStyle = colours.shot;
  path.beginPath();
  polygon(path, 20, 20, 15, 0.3, STAR);
  path.fill();
}

function fallenSign(path) {
  path.strokeStyle = ownerColour(1);
  path.lineWidth = 4;
  crossedRing(path, 20, 20, 15);
}

const SIGNS = [
  ['clear ground', groundSign('clear')],
  ['road', groundSign('road')],
  ['rough ground', groundSign('rough')],
  ['water', groundSign('water')],
  ['rock', groundSign('rock')],
  ['ore', oreSign],
  ['the cell that an actor on a leg holds', legSign],
  ['health, above an actor', barSign(0.8)],
  ['load, below it', barSign(0.5, 'ore')],
  ['hit by a shot of this step', shotSign],
  ['an actor that this step took away', fallenSign],
];

// Lists them with the colours that the map has now.
function listSigns(view) {
  const rows = SIGNS.map(([text, draw]) => {
    const canvas = element('canvas', '', { width: SIGN_SIZE, height: SIGN_SIZE, 'aria-hidden': 'true' });
    draw(canvas.getContext('2d'), view);
    const row = element('li');
    row.append(canvas, text);
    return row;
  });
  byId('signs').replaceChildren(...rows);
}
