// Draws what lies below the actors: terrain, grid and ore; and what part of the map is seen.

const TERRAIN = { '.': 'clear', '=': 'road', r: 'rough', '~': 'water', X: 'rock' };
const GREATEST_CELL = 96;
const LEAST_CELL = 3;
// The greatest cell of a map that is seen as a whole, and the pixels that are left round it.
const FITTED_CELL = 72;
const MARGIN = 24;
// From so many pixels a cell on, terrain has its marks.
const MARKED_CELL = 13;
const DIAMOND = [[0, 1], [0.5, 1], [1, 1], [1.5, 1]];

// A number that looks random, from 0 to 1, the same for a place each time.
function grain(x, y) {
  const mixedUp = Math.imul(x * 374761393 + y * 668265263, 1274126177);
  return ((mixedUp ^ (mixedUp >>> 15)) >>> 0) / 2 ** 32;
}

// What part of the map is seen: the place in its middle, and how many pixels a cell has. Panes share it.
class Camera {
  constructor(match) {
    Object.assign(this, { match, x: match.width / 2, y: match.height / 2, cell: 0, isFitted: true });
  }

  fit(width, height) {
    const { match } = this;
    if (this.isFitted) {
      this.cell = Math.min((width - MARGIN) / match.width, (height - MARGIN) / match.height, FITTED_CELL);
      this.cell = Math.max(this.cell, 1);
      [this.x, this.y] = [match.width / 2, match.height / 2];
    }
  }

  // Nearer or farther by a factor; the place that is given stays where it is.
  zoom(factor, x = this.x, y = this.y) {
    const cell = Math.min(GREATEST_CELL, Math.max(Math.min(LEAST_CELL, this.cell), this.cell * factor));
    const share = this.cell / cell;
    this.move(x + (this.x - x) * share - this.x, y + (this.y - y) * share - this.y);
    this.cell = cell;
  }

  move(x, y) {
    this.x = Math.min(this.match.width, Math.max(0, this.x + x));
    this.y = Math.min(this.match.height, Math.max(0, this.y + y));
    this.isFitted = false;
  }
}

// The ground of a view. Its layers are kept: while nothing changes there they are copied.
class Ground {
  constructor(view) {
    Object.assign(this, { view, match: view.match, layers: {} });
    this.colours = themeColours('map-edge', 'clear', 'road', 'rough', 'water', 'rock', 'mark', 'grid', 'ore');
  }

  draw() {
    this.layer('terrain', 0, this.drawTerrain);
    this.layer('ore', this.view.world.oreVersion, this.drawOre);
  }

  // The columns and rows that are seen, each from and up to.
  seen() {
    const { view, match } = this;
    const [left, top] = view.toCells(0, 0);
    const [right, bottom] = view.toCells(view.width, view.height);
    const columns = [left, right + 1].map((at) => Math.min(match.width, Math.max(0, Math.floor(at))));
    const rows = [top, bottom + 1].map((at) => Math.min(match.height, Math.max(0, Math.floor(at))));
    return [...columns, ...rows];
  }

  // A layer is drawn anew only when what it shows has changed.
  layer(name, version, draw) {
    const { canvas, camera, path: onto, ratio, width, height } = this.view;
    const key = [canvas.width, canvas.height, camera.x, camera.y, camera.cell, version].join();
    const layer = (this.layers[name] ??= {});
    if (layer.key !== key) {
      layer.canvas ??= document.createElement('canvas');
      layer.canvas.width = canvas.width;
      layer.canvas.height = canvas.height;
      const path = layer.canvas.getContext('2d');
      path.scale(ratio, ratio);
      draw.call(this, path);
      layer.key = key;
    }
    onto.drawImage(layer.canvas, 0, 0, width, height);
  }

  // The place of a cell's left upper corner and its size, in whole pixels, so that no gaps are seen.
  square(x, y) {
    const [left, top] = this.view.toPixels(x, y).map(Math.round);
    const [right, bottom] = this.view.toPixels(x + 1, y + 1).map(Math.round);
    return [left, top, right - left, bottom - top];
  }

  drawTerrain(path) {
    const { view, match, colours } = this;
    const [fromX, toX, fromY, toY] = this.seen();
    const [left, top] = view.toPixels(0, 0).map(Math.round);
    const [right, bottom] = view.toPixels(match.width, match.height).map(Math.round);
    path.fillStyle = colours['map-edge'];
    path.fillRect(left - 3, top - 3, right - left + 6, bottom - top + 6);
    for (let y = fromY; y < toY; y++) {
      for (let x = fromX; x < toX; x++) {
        const terrain = TERRAIN[match.rows[y][x]];
        const [cellLeft, cellTop, width, height] = this.square(x, y);
        path.fillStyle = colours[terrain];
        path.fillRect(cellLeft, cellTop, width, height);
        path.fillStyle = colours.mark;
        path.globalAlpha = grain(x, y) * 0.1;
        path.fillRect(cellLeft, cellTop, width, height);
        path.globalAlpha = 1;
        if (view.camera.cell >= MARKED_CELL) this.drawMark(path, terrain, x, y, cellLeft, cellTop, width);
      }
    }
    if (view.camera.cell >= MARKED_CELL) this.drawGrid(path, fromX, toX, fromY, toY);
  }

  // What distinguishes a terrain also without its colour.
  drawMark(path, terrain, x, y, left, top, size) {
    path.strokeStyle = path.fillStyle = this.colours.mark;
    path.lineWidth = Math.max(1, size / 28);
    path.globalAlpha = 0.55;
    if (terrain === 'rough') {
      for (let dot = 0; dot < 5; dot++) {
        const [dotX, dotY] = [grain(x * 7 + dot, y), grain(x, y * 7 + dot)];
        path.beginPath();
        path.arc(left + (0.15 + dotX * 0.7) * size, top + (0.15 + dotY * 0.7) * size, size / 22, 0, 2 * Math.PI);
        path.fill();
      }
    } else if (terrain === 'water') {
      for (const row of [0.34, 0.68]) {
        path.beginPath();
        const from = left + (0.14 + grain(x, y + row) * 0.2) * size;
        path.moveTo(from, top + row * size);
        path.quadraticCurveTo(from + size * 0.12, top + (row - 0.12) * size, from + size * 0.24, top + row * size);
        path.quadraticCurveTo(from + size * 0.36, top + (row + 0.12) * size, from + size * 0.48, top + row * size);
        path.stroke();
      }
    } else if (terrain === 'rock') {
      path.globalAlpha = 0.42;
      path.beginPath();
      const peak = 0.35 + grain(x, y) * 0.3;
      path.moveTo(left + size * 0.1, top + size * 0.86);
      path.lineTo(left + size * peak, top + size * 0.16);
      path.lineTo(left + size * 0.9, top + size * 0.86);
      path.closePath();
      path.fill();
    } else if (terrain === 'road') {
      path.globalAlpha = 0.3;
      path.strokeRect(left + size * 0.16, top + size * 0.16, size * 0.68, size * 0.68);
    }
    path.globalAlpha = 1;
  }

  drawGrid(path, fromX, toX, fromY, toY) {
    path.strokeStyle = this.colours.grid;
    path.lineWidth = 1;
    path.beginPath();
    for (let x = fromX; x <= toX; x++) {
      const [at, from] = this.view.toPixels(x, fromY).map(Math.round);
      path.moveTo(at + 0.5, from);
      path.lineTo(at + 0.5, Math.round(this.view.toPixels(x, toY)[1]));
    }
    for (let y = fromY; y <= toY; y++) {
      const [from, at] = this.view.toPixels(fromX, y).map(Math.round);
      path.moveTo(from, at + 0.5);
      path.lineTo(Math.round(this.view.toPixels(toX, y)[0]), at + 0.5);
    }
    path.stroke();
  }

  // A cell has one grain for each ten of ore; small cells are tinted.
  drawOre(path) {
    const { view, match, colours } = this;
    const [fromX, toX, fromY, toY] = this.seen();
    path.fillStyle = colours.ore;
    for (let y = fromY; y < toY; y++) {
      for (let x = fromX; x < toX; x++) {
        const ore = view.world.ore[y * match.width + x];
        if (!ore) continue;
        const [left, top, size] = this.square(x, y);
        if (view.camera.cell < MARKED_CELL) {
          path.globalAlpha = 0.3 + (0.6 * ore) / 90;
          path.fillRect(left, top, size, size);
          continue;
        }
        path.globalAlpha = 0.9;
        for (let at = 0; at < Math.ceil(ore / 10); at++) {
          const [column, row] = [at % 3, Math.floor(at / 3)];
          const radius = (size / 13) * (at === Math.ceil(ore / 10) - 1 ? 0.5 + (ore % 10 || 10) / 20 : 1);
          path.beginPath();
          const [x0, y0] = [left + size * (0.22 + 0.28 * column), top + size * (0.22 + 0.28 * row)];
          polygon(path, x0, y0, radius * 1.25, 0, DIAMOND);
          path.fill();
        }
      }
    }
    path.globalAlpha = 1;
  }
}
