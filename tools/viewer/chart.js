// Draws the cash of each client over the worlds, on the scale of the slider below it.

const CHART_PAD = 8;
const DASHES = [[], [7, 3], [2, 3], [9, 3, 2, 3]];

class Chart {
  constructor(canvas, matches, bands) {
    Object.assign(this, { canvas, matches, bands });
    this.path = canvas.getContext('2d');
    this.count = Math.max(...matches.map((it) => it.count));
    this.resize();
  }

  resize() {
    Object.assign(this, fitted(this.canvas));
    this.retheme();
  }

  retheme() {
    this.colours = themeColours('line', 'dim', 'text', 'warn', 'outline', 'panel');
    this.layer = null;
  }

  left(at) {
    return CHART_PAD + (this.width - 2 * CHART_PAD) * (this.count > 1 ? at / (this.count - 1) : 0.5);
  }

  at(left) {
    const share = (left - CHART_PAD) / (this.width - 2 * CHART_PAD);
    return Math.round(Math.min(1, Math.max(0, share)) * (this.count - 1));
  }

  top(cash) {
    return this.height - 6 - (this.height - 24) * ((cash - this.least) / (this.most - this.least));
  }

  drawLines() {
    const layer = document.createElement('canvas');
    [layer.width, layer.height] = [this.canvas.width, this.canvas.height];
    const path = layer.getContext('2d');
    path.scale(this.ratio, this.ratio);
    const all = this.matches.flatMap((it) => it.cash);
    this.most = all.reduce((most, it) => it.reduce((a, b) => Math.max(a, b), most), 0);
    this.least = all.reduce((least, it) => it.reduce((a, b) => Math.min(a, b), least), this.most);
    // Room on both sides of a line that is level.
    this.isLevel = this.most === this.least;
    if (this.isLevel) [this.least, this.most] = [this.least - 1, this.most + 1];
    for (const { at, count, differs } of this.bands) {
      if (!differs) continue;
      path.fillStyle = this.colours.warn;
      path.globalAlpha = 0.16;
      path.fillRect(this.left(at) - 1, 0, Math.max(2, this.left(at + count - 1) - this.left(at) + 2), this.height);
      path.globalAlpha = 1;
    }
    this.drawScale(path);
    this.matches.forEach((match, number) => {
      match.cash.forEach((cash, client) => this.drawLine(path, match, cash, client, number));
    });
    this.drawNumbers(path);
    this.layer = layer;
  }

  drawScale(path) {
    path.strokeStyle = this.colours.line;
    path.lineWidth = 1;
    this.levels().forEach((cash) => {
      const top = Math.round(this.top(cash)) + 0.5;
      path.beginPath();
      path.moveTo(CHART_PAD, top);
      path.lineTo(this.width - CHART_PAD, top);
      path.stroke();
    });
  }

  // Over the lines, which may go there.
  drawNumbers(path) {
    path.strokeStyle = this.colours.panel;
    path.fillStyle = this.colours.dim;
    path.lineWidth = 4;
    path.lineJoin = 'round';
    path.font = '11px system-ui, sans-serif';
    path.textBaseline = 'bottom';
    this.levels().forEach((cash, at) => {
      const text = `${at ? '' : 'cash '}${cash.toLocaleString('en')}`;
      for (const draw of ['strokeText', 'fillText']) path[draw](text, CHART_PAD + 2, Math.round(this.top(cash)) - 1);
    });
  }

  // The cash that the scale names.
  levels() {
    return this.isLevel ? [this.least + 1] : [this.most, this.least];
  }

  // Of the worlds that share a column of pixels the least and the greatest cash are drawn.
  drawLine(path, match, cash, client, number) {
    path.beginPath();
    const step = Math.max(1, match.count / (this.width * this.ratio));
    for (let from = 0; from < match.count; from += step) {
      const part = cash.subarray(Math.floor(from), Math.max(Math.floor(from) + 1, Math.floor(from + step)));
      const left = this.left(Math.floor(from));
      path[from ? 'lineTo' : 'moveTo'](left, this.top(part[0]));
      if (part.length > 1) {
        path.lineTo(left, this.top(Math.min(...part)));
        path.lineTo(left, this.top(Math.max(...part)));
        path.lineTo(left, this.top(part[part.length - 1]));
      }
    }
    path.setLineDash(number ? [3, 3] : DASHES[Math.floor(client / OWNER_COLOURS.length)]);
    path.lineWidth = 3;
    path.strokeStyle = this.colours.outline;
    path.globalAlpha = 0.35;
    path.stroke();
    path.globalAlpha = 1;
    path.lineWidth = 1.75;
    path.strokeStyle = ownerColour(client);
    path.stroke();
    path.setLineDash([]);
  }

  // The lines, and where the shown world stands in them.
  draw(at) {
    if (!this.layer) this.drawLines();
    const { path } = this;
    path.setTransform(this.ratio, 0, 0, this.ratio, 0, 0);
    path.clearRect(0, 0, this.width, this.height);
    path.drawImage(this.layer, 0, 0, this.width, this.height);
    const left = Math.round(this.left(at)) + 0.5;
    path.strokeStyle = this.colours.text;
    path.lineWidth = 1;
    path.beginPath();
    path.moveTo(left, 0);
    path.lineTo(left, this.height);
    path.stroke();
    for (const match of this.matches) {
      if (at >= match.count) continue;
      match.cash.forEach((cash, client) => {
        path.fillStyle = ownerColour(client);
        path.strokeStyle = this.colours.outline;
        path.beginPath();
        path.arc(left, this.top(cash[at]), 3.5, 0, 2 * Math.PI);
        path.fill();
        path.stroke();
      });
    }
    const first = this.bands.find((it) => it.differs);
    if (!first) return;
    const mark = this.left(first.at);
    path.fillStyle = this.colours.warn;
    path.beginPath();
    path.moveTo(mark - 6, 0);
    path.lineTo(mark + 6, 0);
    path.lineTo(mark, 9);
    path.closePath();
    path.fill();
  }
}
