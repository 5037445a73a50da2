// What keys, buttons, fields and the mouse do.

const ZOOM = 1.4;
// Pixels by which a key moves the map; and those that a press may stray and be a click still.
const KEY_MOVE = 60;
const STRAY = 4;

class Input {
  constructor(page) {
    this.page = page;
    this.listenToButtons();
    this.listenToFields();
    this.listenToKeys();
    this.listenToChart();
    for (const it of page.views) this.listenToMap(it);
    page.system.addEventListener('change', () => page.retheme());
    window.addEventListener('resize', () => page.resize());
    window.addEventListener('hashchange', () => page.show(page.linked()));
  }

  listenToButtons() {
    const { page } = this;
    const clicks = {
      begin: () => page.go(0),
      back: () => page.go(page.at - 1),
      play: () => (page.isPlaying ? page.pause() : page.play()),
      forward: () => page.go(page.at + 1),
      end: () => page.go(page.count - 1),
      'first-difference': () => page.go(page.bands.find((it) => it.differs).at),
      'actor-before': () => page.chooseNext(-1),
      'actor-after': () => page.chooseNext(1),
      nearer: () => page.zoom(ZOOM),
      farther: () => page.zoom(1 / ZOOM),
      fit: () => page.fit(),
      keys: () => byId('key-list').showModal(),
      copy: () => page.copy(),
      theme: () => page.nextTheme(),
    };
    for (const [id, act] of Object.entries(clicks)) byId(id).addEventListener('click', act);
  }

  // What is typed into a field counts at Enter; then the keys are the page's again. Escape leaves the field.
  listenToFields() {
    const { page } = this;
    const onEnter = (id, enter) => {
      byId(id).addEventListener('keydown', ({ key }) => {
        if (key === 'Enter') enter(byId(id).value.trim());
        if (key === 'Enter' || key === 'Escape') byId(id).blur();
      });
      byId(id).addEventListener('focus', () => byId(id).select());
    };
    onEnter('go', (text) => page.goTo(text));
    onEnter('actor', (text) => page.choose(/^\d+$/.test(text) ? Number(text) : null));
    byId('slider').addEventListener('input', () => page.go(Number(byId('slider').value)));
    byId('text-part').addEventListener('toggle', () => page.lists.update());
  }

  listenToKeys() {
    const { page } = this;
    const keys = {
      ' ': () => byId('play').click(),
      ArrowLeft: (event) => page.go(page.at - (event.shiftKey ? 10 : 1)),
      ArrowRight: (event) => page.go(page.at + (event.shiftKey ? 10 : 1)),
      Home: () => page.go(0),
      End: () => page.go(page.count - 1),
      '[': () => page.changeSpeed(-1),
      ']': () => page.changeSpeed(1),
      d: () => page.isCompared && page.toDifference(),
      n: () => page.chooseNext(1),
      p: () => page.chooseNext(-1),
      Escape: () => page.choose(null),
      '+': () => page.zoom(ZOOM),
      '=': () => page.zoom(ZOOM),
      '-': () => page.zoom(1 / ZOOM),
      0: () => page.fit(),
      g: () => byId('go').focus(),
      '?': () => byId('key-list').showModal(),
    };
    const moves = { ArrowLeft: [-1, 0], ArrowRight: [1, 0], ArrowUp: [0, -1], ArrowDown: [0, 1] };
    document.addEventListener('keydown', (event) => {
      const { target } = event;
      const isTyped = target.matches('input[type="text"], select') || byId('key-list').open;
      if (isTyped || event.ctrlKey || event.metaKey) return;
      const key = event.key.length === 1 ? event.key.toLowerCase() : event.key;
      // A button does by space what it does by a click.
      if (key === ' ' && target.matches('button, summary')) return;
      const act = event.altKey ? moves[key] && (() => page.moveMap(...moves[key].map((it) => it * KEY_MOVE))) : keys[key];
      if (!act) return;
      act(event);
      event.preventDefault();
    });
  }

  listenToChart() {
    const { page } = this;
    const canvas = byId('chart');
    const tip = byId('chart-tip');
    canvas.addEventListener('pointerdown', (event) => {
      canvas.setPointerCapture(event.pointerId);
      page.go(page.chart.at(event.offsetX));
    });
    canvas.addEventListener('pointermove', (event) => {
      const at = page.chart.at(event.offsetX);
      if (event.buttons & 1) page.go(at);
      const match = page.match(at);
      const rows = match.cash.map((it, client) => `client ${client}: ${thousands(it[at])}`);
      tip.textContent = [`after ${counted(match.frames(at), 'frame')}`, ...rows].join('\n');
      tip.hidden = false;
      const most = page.chart.width - tip.offsetWidth;
      tip.style.left = `${Math.min(most, Math.max(0, event.offsetX - tip.offsetWidth / 2))}px`;
    });
    canvas.addEventListener('pointerleave', () => (tip.hidden = true));
  }

  // A click chooses an actor; dragging moves the map, and the wheel makes it nearer.
  listenToMap(view) {
    const { page } = this;
    const { canvas } = view;
    let from = null;
    const end = () => {
      from = null;
      view.pane.classList.remove('is-dragged');
    };
    canvas.addEventListener('pointerdown', (event) => {
      from = { x: event.offsetX, y: event.offsetY, isMoved: false };
      canvas.setPointerCapture(event.pointerId);
    });
    canvas.addEventListener('pointermove', (event) => {
      view.cellText.textContent = this.cellText(view, event);
      if (!from) return;
      const [x, y] = [event.offsetX - from.x, event.offsetY - from.y];
      if (!from.isMoved && Math.hypot(x, y) < STRAY) return;
      from = { x: event.offsetX, y: event.offsetY, isMoved: true };
      view.pane.classList.add('is-dragged');
      page.moveMap(-x, -y);
    });
    canvas.addEventListener('pointerup', (event) => {
      if (from && !from.isMoved) page.choose(view.actorAt(event.offsetX, event.offsetY));
      end();
    });
    canvas.addEventListener('pointercancel', end);
    canvas.addEventListener('pointerleave', () => (view.cellText.textContent = ''));
    const turned = (event) => {
      event.preventDefault();
      page.zoom(Math.exp(-event.deltaY / 400), ...view.toCells(event.offsetX, event.offsetY));
    };
    canvas.addEventListener('wheel', turned, { passive: false });
  }

  // What the cell below the pointer is.
  cellText(view, event) {
    const [x, y] = view.toCells(event.offsetX, event.offsetY).map(Math.floor);
    const { match, world } = view;
    if (x < 0 || y < 0 || x >= match.width || y >= match.height) return '';
    const ore = world.ore[y * match.width + x];
    return `${x},${y} ${TERRAIN[match.rows[y][x]]}${ore ? `, ore ${ore}` : ''}`;
  }
}
