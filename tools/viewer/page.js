// The page: which world of which matches is shown, playing, and what scripts may read of it.

const SPEEDS = [1, 2, 5, 10, 25, 50, 100, 250, 1000];
// A match is played in about so many seconds, unless another speed is chosen.
const PLAYED_SECONDS = 40;
const PLAY_ICON = 'M4 2.5l9 5.5-9 5.5z';
const PAUSE_ICON = 'M4 3h2.5v10H4zM9.5 3H12v10H9.5z';
const THEMES = ['auto', 'light', 'dark'];
// Milliseconds between two writings of the lists while worlds are played.
const LIST_PAUSE = 150;
// Milliseconds for which the shown world stays before the address names it.
const ADDRESS_PAUSE = 300;
// After a longer pause between two pictures, as in a tab that is not seen, so many milliseconds are played.
const LONGEST_TURN = 250;
// Pixels that the name above a map takes.
const CAPTION = 32;
const MESSAGE_PAUSE = 4000;

class Page {
  constructor(about, matches) {
    Object.assign(this, { about, matches, at: 0, chosen: null, isPlaying: false, share: 1, listed: -Infinity });
    this.count = Math.max(...matches.map((it) => it.count));
    this.worlds = matches.map((it) => new World(it));
    this.bands = stretches(about.equal);
    this.isCompared = matches.length > 1;
    this.still = window.matchMedia('(prefers-reduced-motion: reduce)');
    this.system = window.matchMedia('(prefers-color-scheme: dark)');
    this.theme = this.kept('theme') ?? 'auto';
    this.applyTheme();
    this.makePanes();
    this.chart = new Chart(byId('chart'), matches, this.bands);
    this.lists = new Lists(this);
    this.showMatch();
    this.showPlaying();
    this.input = new Input(this);
    this.arrange();
    for (const it of [...this.views, this.chart]) it.resize();
    this.show(this.linked());
  }

  // The first match that has a world.
  match(at = this.at) {
    return this.matches.find((it) => at < it.count);
  }

  frames(at = this.at) {
    return this.match(at).frames(at);
  }

  makePanes() {
    this.camera = new Camera(this.matches[0]);
    this.views = this.worlds.map((world) => {
      const [pane, caption, cellText] = [element('figure', '', { class: 'pane' }), element('figcaption'), element('span')];
      const hash = element('code');
      caption.append(element('b', world.match.name), cellText, ...(this.isCompared ? [hash] : []));
      const canvas = element('canvas', '', { tabindex: 0, role: 'img' });
      pane.append(caption, canvas);
      byId('panes').append(pane);
      return Object.assign(new MapView(canvas, world, this.camera), { pane, hash, cellText });
    });
  }

  // What stays as it is.
  showMatch() {
    const [match] = this.matches;
    const about = [`map ${match.width} × ${match.height}`, counted(match.clients, 'client'), `seed ${match.seed}`];
    about.push(`${counted(this.count, 'world')}${match.every > 1 ? `, every ${match.every} frames` : ''}`);
    byId('title').textContent = this.about.title;
    byId('match').textContent = about.join(' · ');
    byId('slider').max = this.count - 1;
    for (const speed of SPEEDS) byId('speed').append(element('option', `${speed} a second`, { value: speed }));
    byId('speed').value = SPEEDS.find((it) => it >= this.count / PLAYED_SECONDS) ?? SPEEDS.at(-1);
    byId('first-difference').hidden = !this.isCompared;
    byId('first-difference').disabled = !this.bands.some((it) => it.differs);
  }

  // Which world is shown

  // Shows a world, or the way to it from the one before, of which a share is gone.
  show(at, share = 1) {
    this.at = Math.min(this.count - 1, Math.max(0, at));
    this.share = share;
    for (const world of this.worlds) world.seek(Math.min(this.at, world.match.count - 1));
    this.showWorld();
    const now = performance.now();
    if (!this.isPlaying || now - this.listed > LIST_PAUSE) {
      this.listed = now;
      this.lists.update();
    }
    this.draw();
  }

  draw() {
    for (const it of this.views) {
      it.chosen = this.chosen;
      it.draw(this.share);
    }
    this.chart.draw(this.at);
  }

  go(at) {
    this.pause();
    this.show(at);
    this.remember();
  }

  showWorld() {
    const [match, frames] = [this.match(), thousands(this.frames())];
    byId('slider').value = this.at;
    byId('slider').setAttribute('aria-valuetext', `after ${frames} frames`);
    byId('frames').textContent = `${frames} of ${counted(this.frames(this.count - 1), 'frame')}`;
    byId('hash').textContent = match.hash(this.at);
    byId('hash').hidden = this.isCompared;
    for (const { match: shown, world, hash, canvas } of this.views) {
      const ended = `ended after ${thousands(shown.frames(shown.count - 1))}`;
      hash.textContent = this.at < shown.count ? shown.hash(this.at) : ended;
      hash.className = this.differs() ? 'differs' : '';
      canvas.setAttribute('aria-label', `${shown.name} after ${frames} frames, ${counted(world.actors.size, 'actor')}`);
    }
    for (const id of ['begin', 'back']) byId(id).disabled = this.at === 0;
    for (const id of ['forward', 'end']) byId(id).disabled = this.at === this.count - 1;
  }

  // By what is typed: a number of frames or a hash.
  goTo(text) {
    if (!text) return;
    const at = this.placeOf(text);
    if (at === null) this.announce('No world here has these frames or this hash.');
    else this.go(at);
  }

  // The place of the world that has these frames or this hash; null where there is none.
  placeOf(text) {
    const word = text.toLowerCase().replaceAll(',', '');
    if (/^[0-9a-f]{16}$/.test(word)) {
      for (const match of this.matches) for (let at = 0; at < match.count; at++) if (match.hash(at) === word) return at;
      return null;
    }
    const [match] = this.matches;
    const at = (Number(word) - match.first) / match.every;
    return /^\d+$/.test(word) && Number.isInteger(at) && at >= 0 && at < this.count ? at : null;
  }

  // Two matches

  differs(at = this.at) {
    return this.bands.some((it) => it.differs && at >= it.at && at < it.at + it.count);
  }

  // What differs in the worlds that are shown.
  found() {
    const haveBoth = this.matches.every((it) => this.at < it.count);
    return this.isCompared && haveBoth && this.differs() ? differences(...this.worlds) : [];
  }

  toDifference() {
    const next = this.bands.find((it) => it.differs && it.at > this.at);
    if (this.at + 1 < this.count && this.differs(this.at + 1)) this.go(this.at + 1);
    else if (next) this.go(next.at);
    else this.announce('No further world differs.');
  }

  // Actors

  choose(id) {
    this.chosen = id;
    this.bringIn(id);
    this.lists.update();
    this.draw();
    this.remember();
  }

  // Moves the map so far that an actor is seen.
  bringIn(id) {
    const [view] = this.views;
    const actor = this.worlds.map((it) => it.actors.get(id)).find((it) => it);
    if (!actor) return;
    const [x, y] = placeOf(actor.now);
    const [left, top] = view.toPixels(x, y);
    if (left < 0 || top < 0 || left > view.width || top > view.height) this.camera.move(x - this.camera.x, y - this.camera.y);
  }

  chooseNext(step) {
    const ids = [...this.worlds[0].actors.keys()];
    if (!ids.length) return;
    const place = ids.indexOf(this.chosen);
    const first = step > 0 ? 0 : ids.length - 1;
    this.choose(ids[place < 0 ? first : (place + step + ids.length) % ids.length]);
  }

  // Playing

  play() {
    if (this.at === this.count - 1) this.show(0);
    this.isPlaying = true;
    this.showPlaying();
    let [last, owed] = [performance.now(), 0];
    const turn = (now) => {
      if (!this.isPlaying) return;
      owed += (Math.min(LONGEST_TURN, Math.max(0, now - last)) / 1000) * Number(byId('speed').value);
      last = now;
      const whole = Math.min(Math.floor(owed), this.count - 1 - this.at);
      owed -= whole;
      // The last world is reached, and the way to it is shown.
      if (this.at === this.count - 1 && owed >= 1) {
        this.pause();
        return;
      }
      const share = this.still.matches || whole > 1 ? 1 : Math.min(1, owed);
      if (whole) this.show(this.at + whole, share);
      else if (!this.still.matches) {
        this.share = share;
        this.draw();
      }
      requestAnimationFrame(turn);
    };
    requestAnimationFrame(turn);
  }

  pause() {
    if (!this.isPlaying) return;
    this.isPlaying = false;
    this.showPlaying();
    this.show(this.at);
    this.remember();
  }

  showPlaying() {
    byId('play').setAttribute('aria-label', this.isPlaying ? 'Pause' : 'Play');
    byId('play-icon').setAttribute('d', this.isPlaying ? PAUSE_ICON : PLAY_ICON);
  }

  changeSpeed(step) {
    const speeds = byId('speed');
    speeds.selectedIndex = Math.min(SPEEDS.length - 1, Math.max(0, speeds.selectedIndex + step));
  }

  // The map

  zoom(factor, x, y) {
    this.camera.zoom(factor, x, y);
    this.draw();
  }

  // By so many pixels.
  moveMap(x, y) {
    this.camera.move(x / this.camera.cell, y / this.camera.cell);
    this.draw();
  }

  fit() {
    this.camera.isFitted = true;
    this.resize();
  }

  resize() {
    this.arrange();
    for (const it of [...this.views, this.chart]) it.resize();
    this.draw();
  }

  // Puts two maps beside or below each other, as they have more room.
  arrange() {
    const { width, height } = this.matches[0];
    const { clientWidth, clientHeight } = byId('panes');
    const cell = (across, down) => Math.min((across - MARGIN) / width, (down - CAPTION - MARGIN) / height);
    const [beside, below] = [cell(clientWidth / 2, clientHeight), cell(clientWidth, clientHeight / 2)];
    byId('panes').classList.toggle('is-stacked', this.isCompared && below > beside);
  }

  // Light and dark

  applyTheme() {
    const isDark = this.theme === 'auto' ? this.system.matches : this.theme === 'dark';
    document.documentElement.dataset.theme = isDark ? 'dark' : 'light';
    byId('theme').textContent = `Theme: ${this.theme}`;
  }

  retheme() {
    this.applyTheme();
    for (const it of [...this.views, this.chart, this.lists]) it.retheme();
    this.draw();
  }

  nextTheme() {
    this.theme = THEMES[(THEMES.indexOf(this.theme) + 1) % THEMES.length];
    try {
      localStorage.setItem('lockstep-theme', this.theme);
    } catch {
      // It holds for this page alone then.
    }
    this.retheme();
  }

  kept(name) {
    try {
      return localStorage.getItem(`lockstep-${name}`);
    } catch {
      return null;
    }
  }

  // The address names the world and the actor, but not at each step of a slider: browsers bound how often it may change.

  remember() {
    clearTimeout(this.toRemember);
    this.toRemember = setTimeout(() => this.writeAddress(), ADDRESS_PAUSE);
  }

  writeAddress() {
    const actor = this.chosen === null ? '' : `&actor=${this.chosen}`;
    try {
      history.replaceState(null, '', `#frames=${this.frames()}${actor}`);
    } catch {
      // A page that may not change its address is still a page.
    }
  }

  // The world that the address names, else the first one; its actor is chosen.
  linked() {
    const words = new URLSearchParams(location.hash.slice(1));
    if (words.has('actor')) this.chosen = Number(words.get('actor'));
    return this.placeOf(words.get('frames') ?? '') ?? 0;
  }

  // Messages that stay for a while

  announce(text) {
    byId('status').textContent = text;
    clearTimeout(this.toQuiet);
    this.toQuiet = setTimeout(() => (byId('status').textContent = ''), MESSAGE_PAUSE);
  }

  async copy() {
    try {
      await navigator.clipboard.writeText(byId('text').textContent);
      this.announce('Copied.');
    } catch {
      getSelection().selectAllChildren(byId('text'));
      this.announce('Chosen: copy it by the keys of your system.');
    }
  }
}

// What scripts may read of the page.
function readable(page) {
  const worldAt = (number, at) => {
    const world = new World(page.matches[number]);
    world.seek(at);
    return world;
  };
  const words = (it) => [it.what, it.first, it.second].filter((word) => word !== '').join(' ');
  return Object.freeze({
    count: page.count,
    at: () => page.at,
    chosen: () => page.chosen,
    isPlaying: () => page.isPlaying,
    cell: () => page.camera.cell,
    text: (number, at) => worldText(worldAt(number, at)),
    drawn: (number) => page.views[number].drawn.map(({ id, x, y, left, top }) => ({ id, x, y, left, top })),
    shots: (number) => page.views[number].shots.map((it) => [...it]),
    differences: () => page.found().map(words),
    firstDifference: () => page.bands.find((it) => it.differs)?.at ?? null,
  });
}

async function open() {
  const about = JSON.parse(byId('about').textContent);
  const part = (name, number) => inflated(byId(`${name}-${number}`).textContent);
  const unpacked = about.matches.map(async (it, number) => {
    const parts = await Promise.all(['heads', 'changes', 'orders'].map((name) => part(name, number)));
    return new Match(it, ...parts);
  });
  const page = new Page(about, await Promise.all(unpacked));
  // Drawn, and not only asked for.
  await new Promise((done) => requestAnimationFrame(() => setTimeout(done)));
  window.lockstep = readable(page);
}

open().catch((error) => {
  byId('status').textContent = `This page can't be shown: ${error.message}`;
  throw error;
});
