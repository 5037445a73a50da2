// What stands beside the map: fields and counts of the world that is shown, an actor, orders, and what differs.

// Of longer lists the rest is only counted.
const LONGEST_LIST = 200;

const thousands = (number) => number.toLocaleString('en');
const counted = (number, one, more = `${one}s`) => `${thousands(number)} ${number === 1 ? one : more}`;
const numberCell = (text = '') => element('td', text, { class: 'number' });

// Names and values below each other.
function fillList(id, rows) {
  const nodes = rows.flatMap(([name, value]) => {
    const described = element('dd');
    described.append(value);
    return [element('dt', name), described];
  });
  byId(id).replaceChildren(...nodes);
}

// The fields of an actor in words.
function actorFields(match, now) {
  const kind = match.kinds[now[KIND]];
  const direction = now[LEG] - 1;
  const degrees = Math.round((now[FACING] / FULL_TURN) * 360);
  const toward = COMPASS[(8 - Math.round(now[FACING] / 128)) % 8];
  const leg = () => `${COMPASS[direction]}, ${counted(now[GONE], 'unit')} of ${thousands(legLength(direction))}`;
  const builds = buildsOf(now).map((it) => `${match.kinds[it.kind].name}, ${counted(it.left, 'turn')} left`);
  return [
    ['kind', `${now[KIND]} ${kind.name}`],
    ['owner', now[OWNER] === NOBODY ? 'nobody' : `client ${now[OWNER]}`],
    ['cell', `${now[X]},${now[Y]}`],
    ['facing', `${now[FACING]}: ${toward}, ${degrees}°`],
    ['leg', now[LEG] ? leg() : 'none'],
    ['health', `${thousands(now[HEALTH])} of ${thousands(kind.health)}`],
    ['load', String(now[LOAD])],
    ['reload', now[RELOAD] ? counted(now[RELOAD], 'turn') : '0'],
    ['activities', actsOf(now).map(actText).join('\n') || 'none'],
    ['builds', builds.join('\n') || 'none'],
  ];
}

class Lists {
  constructor(page) {
    this.page = page;
    this.swatches = [];
    this.makeClients();
    this.makeKinds();
    listSigns(page.views[0]);
    const { matches, isCompared } = page;
    byId('part-orders').hidden = matches.every((it) => it.orders.size === 0);
    byId('part-differences').hidden = !isCompared;
    if (isCompared) matches.forEach((it, number) => (byId(`name-${number}`).textContent = it.name));
  }

  makeClients() {
    const clients = Math.max(...this.page.matches.map((it) => it.clients));
    this.clients = [...Array(clients).keys(), NOBODY].map((client) => {
      const row = element('tr');
      const name = element('td', '', { class: 'swatch-name' });
      name.append(this.swatch('circle', client), client === NOBODY ? 'nobody' : String(client));
      const [cash, actors, state] = [numberCell(), numberCell(), element('td', '', { class: 'dim' })];
      row.append(name, cash, actors, state);
      byId('clients').append(row);
      return { client, row, cash, actors, state };
    });
  }

  makeKinds() {
    const { kinds } = this.page.matches[0];
    const shapes = shapesOf(kinds);
    this.kinds = kinds.map((kind, number) => {
      const row = element('tr');
      const name = element('td', '', { class: 'swatch-name', title: `kind ${number}` });
      const isMoving = MOVING_SHAPES.includes(shapes[number]);
      name.append(this.swatch(shapes[number], NOBODY, isMoving), kind.name || '(no name)');
      const actors = numberCell();
      row.append(name, numberCell(thousands(kind.health)), numberCell(kind.speed ? thousands(kind.speed) : '–'), actors);
      byId('kinds').append(row);
      return actors;
    });
  }

  // How the actors of an owner or of a kind look on the map.
  swatch(shape, owner, isMoving = false) {
    const canvas = element('canvas', '', { width: 40, height: 40, 'aria-hidden': 'true' });
    const draw = () => {
      const path = canvas.getContext('2d');
      path.clearRect(0, 0, 40, 40);
      drawnBody(path, shape, owner, 20, 20, 12, isMoving ? -Math.PI / 4 : null, this.page.views[0].colours.outline);
    };
    this.swatches.push(draw);
    draw();
    return canvas;
  }

  retheme() {
    for (const draw of this.swatches) draw();
    listSigns(this.page.views[0]);
  }

  update() {
    const { page } = this;
    const match = page.match();
    const world = page.worlds[page.matches.indexOf(match)];
    const { at } = page;
    fillList('world', [
      ['frames', thousands(page.frames())],
      ['hash', element('code', match.hash(at))],
      ['tick', thousands(match.tick[at])],
      ['pace', `${counted(match.pace[at], 'turn')} a frame`],
      ['drawn', counted(match.drawn[at], 'random word')],
      ['next id', String(match.next[at])],
      ['actors', thousands(match.actors[at])],
    ]);
    this.updateCounts(match, world);
    this.updateActor();
    this.updateOrders();
    if (page.isCompared) this.updateDifferences();
    if (byId('text-part').open) byId('text').textContent = worldText(world);
  }

  updateCounts(match, world) {
    const [owned, kinds] = [new Map(), new Map()];
    for (const { now } of world.actors.values()) {
      owned.set(now[OWNER], (owned.get(now[OWNER]) ?? 0) + 1);
      kinds.set(now[KIND], (kinds.get(now[KIND]) ?? 0) + 1);
    }
    for (const { client, row, cash, actors, state } of this.clients) {
      actors.textContent = thousands(owned.get(client) ?? 0);
      // Nobody has no cash, and a second match may have more clients.
      const plays = client < match.clients;
      row.hidden = !plays && !owned.has(client);
      cash.textContent = plays ? thousands(match.cash[client][world.at]) : '';
      state.textContent = plays && match.gone[client][world.at] ? 'gone' : '';
    }
    this.kinds.forEach((actors, kind) => (actors.textContent = thousands(kinds.get(kind) ?? 0)));
  }

  // The fields of the chosen actor; of two matches also those that it has otherwise in the second.
  updateActor() {
    const { chosen, worlds, matches, isCompared } = this.page;
    const actors = worlds.map((it) => it.actors.get(chosen));
    const found = actors.filter((it) => it);
    byId('fields').hidden = byId('lines').hidden = !found.length;
    byId('actor-none').hidden = found.length > 0;
    byId('actor-none').textContent =
      chosen === null ? 'Click an actor on the map, or type its id.' : `Actor ${chosen} is not in this world.`;
    if (document.activeElement !== byId('actor')) byId('actor').value = chosen ?? '';
    if (!found.length) return;
    const [first, second] = found.map((it) => actorFields(matches[0], it.now));
    const rows = first.map(([name, value], at) => {
      if (!second || second[at][1] === value) return [name, value];
      const both = element('span', value);
      both.append(element('span', second[at][1], { class: 'differs', title: matches[1].name }));
      return [name, both];
    });
    if (isCompared && found.length === 1) rows.unshift(['only in', matches[actors.indexOf(found[0])].name]);
    fillList('fields', rows);
    const lines = found.map((it) => actorLines(it.id, it.now).join('\n'));
    byId('lines').textContent = [...new Set(lines)].join('\n\n');
  }

  // The orders of the frames between the world before and this one.
  updateOrders() {
    const { page } = this;
    const { matches } = page;
    const last = page.frames();
    const from = page.at ? page.frames(page.at - 1) : last;
    let name = `of frames ${thousands(from)} to ${thousands(last - 1)}`;
    if (from === last - 1) name = `of frame ${thousands(from)}, which led to this world`;
    const [lines, others] = matches.map((match) => this.ordersOf(match, from, last));
    const row = (line) => element('li', `client ${line.replace(' ', ': ')}`);
    const rows = lines.filter((it) => !others || others.includes(it)).map(row);
    // Of two matches what is ordered in one alone bears its name.
    if (others) {
      for (const [match, some, rest] of [[matches[0], lines, others], [matches[1], others, lines]])
        for (const line of some.filter((it) => !rest.includes(it)))
          rows.push(element('li', `${match.name}: client ${line.replace(' ', ': ')}`, { class: 'differs' }));
    }
    byId('orders-note').textContent = from === last ? 'none: this is the first world' : rows.length ? name : `none ${name}`;
    byId('orders').replaceChildren(...rows.slice(0, LONGEST_LIST));
  }

  ordersOf(match, from, last) {
    const lines = [];
    for (let frame = from; frame < last; frame++) lines.push(...(match.orders.get(frame) ?? []));
    return lines;
  }

  updateDifferences() {
    const { page } = this;
    const found = page.found();
    const rows = found.slice(0, LONGEST_LIST).map((it) => this.differenceRow(it));
    if (found.length > LONGEST_LIST) {
      const row = element('tr');
      row.append(element('td', `and ${thousands(found.length - LONGEST_LIST)} more`, { colspan: 3 }));
      rows.push(row);
    }
    byId('differences').replaceChildren(...rows);
    byId('difference-table').hidden = !rows.length;
    byId('difference-count').textContent = found.length ? thousands(found.length) : '';
    byId('difference-note').textContent = this.differenceNote(found.length);
    const ids = new Set(found.map((it) => it.id).filter((it) => it !== undefined));
    for (const it of page.views) it.differing = ids;
  }

  differenceRow({ what, first, second, id }) {
    const row = element('tr');
    const name = element('td', id === undefined ? what : '');
    if (id !== undefined) {
      const button = element('button', what, { type: 'button' });
      button.addEventListener('click', () => this.page.choose(id));
      name.append(button);
    }
    row.append(name, element('td', first), element('td', second));
    return row;
  }

  differenceNote(count) {
    const { page } = this;
    const ended = page.matches.find((it) => page.at >= it.count);
    if (ended) return `${ended.name} has ended.`;
    const first = page.bands.find((it) => it.differs);
    if (!first) return 'All worlds are equal.';
    return `${count ? '' : 'None in this world. '}The first is after ${counted(page.frames(first.at), 'frame')}.`;
  }
}
