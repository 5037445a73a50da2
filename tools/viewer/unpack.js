// Unpacks the worlds of a match; packing.py says how their bytes are laid out.

const FIELDS = ['kind', 'owner', 'x', 'y', 'facing', 'leg', 'gone', 'health', 'load', 'reload', 'acts'];
const [KIND, OWNER, X, Y, FACING, LEG, GONE, HEALTH, LOAD, RELOAD, ACTS] = FIELDS.keys();
// After these fields come the activities, so many numbers each, and then kind and turns left of each build.
const FIRST_ACT = FIELDS.length;
const ACT_LENGTH = 5;
const [MOVE, ATTACK, HARVEST, DELIVER] = [0, 1, 2, 3];
const ACT_WORDS = ['move', 'attack', 'harvest', 'deliver'];
const HASH_LENGTH = 8;
const NOBODY = 255;

// Reads numbers of bytes, from the left.
class Numbers {
  constructor(bytes, at = 0) {
    this.bytes = bytes;
    this.at = at;
  }

  next() {
    let byte = this.bytes[this.at++];
    let number = byte & 127;
    // Sums and not shifts: a number may have more than 32 bits.
    for (let scale = 128; byte > 127; scale *= 128) {
      byte = this.bytes[this.at++];
      number += (byte & 127) * scale;
    }
    return number;
  }

  difference() {
    const number = this.next();
    return number % 2 ? -(number + 1) / 2 : number / 2;
  }
}

function bytesOf(text) {
  if (Uint8Array.fromBase64) return Uint8Array.fromBase64(text);
  const held = atob(text);
  const bytes = new Uint8Array(held.length);
  for (let at = 0; at < held.length; at++) bytes[at] = held.charCodeAt(at);
  return bytes;
}

async function inflated(text) {
  const bytes = bytesOf(text);
  const stream = new Blob([bytes]).stream().pipeThrough(new DecompressionStream('deflate'));
  return new Uint8Array(await new Response(stream).arrayBuffer());
}

// A match: what is the same in all its worlds, columns with a number for each world, and the bytes of its worlds.
class Match {
  constructor(about, heads, changes, orders) {
    Object.assign(this, about);
    this.changes = changes;
    this.hashes = heads.subarray(0, HASH_LENGTH * this.count);
    const numbers = new Numbers(heads, this.hashes.length);
    const column = () => {
      const made = new Float64Array(this.count);
      for (let at = 0, number = 0; at < this.count; at++) made[at] = number += numbers.difference();
      return made;
    };
    const columns = (count) => Array.from({ length: count }, column);
    [this.tick, this.drawn, this.next, this.pace, this.actors] = columns(5);
    this.cash = columns(this.clients);
    this.gone = columns(this.clients);
    this.readOrders(new TextDecoder().decode(orders));
  }

  // The orders of each frame that has any, as lines `C WORDS`.
  readOrders(text) {
    this.orders = new Map();
    for (const line of text ? text.split('\n') : []) {
      const [frame] = line.split(' ', 1);
      const lines = this.orders.get(Number(frame)) ?? [];
      lines.push(line.slice(frame.length + 1));
      this.orders.set(Number(frame), lines);
    }
  }

  // How many frames stand before a world.
  frames(at) {
    return this.first + at * this.every;
  }

  hash(at) {
    const bytes = this.hashes.subarray(HASH_LENGTH * at, HASH_LENGTH * (at + 1));
    return Array.from(bytes, (it) => it.toString(16).padStart(2, '0')).join('');
  }
}

// One world of a match, which goes from world to world.
class World {
  constructor(match) {
    this.match = match;
    this.numbers = new Numbers(match.changes);
    this.ore = new Uint8Array(match.width * match.height);
    // Rises when the ore changes.
    this.oreVersion = 0;
    this.at = -1;
    // By rising id. An actor has its numbers `now`, those that it `was` of in the world before, and the world `at` which
    // they last changed.
    this.actors = new Map();
    // The actors that the last step took away.
    this.fallen = [];
    // Whether there is a world before this one.
    this.hasBefore = false;
  }

  // Goes there by way of the world before, so that what changed is known wherever one came from.
  seek(at) {
    if (at === this.at) return;
    if (at !== this.at + 1) this.jump(Math.max(0, at - 1));
    while (this.at < at) this.step();
    this.hasBefore = at > 0;
  }

  jump(at) {
    const { chunk, starts } = this.match;
    const begin = at - (at % chunk);
    if (at < this.at || begin > this.at) {
      this.actors = new Map();
      this.at = begin - 1;
      this.numbers.at = starts[begin / chunk];
    }
    while (this.at < at) this.step();
  }

  step() {
    this.at++;
    const before = this.actors;
    const isFresh = this.at % this.match.chunk === 0;
    this.fallen = [];
    if (isFresh) {
      this.actors = new Map();
      this.ore.fill(0);
      this.oreVersion++;
    }
    this.takeActors(before);
    this.takeOre();
    if (isFresh) for (const [id, actor] of before) if (!this.actors.has(id)) this.fallen.push(actor);
  }

  takeActors(before) {
    const { numbers } = this;
    for (let left = numbers.next(), id = 0; left > 0; left--) {
      id += numbers.next();
      this.fallen.push(this.actors.get(id));
      this.actors.delete(id);
    }
    for (let left = numbers.next(), id = 0; left > 0; left--) {
      id += numbers.next();
      let actor = this.actors.get(id);
      if (!actor) {
        actor = { id, now: null, was: null, at: 0 };
        this.actors.set(id, actor);
      }
      const old = actor.now ?? [];
      actor.was = actor.now ?? before.get(id)?.now ?? null;
      actor.now = this.takeActor(old);
      actor.at = this.at;
    }
  }

  takeActor(old) {
    const { numbers } = this;
    const changes = numbers.next();
    const now = old.slice();
    if (changes % 2) {
      const length = numbers.next();
      while (now.length < length) now.push(0);
      now.length = length;
    }
    for (let left = Math.floor(changes / 2), place = 0; left > 0; left--) {
      place += numbers.next();
      now[place] += numbers.difference();
    }
    return now;
  }

  takeOre() {
    const { numbers } = this;
    const count = numbers.next();
    for (let left = count, place = 0; left > 0; left--) {
      place += numbers.next();
      this.ore[place] += numbers.difference();
    }
    if (count) this.oreVersion++;
  }

  // What an actor was in the world before this one; what it is where it wasn't there.
  was(actor) {
    return actor.at === this.at && actor.was ? actor.was : actor.now;
  }
}

function actsOf(now) {
  const acts = [];
  for (let at = FIRST_ACT; acts.length < now[ACTS]; at += ACT_LENGTH) {
    const [what, a, b, timer, waits] = now.slice(at, at + ACT_LENGTH);
    acts.push({ what, a, b, timer, waits });
  }
  return acts;
}

function buildsOf(now) {
  const builds = [];
  for (let at = FIRST_ACT + ACT_LENGTH * now[ACTS]; at < now.length; at += 2) builds.push({ kind: now[at], left: now[at + 1] });
  return builds;
}

// The words of `worlds`.

function actText({ what, a, b, timer, waits }) {
  const place = what === ATTACK ? a : `${a},${b}`;
  const timed = what === HARVEST || what === DELIVER ? ` timer ${timer}` : '';
  return `${ACT_WORDS[what]} ${place}${timed} waits ${waits}`;
}

function legText(now) {
  return now[LEG] ? `${now[LEG] - 1}:${now[GONE]}` : 'none';
}

function actorLines(id, now) {
  const head = `actor ${id} kind ${now[KIND]} owner ${now[OWNER]} cell ${now[X]},${now[Y]} facing ${now[FACING]} leg ${legText(now)}`;
  return [
    `${head} health ${now[HEALTH]} load ${now[LOAD]} reload ${now[RELOAD]}`,
    ...actsOf(now).map((it) => `act ${actText(it)}`),
    ...buildsOf(now).map((it) => `build kind ${it.kind} left ${it.left}`),
  ];
}

// The text of a world, as `worlds` prints it from the line `frames` on.
function worldText(world) {
  const { match, at } = world;
  const lines = [
    `frames ${match.frames(at)} hash ${match.hash(at)}`,
    `world tick ${match.tick[at]} seed ${match.seed} drawn ${match.drawn[at]} next ${match.next[at]} pace ${match.pace[at]}`,
    `cash ${match.cash.map((it) => it[at]).join(' ')}`,
    `gone ${match.gone.map((it) => it[at]).join(' ')}`,
  ];
  for (const [id, actor] of world.actors) lines.push(...actorLines(id, actor.now));
  world.ore.forEach((ore, place) => {
    if (ore) lines.push(`ore ${place % match.width},${Math.floor(place / match.width)} ${ore}`);
  });
  return `${lines.join('\n')}\nend world\n`;
}
