// What differs between two worlds, field by field.

const joined = (text) => text.replace(/[ ,]/g, ':');

// The fields of an actor by their names, each as a text of one word.
const ACTOR_FIELDS = {
  kind: (now) => String(now[KIND]),
  owner: (now) => String(now[OWNER]),
  cell: (now) => `${now[X]},${now[Y]}`,
  facing: (now) => String(now[FACING]),
  leg: legText,
  health: (now) => String(now[HEALTH]),
  load: (now) => String(now[LOAD]),
  reload: (now) => String(now[RELOAD]),
  acts: (now) => actsOf(now).map((it) => joined(actText(it))).join(',') || '-',
  builds: (now) => buildsOf(now).map((it) => `${it.kind}:${it.left}`).join(',') || '-',
};

// A list of { what, first, second }, where `what` names a field; of an actor its `id` too. An actor that stands in one
// world alone has the words `only first` or `only second` in its `what`.
function differences(first, second) {
  const found = [];
  const compare = (what, one, other, more) => {
    if (one !== other) found.push({ what, first: String(one), second: String(other), ...more });
  };
  const [a, b] = [first.match, second.match];
  compare('tick', a.tick[first.at], b.tick[second.at]);
  compare('seed', a.seed, b.seed);
  for (const name of ['drawn', 'next', 'pace']) compare(name, a[name][first.at], b[name][second.at]);
  compare('clients', a.clients, b.clients);
  for (let client = 0; client < Math.min(a.clients, b.clients); client++) {
    compare(`cash ${client}`, a.cash[client][first.at], b.cash[client][second.at]);
    compare(`gone ${client}`, a.gone[client][first.at], b.gone[client][second.at]);
  }
  const ids = [...new Set([...first.actors.keys(), ...second.actors.keys()])].sort((one, other) => one - other);
  for (const id of ids) {
    const [one, other] = [first.actors.get(id), second.actors.get(id)];
    if (!one || !other) {
      found.push({ what: `actor ${id} only ${one ? 'first' : 'second'}`, first: '', second: '', id });
      continue;
    }
    for (const [name, field] of Object.entries(ACTOR_FIELDS))
      compare(`actor ${id} ${name}`, field(one.now), field(other.now), { id });
  }
  first.ore.forEach((ore, place) => {
    if (ore === second.ore[place]) return;
    compare(`ore ${place % a.width},${Math.floor(place / a.width)}`, ore, second.ore[place], { place });
  });
  // Worlds that are the same have the same hash, unless two programs hash in two ways.
  if (!found.length) compare('hash', a.hash(first.at), b.hash(second.at));
  return found;
}

// The worlds from which on two matches are equal or differ: [place, whether they differ, how many], by turns.
function stretches(equal) {
  const made = [];
  let at = 0;
  equal.forEach((count, turn) => {
    if (count) made.push({ at, count, differs: turn % 2 === 1 });
    at += count;
  });
  return made;
}
