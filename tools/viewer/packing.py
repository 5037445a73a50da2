"""Packs the worlds of a match into few bytes.

All numbers are spelled with the low seven bits first, and 128 added to each byte but the last. A difference d is the
number 2d, or -2d - 1 below 0. The bytes, deflated as zlib does, are

  - the hash of each world, 8 bytes
  - columns, each with a difference for each world: tick, drawn, next, pace, the number of actors, then cash and then
    gone of each client
  - for each world what changed since the one before, and at the start of each group of CHUNK worlds since a world
    without actors and ore: how many actors are gone, and their ids; how many are new or changed, and of each its id and
    its changed numbers; how many cells have other ore, and of each its place and the difference.

Ids and places rise, and are spelled as the difference from the one before. An actor's changed numbers are twice how many
they are, with 1 added where the length of its list has changed; then that length, if so; then the place and the
difference of each. A list that has grown had zeros there.
"""
import zlib

# So many worlds are packed from one that is written in full.
CHUNK = 128
COLUMNS = ('tick', 'drawn', 'next', 'pace')


def put(out, number):
    while number > 127:
        out.append(number & 127 | 128)
        number >>= 7
    out.append(number)


def put_difference(out, number):
    put(out, 2 * number if number >= 0 else -2 * number - 1)


def put_actor(out, old, new):
    resized = len(old) != len(new)
    if resized:
        old = (old + [0] * len(new))[:len(new)]
    changes = [(at, new[at] - here) for at, here in enumerate(old) if here != new[at]]
    put(out, 2 * len(changes) + resized)
    if resized:
        put(out, len(new))
    before = 0
    for at, difference in changes:
        put(out, at - before)
        put_difference(out, difference)
        before = at


class Packed:
    """The packed worlds of a match."""

    def __init__(self, name, worlds):
        self.name, self.worlds, self.setting = name, worlds, worlds.setting
        self.count, self.seed, self.clients, self.first, self.every = 0, 0, 0, 0, 1
        self.hashes, self.columns, self.starts = bytearray(), [], []
        self.ore = [0] * (self.setting.width * self.setting.height)
        # The greatest load that an actor of each kind has: no text says what it can carry.
        self.loads = [0] * len(self.setting.kinds)
        self.size, self.pressed, self.press = 0, [], zlib.compressobj(9)

    def add(self, world):
        if not self.count:
            self.seed, self.clients, self.first = world.seed, len(world.cash), world.frames
        elif self.count == 1:
            self.every = world.frames - self.first
        row = [*(getattr(world, it) for it in COLUMNS), len(self.worlds.actors), *world.cash, *world.gone]
        self.columns = self.columns or [[] for _ in row]
        for column, number in zip(self.columns, row):
            column.append(number)
        self.hashes += bytes.fromhex(world.hash.decode())
        for _, new in world.touched.values():
            self.loads[new[0]] = max(self.loads[new[0]], new[8])
        out = bytearray()
        if self.count % CHUNK:
            self.put_changes(out, world.removed, world.touched, world.ore)
        for at, ore in world.ore.items():
            self.ore[at] = ore
        if not self.count % CHUNK:
            # Written from nothing, so a reader may begin here.
            self.starts.append(self.size)
            every = {number: ([], self.worlds.actors[number]) for number in sorted(self.worlds.actors)}
            self.put_changes(out, [], every, {at: ore for at, ore in enumerate(self.ore) if ore}, fresh=True)
        self.count += 1
        self.size += len(out)
        self.pressed.append(self.press.compress(bytes(out)))

    def put_changes(self, out, removed, touched, ore, fresh=False):
        put(out, len(removed))
        before = 0
        for it in removed:
            put(out, it - before)
            before = it
        put(out, len(touched))
        before = 0
        for number, (old, new) in touched.items():
            put(out, number - before)
            put_actor(out, old, new)
            before = number
        put(out, len(ore))
        before = 0
        for at, amount in ore.items():
            put(out, at - before)
            put_difference(out, amount - (0 if fresh else self.ore[at]))
            before = at

    def header(self):
        """What the page is to know before it unpacks the bytes."""
        setting = self.setting
        kinds = [{**it._asdict(), 'load': load} for it, load in zip(setting.kinds, self.loads)]
        return {'name': self.name, 'kinds': kinds, 'width': setting.width, 'height': setting.height, 'rows': setting.rows,
                'count': self.count, 'first': self.first, 'every': self.every, 'seed': self.seed, 'clients': self.clients,
                'chunk': CHUNK, 'starts': self.starts}

    def packed(self):
        """Hashes and columns, and the changes, each deflated."""
        out = bytearray(self.hashes)
        for column in self.columns:
            before = 0
            for number in column:
                put_difference(out, number - before)
                before = number
        return [zlib.compress(bytes(out), 9), b''.join(self.pressed) + self.press.flush()]
