"""Writes worlds as the command `worlds` prints them, without a program: actors of a made match go, fight, harvest and
build at random. No rules are kept but those of the text; it is for tests of what reads it."""
import random

STEPS = [(0, -1), (1, -1), (1, 0), (1, 1), (0, 1), (-1, 1), (-1, 0), (-1, -1)]
# Of each kind health, speed, whether it is a building, and the name, which may have any letters.
KINDS = [(400, 0, 1, 'fact'), (300, 0, 1, 'proc'), (100, 128, 0, 'jeep'), (150, 90, 0, 'harv'), (60, 56, 0, 'e1 <b>&amp;</b>'), (50, 0, 0, '')]


class Actor:
    def __init__(self, number, kind, owner, cell):
        self.number, self.kind, self.owner, self.cell = number, kind, owner, cell
        self.facing, self.leg, self.health, self.load, self.reload = random.randrange(8) * 128, None, KINDS[kind][0], 0, 0
        self.acts, self.builds = [], []

    def lines(self):
        leg = f'{self.leg[0]}:{self.leg[1]}' if self.leg else 'none'
        yield (f'actor {self.number} kind {self.kind} owner {self.owner} cell {self.cell[0]},{self.cell[1]} facing {self.facing} leg {leg} '
               f'health {self.health} load {self.load} reload {self.reload}')
        yield from self.acts
        for kind, left in self.builds:
            yield f'build kind {kind} left {left}'


class MadeMatch:
    """A made match of so many actors and clients on a square map of that size; the same for a seed each time."""

    def __init__(self, size, count, clients, seed):
        self.dice = random.Random(seed)
        random.seed(seed)
        self.size, self.seed, self.clients = size, seed, clients
        self.tick, self.drawn, self.next, self.pace = 0, 0, count + 1, 1
        self.cash, self.gone = [self.dice.randrange(5000) for _ in range(clients)], [0] * clients
        self.rows = [''.join(self.dice.choices('.=r~X', (70, 8, 8, 6, 8), k=size)) for _ in range(size)]
        cells = self.dice.sample([(x, y) for x in range(size) for y in range(size)], count)
        self.actors = {}
        for number, cell in enumerate(cells, 1):
            owner = self.dice.randrange(clients) if self.dice.random() < 0.97 else 255
            self.actors[number] = Actor(number, self.dice.choices(range(len(KINDS)), (1, 1, 6, 2, 6, 1))[0], owner, cell)
        self.taken = set(cells)
        self.ore = {(x, y): self.dice.randrange(1, 91) for y in range(size) for x in range(size) if self.dice.random() < 0.1}

    def setting(self):
        for number, (health, speed, building, name) in enumerate(KINDS):
            yield f'kind {number} health {health} speed {speed} building {building} name {name}'
        yield f'map {self.size} {self.size}'
        for row in self.rows:
            yield f'row {row}'

    def world(self, frames):
        yield f'frames {frames} hash {self.dice.getrandbits(64):016x}'
        yield f'world tick {self.tick} seed {self.seed} drawn {self.drawn} next {self.next} pace {self.pace}'
        yield 'cash ' + ' '.join(map(str, self.cash))
        yield 'gone ' + ' '.join(map(str, self.gone))
        for it in self.actors.values():
            yield from it.lines()
        for (x, y), ore in sorted(self.ore.items(), key=lambda it: (it[0][1], it[0][0])):
            yield f'ore {x},{y} {ore}'
        yield 'end world'

    def step(self):
        self.tick += self.pace
        for actor in list(self.actors.values()):
            self.go(actor)
            if self.dice.random() < 0.02:
                self.change(actor)
        if self.dice.random() < 0.05 and len(self.actors) > 2:
            dead = self.actors.pop(self.dice.choice(list(self.actors)))
            self.taken.discard(dead.cell)
        if self.dice.random() < 0.05:
            cell = self.dice.randrange(self.size), self.dice.randrange(self.size)
            if cell not in self.taken:
                self.actors[self.next] = Actor(self.next, 2, self.dice.randrange(self.clients), cell)
                self.taken.add(cell)
            self.next += 1
        client = self.dice.randrange(self.clients)
        self.cash[client] = max(0, self.cash[client] + self.dice.randrange(-200, 260))
        if self.dice.random() < 0.002:
            self.gone[client] = 1

    def go(self, actor):
        """Further on its leg, or to a free neighbour."""
        speed = KINDS[actor.kind][1]
        if not speed:
            return
        if actor.leg:
            direction, gone = actor.leg
            gone += speed
            actor.leg = (direction, gone) if gone < (1448 if direction % 2 else 1024) else None
            return
        ahead = (1024 - actor.facing) % 1024 // 128
        direction = (ahead + self.dice.choices((0, 1, 7, 2, 6), (8, 1, 1, 1, 1))[0]) % 8
        actor.facing = (1024 - 128 * direction) % 1024
        cell = actor.cell[0] + STEPS[direction][0], actor.cell[1] + STEPS[direction][1]
        if min(cell) >= 0 and max(cell) < self.size and cell not in self.taken:
            self.taken.discard(actor.cell)
            self.taken.add(cell)
            actor.cell, actor.leg = cell, (direction, speed)

    def change(self, actor):
        """Health, load, what it is to do and to build, and the ore of a cell."""
        dice = self.dice
        actor.health = max(1, actor.health - dice.randrange(1, 12))
        actor.reload = dice.randrange(10)
        actor.load = dice.randrange(11) if actor.kind == 3 else 0
        place = f'{dice.randrange(self.size)},{dice.randrange(self.size)}'
        words = [f'act move {place} waits {dice.randrange(8)}', f'act attack {dice.randrange(1, self.next)} waits 0',
                 f'act harvest {place} timer {dice.randrange(3)} waits 0', f'act deliver {place} timer 0 waits {dice.randrange(8)}']
        actor.acts = dice.choices(words, k=dice.randrange(4)) if KINDS[actor.kind][1] else []
        actor.builds = [(2, dice.randrange(20)) for _ in range(dice.randrange(3))] if actor.kind == 0 else []
        self.drawn += 1
        if self.ore:
            cell = dice.choice(list(self.ore))
            self.ore[cell] -= 1
            if not self.ore[cell]:
                del self.ore[cell]


def disturb(match):
    """Changes one thing of each sort, after which the match goes another way."""
    first, *_, last = match.actors.values()
    first.health, first.facing, first.builds = first.health - 1, (first.facing + 1) % 1024, [(2, 9)]
    first.acts = ['act deliver 1,2 timer 0 waits 3', *first.acts]
    del match.actors[last.number]
    match.cash[0] += 1
    match.ore[0, 0] = match.ore.get((0, 0), 0) % 90 + 1


def lines_of(frames, size, count, clients, seed=7, disturbed=None):
    """The lines of all worlds; after `disturbed` frames the match is disturbed."""
    match = MadeMatch(size, count, clients, seed)
    yield from match.setting()
    for number in range(frames + 1):
        if number == disturbed:
            disturb(match)
        yield from match.world(number)
        match.step()
    yield from (f'worlds {frames + 1}', 'end')


def write(path, *given, **named):
    with open(path, 'w', encoding='utf-8') as it:
        it.writelines(f'{line}\n' for line in lines_of(*given, **named))
