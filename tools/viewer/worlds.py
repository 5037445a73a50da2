"""Reads what the command `worlds` prints: of each world its text, its fields, and what differs from the world before."""
import collections
import functools
import re

# How many bytes are read at once.
PIECE = 1 << 20
# What ends the text of a world.
END = b'\nend world\n'

KIND = re.compile(rb'kind (\d+) health (\d+) speed (\d+) building ([01]) name (.*)', re.S)
MAP = re.compile(rb'map (\d+) (\d+)')
ROW = re.compile(rb'row ([.=r~X]+)')
HEAD = re.compile(rb'frames (\d+) hash ([0-9a-f]{16})\nworld tick (\d+) seed (\d+) drawn (\d+) next (\d+) pace (\d+)\n'
                  rb'cash((?: \d+)+)\ngone((?: [01])+)')
ACTOR = re.compile(rb'(\d+) kind (\d+) owner (\d+) cell (\d+),(\d+) facing (\d+) leg (?:none|(\d):(\d+)) health (\d+) load (\d+) '
                   rb'reload (\d+)')
ACT = re.compile(rb'act (?:(move) (\d+),(\d+)|(attack) (\d+)|(harvest|deliver) (\d+),(\d+) timer (\d+)) waits (\d+)')
BUILD = re.compile(rb'build kind (\d+) left (\d+)')
ORE = re.compile(rb'(\d+),(\d+) (\d+)')

# An actor is a list of numbers: these, then ACT_LENGTH of each activity, then kind and turns left of each build.
FIELDS = ('kind', 'owner', 'x', 'y', 'facing', 'leg', 'gone', 'health', 'load', 'reload', 'acts')
# An activity's numbers: which it is; its cell, or its target and 0; its timer, or 0; its waits.
ACTS = {b'move': 0, b'attack': 1, b'harvest': 2, b'deliver': 3}
ACT_LENGTH = 5

Kind = collections.namedtuple('Kind', 'health speed building name')


class Unread(Exception):
    """The text is not of the form that `worlds` prints."""


def matched(form, text):
    found = form.fullmatch(text)
    if not found:
        raise Unread(f'not of the form that worlds prints: {text[:80].decode(errors="replace")!r}')
    return found.groups()


def numbers(found):
    return [int(it) for it in found]


class Setting:
    """What all worlds of a match share: the kinds and the map's terrain."""

    def __init__(self, stream):
        self.kinds = []
        line = self.line(stream)
        while line.startswith(b'kind '):
            _, health, speed, building, name = matched(KIND, line)
            self.kinds.append(Kind(int(health), int(speed), int(building), name.decode(errors='replace')))
            line = self.line(stream)
        self.width, self.height = numbers(matched(MAP, line))
        self.rows = [matched(ROW, self.line(stream))[0].decode() for _ in range(self.height)]
        if any(len(it) != self.width for it in self.rows):
            raise Unread('a row of the map has another width')

    def __eq__(self, other):
        return vars(self) == vars(other)

    @staticmethod
    def line(stream):
        line = stream.readline()
        if not line.endswith(b'\n'):
            raise Unread('the text of worlds ends within its kinds and its map')
        return line[:-1]


# Many actors do the same, and do it in many worlds.
@functools.lru_cache(1 << 16)
def part_of(line):
    """The numbers of an activity or of a build."""
    if not line.startswith(b'act '):
        return numbers(matched(BUILD, line))
    move, move_x, move_y, attack, target, other, other_x, other_y, timer, waits = matched(ACT, line)
    place = (move_x, move_y) if move else (target, 0) if attack else (other_x, other_y)
    return [ACTS[move or attack or other], *numbers((*place, timer or 0, waits))]


def actor_of(lines):
    """The id and the numbers of an actor, whose lines are given without the first word."""
    first, *more = lines.split(b'\n')
    number, kind, owner, x, y, facing, leg, gone, health, load, reload = matched(ACTOR, first)
    # The leg is 0 for none, else its direction and 1.
    made = [int(kind), int(owner), int(x), int(y), int(facing), 0 if leg is None else int(leg) + 1, int(gone or 0), int(health),
            int(load), int(reload), 0]
    for it in more:
        made += part_of(it)
        made[10] += it.startswith(b'act ')
    return int(number), made


class World:
    """The world after so many frames, and what changed since the one before: `touched` has the numbers that an actor had
    (none of a new one) and those that it has, `ore` the new ore of each cell, by its place row by row."""

    def __init__(self, text, head):
        frames, self.hash, tick, self.seed, drawn, after, pace, cash, gone = head
        self.text, self.frames, self.seed = text, int(frames), int(self.seed)
        self.tick, self.drawn, self.next, self.pace = numbers((tick, drawn, after, pace))
        self.cash, self.gone = numbers(cash.split()), numbers(gone.split())
        self.touched, self.removed, self.ore = {}, [], {}


class Worlds:
    """The worlds of a text, one after another."""

    def __init__(self, stream):
        self.stream, self.setting = stream, Setting(stream)
        # The lines of the actors and of the ore of the world before, and its actors' numbers.
        self.lines, self.ore_lines, self.ore_text = set(), set(), b''
        self.actors = {}

    def __iter__(self):
        count, held = 0, b''
        while True:
            more = self.stream.read1(PIECE)
            if not more:
                break
            *texts, held = (held + more).split(END)
            for text in texts:
                count += 1
                yield self.world(text)
        if held.removesuffix(b'\n').split(b'\n') != [b'worlds %d' % count, b'end']:
            raise Unread('the text of worlds has no end')

    def world(self, text):
        actors, _, ore = text.partition(b'\nore ')
        head, *actors = actors.split(b'\nactor ')
        world = World(text, matched(HEAD, head))
        self.take_actors(world, set(actors), len(actors))
        if ore != self.ore_text:
            self.take_ore(world, ore)
        return world

    def take_actors(self, world, lines, count):
        before = {int(it[:it.index(b' ')]) for it in self.lines - lines}
        for it in sorted(map(actor_of, lines - self.lines)):
            world.touched[it[0]] = self.actors.get(it[0], []), it[1]
            self.actors[it[0]] = it[1]
        world.removed = sorted(before - world.touched.keys())
        for it in world.removed:
            del self.actors[it]
        if len(self.actors) != count:
            raise Unread(f'two actors have one id after {world.frames} frames')
        self.lines = lines

    def take_ore(self, world, text):
        lines = set(text.split(b'\nore ')) - {b''}
        place = lambda it: (int(it[0]) + self.setting.width * int(it[1]), int(it[2]))
        cells = {at: 0 for at, _ in (place(matched(ORE, it)) for it in self.ore_lines - lines)}
        cells.update(place(matched(ORE, it)) for it in lines - self.ore_lines)
        world.ore = dict(sorted(cells.items()))
        self.ore_lines, self.ore_text = lines, text
