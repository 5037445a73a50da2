"""The game of lockstep in Python: the proved library for C, by ctypes. It needs nothing beside Python 3.8.

    import lockstep

    setup = lockstep.Setup.of_files(['rules.yaml'], map='map')
    with setup.world(seed=1, clients=2) as world:
        world.step([lockstep.Play().move(4, 8, 5), lockstep.Play()])
        print(world.head().frames, f'{world.head().hash:016x}')

docs/EMBEDDING.md says what each part is for, bindings/c/lockstep.h what each call of the library does, and in which units
its numbers are; the names here are those there, without `lockstep_`. Records are copies: no later call changes them.

Answers. What can go either way is given: a packet or None, or an `Answer`. A call that can't be made raises, and has changed
nothing: an `Error`, MemoryError, or for a value of another type what Python raises.

Threads. A call holds the interpreter's lock, so that calls never overlap; none waits. In a build of Python without that lock
only one thread at a time may use a setup and what was made from it.

The library is the file that the variable LOCKSTEP_LIBRARY names; else the one that bindings/c/build has made in this
repository; else the `liblockstep.so.1` that the system's loader finds.
"""
import ctypes
import enum
import operator
import os
from ctypes import POINTER, Structure, byref, c_size_t, c_uint8, c_uint32, c_uint64, c_void_p
from typing import Iterable, List, NamedTuple, Optional, Tuple, Union

__all__ = ['Setup', 'World', 'Peer', 'Server', 'Play', 'Code', 'Answer', 'Sealed', 'Traits', 'Ground', 'Head', 'Actor', 'Item',
           'Kind', 'Terms', 'Alarm', 'Grid', 'Route', 'Error', 'BadBytes', 'BadArgument', 'Closed', 'Fault', 'Refused',
           'welcome', 'welcomed', 'packet_size', 'bye', 'refuse', 'ABI', 'MAX_CLIENTS', 'MAX_ORDERS', 'MAX_ACTORS',
           'MAX_ITEMS', 'NOBODY']

ABI = 1
MAX_CLIENTS = 16
MAX_ORDERS = 16  # of one client in one frame
MAX_ACTORS = 2048
MAX_ITEMS = 24  # that one actor is to do
NOBODY = 255


class Code(enum.IntEnum):
    """What a call answers."""
    OK = 0
    REPEAT = 1  # the same is there already
    NONE = 2  # there is no such thing
    NOT_YET = 3
    OVER = 4
    TOO_EARLY = 5
    LEFT = 6
    NO_FRAME = 8  # no match has such a frame
    AHEAD = 9
    CONFLICT = 10  # another is there already
    PAST = 11
    FULL = 12  # no more files, or frames, fit
    IGNORED = 13
    REFUSED = 14
    BAD_BYTES = 32
    FAULT = 33
    BAD_ARGUMENT = 34
    WRONG_OBJECT = 35
    NO_ROOM = 36
    NO_MEMORY = 37


class Traits(enum.IntFlag):
    """The traits of a kind."""
    HEALTH = 1
    MOBILE = 2
    BUILDING = 4
    HARVESTER = 8
    REFINERY = 16
    PRODUCTION = 32
    BUILDABLE = 64
    VALUED = 128
    ARMAMENT = 256
    REVEALS_SHROUD = 512


class Ground(enum.IntEnum):
    """What a cell of the map is."""
    CLEAR = 0
    ROAD = 1
    ROUGH = 2
    WATER = 3
    ROCK = 4


# The words of a fault's causes, as `check` prints them.
CAUSES = {1: 'NotUtf8', 2: 'BadIndent', 3: 'TooDeep', 4: 'LineTooLong', 5: 'TooManyLines', 11: 'NoParent', 12: 'Cycle',
          13: 'NothingToRemove', 14: 'TooLarge', 15: 'TooDeep', 21: 'BadValue', 22: 'OutOfRange', 23: 'MissingField',
          24: 'UnknownKindName', 25: 'TooManyKinds', 31: 'BadField', 32: 'BadRow', 33: 'UnknownTerrain', 34: 'UnknownKind',
          35: 'CellTaken', 36: 'BadOwner', 37: 'TooManyActors'}


class Error(Exception):
    """A call that can't be made. Nothing has changed."""

    def __init__(self, call: str, code: int):
        super().__init__(f'{call}: {Code(code).name}')
        self.call, self.code = call, Code(code)


class BadBytes(Error, ValueError):
    """The bytes are none that the call takes. Where they came over a link, drop who sent them."""


class BadArgument(Error, ValueError):
    """A number is none that the call takes."""


class Closed(Error, ValueError):
    """The object was closed."""


class Refused(Error):
    """The server refused to welcome: `why` is 1, another version of the packets, 2, other rules or another map, or 3."""

    def __init__(self, call: str, why: int):
        super().__init__(call, Code.REFUSED)
        self.why = why

    def __str__(self):
        return f'{super().__str__()}, {self.why}'


class Fault(Error):
    """The first fault of a setup's texts, as the command `check` finds it: its cause, the number of the text (the rule files from
    0, then the map), the line, from 1 (0: of a map that has no size), and the file's name, where it was read from one."""

    def __init__(self, cause: int, file: int, place: int, name: Optional[str] = None):
        super().__init__('setup_read', Code.FAULT)
        self.cause, self.file, self.place, self.name = CAUSES.get(cause, '?'), file, place, name

    def __str__(self):
        return f'{self.name or f"text {self.file}"}, line {self.place}: {self.cause}'


class Answer(NamedTuple):
    """A code, and the number that the call tells with it (see lockstep.h), a frame or a client; else 0."""
    code: Code
    told: int


class Sealed(NamedTuple):
    """OK with the packet for the server, or else why the play was not sealed: keep it at TOO_EARLY."""
    code: Code
    packet: bytes


class Grid(NamedTuple):
    """A byte for each cell, row by row."""
    width: int
    cells: bytes

    def at(self, x: int, y: int) -> int:
        if not 0 <= x < self.width or y < 0:
            raise IndexError(f'no cell {x},{y}')
        return self.cells[y * self.width + x]

    def rows(self) -> List[bytes]:
        return [self.cells[at:at + self.width] for at in range(0, len(self.cells), self.width)]


class Route(NamedTuple):
    """A way: what it costs, and its cells from the first to the last."""
    cost: int
    cells: List[Tuple[int, int]]


class _Record(Structure):
    def as_dict(self) -> dict:
        """The fields by their names."""
        found = {name: getattr(self, name) for name, _ in self._fields_}
        return {name: [*it] if isinstance(it, ctypes.Array) else it for name, it in found.items()}

    def __eq__(self, other):
        return type(self) is type(other) and self.as_dict() == other.as_dict()

    __hash__ = None

    def __repr__(self):
        return f'{type(self).__name__}({", ".join(f"{name}={it!r}" for name, it in self.as_dict().items())})'


def _number(value: int) -> int:
    """A number that the library can be told: ctypes would cut it."""
    value = operator.index(value)
    if not 0 <= value < 1 << 32:
        raise BadArgument(f'the number {value}', Code.BAD_ARGUMENT)
    return value


class Terms(_Record):
    """Under which a client plays: its number, how many clients, how many frames it may seal ahead, and the seed."""
    _fields_ = [('me', c_uint32), ('clients', c_uint32), ('lag', c_uint32), ('seed', c_uint32)]

    def __init__(self, me: int = 0, clients: int = 1, lag: int = 1, seed: int = 0):
        super().__init__(*map(_number, (me, clients, lag, seed)))


class Alarm(_Record):
    """A client's world differs after this frame from the server's: the hash that it reported, and the server's."""
    _fields_ = [('frame', c_uint32), ('got', c_uint64), ('want', c_uint64)]


class Head(_Record):
    """What a world has beside actors and ore; `hash` is its checksum. `cash` and `gone` have 16 numbers, 0 from `clients` on."""
    _fields_ = [('hash', c_uint64), ('drawn', c_uint64), ('frames', c_uint32), ('turns', c_uint32), ('seed', c_uint32),
                ('next_id', c_uint32), ('pace', c_uint32), ('clients', c_uint32), ('actors', c_uint32), ('width', c_uint32),
                ('height', c_uint32), ('cash', c_uint32 * 16), ('gone', c_uint32 * 16)]


class Actor(_Record):
    """An actor. `dir` is 8 where it is on no leg."""
    _fields_ = [('id', c_uint32), ('kind', c_uint32), ('owner', c_uint32), ('x', c_uint32), ('y', c_uint32),
                ('facing', c_uint32), ('dir', c_uint32), ('progress', c_uint32), ('health', c_uint32), ('load', c_uint32),
                ('reload', c_uint32), ('acts', c_uint32), ('doing', c_uint32), ('builds', c_uint32)]

    def position(self) -> Tuple[int, int]:
        """Where it is to be drawn, in units from the map's north-western corner: the middle of its cell, or the place that it
        has reached on its leg."""
        east, south = _STEPS[self.dir if self.dir < 8 else 8]
        length = 1448 if self.dir % 2 == 1 and self.dir < 8 else 1024
        left = (length - self.progress) * 1024 // length
        return self.x * 1024 + 512 - east * left, self.y * 1024 + 512 - south * left


_STEPS = [(0, -1), (1, -1), (1, 0), (1, 1), (0, 1), (-1, 1), (-1, 0), (-1, -1), (0, 0)]


class Item(_Record):
    """One thing that an actor is to do: 1 move, 2 attack, 3 harvest, 4 deliver, 5 build; 0 for each number that it has not."""
    _fields_ = [('what', c_uint32), ('x', c_uint32), ('y', c_uint32), ('id', c_uint32), ('turns', c_uint32),
                ('waits', c_uint32)]


class Kind(_Record):
    """What a kind is; its `name` beside the fields. `traits` are bits of `Traits`."""
    _fields_ = [('traits', c_uint32), ('hp', c_uint32), ('cost', c_uint32), ('speed', c_uint32), ('turn', c_uint32),
                ('costs', c_uint32 * 4), ('range', c_uint32), ('damage', c_uint32), ('spread', c_uint32),
                ('reload', c_uint32), ('capacity', c_uint32), ('load_delay', c_uint32), ('unload_delay', c_uint32),
                ('value', c_uint32), ('duration', c_uint32), ('sight', c_uint32)]
    name = ''

    def as_dict(self) -> dict:
        return {'name': self.name, **super().as_dict()}


class _Object(Structure):
    _fields_ = [('at_', c_void_p), ('kind_', c_uint32)]


class _Fault(Structure):
    _fields_ = [('cause', c_uint32), ('file', c_uint32), ('place', c_uint64)]


class _Play(Structure):
    _fields_ = [('len', c_uint32), ('bytes', c_uint8 * 164)]


class _Packet(Structure):
    _fields_ = [('len', c_uint32), ('bytes', c_uint8 * 260)]


class _Cell(Structure):
    _fields_ = [('x', c_uint8), ('y', c_uint8)]


class _Route(Structure):
    _fields_ = [('cost', c_uint32), ('count', c_size_t)]


# What the header calls each of them.
RECORDS = {'object': _Object, 'fault': _Fault, 'play': _Play, 'packet': _Packet, 'terms': Terms, 'alarm': Alarm,
           'head': Head, 'actor': Actor, 'item': Item, 'kind': Kind, 'cell': _Cell, 'route': _Route}

_AN_OBJECT, _A_NUMBER, _NUMBERS, _SIZE = POINTER(_Object), c_uint32, POINTER(c_uint32), POINTER(c_size_t)
_BYTES, _ROOM = [ctypes.c_char_p, c_size_t], [c_size_t, _SIZE]

# The calls of the library, and what each takes.
CALLS = {
    'abi': [], 'free': [_AN_OBJECT],
    'setup_create': [_AN_OBJECT], 'setup_add': [_AN_OBJECT, _A_NUMBER, *_BYTES],
    'setup_read': [_AN_OBJECT, POINTER(_Fault)], 'setup_share': [_AN_OBJECT, _AN_OBJECT],
    'setup_kind': [_AN_OBJECT, _A_NUMBER, POINTER(Kind)],
    'setup_kind_name': [_AN_OBJECT, _A_NUMBER, POINTER(c_uint8), *_ROOM],
    'setup_terrain': [_AN_OBJECT, _NUMBERS, POINTER(c_uint8), *_ROOM],
    'world_create': [_AN_OBJECT, _AN_OBJECT, _A_NUMBER, _A_NUMBER], 'world_step': [_AN_OBJECT, *_BYTES],
    'hello': [_AN_OBJECT, POINTER(_Packet)], 'greeted': [_AN_OBJECT, *_BYTES, _NUMBERS],
    'welcome': [POINTER(Terms), POINTER(_Packet)], 'welcomed': [*_BYTES, POINTER(Terms)],
    'peer_create': [_AN_OBJECT, _AN_OBJECT, POINTER(Terms)], 'peer_deliver': [_AN_OBJECT, *_BYTES, _NUMBERS],
    'peer_tick': [_AN_OBJECT, _NUMBERS], 'peer_seal': [_AN_OBJECT, *_BYTES, POINTER(_Packet)],
    'peer_report': [_AN_OBJECT, POINTER(_Packet)],
    'server_create': [_AN_OBJECT, _AN_OBJECT, _A_NUMBER, _A_NUMBER],
    'server_up': [_AN_OBJECT, _A_NUMBER, *_BYTES, _NUMBERS], 'server_drop': [_AN_OBJECT, _A_NUMBER, _NUMBERS],
    'server_entry': [_AN_OBJECT, _A_NUMBER, _A_NUMBER, POINTER(_Packet)], 'server_tick': [_AN_OBJECT, _NUMBERS],
    'server_alarm': [_AN_OBJECT, _A_NUMBER, POINTER(Alarm)],
    'read_head': [_AN_OBJECT, POINTER(Head)], 'read_actors': [_AN_OBJECT, POINTER(Actor), *_ROOM],
    'read_items': [_AN_OBJECT, _A_NUMBER, POINTER(Item), *_ROOM], 'read_ore': [_AN_OBJECT, POINTER(c_uint8), *_ROOM],
    'seen': [_AN_OBJECT, _A_NUMBER, _NUMBERS, POINTER(c_uint8), *_ROOM],
    'find_route': [_AN_OBJECT, *[_A_NUMBER] * 5, POINTER(_Cell), c_size_t, POINTER(_Route)],
    'bot': [_AN_OBJECT, _A_NUMBER, POINTER(_Play)],
}

_RAISED = {Code.BAD_BYTES: BadBytes, Code.BAD_ARGUMENT: BadArgument, Code.WRONG_OBJECT: Closed}


def _opened():
    built = os.path.join(os.path.dirname(os.path.realpath(__file__)), '..', 'c', 'out', 'liblockstep.so.1')
    named = os.environ.get('LOCKSTEP_LIBRARY')
    # A PyDLL holds the interpreter's lock in each call.
    library = ctypes.PyDLL(named or (built if os.path.exists(built) else 'liblockstep.so.1'))
    for name, takes in CALLS.items():
        call = getattr(library, f'lockstep_{name}')
        call.argtypes, call.restype = takes, None if name == 'free' else c_uint32
    if library.lockstep_abi() != ABI:
        raise ImportError(f'lockstep.py is for version {ABI} of the library, and this one is {library.lockstep_abi()}')
    return library


_LIBRARY = _opened()


def _code(name, *given) -> Code:
    """What a call answers, where it can be made."""
    code = Code(getattr(_LIBRARY, f'lockstep_{name}')(*given))
    if code is Code.NO_MEMORY:
        raise MemoryError(f'{name}: NO_MEMORY')
    if code in _RAISED:
        raise _RAISED[code](name, code)
    return code


def _ok(name, *given):
    """Makes a call that has one answer."""
    code = _code(name, *given)
    if code is not Code.OK:
        raise Error(name, code)


def _bytes(given: Union['Play', bytes]) -> Tuple[bytes, int]:
    """Bytes and how many they are."""
    given = bytes(given if isinstance(given, Play) else memoryview(given))
    return given, len(given)


def _listed(name, record, *given):
    """What a call writes into an array, or None where there is no such thing; `record` is the type of an element."""
    places, needed = 0, c_size_t()
    while True:
        # One place where none is asked for: no pointer is null.
        room = (record * max(places, 1))()
        code = _code(name, *given, room, places, byref(needed))
        if code is not Code.NO_ROOM:
            break
        places = needed.value
    return room[:needed.value] if code is Code.OK else None


def _packed(packet: _Packet) -> bytes:
    return ctypes.string_at(packet.bytes, packet.len)


class Play:
    """The orders of one client for one frame, of which there are at most 16. Each method appends an order of docs/TICK.md, and
    gives the play; it raises `BadArgument` where there are 16 already. A queued order comes after what the actor has to do,
    another takes its place."""

    def __init__(self, given: bytes = b'\x01\x00'):
        self._bytes = bytearray(_bytes(given)[0])
        if len(self._bytes) < 2 or self._bytes[0] != 1 or self._bytes[1] > MAX_ORDERS:
            raise BadBytes('the bytes of a play', Code.BAD_BYTES)

    def __bytes__(self):
        return bytes(self._bytes)

    def __copy__(self):
        return Play(self)

    def __bool__(self):
        # A play without orders is no departure.
        return True

    def __len__(self):
        """How many orders there are."""
        return self._bytes[1]

    def __repr__(self):
        return f'Play({bytes(self)!r})'

    def _add(self, tag: int, *fields: Tuple[int, int]) -> 'Play':
        order = bytes([tag])
        for value, size in fields:
            value = operator.index(value)
            if not 0 <= value < 1 << 8 * size:
                raise BadArgument(f'the number {value} in an order', Code.BAD_ARGUMENT)
            order += value.to_bytes(size, 'little')
        if len(self) >= MAX_ORDERS:
            raise BadArgument(f'{MAX_ORDERS} orders and one', Code.BAD_ARGUMENT)
        self._bytes += order
        self._bytes[1] += 1
        return self

    def move(self, actor: int, x: int, y: int, queued: bool = False) -> 'Play':
        return self._add(1, (actor, 4), (x, 1), (y, 1), (bool(queued), 1))

    def attack(self, actor: int, target: int, queued: bool = False) -> 'Play':
        return self._add(2, (actor, 4), (target, 4), (bool(queued), 1))

    def harvest(self, actor: int, x: int, y: int, queued: bool = False) -> 'Play':
        return self._add(3, (actor, 4), (x, 1), (y, 1), (bool(queued), 1))

    def stop(self, actor: int) -> 'Play':
        return self._add(4, (actor, 4))

    def produce(self, actor: int, kind: int) -> 'Play':
        return self._add(5, (actor, 4), (kind, 2))

    def cancel(self, actor: int) -> 'Play':
        return self._add(6, (actor, 4))

    def donate(self, client: int, amount: int) -> 'Play':
        return self._add(7, (client, 1), (amount, 4))

    def pace(self, turns: int) -> 'Play':
        return self._add(8, (turns, 1))


# What stands in a frame for a client: its play, or None from its departure on.
Entry = Union[Play, bytes, None]


class _Held:
    """What the library holds for us, until it is closed."""

    def __init__(self):
        self._object = _Object()

    @property
    def _at(self):
        return byref(self._object)

    def close(self):
        """Frees what it holds. It may be closed before what was made from it, and again."""
        _LIBRARY.lockstep_free(self._at)

    def __reduce_ex__(self, _):
        raise TypeError(f'a {type(self).__name__} is not copied')

    def __enter__(self):
        return self

    def __exit__(self, *_):
        self.close()

    def __del__(self):
        # At the end of the process what this needs may be gone, and with it the need.
        if '_object' in self.__dict__ and _LIBRARY is not None:
            self.close()


class Setup(_Held):
    """Rules and a map: up to 64 rule files, the later over the earlier. Without rules there are no kinds, without a map there is
    one clear cell. It raises `Fault` where the texts have one."""

    def __init__(self, rules: Iterable[bytes] = (), map: Optional[bytes] = None):
        super().__init__()
        _ok('setup_create', self._at)
        for text in rules:
            _ok('setup_add', self._at, 0, *_bytes(text))
        if map is not None:
            _ok('setup_add', self._at, 1, *_bytes(map))
        at = _Fault()
        if _code('setup_read', self._at, byref(at)) is Code.FAULT:
            raise Fault(at.cause, at.file, at.place)

    @classmethod
    def of_files(cls, rules: Iterable[str] = (), map: Optional[str] = None) -> 'Setup':
        """A setup of the files of these names."""
        names = [*rules]
        texts = [_content(it) for it in names]
        try:
            return cls(texts, _content(map) if map is not None else None)
        except Fault as fault:
            fault.name = [*names, map][fault.file]
            raise

    def share(self) -> 'Setup':
        """A setup of the same texts, read again."""
        copy = Setup.__new__(Setup)
        _Held.__init__(copy)
        _ok('setup_share', copy._at, self._at)
        return copy

    def kinds(self) -> List[Kind]:
        """The kinds by their numbers, as they stand in the rules."""
        found = []
        while True:
            kind = Kind()
            if _code('setup_kind', self._at, len(found), byref(kind)) is Code.NONE:
                return found
            kind.name = bytes(_listed('setup_kind_name', c_uint8, self._at, len(found))).decode()
            found.append(kind)

    def terrain(self) -> Grid:
        """The ground of each cell, each a `Ground`."""
        width = c_uint32()
        cells = _listed('setup_terrain', c_uint8, self._at, byref(width))
        return Grid(width.value, bytes(cells))

    def world(self, seed: int, clients: int) -> 'World':
        """The opening world of a match of 1 to 16 clients."""
        return World(self, seed, clients)

    def peer(self, terms: Terms) -> 'Peer':
        """The peer of a client, whose world is at the opening."""
        return Peer(self, terms)

    def server(self, clients: int, seed: int) -> 'Server':
        """The server of a match of 1 to 16 clients."""
        return Server(self, clients, seed)

    def hello(self) -> bytes:
        """A client's first packet."""
        packet = _Packet()
        _ok('hello', self._at, byref(packet))
        return _packed(packet)

    def greeted(self, packet: bytes) -> Optional[int]:
        """None where a link's first packet greets a match of this setup, else what to `refuse` it with."""
        told = c_uint32()
        code = _code('greeted', self._at, *_bytes(packet), byref(told))
        return told.value if code is Code.REFUSED else None


def _content(name: str) -> bytes:
    with open(name, 'rb') as it:
        return it.read()


class _Game(_Held):
    """What has a world: it can be read, and asked for ways and for a bot's play."""

    def head(self) -> Head:
        head = Head()
        _ok('read_head', self._at, byref(head))
        return head

    def actors(self) -> List[Actor]:
        """The actors by rising id."""
        return _listed('read_actors', Actor, self._at)

    def items(self, actor: int) -> Optional[List[Item]]:
        """What an actor is to do: its activities, the one at work first, then its builds. None: there is no such actor."""
        return _listed('read_items', Item, self._at, _number(actor))

    def ore(self) -> Grid:
        """The ore of each cell, 0 to 90."""
        return Grid(self.head().width, bytes(_listed('read_ore', c_uint8, self._at)))

    def seen(self, client: int) -> Grid:
        """Which cells a client sees now: 1 seen, 0 not."""
        width = c_uint32()
        cells = _listed('seen', c_uint8, self._at, _number(client), byref(width))
        return Grid(width.value, bytes(cells))

    def find_route(self, kind: int, start: Tuple[int, int], end: Tuple[int, int]) -> Optional[Route]:
        """The way of least cost that an actor of a kind would begin now; None: there is none, or start and end are one."""
        places, route = 0, _Route()
        asked = [_number(it) for it in (kind, *start, *end)]
        while True:
            room = (_Cell * max(places, 1))()
            code = _code('find_route', self._at, *asked, room, places, byref(route))
            if code is not Code.NO_ROOM:
                break
            places = route.count
        if code is Code.NONE:
            return None
        return Route(route.cost, [(it.x, it.y) for it in room[:route.count]])

    def bot(self, client: int) -> Play:
        """The play for the next frame of a client that is a bot."""
        play = _Play()
        _ok('bot', self._at, _number(client), byref(play))
        return Play(ctypes.string_at(play.bytes, play.len))


class World(_Game):
    """The world of a match."""

    def __init__(self, setup: Setup, seed: int, clients: int):
        super().__init__()
        _ok('world_create', self._at, setup._at, _number(seed), _number(clients))

    def step(self, frame: Union[bytes, Iterable[Entry]]):
        """Makes one step by a frame: an entry of each client, by rising number, or all of them as bytes."""
        if not isinstance(frame, (bytes, bytearray, memoryview)):
            frame = b''.join(b'\0' if it is None else _bytes(it)[0] for it in frame)
        _ok('world_step', self._at, *_bytes(frame))


class Peer(_Game):
    """A client of a match."""

    def __init__(self, setup: Setup, terms: Terms):
        super().__init__()
        _ok('peer_create', self._at, setup._at, byref(terms))

    def deliver(self, packet: bytes) -> Answer:
        """Takes an entry that the server sent, in whatever order."""
        told = c_uint32()
        code = _code('peer_deliver', self._at, *_bytes(packet), byref(told))
        return Answer(code, told.value)

    def tick(self) -> Answer:
        """Steps the world by the next frame, where the entries of all clients are there: OK and the frame; else NOT_YET and the
        least client that is missing, or OVER."""
        told = c_uint32()
        code = _code('peer_tick', self._at, byref(told))
        return Answer(code, told.value)

    def seal(self, play: Union[Play, bytes]) -> Sealed:
        """Seals the client's next frame with a play."""
        packet = _Packet()
        code = _code('peer_seal', self._at, *_bytes(play), byref(packet))
        return Sealed(code, _packed(packet) if code is Code.OK else b'')

    def report(self) -> Optional[bytes]:
        """A packet for the server with the last ticked frame and the hash after it; None before a tick."""
        packet = _Packet()
        code = _code('peer_report', self._at, byref(packet))
        return _packed(packet) if code is Code.OK else None


class Server(_Game):
    """The server of a match."""

    def __init__(self, setup: Setup, clients: int, seed: int):
        super().__init__()
        _ok('server_create', self._at, setup._at, _number(clients), _number(seed))

    def up(self, client: int, packet: bytes) -> Answer:
        """Takes a packet of a client. After CONFLICT or `BadBytes` drop the client, over streams after AHEAD too."""
        told = c_uint32()
        code = _code('server_up', self._at, _number(client), *_bytes(packet), byref(told))
        return Answer(code, told.value)

    def drop(self, client: int) -> Answer:
        """The client departs after the plays that it has, at the frame that is told."""
        told = c_uint32()
        code = _code('server_drop', self._at, _number(client), byref(told))
        return Answer(code, told.value)

    def entry(self, client: int, frame: int) -> Optional[bytes]:
        """The packet for all clients with a client's entry at a frame; None where it has none yet, or departed before."""
        packet = _Packet()
        code = _code('server_entry', self._at, _number(client), _number(frame), byref(packet))
        return _packed(packet) if code is Code.OK else None

    def tick(self) -> Answer:
        """As a peer's."""
        told = c_uint32()
        code = _code('server_tick', self._at, byref(told))
        return Answer(code, told.value)

    def alarm(self, client: int) -> Optional[Alarm]:
        """The least frame after which a client reported another hash than the server's."""
        alarm = Alarm()
        code = _code('server_alarm', self._at, _number(client), byref(alarm))
        return alarm if code is Code.OK else None


def welcome(terms: Terms) -> bytes:
    """The server's first packet to a client."""
    packet = _Packet()
    _ok('welcome', byref(terms), byref(packet))
    return _packed(packet)


def welcomed(packet: bytes) -> Terms:
    """What a client reads of the server's first packet; it raises `Refused` where that refuses."""
    terms = Terms()
    if _code('welcomed', *_bytes(packet), byref(terms)) is Code.REFUSED:
        raise Refused('welcomed', terms.me)
    return terms


def packet_size(stream: bytes) -> int:
    """The length of the packet with which a stream begins, or 0 where it is not whole yet. Above 260 no packet begins so."""
    size = 2 + stream[0] + (stream[1] << 8) if len(stream) >= 2 else 0
    return size if size > 260 or size <= len(stream) else 0


def bye() -> bytes:
    """A client's farewell. After it send nothing more, but deliver and tick until OVER."""
    return b'\x01\x00\x04'


def refuse(why: int) -> bytes:
    """What a server sends in place of a welcome."""
    return b'\x02\x00\x12' + bytes([why])
