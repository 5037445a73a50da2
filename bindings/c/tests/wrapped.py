#!/usr/bin/env python3
"""Matches by lockstep.py, each of which prints the frames and the hash of its world.

usage: wrapped.py bots FRAMES SEED MAP RULES..     two bots: a server, two peers whose packets come late and twice, and a
                                                   world that steps by the same plays
       wrapped.py script FILE MAP RULES..          the plays of a script, as `local` plays it
       wrapped.py faults MAP RULES..               what raises, and what can be read; it prints nothing
       wrapped.py check MAP RULES..                the place and the cause of the first fault, as `check` says them
"""
import os
import sys

HERE = os.path.dirname(os.path.abspath(__file__))
sys.path.insert(0, f'{HERE}/../../python')
import lockstep
from lockstep import Code, Ground, Play, Setup, Terms, Traits


def say(game, frames):
    head = game.head()
    assert head.frames == frames, head
    return f'frames {head.frames} hash {head.hash:016x}'


def seen_alike(one, other):
    """Both have the same world."""
    assert one.head() == other.head() and one.ore() == other.ore() and one.seen(0) == other.seen(0)
    actors = one.actors()
    assert actors and actors == other.actors() and len(actors) == one.head().actors
    for it in actors:
        items = one.items(it.id)
        assert items == other.items(it.id) and len(items) == it.acts + it.builds
    assert one.items(0) is None


class Match:
    def __init__(self, setup, seed):
        self.server, self.world, self.sent = setup.server(2, seed), setup.world(seed, 2), {}
        self.peers = [setup.peer(self.greet(setup, Terms(me, 2, 1, seed))) for me in range(2)]

    @staticmethod
    def greet(setup, terms):
        assert setup.greeted(setup.hello()) is None
        read = lockstep.welcomed(lockstep.welcome(terms))
        assert read == terms
        return read

    def down(self):
        """What the server has goes to both peers, the last first, each entry twice."""
        for to, peer in enumerate(self.peers):
            for of in range(2):
                late = []
                while (packet := self.server.entry(of, self.sent.get((to, of), 0))) is not None:
                    late.insert(0, packet)
                    self.sent[to, of] = self.sent.get((to, of), 0) + 1
                for packet in late:
                    assert peer.deliver(packet).code is Code.OK and peer.deliver(packet).code is Code.REPEAT

    def play(self, frame):
        plays = []
        for me, peer in enumerate(self.peers):
            assert peer.tick() == (Code.NOT_YET, 0)
            plays.append(peer.bot(me))
            code, packet = peer.seal(plays[me])
            assert code is Code.OK and peer.seal(plays[me]).code is Code.TOO_EARLY
            assert lockstep.packet_size(packet) == len(packet) and lockstep.packet_size(packet[:-1]) == 0
            assert self.server.up(me, packet).code is Code.OK
        self.down()
        for me, peer in enumerate(self.peers):
            assert peer.tick() == (Code.OK, frame)
            assert self.server.up(me, peer.report()).code is Code.OK
        assert self.server.tick() == (Code.OK, frame) and self.server.tick().code is Code.NOT_YET
        self.world.step(plays)


def play_bots(frames, seed, setup):
    match = Match(setup, seed)
    assert match.peers[0].report() is None and match.peers[0].bot(1) is not None
    for frame in range(frames):
        match.play(frame)
    text = say(match.world, frames)
    for it in (match.server, *match.peers):
        assert say(it, frames) == text
        seen_alike(match.world, it)
    assert match.server.alarm(0) is None
    assert match.server.up(0, lockstep.bye()) == (Code.OK, frames) and match.server.drop(0) == (Code.LEFT, frames)
    assert match.server.drop(1).code is Code.OK and match.server.tick().code is Code.OVER
    match.world.step([None, None])
    print(text)


def play_of(words):
    """The play of a line of orders."""
    play = Play()
    for order in filter(None, (it.strip() for it in words.split(';'))):
        name, *numbers = order.split()
        queued = {'queued': True} if name.endswith('+') else {}
        getattr(play, name.rstrip('+'))(*map(int, numbers), **queued)
    return play


def play_script(file, setup):
    with open(file, encoding='utf-8') as it:
        lines = it.read().splitlines()
    _, clients, seed = lines[0].split()
    plays = [[] for _ in range(int(clients))]
    for line in lines[1:]:
        client, _, orders = line.partition(' ')
        plays[int(client)].append(play_of(orders))
    frames = max(map(len, plays))
    with setup.world(int(seed), int(clients)) as world:
        for frame in range(frames):
            world.step(it[frame] if frame < len(it) else None for it in plays)
        print('local', say(world, frames))


def raised(error, call, *given, **named):
    try:
        call(*given, **named)
    except error as it:
        return it
    raise AssertionError(f'no {error.__name__}')


def try_faults(setup, texts):
    world, head = setup.world(1, 2), setup.world(1, 2).head()
    raised(lockstep.BadArgument, setup.world, 1, 17)
    raised(lockstep.BadArgument, setup.world, 1 << 32, 1)
    raised(lockstep.BadArgument, Terms, lag=-1)
    raised(lockstep.BadArgument, setup.peer, Terms(me=2, clients=2))
    raised(lockstep.BadArgument, world.seen, 2)
    raised(lockstep.BadArgument, Play().move, 1, 256, 0)
    raised(TypeError, world.step, 5)
    raised(TypeError, world.step, [5, 5])
    raised(ValueError, world.step, [Play()])
    raised(lockstep.BadBytes, world.step, b'\0')
    raised(lockstep.BadBytes, setup.greeted, b'')
    assert raised(lockstep.Refused, lockstep.welcomed, lockstep.refuse(2)).why == 2
    assert raised(lockstep.Error, Setup, [b''] * 65).code is Code.FULL
    assert Setup().greeted(setup.hello()) == 2
    assert world.head() == head and repr(head).startswith('Head(hash=') and head.as_dict()['cash'][:2] == [*head.cash[:2]]
    play = Play()
    for _ in range(lockstep.MAX_ORDERS):
        play.pace(2)
    raised(lockstep.BadArgument, play.pace, 2)
    assert len(play) == 16 and play_of(' ; '.join(['pace 2'] * 16)).__bytes__() == bytes(play)
    try_reading(setup, world)
    copy = setup.share()
    setup.close()
    setup.close()
    raised(lockstep.Closed, setup.kinds)
    # What was made from it stays.
    world.step([play, bytes(play)])
    with Setup(*texts) as again:
        assert again.hello() == copy.hello() and again.kinds() == copy.kinds()
    raised(lockstep.Closed, again.hello)
    fault = raised(lockstep.Fault, Setup, [b'A:\n\t\tB:\n'])
    assert (fault.cause, fault.file, fault.place, fault.name) == ('BadIndent', 0, 2, None), fault


def try_reading(setup, world):
    kinds, ground, head = setup.kinds(), setup.terrain(), world.head()
    assert all(it.name and it.hp > 0 for it in kinds) and kinds[0] == setup.kinds()[0] != kinds[1]
    assert any(it.traits & Traits.MOBILE for it in kinds)
    assert ground.width == head.width == world.ore().width and len(ground.rows()) == head.height
    assert {Ground(it) for it in ground.cells} and ground.at(0, 0) == ground.cells[0]
    raised(IndexError, ground.at, ground.width, 0)
    for actor in world.actors():
        x, y = actor.position()
        assert (x // 1024, y // 1024) == (actor.x, actor.y) and actor.dir == 8
    ways = [world.find_route(kind, (0, 0), (head.width - 1, 0)) for kind in range(len(kinds))]
    assert all(it.cells[0] == (0, 0) and it.cells[-1] == (head.width - 1, 0) and it.cost for it in ways if it) and any(ways)
    assert world.find_route(0, (0, 0), (0, 0)) is None


def check(names):
    try:
        Setup.of_files(names[1:], names[0])
    except lockstep.Fault as fault:
        print('refused', fault.name, fault.place, fault.cause)


def main(command, *words):
    if command == 'bots':
        play_bots(int(words[0]), int(words[1]), Setup.of_files(words[3:], words[2]))
    elif command == 'script':
        play_script(words[0], Setup.of_files(words[2:], words[1]))
    elif command == 'check':
        check(words)
    else:
        texts = [lockstep._content(it) for it in words]
        try_faults(Setup(texts[1:], texts[0]), (texts[1:], texts[0]))


if __name__ == '__main__':
    main(*sys.argv[1:])
