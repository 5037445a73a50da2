"""Matches of bots: two over loopback, whose worlds are made again of the bytes that each player read; and many runs of
`local --bots` beside other work, which print the same bytes."""
import os, re, socket, struct, subprocess, sys, tempfile, threading

from harness import PATIENCE, Ran, free_address, run, with_examples
from links import Started, connected

OVER = '--map maps/sample.map maps/sample.yaml'
FRAMES = 2_000
# Tags of packets that go down.
WELCOME, PLAY, DEPARTURE = 17, 19, 20


class Between:
    """Stands between a player and its server, and keeps the bytes of both directions."""

    def __init__(self, address):
        self.listener = socket.create_server(('127.0.0.1', 0))
        self.listener.settimeout(PATIENCE)
        self.address = f'127.0.0.1:{self.listener.getsockname()[1]}'
        self.up, self.down = bytearray(), bytearray()
        self.thread = threading.Thread(target=self.hand_on, args=(address,))
        self.thread.start()

    def hand_on(self, address):
        try:
            with self.listener, self.listener.accept()[0] as player, connected(address) as server:
                for link in (player, server):
                    link.settimeout(PATIENCE)
                    link.setsockopt(socket.IPPROTO_TCP, socket.TCP_NODELAY, 1)
                sending = threading.Thread(target=self.pass_on, args=(player, server, self.up))
                sending.start()
                self.pass_on(server, player, self.down)
                sending.join()
        except OSError:
            # What is missing then is missing in the bytes that were kept.
            pass

    @staticmethod
    def pass_on(source, sink, kept):
        try:
            while piece := source.recv(1 << 16):
                kept += piece
                sink.sendall(piece)
            sink.shutdown(socket.SHUT_WR)
        except OSError:
            pass


def payloads(stream):
    """The payloads of the packets that these bytes are."""
    at, found = 0, []
    while at < len(stream):
        (length,) = struct.unpack_from('<H', stream, at)
        found.append(bytes(stream[at + 2:at + 2 + length]))
        at += 2 + length
    return found


def replay_of(link):
    """The replay of what a player read: the frames of the entries that came down, without marks; and its client."""
    _, _, number = struct.unpack('<BHQ', payloads(link.up)[0])
    welcome, *entries = payloads(link.down)
    tag, client, clients, _, seed = struct.unpack('<BBBBI', welcome)
    if tag != WELCOME:
        raise ValueError(f'{welcome} is no welcome')
    columns = [[] for _ in range(clients)]
    for entry in entries:
        tag, of, frame = struct.unpack_from('<BBI', entry)
        if tag == PLAY and frame == len(columns[of]):
            columns[of].append(b'\1' + entry[6:])
        elif tag != DEPARTURE or frame != len(columns[of]):
            raise ValueError(f'{entry} is not the next entry of client {of}')
    frames = [b'\1' + b''.join(it[n] if n < len(it) else b'\0' for it in columns) for n in range(max(map(len, columns)))]
    return struct.pack('<4sHQIB', b'LSRP', 2, number, seed, clients) + b''.join(frames) + b'\0', client


class Actor:
    """What a world's text has of an actor."""

    def __init__(self, words):
        self.id, self.owner, self.health, self.load, self.reload = (int(words[at]) for at in (1, 5, 13, 15, 17))
        # The activities, as their words.
        self.acts = []


def worlds_of(text):
    """Of each world that `worlds` prints its cash and its actors by id."""
    for block in text.split('\nframes ')[1:]:
        cash, actors, actor = [], {}, None
        for words in map(str.split, block.split('\n')):
            if words[:1] == ['cash']:
                cash = [int(it) for it in words[1:]]
            elif words[:1] == ['actor']:
                actor = Actor(words)
                actors[actor.id] = actor
            elif words[:1] == ['act']:
                actor.acts.append(words[1:])
        yield cash, actors


def fights(worlds, client):
    """Whether an actor of the client has shot at its target, which then has less health or is gone."""
    for (_, before), (_, after) in zip(worlds, worlds[1:]):
        for actor in before.values():
            now = after.get(actor.id)
            if actor.owner == client and actor.acts and actor.acts[0][0] == 'attack' and now and now.reload > actor.reload:
                target = int(actor.acts[0][1])
                if target in before and (target not in after or after[target].health < before[target].health):
                    return True
    return False


def harvests(worlds, client):
    """Whether an actor of the client whose activity is a harvest has loaded ore."""
    for (_, before), (_, after) in zip(worlds, worlds[1:]):
        for actor in before.values():
            now = after.get(actor.id)
            if actor.owner == client and actor.acts and actor.acts[0][0] == 'harvest' and now and now.load > actor.load:
                return True
    return False


def sells(worlds):
    """Whether a client's cash has risen."""
    return any(now > then for (before, _), (after, _) in zip(worlds, worlds[1:]) for then, now in zip(before, after))


class Bots:
    def __init__(self, tally, program, folder):
        self.tally, self.program, self.folder = tally, program, with_examples(folder)

    def asked(self, words):
        return run(self.program, words.split(), self.folder)

    def of_match(self):
        """Two bots at a server: one hash; by the bytes that each of them read its world, and in it both fight and harvest."""
        at = free_address()
        server = Started(self.program, f'serve --at {at} --clients 2 {OVER}', self.folder)
        between = [Between(at) for _ in range(2)]
        players = [Started(self.program, f'play --at {it.address} --bot --frames {FRAMES} {OVER}', self.folder) for it in between]
        played, served = [it.ended() for it in players], server.ended()
        for it in between:
            it.thread.join()
        self.tally.same('bots: status', [it.status for it in (*played, served)], [0, 0, 0])
        for number, (link, ran) in enumerate(zip(between, played)):
            replay, client = replay_of(link)
            with open(os.path.join(self.folder, f'{number}.replay'), 'wb') as file:
                file.write(replay)
            told = re.match(rb'play (\d) (frames (\d+) hash .*)\nend\n$', ran.out)
            if not self.tally.check('bots: what a player prints', told and int(told[1]) == client and int(told[3]) == FRAMES, ran):
                continue
            self.tally.check('bots: the world of the server', b'\nserver ' + told[2] + b'\nend\n' in served.out, served)
            self.tally.same('bots: the world by what the player read', self.asked(f'replay --file {number}.replay {OVER}'),
                            Ran(0, b'replay ' + told[2] + b'\nend\n'))
            printed = self.asked(f'worlds --file {number}.replay {OVER}')
            worlds = list(worlds_of(printed.out.decode()))
            self.tally.same('bots: worlds', (printed.status, len(worlds)), (0, FRAMES + 1))
            for of in (0, 1):
                self.tally.check(f'bots: client {of} fights', fights(worlds, of), f'not in the world of player {client}')
                self.tally.check(f'bots: client {of} harvests', harvests(worlds, of), f'not in the world of player {client}')
            self.tally.check('bots: ore becomes cash', sells(worlds), f'not in the world of player {client}')
        self.tally.same('bots: two worlds', self.asked(f'compare --file 0.replay --with 1.replay {OVER}'), Ran(0, b'differences 0\nend\n'))

    def of_load(self, runs):
        """Runs of `local --bots 3` beside work that takes every processor: all print the same bytes."""
        with open(os.path.join(self.folder, 'idle.script'), 'w') as file:
            file.write('script 1 7\n' + '0\n' * 200)
        words = f'local --script idle.script --bots 3 {OVER}'
        want = self.asked(words)
        self.tally.check('local --bots 3', want.status == 0 and want.out.startswith(b'column 0 200 left\n'), want)
        load = [subprocess.Popen([sys.executable, '-c', 'while True: pass']) for _ in range(os.cpu_count() or 1)]
        try:
            found = [self.asked(words) for _ in range(runs)]
        finally:
            for it in load:
                it.kill()
                it.wait()
        other = next((it for it in found if it != want), None)
        self.tally.check(f'local --bots 3: {runs} runs under load', other is None, f'{other!r} in place of {want!r}')


def run_all(tally, program, is_long):
    with tempfile.TemporaryDirectory() as folder:
        it = Bots(tally, program, folder)
        it.of_match()
        it.of_load(200 if is_long else 20)
