"""`serve` and `play` at `udp:`: plain, through a relay that loses, repeats and holds back datagrams, beside hostile
datagrams, and with a player that is killed."""
import os, random, re, select, signal, socket, struct, tempfile, threading, time

from harness import PATIENCE, Ran, free_address, with_examples
from links import Started, hello

OVER = '--map maps/sample.map maps/sample.yaml'
DATA, ACK, CALL, HERE = 1, 2, 3, 4
# The most bytes of a payload, and those that a link keeps unread.
MOST, UNREAD = 258, 1 << 20


def data(number, payload):
    return struct.pack('<BIH', DATA, number, len(payload)) + payload


def acknowledged(gram):
    """The number of an Ack, or None."""
    return struct.unpack('<BI', gram)[1] if len(gram) == 5 and gram[0] == ACK else None


def udp_socket(port=0):
    made = socket.socket(socket.AF_INET, socket.SOCK_DGRAM)
    made.bind(('127.0.0.1', port))
    return made


class Dialled:
    """A link of the test's own: it has called until it was told a port."""

    def __init__(self, address):
        host, port = address.split(':')
        self.socket = udp_socket()
        self.socket.settimeout(0.1)
        until = time.monotonic() + PATIENCE
        while True:
            self.socket.sendto(bytes([CALL]), (host, int(port)))
            try:
                gram, _ = self.socket.recvfrom(512)
            except (TimeoutError, ConnectionRefusedError):
                if time.monotonic() > until:
                    raise
                continue
            if len(gram) == 3 and gram[0] == HERE:
                break
        self.port = struct.unpack('<BH', gram)[1]
        self.socket.connect((host, self.port))

    def send(self, gram):
        try:
            self.socket.send(gram)
        except OSError:
            pass

    def highest_ack(self, seconds):
        """The highest number that is acknowledged within this time, or None."""
        highest, until = None, time.monotonic() + seconds
        while (left := until - time.monotonic()) > 0:
            self.socket.settimeout(left)
            try:
                number = acknowledged(self.socket.recv(512))
            except OSError:
                break
            if number is not None:
                highest = max(highest or 0, number)
        return highest


class Direction:
    """One way through a relay: a fifth of the datagrams is lost, a fifth comes twice, a fifth after later ones."""

    def __init__(self, seed):
        self.dice, self.held, self.passed, self.lost = random.Random(seed), [], 0, 0

    def out_of(self, gram):
        """What goes on now that this datagram has come."""
        self.passed += 1
        fate = self.dice.randrange(5)
        if fate == 0:
            self.lost += 1
            return []
        if fate == 1:
            return [gram, gram]
        if fate == 2:
            self.held.append(gram)
            return []
        found = [gram, *self.held]
        self.held = []
        return found

    def rest(self):
        found, self.held = self.held, []
        return found


class Relay:
    """Stands between one player and its server, and takes part in the call: it tells the player a port of its own."""

    def __init__(self, address, seed):
        host, port = address.split(':')
        self.server, self.seed = (host, int(port)), seed
        self.door, self.down, self.up = udp_socket(), udp_socket(), udp_socket()
        self.address = f'127.0.0.1:{self.door.getsockname()[1]}'
        self.player, self.link, self.is_over = None, None, False
        self.ways = Direction(seed), Direction(seed + 1)
        self.thread = threading.Thread(target=self.hand_on)
        self.thread.start()

    def hand_on(self):
        sockets = (self.door, self.down, self.up)
        while not self.is_over:
            ready, _, _ = select.select(sockets, (), (), 0.01)
            for it in ready:
                try:
                    self.take(it, *it.recvfrom(512))
                except OSError:
                    pass
            if not ready:
                self.go_on(self.up, self.link, self.ways[0].rest())
                self.go_on(self.down, self.player, self.ways[1].rest())
        for it in sockets:
            it.close()

    def take(self, at, gram, source):
        if at is self.door:
            self.player = source
            self.go_on(self.up, self.server, self.ways[0].out_of(gram))
        elif at is self.down:
            self.go_on(self.up, self.link, self.ways[0].out_of(gram))
        elif source == self.server and gram[:1] == bytes([HERE]):
            self.link = (source[0], struct.unpack('<BH', gram)[1])
            here = struct.pack('<BH', HERE, self.down.getsockname()[1])
            self.go_on(self.door, self.player, self.ways[1].out_of(here))
        else:
            self.go_on(self.down, self.player, self.ways[1].out_of(gram))

    @staticmethod
    def go_on(by, to, grams):
        for gram in grams:
            if to:
                by.sendto(gram, to)

    def end(self):
        self.is_over = True
        self.thread.join()


class Flood:
    """Sends what is no datagram of a link, and calls, from ever new ports, until it is ended."""

    def __init__(self, ports, seed):
        self.ports, self.dice, self.sent, self.is_over = ports, random.Random(seed), 0, False
        self.thread = threading.Thread(target=self.send)
        self.thread.start()

    def gram(self):
        kind = self.dice.randrange(5)
        whole = data(self.dice.randrange(100), self.dice.randbytes(self.dice.randrange(1, MOST)))
        return (self.dice.randbytes(self.dice.randrange(300)), whole[:self.dice.randrange(len(whole))], whole + bytes(1200),
                struct.pack('<BI', ACK, 0xFFFFFFFF), bytes([CALL]))[kind]

    def send(self):
        while not self.is_over:
            with udp_socket() as stranger:
                for port in self.ports:
                    stranger.sendto(self.gram(), ('127.0.0.1', port))
                    self.sent += 1
            time.sleep(0.0002)

    def end(self):
        self.is_over = True
        self.thread.join()


def wait_for_links(first, links):
    """Waits until the server has so many links, at ports from the first one on."""
    until = time.monotonic() + PATIENCE
    while time.monotonic() < until:
        try:
            udp_socket(first + links - 1).close()
        except OSError:
            return
        time.sleep(0.02)
    raise TimeoutError('a link does not come')


def memory_of(process):
    """The most memory that it has had, in kB, or 0 once it has ended."""
    with open(f'/proc/{process.pid}/status') as file:
        return next((int(line.split()[1]) for line in file if line.startswith('VmHWM')), 0)


def world_of(ran):
    """What a player prints of its world."""
    return b' '.join(ran.out.split()[2:-1])


class Datagrams:
    def __init__(self, tally, program, folder):
        self.tally, self.program, self.folder = tally, program, with_examples(folder)
        for name, frames in (('short', 100), ('long', 1500)):
            with open(os.path.join(self.folder, f'{name}.script'), 'w') as file:
                file.write('script 1 1\n' + '0\n' * frames)

    def start(self, words, **how):
        return Started(self.program, words, self.folder, **how)

    def serve(self, at, clients, more='', **how):
        return self.start(f'serve --at {at} --clients {clients} {more} {OVER}', **how)

    def play(self, at, script='short'):
        return self.start(f'play --at {at} --script {script}.script {OVER}')

    def holds(self, name, players, server, frames):
        """All ended well with one world of so many frames. It is returned, or None."""
        played, served = [it.ended() for it in players], server.ended()
        worlds = {world_of(it) for it in played}
        held = served.status == 0 and all(it.status == 0 for it in played) and len(worlds) == 1
        world = worlds.pop()
        held = held and world.startswith(b'frames %d hash ' % frames) and b'\nserver ' + world + b'\nend\n' in served.out
        return world if self.tally.check(name, held, (played, served)) else None

    def of_match(self):
        """Two players over TCP, over UDP, and over UDP by way of relays: one world."""
        worlds = []
        for kind in ('tcp', 'plain', 'relayed'):
            at = free_address()
            server = self.serve(at if kind == 'tcp' else f'udp:{at}', 2)
            if kind == 'tcp':
                ways = [at] * 2
            elif kind == 'plain':
                ways = [f'udp:{at}'] * 2
            else:
                relays = [Relay(at, seed) for seed in (10, 20)]
                ways = [f'udp:{it.address}' for it in relays]
            worlds.append(self.holds(f'datagrams: {kind}', [self.play(it) for it in ways], server, 100))
        for it in relays:
            it.end()
            self.tally.check('datagrams: a relay that loses some', all(way.lost > 20 for way in it.ways), [way.lost for way in it.ways])
        self.tally.check('datagrams: one world', len(set(worlds)) == 1, worlds)

    def of_hostile(self):
        """A link that sends what is no datagram and no packet, and strangers that go on calling: the match goes on, in as much
        memory as without them."""
        most = []
        for is_hostile in (False, True):
            at, first = free_address(), random.randrange(33_000, 60_000)
            server = self.serve(f'udp:{at}', 3, f'--udp-ports {first}-{first + 9}')
            other = Dialled(at)
            self.tally.check('--udp-ports', first <= other.port <= first + 9, other.port)
            players = [self.play(f'udp:{at}', 'long') for _ in range(2)]
            wait_for_links(first, 3)
            flood = Flood([int(at.split(':')[1]), *range(first, first + 4)] if is_hostile else (), 1)
            for gram in (b'', b'\1', data(0, b'')[:6], bytes(2000), data(0, bytes(MOST + 1)), struct.pack('<BI', ACK, 9), b'\3\3', b'\7'):
                other.send(gram)
            for _ in range(10):
                most.append((is_hostile, memory_of(server.child)))
                time.sleep(0.05)
            other.send(data(0, b'\1\1' + bytes(200)))
            self.tally.same('datagrams: a payload after others that are none', other.highest_ack(0.3), 1)
            until = time.monotonic() + PATIENCE
            while server.child.poll() is None and all(it.child.poll() is None for it in players) and time.monotonic() < until:
                most.append((is_hostile, memory_of(server.child)))
                time.sleep(0.05)
            flood.end()
            if is_hostile:
                self.tally.check('datagrams: a flood', flood.sent > 2000, flood.sent)
            served = server.ended()
            worlds = {world_of(it.ended()) for it in players}
            held = served.status == 0 and len(worlds) == 1 and b'\nserver ' + worlds.pop() + b'\nend\n' in served.out
            self.tally.check('datagrams: a match beside hostile ones', held and b'refused LengthTooLarge\n' in served.out, served)
        calm, hostile = (max((kb for of, kb in most if of == it), default=0) for it in (False, True))
        self.tally.check('datagrams: level memory', 0 < hostile <= calm + 4096, f'{calm} kB and {hostile} kB')

    def of_flood(self):
        """A link whose payloads nobody reads yet: beyond a bound they count as lost, and nothing is kept of them."""
        at = free_address()
        server = self.serve(f'udp:{at}', 2)
        link = Dialled(at)
        link.socket.setblocking(False)
        next_one, until, since = 0, time.monotonic() + 20, time.monotonic()
        while time.monotonic() < until and time.monotonic() < since + 0.5:
            for number in range(next_one, next_one + 32):
                link.send(data(number, bytes(MOST)))
            select.select((link.socket,), (), (), 0.05)
            try:
                while True:
                    number = acknowledged(link.socket.recv(512))
                    if number is not None and number > next_one:
                        next_one, since = number, time.monotonic()
            except OSError:
                pass
        self.tally.check('datagrams: unread payloads', UNREAD <= next_one * MOST <= UNREAD + 64 * MOST, next_one)
        self.tally.check('datagrams: their memory', memory_of(server.child) < 48 * 1024, f'{memory_of(server.child)} kB')
        played, served = self.play(f'udp:{at}').ended(), server.ended()
        self.tally.check('datagrams: a match after a flood', played.status == served.status == 0 and b'link 0 refused ' in served.out, served)

    def of_killed(self):
        """A killed player is noticed: its column is left, and the others play on. A server that ends is noticed, too."""
        at, first = free_address(), random.randrange(33_000, 60_000)
        server = self.start(f'serve --at udp:{at} --clients 3 --udp-ports {first}-{first + 2}')
        players = []
        for links in (1, 2):
            players.append(self.start(f'play --at udp:{at} --script short.script'))
            wait_for_links(first, links)
        # Without rules and a map. The match waits for the third client, until it says farewell.
        third = Dialled(at)
        third.send(data(0, hello()))
        self.tally.same('datagrams: a greeting of the third', third.highest_ack(0.5), 1)
        players[0].child.kill()
        players[0].ended()
        third.send(data(1, b'\1\0\4'))
        self.tally.same('datagrams: a farewell of the third', third.highest_ack(0.5), 2)
        third.socket.close()
        played, served = players[1].ended(), server.ended()
        held = played.status == served.status == 0 and b'frames 100 ' in played.out and b'link 0 lost\n' in served.out
        self.tally.check('datagrams: a killed player', held, (played, served))
        at = free_address()
        server = self.serve(f'udp:{at}', 2, f'--udp-ports {first}-{first + 1}')
        player = self.play(f'udp:{at}')
        wait_for_links(first, 1)
        server.child.kill()
        server.ended()
        self.tally.same('datagrams: a killed server', player.ended(), Ran(4, b'fault link\n'))

    def of_clocks(self):
        """A player that is stopped is let go by the clock, and its link fails; nobody comes for the last seat."""
        at, first = free_address(), random.randrange(33_000, 60_000)
        server = self.start(f'serve --at udp:{at} --clients 3 --patience 1 --lobby 1 --udp-ports {first}-{first + 2}')
        stopped = self.start(f'play --at udp:{at} --script short.script')
        wait_for_links(first, 1)
        stopped.child.send_signal(signal.SIGSTOP)
        player = self.start(f'play --at udp:{at} --script short.script')
        try:
            played, served = player.ended(), server.ended()
        finally:
            stopped.child.kill()
            stopped.ended()
        world = re.search(rb'^server (frames 100 .*)$', served.out, re.M)
        self.tally.check('datagrams: a stopped player', served.status == 0 and b'link 0 lost\n' in served.out and world, served)
        self.tally.check('datagrams: the other plays on', played.status == 0 and world and world_of(played) == world[1], played)
        self.tally.check('datagrams: nobody came', b'client 2 has no link\n' in served.err, served)

    def of_strangers(self):
        """After the last seat nobody answers a call; a known caller is told the same port again."""
        at = free_address()
        server = self.serve(f'udp:{at}', 1)
        link = Dialled(at)
        again = Dialled.__new__(Dialled)
        again.socket = udp_socket()
        again.socket.settimeout(0.5)
        try:
            again.socket.sendto(bytes([CALL]), ('127.0.0.1', int(at.split(':')[1])))
            answer = again.socket.recv(512)
        except OSError:
            answer = None
        self.tally.same('datagrams: a stranger calls', answer, None)
        link.send(data(0, hello(version=9)))
        served = server.ended()
        self.tally.check('datagrams: a greeting', served.status == 0 and b'link 0 refused Version\n' in served.out, served)

    def of_net(self):
        """Status 4: an address that is taken or is none; ports of which none is free; a name that isn't there, at once."""
        with udp_socket() as taken:
            port = taken.getsockname()[1]
            for at in (f'udp:127.0.0.1:{port}', 'udp:192.0.2.1:7070', 'udp:nothing', 'udp:127.0.0.1:99999'):
                self.tally.same(f'serve: at {at}', self.serve(at, 1).ended(), Ran(4, b'fault link\n'))
            at = free_address()
            server = self.serve(f'udp:{at}', 1, f'--udp-ports {port}-{port}')
            with udp_socket() as caller:
                until = time.monotonic() + PATIENCE
                while server.child.poll() is None and time.monotonic() < until:
                    caller.sendto(bytes([CALL]), ('127.0.0.1', int(at.split(':')[1])))
                    time.sleep(0.05)
            self.tally.same('serve: no free port', server.ended(), Ran(4, b'fault link\n'))
        begun = time.monotonic()
        self.tally.same('play: no such name', self.play('udp:nowhere.invalid:7070').ended(), Ran(4, b'fault link\n'))
        self.tally.check('play: no such name, at once', time.monotonic() < begun + 20, time.monotonic() - begun)


def run_all(tally, program, is_long):
    with tempfile.TemporaryDirectory() as folder:
        it = Datagrams(tally, program, folder)
        it.of_match()
        it.of_hostile()
        it.of_flood()
        it.of_killed()
        it.of_clocks()
        it.of_strangers()
        it.of_net()
