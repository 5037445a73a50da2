"""`serve` left alone, over loopback: its clocks, its log, the line `stop`, and that each record is the match that was printed."""
import concurrent.futures, os, re, resource, signal, socket, subprocess, tempfile, time

from harness import PATIENCE, Ran, free_address, run
from links import Links, connected, hello, packet, play_of

# A player is let go after so many seconds, and a seat stays empty after as many.
CLOCK = 2

# A match whose last player was let go is printed within so many seconds, or four times as many on a busy machine.
SOON = 5

# So many frames has the script of a player that goes on.
FRAMES = 200

# So many matches has the soak.
SOAK = 100


def soon():
    return SOON if os.getloadavg()[0] < (os.cpu_count() or 1) else SOON * 4


class Server:
    """A server whose log is read as it comes."""

    def __init__(self, it, clients, options='', at=None, **how):
        self.at, self.name = at or free_address(), f'{time.monotonic_ns()}.replay'
        self.log = open(os.path.join(it.folder, self.name + '.log'), 'wb+')
        words = f'serve --at {self.at} --clients {clients} --record {self.name} {options}'
        closed = how.pop('closed', ())
        stdin = how.pop('stdin', subprocess.DEVNULL)
        self.child = subprocess.Popen([it.program, *words.split()], cwd=it.folder, stdin=stdin, stdout=subprocess.PIPE,
                                      stderr=self.log, preexec_fn=lambda: [os.close(fd) for fd in closed])

    def lines(self):
        """The lines of its log, without their times."""
        with open(self.log.name, 'rb') as file:
            return [re.sub(rb'^\d+\.\d{3} ', b'', line) for line in file.read().splitlines()]

    def wait_for(self, start, count=1):
        """Waits until its log has so many lines that begin so."""
        until = time.monotonic() + PATIENCE
        while sum(line.startswith(start) for line in self.lines()) < count:
            if time.monotonic() > until:
                raise TimeoutError(f'no line {start!r} in {self.lines()}')
            time.sleep(0.02)

    def when(self, start):
        """The seconds at which the first line of its log that begins so was said."""
        with open(self.log.name, 'rb') as file:
            found = re.search(rb'^(\d+\.\d{3}) ' + re.escape(start), file.read(), re.M)
        return float(found[1]) if found else None

    def say(self, line):
        self.child.stdin.write(line)
        self.child.stdin.flush()

    def ended(self):
        """How it ended, without an end of its console; its status is None where it had to be killed."""
        try:
            status = self.child.wait(timeout=PATIENCE)
        except subprocess.TimeoutExpired:
            self.child.kill()
            self.child.wait()
            status = None
        out = self.child.stdout.read()
        self.child.stdout.close()
        if self.child.stdin:
            self.child.stdin.close()
        self.log.close()
        return Ran(status, out, b'\n'.join(self.lines()))


class LeftAlone(Links):
    def __init__(self, tally, program, folder):
        super().__init__(tally, program, folder)
        with open(os.path.join(self.folder, 'many.script'), 'w') as file:
            file.write('script 1 1\n' + '0\n' * FRAMES)

    def play(self, server, script='many'):
        return self.play_at(server.at, script)

    def play_at(self, at, script):
        return self.start(f'play --at {at} --script {script}.script')

    def silent(self, server, said=hello()):
        link = connected(server.at)
        link.sendall(said)
        return link

    def same_world(self, name, served, server):
        """The record is the match that was printed."""
        world = re.search(rb'^server (frames \d+ hash [0-9a-f]+ .*)$', served.out, re.M)
        if self.tally.check(f'{name}: a world is printed', served.status == 0 and world, served):
            replayed = run(self.program, ['replay', '--file', server.name], self.folder)
            self.tally.same(f'{name}: the record', replayed, Ran(0, b'replay ' + world[1] + b'\nend\n'))

    def let_go(self, name, server, player, begun=None):
        """Client 0 is let go by the clock, the player plays to its end, and the match is printed soon."""
        played = player.ended()
        server.wait_for(b'client 0 leaves at frame ')
        gone = time.monotonic()
        served = server.ended()
        self.tally.check(f'{name}: the other plays on', played.status == 0 and b' frames %d ' % FRAMES in played.out, played)
        self.tally.check(f'{name}: the match is printed soon', time.monotonic() - gone < soon(), time.monotonic() - gone)
        self.tally.check(f'{name}: its link', b'link 0 lost\n' in served.out or b'link 0 kicked ' in served.out, served)
        came, left = server.when(b'client 1 has a link from '), server.when(b'client 0 leaves at frame ')
        self.tally.check(f'{name}: not too early', left - came >= CLOCK, (came, left))
        for line in (b'listens at ', b'client 0 has a link from ', b'client 1 greets', b'client 0 is kicked by the clock',
                     b'client 1 leaves at frame %d' % FRAMES, b'frames %d, the match is over' % FRAMES):
            self.tally.check(f'{name}: the log', any(it.startswith(line) for it in server.lines()), (line, server.lines()))
        self.same_world(name, served, server)

    def of_stopped(self):
        """A player whose process is stopped."""
        server = Server(self, 2, f'--patience {CLOCK}')
        stopped = self.play(server)
        server.wait_for(b'client 0 has a link from ')
        stopped.child.send_signal(signal.SIGSTOP)
        try:
            self.let_go('a stopped player', server, self.play(server))
        finally:
            stopped.child.kill()
            stopped.ended()

    def of_continued(self):
        """A player and then the server, stopped and continued: the match goes on. The clock stands still with the server."""
        for options, seconds in (('', 0.3), (f'--patience {CLOCK * 2}', CLOCK * 2 + 1)):
            server = Server(self, 2, options)
            player = self.play(server)
            server.wait_for(b'client 0 has a link from ')
            self.stop_awhile(player.child)
            link = self.silent(server, hello() + b''.join(play_of(frame) for frame in range(FRAMES // 2)))
            server.wait_for(b'client 1 greets')
            self.stop_awhile(player.child)
            self.stop_awhile(server.child, seconds)
            link.sendall(b''.join(play_of(frame) for frame in range(FRAMES // 2, FRAMES)) + packet(b'\4'))
            link.close()
            played, served = player.ended(), server.ended()
            world = re.search(rb'^server (frames %d .*)$' % FRAMES, served.out, re.M)
            held = played.status == served.status == 0 and world and world[1] in played.out and b' kicked ' not in served.err
            name = f'a player and a server that are stopped and continued {options}'
            self.tally.check(name, held, (played, served, server.lines()))
            self.same_world(name, served, server)

    @staticmethod
    def stop_awhile(child, seconds=0.3):
        child.send_signal(signal.SIGSTOP)
        time.sleep(seconds)
        child.send_signal(signal.SIGCONT)
        time.sleep(0.2)

    def of_silent(self):
        """One that says nothing at all."""
        server = Server(self, 2, f'--patience {CLOCK}')
        link = self.silent(server, b'')
        self.let_go('a silent guest', server, self.play(server))
        self.tally.check('a silent guest: the log', b'client 0 does not greet: its link failed' in server.lines(), server.lines())
        link.close()

    def of_deaf(self):
        """One that plays, reads nothing and stays: the match does not wait for it, its end no longer than the clock."""
        server = Server(self, 2, f'--patience {CLOCK}')
        link = socket.socket()
        link.setsockopt(socket.SOL_SOCKET, socket.SO_RCVBUF, 2048)
        server.wait_for(b'listens at ')
        link.connect(('127.0.0.1', int(server.at.split(':')[1])))
        link.sendall(hello() + b''.join(play_of(frame) for frame in range(FRAMES // 2)))
        self.let_go('a deaf player', server, self.play(server))
        self.tally.check('a deaf player: its frames', b'client 0 leaves at frame %d' % (FRAMES // 2) in server.lines(), server.lines())
        link.close()

    def of_ahead(self):
        """One that sends 1,000 frames at once, while the other has played 3: a kick holds within the lag and one frame more."""
        server = Server(self, 2, '--lag 2', stdin=subprocess.PIPE)
        link = self.silent(server, hello() + b''.join(play_of(frame) for frame in range(1000)))
        server.wait_for(b'client 0 has a link from ')
        other = self.silent(server, hello() + b''.join(play_of(frame) for frame in range(3)))
        server.wait_for(b'client 1 greets')
        time.sleep(0.5)
        server.say(b'kick 0\n')
        # What the kick stops is ticked once the other has left.
        time.sleep(0.5)
        other.sendall(packet(b'\4'))
        for it in (link, other, server.child.stdin):
            it.close()
        served = server.ended()
        column = re.search(rb'^column 0 (\d+) left$', served.out, re.M)
        self.tally.check('a client that is far ahead', served.status == 0 and column and 3 <= int(column[1]) <= 3 + 2 + 1, served)
        self.tally.check('a client that is far ahead: the log', b'client 0 is kicked by the console' in server.lines(), server.lines())
        self.same_world('a client that is far ahead', served, server)

    def of_empty_seat(self):
        """Nobody comes to one of three seats, and then to none."""
        # They are there before the server, so that they come at once.
        at = free_address()
        players = [self.play_at(at, 'three') for _ in range(2)]
        time.sleep(CLOCK / 2)
        server = Server(self, 3, f'--lobby {CLOCK}', at)
        played, served = [it.ended() for it in players], server.ended()
        self.tally.same('an empty seat: play', [it.status for it in played], [0, 0])
        self.tally.check('an empty seat: its column',
                         b'column 2 0 left\nlink 0 ended\n' in served.out and b'\nlink 2 ended\n' in served.out, served)
        lines = server.lines()
        said = {it for it in lines if it.startswith(b'client 2 ')}
        self.tally.same('an empty seat: the log', said, {b'client 2 has no link', b'client 2 leaves at frame 0'})
        self.same_world('an empty seat', served, server)
        server = Server(self, 3, '--lobby 1')
        served = server.ended()
        self.tally.same('no guest', served, Ran(4, b'fault link\n'))
        self.tally.same('no guest: the log', server.lines()[1:], [b'fault link: no link has come'])

    def of_stop(self):
        """The line `stop`: with nobody there, in the lobby, in the match; the console stays open."""
        server = Server(self, 2, stdin=subprocess.PIPE)
        server.wait_for(b'listens at ')
        server.say(b'stop\n')
        self.tally.same('stop: nobody is there', server.ended(), Ran(4, b'fault link\n'))
        server = Server(self, 3, stdin=subprocess.PIPE)
        player = self.play(server)
        server.wait_for(b'client 0 has a link from ')
        server.say(b'stop\n')
        played, served = player.ended(), server.ended()
        self.tally.check('stop in the lobby: play', played.status == 0, played)
        said = {b'client 1 has no link', b'client 2 has no link'}
        self.tally.check('stop in the lobby: the log', said <= {*server.lines()}, server.lines())
        self.same_world('stop in the lobby', served, server)
        server = Server(self, 2, f'--patience {CLOCK * 2}', stdin=subprocess.PIPE)
        link = self.silent(server, hello() + play_of(0))
        player = self.play(server)
        server.wait_for(b'client 1 greets')
        server.say(b'\nstop \nkick 7\n')
        server.wait_for(b'note: there is no client 7')
        server.say(b'stop\n')
        server.wait_for(b'client 1 leaves at frame ')
        took = server.when(b'client 1 leaves at frame ') - server.when(b'client 1 has a link from ')
        played, served = player.ended(), server.ended()
        self.tally.check('stop in the match: before the clock', took < CLOCK * 2, server.lines())
        notes = [it for it in server.lines() if it.startswith(b'note: ')]
        self.tally.same('stop in the match: notes', notes, [b'note: a line is neither `kick C` nor `stop`', b'note: there is no client 7'])
        self.tally.check('stop in the match: the log', b'client 0 is kicked by `stop`' in server.lines(), server.lines())
        self.tally.check('stop in the match: its links', re.search(rb'\nlink 0 (lost|kicked \d+)\nlink 1 ', served.out), served)
        self.tally.same('stop in the match: play', played.status, 0)
        self.same_world('stop in the match', served, server)
        link.close()

    def of_fourth(self):
        """Once all links are there nobody else is let in."""
        server = Server(self, 3, f'--patience {CLOCK}')
        link, players = self.silent(server), [self.play(server, 'three') for _ in range(2)]
        server.wait_for(b'client 1 greets')
        with socket.socket() as fourth:
            refused = fourth.connect_ex(('127.0.0.1', int(server.at.split(':')[1])))
        self.tally.check('a fourth player', refused != 0, 'it is let in')
        for it in players:
            it.ended()
        self.same_world('a match of three', server.ended(), server)
        link.close()

    def of_names(self):
        """A name that can't be resolved is answered at once, as an address that is taken."""
        begun = time.monotonic()
        played = self.start('play --at no-such-host.invalid:7070 --script three.script').ended()
        self.tally.same('play: no such host', played, Ran(4, b'fault link\n'))
        self.tally.check('play: no such host: why', played.err.endswith(b' fault link: no server has answered at this address\n'), played)
        self.tally.check('play: no such host: at once', time.monotonic() - begun < soon() / SOON, time.monotonic() - begun)
        with socket.create_server(('127.0.0.1', 0)) as taken:
            server = Server(self, 1, '--udp-ports 7000-7000', f'127.0.0.1:{taken.getsockname()[1]}')
            self.tally.same('serve: a taken address', server.ended(), Ran(4, b'fault link\n'))
        self.tally.same('serve: a taken address: the log', server.lines(),
                        [b'note: --udp-ports means nothing at this address', b"fault link: this address can't be listened at"])

    def of_quiet(self):
        """No log where none is wanted; a standard error that is closed, or that nobody reads; a closed standard output."""
        for options, closed in (('--quiet', ()), ('', (2,)), ('', (0, 2)), ('', (0, 1, 2)), ('', (1,))):
            server = Server(self, 1, options, closed=closed)
            played, served = self.play(server, 'three').ended(), server.ended()
            name = f'serve {options} without {closed}'
            self.tally.check(f'{name}: play', played.status == 0, played)
            if 1 in closed:
                self.tally.same(f'{name}: serve', (served.status, served.out), (5, b''))
            else:
                self.same_world(name, served, server)
            if 2 in closed or options:
                self.tally.same(f'{name}: the log', server.lines(), [])
        for is_full in (True, False):
            self.unread_log(is_full)

    def unread_log(self, is_full):
        """A log whose pipe is full, or has no reader any more."""
        reader, writer = os.pipe()
        if is_full:
            os.set_blocking(writer, False)
            try:
                while os.write(writer, bytes(4096)):
                    pass
            except BlockingIOError:
                os.set_blocking(writer, True)
        else:
            os.close(reader)
        at = free_address()
        child = subprocess.Popen([self.program, 'serve', '--at', at, '--clients', '1'], cwd=self.folder,
                                 stdin=subprocess.DEVNULL, stdout=subprocess.PIPE, stderr=writer)
        played = self.start(f'play --at {at} --script three.script').ended()
        try:
            out, _ = child.communicate(timeout=PATIENCE)
        except subprocess.TimeoutExpired:
            child.kill()
            out, _ = child.communicate()
        self.tally.check(f'a log that nobody reads: full {is_full}',
                         played.status == child.returncode == 0 and b'\nserver frames 3 ' in out, (played, child.returncode, out))
        os.close(writer)
        if is_full:
            os.close(reader)

    def of_late(self):
        """A player after the last seat, and one where nobody listens, try for half a minute."""
        server = Server(self, 1, f'--patience {PATIENCE}')
        link = self.silent(server)
        server.wait_for(b'client 0 greets')
        begun = time.monotonic()
        players = [self.play(server), self.start(f'play --at {free_address()} --script three.script')]
        for it in players:
            self.tally.same('play: too late', it.ended(), Ran(4, b'fault link\n'))
        self.tally.check('play: too late: half a minute', 29 < time.monotonic() - begun < 31 + soon(), time.monotonic() - begun)
        link.close()
        server.ended()

    def of_soak(self):
        """Many of these, mixed: no process stays, and none takes more memory than the first ones."""
        kinds = [self.of_stopped, self.of_silent, self.of_deaf, self.of_empty_seat, self.of_stop, self.of_fourth]
        with concurrent.futures.ThreadPoolExecutor(8) as pool:
            for half in range(2):
                ran = [pool.submit(kinds[number % len(kinds)]) for number in range(SOAK // 2)]
                for it in ran:
                    it.result()
                most = resource.getrusage(resource.RUSAGE_CHILDREN).ru_maxrss
                if half == 0:
                    first = most
        self.tally.check('the soak: memory', most <= first * 1.25, (first, most))
        left = subprocess.run(['pgrep', '-f', f'^{self.program} '], stdout=subprocess.PIPE).stdout
        self.tally.same('the soak: processes', left, b'')


def run_all(tally, program, is_long):
    with tempfile.TemporaryDirectory() as folder:
        it = LeftAlone(tally, program, folder)
        parts = [it.of_stopped, it.of_continued, it.of_silent, it.of_deaf, it.of_ahead, it.of_empty_seat, it.of_stop, it.of_fourth, it.of_names, it.of_quiet]
        with concurrent.futures.ThreadPoolExecutor(4) as pool:
            for ran in [pool.submit(part) for part in parts + [it.of_late] * is_long]:
                try:
                    ran.result()
                except Exception as error:
                    tally.check('left_alone', False, repr(error))
        if is_long:
            it.of_soak()
