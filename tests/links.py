"""`serve` and `play` over loopback: each status that they can have, and that a server's console is read."""
import os, re, socket, struct, subprocess, sys, tempfile, threading, time

from harness import PATIENCE, TOP, Ran, free_address, lacking, with_examples

# The tag of a play's packet.
ORDERS = 2


def packet(payload):
    return struct.pack('<H', len(payload)) + payload


def hello(version=2, rules=0xAF63BD4C8601B7DF):
    """A greeting: of no rules and no map where its number is left out."""
    return packet(struct.pack('<BHQ', 1, version, rules))


def play_of(frame):
    return packet(struct.pack('<BIB', ORDERS, frame, 0))


def connected(address):
    """A link to a server, which may not listen yet."""
    host, port = address.split(':')
    until = time.monotonic() + PATIENCE
    while True:
        link = socket.socket()
        try:
            link.connect((host, int(port)))
            link.settimeout(PATIENCE)
            return link
        except ConnectionRefusedError:
            link.close()
            if time.monotonic() > until:
                raise
            time.sleep(0.01)


class Started:
    """A run of the program that goes on beside others."""

    def __init__(self, program, words, folder, stdin=subprocess.DEVNULL, stdout=subprocess.PIPE, closed=()):

        def prepare():
            for it in closed:
                os.close(it)

        self.child = subprocess.Popen([program, *words.split()], cwd=folder, stdin=stdin, stdout=stdout, stderr=subprocess.PIPE,
                                      preexec_fn=prepare)

    def say(self, line):
        """A line of the console."""
        try:
            self.child.stdin.write(line)
            self.child.stdin.flush()
        except BrokenPipeError:
            pass

    def end_console(self):
        self.child.stdin.close()
        self.child.stdin = None

    def ended(self):
        """How it ended; its status is None where it had to be killed."""
        try:
            out, err = self.child.communicate(timeout=PATIENCE)
            return Ran(self.child.returncode, out or b'', err)
        except subprocess.TimeoutExpired:
            self.child.kill()
            out, err = self.child.communicate()
            return Ran(None, out or b'', err)


class Links:
    def __init__(self, tally, program, folder):
        self.tally, self.program, self.folder = tally, program, with_examples(folder)
        self.script = os.path.join(self.folder, 'three.script')
        with open(self.script, 'w') as file:
            file.write('script 1 1\n0\n0\n0\n')

    def start(self, words, **how):
        return Started(self.program, words, self.folder, **how)

    def matches(self, *words):
        """The matches of the tool over loopback."""
        tool = os.path.join(TOP, 'tools/tcp_matches/run')
        for word in words:
            ran = subprocess.run([tool, self.program, *word.split()], stdout=subprocess.PIPE, stderr=subprocess.STDOUT,
                                 timeout=PATIENCE * 20)
            self.tally.check(f'tools/tcp_matches/run .. {word}', ran.returncode == 0, ran.stdout)

    def of_match(self):
        """A match of two players: status 0 of all three; a console that is null, and one that is closed."""
        for how in ({}, {'stdin': None, 'closed': (0,)}):
            at = free_address()
            server = self.start(f'serve --at {at} --clients 2', **how)
            players = [self.start(f'play --at {at} --script three.script', **how) for _ in range(2)]
            played, served = [it.ended() for it in players], server.ended()
            self.tally.same('play: status', [it.status for it in played], [0, 0])
            self.tally.same('serve: status', served.status, 0)
            ends = [b' '.join(it.out.split()[2:]) for it in played]
            self.tally.check('play: two worlds', ends[0] == ends[1] and ends[0].startswith(b'frames 3 hash '), played)
            self.tally.check('serve: the world of its players', ends[0].replace(b' end', b'') in served.out, served)
            start = b'column 0 3 left\ncolumn 1 3 left\nlink 0 ended\nlink 1 ended\nserver frames 3 hash '
            self.tally.check('serve: its lines', served.out.startswith(start) and served.out.endswith(b'\nend\n'), served)

    def of_client(self):
        """The player of the examples that is written in Python, beside `play`: its frames and its order are taken."""
        at, files = free_address(), '--map maps/sample.map maps/sample.yaml'
        tools = os.path.join(self.folder, 'bin')
        os.makedirs(tools)
        script = os.path.join(tools, 'lockstep')
        with open(script, 'w') as file:
            file.write(f'#!/bin/sh\nexec \'{self.program}\' "$@"\n')
        os.chmod(script, 0o755)
        server = self.start(f'serve --at {at} --clients 2 {files}')
        players = [Started('/usr/bin/env', f'PATH={tools}:/usr/bin:/bin {sys.executable} links/client.py {at} 10 {files}', self.folder),
                   self.start(f'play --at {at} --script three.script {files}')]
        client, played, served = (it.ended() for it in (*players, server))
        told = re.match(rb'client ([01]) of 2 frames 10\n$', client.out)
        if not self.tally.check('client.py', told and client.status == played.status == 0, (client, played)):
            return
        columns, cash = (b'column 0 10 left\ncolumn 1 3 left\n', b' cash 1990 2010\n') if told[1] == b'0' else (
            b'column 0 3 left\ncolumn 1 10 left\n', b' cash 2010 1990\n')
        self.tally.check('serve: the match of client.py', served.status == 0 and served.out.startswith(columns) and cash in served.out, served)

    def of_kick(self):
        """A client that greets and then says nothing: the match goes on once the console kicks it."""
        at = free_address()
        server = self.start(f'serve --at {at} --clients 2', stdin=subprocess.PIPE)
        silent = connected(at)
        silent.sendall(hello())
        player = self.start(f'play --at {at} --script three.script')
        time.sleep(0.5)
        self.tally.check('serve: waits for a silent client', server.child.poll() is None, 'it has ended')
        server.say(b'kick\nkick 7\nkick 0\n')
        played = player.ended()
        self.tally.check('play: goes on after a kick', played.status == 0 and b' frames 3 hash ' in played.out, played)
        server.end_console()
        # What was sent to the silent client is read, so that its end is no reset.
        silent.shutdown(socket.SHUT_WR)
        while silent.recv(4096):
            pass
        served = server.ended()
        silent.close()
        start = b'column 0 0 left\ncolumn 1 3 left\nlink 0 kicked 0\nlink 1 ended\nserver frames 3 hash '
        self.tally.check('serve: a kick', served.status == 0 and served.out.startswith(start), served)

    def of_console(self):
        """The server ends once its console has, or has given a line after the last departure; not before."""
        for last in (b'\n', b''):
            at = free_address()
            server = self.start(f'serve --at {at} --clients 1', stdin=subprocess.PIPE)
            played = self.start(f'play --at {at} --script three.script').ended()
            self.tally.same('play: its end', played.status, 0)
            time.sleep(0.5)
            self.tally.check('serve: waits for its console', server.child.poll() is None, 'it has ended')
            if last:
                server.say(last)
                until = time.monotonic() + PATIENCE
                while server.child.poll() is None and time.monotonic() < until:
                    time.sleep(0.01)
                self.tally.check('serve: a line ends it', server.child.poll() is not None, 'it waits on')
            self.tally.same('serve: the end of its console', server.ended().status, 0)

    def of_refused(self):
        """Status 3 of `play`, by the server's word and by its bytes; the server has 0."""
        at = free_address()
        server = self.start(f'serve --at {at} --clients 1')
        other = self.start(f'play --at {at} --script three.script --map maps/sample.map maps/sample.yaml').ended()
        self.tally.same('play: other rules', other, Ran(3, b'refused server 2\n'))
        served = server.ended()
        start = b'column 0 0 left\nlink 0 refused OtherRules\n'
        self.tally.check('serve: other rules', served.status == 0 and served.out.startswith(start), served)
        for said, cause in ((b'\1\0\x63', b'refused link 0 BadTag\n'), (b'', b'refused link 0 Early\n')):
            with socket.create_server(('127.0.0.1', int(free_address().split(':')[1]))) as listener:
                player = self.start(f'play --at 127.0.0.1:{listener.getsockname()[1]} --script three.script')
                listener.settimeout(PATIENCE)
                link, _ = listener.accept()
                link.settimeout(PATIENCE)
                link.sendall(said)
                link.shutdown(socket.SHUT_WR)
                while link.recv(4096):
                    pass
                link.close()
                self.tally.same(f'play: a server that says {said}', player.ended(), Ran(3, cause))

    def of_garbage(self):
        """A link that sends what is no packet, and one that greets falsely: the server's status is 0."""
        for said, cause in ((b'\1\1' + bytes(300), b'LengthTooLarge'), (hello(version=9), b'Version'), (play_of(0), b'NoHello'),
                            (hello() + play_of(3), b'Ahead'), (hello() + hello(), b'SecondHello')):
            at = free_address()
            server = self.start(f'serve --at {at} --clients 1')
            link = connected(at)
            link.sendall(said)
            link.shutdown(socket.SHUT_WR)
            served = server.ended()
            link.close()
            want = b'link 0 refused ' + cause + b'\n'
            self.tally.check(f'serve: {cause.decode()}', served.status == 0 and want in served.out, served)

    def of_net(self):
        """Status 4: an address that is taken, one of another machine, one that is none; a link that is reset."""
        with socket.create_server(('127.0.0.1', int(free_address().split(':')[1]))) as taken:
            at = f'127.0.0.1:{taken.getsockname()[1]}'
            self.tally.same('serve: a taken address', self.start(f'serve --at {at} --clients 1').ended(), Ran(4, b'fault link\n'))
        for at in ('192.0.2.1:7070', 'nothing', '127.0.0.1:99999'):
            self.tally.same(f'serve: at {at}', self.start(f'serve --at {at} --clients 1').ended(), Ran(4, b'fault link\n'))
        with socket.create_server(('127.0.0.1', int(free_address().split(':')[1]))) as listener:
            player = self.start(f'play --at 127.0.0.1:{listener.getsockname()[1]} --script three.script')
            listener.settimeout(PATIENCE)
            link, _ = listener.accept()
            link.setsockopt(socket.SOL_SOCKET, socket.SO_LINGER, struct.pack('ii', 1, 0))
            time.sleep(0.2)
            link.close()
            self.tally.same('play: a link that is reset', player.ended(), Ran(4, b'fault link\n'))

    def of_nobody(self):
        """Status 4 of a player that finds no server, once it has given up."""
        self.tally.same('play: nobody listens', self.start(f'play --at {free_address()} --script three.script').ended(),
                        Ran(4, b'fault link\n'))

    def of_output(self):
        """Status 5 of both, and the match of the others is played."""
        at = free_address()
        with open('/dev/full', 'wb') as full:
            server = self.start(f'serve --at {at} --clients 2', stdout=full)
            players = [self.start(f'play --at {at} --script three.script'), self.start(f'play --at {at} --script three.script', stdout=full)]
            self.tally.same('play: a full device', [it.ended().status for it in players], [0, 5])
            self.tally.same('serve: a full device', server.ended().status, 5)


def run_all(tally, program, is_long):
    with tempfile.TemporaryDirectory() as folder:
        it = Links(tally, program, folder)
        # A player without a server tries for long, so it does so beside the others.
        nobody = threading.Thread(target=it.of_nobody)
        nobody.start()
        it.of_match()
        it.of_client()
        it.of_kick()
        it.of_console()
        it.of_refused()
        it.of_garbage()
        it.of_net()
        it.of_output()
        it.matches('one', 'killed', 'ended 20', 'refused 10', 'early 3')
        if is_long:
            if lacking('pgrep'):
                tally.skip('tools/tcp_matches/run .. soak', 'no pgrep')
            else:
                it.matches('soak')
            it.matches('ended', 'refused', 'early')
        nobody.join()
