"""The tools for hosts: a match behind TLS, as a service, many side by side, an archive of replays that is verified."""
import concurrent.futures, contextlib, os, pty, re, shlex, shutil, signal, subprocess, sys, tempfile, time

from harness import PATIENCE, TOP, free_address, lacking, run, with_examples
from links import Started
from pages import block_after, lines_of, shows

TOOLS = os.path.join(TOP, 'tools/hosting')
UNIT = os.path.join(TOOLS, 'lockstep@.service')
SAMPLE = '--map maps/sample.map maps/sample.yaml'


def call(*words, **how):
    """Runs a tool: what it printed is text."""
    return subprocess.run(words, stdin=subprocess.DEVNULL, capture_output=True, text=True, timeout=PATIENCE * 20, **how)


class Served(Started):
    """A server that is started by these words. Its log goes into a file."""

    def __init__(self, words, folder):
        self.path = tempfile.mktemp(dir=folder)
        with open(self.path, 'wb') as log:
            self.child = subprocess.Popen(words, cwd=folder, stdin=subprocess.DEVNULL, stdout=subprocess.PIPE, stderr=log)

    def await_logged(self, text):
        """Waits for a line of the log that ends so: whether it comes."""
        until = time.monotonic() + PATIENCE * 2
        while time.monotonic() < until and self.child.poll() is None:
            with open(self.path) as log:
                if any(line.endswith(f'{text}\n') for line in log):
                    return True
            time.sleep(0.01)
        return False


class Unit:
    """What the lines of the unit say, of a match of this name, with the program of the test and folders of its own."""

    def __init__(self, program, name, folder, match):
        self.runtime, self.state = f'{folder}/run', f'{folder}/state'
        with open(UNIT) as it:
            rows = [line.rstrip('\n').partition('=') for line in it if re.match(r'\w+=', line)]
        self.rows = [(key, value.replace('%i', name).replace('%t', self.runtime).replace('%S', self.state)
                      .replace('/usr/lib/lockstep/match_cli', program)) for key, _, value in rows]
        self.environment = dict(it.split('=') for it in ' '.join(self.values('Environment')).split())
        self.environment.update(MATCH=match)
        for key, there in (('RuntimeDirectory', self.runtime), ('StateDirectory', self.state)):
            os.makedirs(f'{there}/{self.values(key)[0]}')

    def values(self, key):
        return [value for it, value in self.rows if it == key]

    def words(self, key):
        """The words of a line's command, as systemd makes them: a whole word `$NAME` is parted at its blanks."""
        words = []
        for word in shlex.split(self.values(key)[0]):
            if re.fullmatch(r'\$[A-Z]\w*', word):
                words += self.environment.get(word[1:], '').split()
            else:
                words.append(re.sub(r'\$\{(\w+)\}', lambda it: self.environment.get(it[1], ''), word).replace('$$', '$'))
        return words

    def run(self, key):
        return subprocess.run(self.words(key), stdin=subprocess.DEVNULL, stdout=subprocess.DEVNULL, timeout=int(self.values('TimeoutStopSec')[0])).returncode

    def start(self, folder):
        """Runs the lines of the start: the server, whose words are given by `exec`."""
        if self.run('ExecStartPre'):
            return None
        server = Served(self.words('ExecStart'), folder)
        self.environment['MAINPID'] = str(server.child.pid)
        return server


def drill_of(number):
    """A drill of a few frames over the battle, of its own for each number: orders, and how many frames."""
    frames, lines = 2 + number % 5, [f'match 2 1 {number}']
    for frame in range(frames):
        lines += ['seal 0' + (f' move 1 {number % 4} {frame % 2}' if frame == number % 3 else ''), 'seal 1', f'up {2 * frame}', f'up {2 * frame + 1}']
        lines += [f'down {peer} {client} {frame}' for peer in range(2) for client in range(2)]
        lines += ['tick 0', 'tick 1', 'tick server']
    return '\n'.join(lines) + '\n', frames


class Archive:
    """A folder of replays that `drill --record` wrote, some of them then spoiled, and what is to be said of these."""

    def __init__(self, program, folder, count):
        self.folder, self.files = f'{folder}/archive', ['--map', f'{folder}/examples/battle/map', f'{folder}/examples/battle/rules.yaml']
        self.program, self.names, self.told = program, [f'{number % 7}/it\'s {number}.replay' for number in range(count)], {}
        for part in range(7):
            os.makedirs(f'{self.folder}/{part}')
        with concurrent.futures.ThreadPoolExecutor(os.cpu_count()) as workers:
            self.frames = list(workers.map(self.make, range(count)))

    def make(self, number):
        text, frames = drill_of(number)
        path = f'{self.folder}/{self.names[number]}'
        with open(f'{path}.drill', 'w') as it:
            it.write(text)
        subprocess.run([self.program, 'drill', '--script', f'{path}.drill', '--record', path, *self.files], check=True, stdout=subprocess.DEVNULL)
        os.remove(f'{path}.drill')
        return frames

    def spoil(self):
        """Changes the last hash of each tenth replay; takes all bytes of one, puts in one of another map."""
        for number in range(0, len(self.names), 10):
            with open(f'{self.folder}/{self.names[number]}', 'r+b') as it:
                # The last byte ends the replay, the hash stands before it.
                it.seek(-2, os.SEEK_END)
                last = it.read(1)[0]
                it.seek(-2, os.SEEK_END)
                it.write(bytes([last ^ 1]))
            self.told[self.names[number]] = f'differs {self.names[number]} mark {self.frames[number]} frame {self.frames[number] - 1} file '
        with open(f'{self.folder}/{self.names[1]}', 'w'):
            self.told[self.names[1]] = f'refused {self.names[1]} 0 BadMagic'
        shutil.copy(os.path.join(TOP, 'examples/one_frame.replay'), f'{self.folder}/{self.names[2]}')
        self.told[self.names[2]] = f'refused {self.names[2]} 6 OtherRules'

    def words(self, *more):
        return [f'{TOOLS}/verify', self.folder, *self.files, '--program', self.program, *more]

    def shows(self, ran):
        """Whether a run tells of each spoiled replay, and no other, and counts all."""
        lines, told = ran.stdout.split('\n')[:-1], sorted(self.told.values())
        differs = sum(it.startswith('differs') for it in told)
        counts = f'same {len(self.names) - len(told)}, differs {differs}, refused {len(told) - differs}, failed 0: {len(self.names)} files'
        rows = sorted(lines[:-1])
        holds = len(rows) == len(told) and all(row.startswith(want) for row, want in zip(rows, told)) and lines[-1:] == [counts]
        # A hash is written with its lowest byte first.
        different = [it.split() for it in rows if it.startswith('differs')]
        return holds and ran.returncode == (1 if told else 0) and all(it[-3] != it[-1] and int(it[-3], 16) ^ int(it[-1], 16) == 1 << 56 for it in different)


@contextlib.contextmanager
def second_machine(folder, hidden):
    """This machine under a second name, by ssh at a high port: the file that names it, and the environment of who asks it.
    The superuser gives it a folder `hidden` of its own, so that nothing is there but what is copied."""
    keys, port = f'{folder}/ssh', free_address().split(':')[1]
    os.makedirs(keys, mode=0o700)
    for key in ('host', 'mine'):
        subprocess.run(['ssh-keygen', '-q', '-t', 'ed25519', '-N', '', '-f', f'{keys}/{key}'], check=True)
    with open(f'{keys}/mine.pub') as it, open(f'{keys}/host.pub') as host, open(f'{keys}/known', 'w') as known:
        shutil.copyfileobj(it, open(f'{keys}/authorized', 'w'))
        known.write(f'[127.0.0.1]:{port} {host.read()}')
    with open(f'{keys}/server', 'w') as it:
        it.write(f'ListenAddress 127.0.0.1\nPort {port}\nHostKey {keys}/host\nAuthorizedKeysFile {keys}/authorized\nPidFile none\n'
                 'StrictModes no\nUsePAM no\nPasswordAuthentication no\nPermitRootLogin prohibit-password\nMaxStartups 100\nLogLevel ERROR\n')
    with open(f'{keys}/client', 'w') as it:
        it.write(f'Host second\nHostName 127.0.0.1\nPort {port}\nIdentityFile {keys}/mine\nIdentitiesOnly yes\nUserKnownHostsFile {keys}/known\n')
    with open(f'{folder}/machines', 'w') as it:
        it.write('2/second\n')
    program = shutil.which('sshd', path=f'{os.environ["PATH"]}:/usr/sbin')
    words = [program, '-D', '-e', '-f', f'{keys}/server']
    if os.geteuid() == 0:
        os.makedirs('/run/sshd', exist_ok=True)
        words = ['unshare', '--mount', 'sh', '-c', 'mount -t tmpfs none "$0" && exec "$@"', hidden, *words]
    server = subprocess.Popen(words, stdin=subprocess.DEVNULL)
    environment = {**os.environ, 'PARALLEL_SSH': f'ssh -F {keys}/client'}
    try:
        until = time.monotonic() + PATIENCE
        while subprocess.run(['ssh', '-F', f'{keys}/client', 'second', 'true'], stdin=subprocess.DEVNULL, stderr=subprocess.DEVNULL).returncode:
            if time.monotonic() > until or server.poll() is not None:
                raise RuntimeError('the second machine does not answer')
            time.sleep(0.1)
        yield f'{folder}/machines', environment
    finally:
        server.terminate()
        server.wait()


class Hosting:
    def __init__(self, tally, program, folder):
        self.tally, self.program, self.top, self.folder = tally, program, folder, with_examples(folder)

    def needs(self, what, *tools):
        """Whether these tools are there; else the part is skipped."""
        missing = lacking(*tools)
        if missing:
            self.tally.skip(what, f'no {missing}')
        return not missing

    def of_page(self):
        """The commands of HOSTING, in the order in which they stand there, as in a clone in which the program is built."""
        clone, lines = f'{self.top}/clone', lines_of('docs/HOSTING.md')
        os.makedirs(f'{clone}/crates/match_cli/out')
        with_examples(clone)
        shutil.copytree(TOOLS, f'{clone}/tools/hosting')
        os.symlink(self.program, f'{clone}/crates/match_cli/out/match_cli')
        with open(f'{clone}/lockstep', 'w') as it:
            it.write(f'#!/bin/sh\n[ "$1" != --version ] || exec printf "lockstep\\ncommit\\nkit\\nproved\\n"\nexec "{self.program}" "$@"\n')
        os.chmod(f'{clone}/lockstep', 0o755)
        block = lambda heading: block_after(lines, lines.index(heading))
        first = block('## In a minute')
        played = block_after(lines, next(at for at, it in enumerate(lines) if first[-1] in it) + 1)
        for heading, shown, tools in (('## A record of the match', None, ()), ('## Behind TLS', played[played.index('..') + 1:], ('stunnel4', 'openssl')),
                                      ('## An archive', None, ('parallel',))):
            if not self.needs(f'docs/HOSTING.md: {heading}', *tools):
                continue
            commands = block(heading)
            shown = shown or block_after(lines, lines.index(f'    {commands[-1]}', lines.index(heading)) + 1)
            text = '\n'.join([first[0], *commands])
            for port in ('7070', '7071'):
                text = text.replace(f'127.0.0.1:{port}', free_address())
            ran = run('/bin/bash', ['-c', text], f'{clone}/examples/links')
            self.tally.check(f'docs/HOSTING.md: {heading}', ran.status == 0 and shows(shown, ran.out.decode().split('\n')), (ran, shown))

    def of_tls(self):
        """Players with certificates, strangers, and a false server, by the tool itself."""
        if not shutil.which('stunnel4') and not self.needs('tools/hosting/tls', 'stunnel') or not self.needs('tools/hosting/tls', 'openssl'):
            return
        ran = call(f'{TOOLS}/tls', '--program', self.program, 'try')
        self.tally.check('tools/hosting/tls try', ran.returncode == 0 and ran.stdout.count(': as it should be (') == 9, ran)

    def of_unit(self):
        """The unit holds for systemd, and is as closed as it may be."""
        if not self.needs('lockstep@.service', 'systemd-analyze'):
            return
        # mkfifo and sh are here; the program is where the package has it.
        ran = call('systemd-analyze', '--man=no', 'verify', UNIT)
        self.tally.check('lockstep@.service: verify', ran.returncode == 0 and not ran.stderr, ran)
        ran = call('systemd-analyze', 'security', '--offline=true', '--threshold=30', UNIT)
        self.tally.check('lockstep@.service: security', ran.returncode == 0 and 'Overall exposure level' in ran.stdout, ran)

    def holds_record(self, what, unit, out):
        """The record of a unit's match comes to the world that its server printed."""
        world = re.search(rb'^server (frames \d+ hash .*)$', out, re.MULTILINE)
        path = f'{unit.state}/lockstep/friday/match.replay'
        ran = call(self.program, 'replay', '--file', path, *SAMPLE.split(), cwd=self.folder)
        self.tally.check(f'{what}: its record', world and ran.returncode == 0 and ran.stdout == f'replay {world[1].decode()}\nend\n', (out, ran))

    def of_service(self):
        """The lines of the unit's start and stop: a match that is played to its end, and one that is stopped."""
        for what, frames in (('a match to its end', 40), ('a match that is stopped', 200_000)):
            folder, at = tempfile.mkdtemp(dir=self.top), free_address()
            unit = Unit(self.program, 'friday', folder, f'--at {at} --clients 2 {SAMPLE}')
            server = unit.start(self.folder)
            if not self.tally.check(f'{what}: its start', server, 'ExecStartPre failed'):
                continue
            players = [Started(self.program, f'play --at {at} --bot --frames {frames} {SAMPLE}', self.folder) for _ in range(2)]
            if frames == 200_000:
                began = all(server.await_logged(f'client {client} greets') for client in range(2))
                time.sleep(1)
                self.tally.check(f'{what}: it goes on', began and server.child.poll() is None, 'it has not begun, or has ended')
                stop = subprocess.Popen(unit.words('ExecStop'), stdin=subprocess.DEVNULL)
                while server.child.poll() is None and stop.poll() is None:
                    time.sleep(0.01)
                self.tally.check(f'{what}: ExecStop waits for the end', server.child.poll() is not None, 'the server goes on')
                self.tally.same(f'{what}: ExecStop', stop.wait(PATIENCE), 0)
            played, served = [it.ended() for it in players], server.ended()
            self.tally.same(f'{what}: status', [it.status for it in (served, *played)], [0, 0, 0])
            self.tally.check(f'{what}: its text', served.out.endswith(b'\nend\n') and b'column 1 ' in served.out, served)
            self.holds_record(what, unit, served.out)
            # As systemd runs it once the server has ended by itself.
            del unit.environment['MAINPID']
            self.tally.same(f'{what}: ExecStop afterwards', unit.run('ExecStop'), 0)

    def calls_in(self, name):
        """The system calls of a set of systemd's, which begins with `@`, or the one of this name."""
        if not name.startswith('@'):
            return {name}
        rows = call('systemd-analyze', 'syscall-filter', name).stdout.split('\n')[1:]
        return set().union(*(self.calls_in(it.strip()) for it in rows if it.strip() and not it.strip().startswith('#')))

    def of_calls(self):
        """The unit lets the program make all the calls that it makes: its sets, kinds of sockets, and no page that is written and run."""
        if not self.needs('lockstep@.service: system calls', 'systemd-analyze', 'strace'):
            return
        folder, at = tempfile.mkdtemp(dir=self.top), free_address()
        unit, log = Unit(self.program, 'friday', folder, f'--at {at} --clients 2 {SAMPLE}'), f'{folder}/calls'
        unit.run('ExecStartPre')
        server = Served(['strace', '-f', '-qq', '-o', log, *unit.words('ExecStart')], self.folder)
        players = [Started(self.program, f'play --at {at} --bot --frames 5 {SAMPLE}', self.folder) for _ in range(2)]
        self.tally.same('lockstep@.service: a traced match', [it.ended().status for it in (server, *players)], [0, 0, 0])
        with open(log) as it:
            lines = [line.split(' ', 1)[1].strip() for line in it]
        # What the shell does before it becomes the program is allowed too.
        made = {it[1] for it in (re.match(r'(\w+)\(', line) for line in lines) if it}
        sets = unit.values('SystemCallFilter')
        allowed = set().union(*(self.calls_in(it) for row in sets if not row.startswith('~') for it in row.split()))
        denied = set().union(*(self.calls_in(it.lstrip('~')) for row in sets if row.startswith('~') for it in row.split()))
        self.tally.same('lockstep@.service: calls that it lacks', sorted(made - (allowed - denied)), [])
        families = {it for line in lines for it in re.findall(r'^socket\((\w+)', line)}
        self.tally.check('lockstep@.service: kinds of sockets', families and families <= set(unit.values('RestrictAddressFamilies')[0].split()), families)
        mixed = [line for line in lines if re.match(r'(mmap|mprotect)\(', line) and 'PROT_WRITE' in line and 'PROT_EXEC' in line]
        self.tally.same('lockstep@.service: pages that are written and run', mixed, [])

    def of_many(self):
        """Two rounds of short matches side by side."""
        ran = call(f'{TOOLS}/many', '--program', self.program, '--frames', '200', '--most', '2')
        rows = [it.split() for it in ran.stdout.split('\n')]
        holds = ran.returncode == 0 and [it[:1] for it in rows[:3]] == [['matches'], ['1'], ['2']] and 'frames a second a processor' in ran.stdout
        self.tally.check('tools/hosting/many', holds, ran)
        ran = call(f'{TOOLS}/many', '--program', self.program, '--frames', '300000', '--most', '1')
        self.tally.check('tools/hosting/many: players that are refused', ran.returncode == 1, ran)

    def interrupted(self, archive, what, kill):
        """A run that ends in the middle: the next one goes on from what stands in the log."""
        log, count = f'{self.top}/{what}.log', len(archive.names)
        child = subprocess.Popen(archive.words('--log', log), stdin=subprocess.DEVNULL, stdout=subprocess.DEVNULL, stderr=subprocess.DEVNULL,
                                 start_new_session=True)
        until = time.monotonic() + PATIENCE
        while child.poll() is None and time.monotonic() < until:
            with contextlib.suppress(FileNotFoundError), open(log) as it:
                if len(it.readlines()) > count // 3:
                    break
            time.sleep(0.001)
        kill(child)
        status = child.wait()
        with open(log) as it:
            first = it.read()
        done = first.count('\n') - 1
        self.tally.check(f'verify: {what}: in the middle', status and 0 < done < count, f'status {status}, {done} lines')
        ran = call(*archive.words('--log', log))
        # What parallel ran on after the death of who asked it isn't in the log.
        told = re.fullmatch(r'verify: (\d+) of (\d+) files are in .*\n', ran.stderr)
        self.tally.check(f'verify: {what}: goes on', told and done <= int(told[1]) < count and int(told[2]) == count, ran.stderr)
        self.tally.check(f'verify: {what}: the table', archive.shows(ran), ran)
        with open(log) as it:
            text = it.read()
        names = [it.split('\t')[0] for it in text.split('\n')[1:-1]]
        self.tally.check(f'verify: {what}: each file once', text.startswith(first[:first.rindex('\n')]) and len(names) == len(set(names)) == count, len(names))

    def of_archive(self, count):
        """An archive: whole, spoiled, interrupted; another program, other rules, a folder without files."""
        if not self.needs('tools/hosting/verify', 'parallel'):
            return
        archive = Archive(self.program, self.top, count)
        self.tally.check('verify: an archive', archive.shows(call(*archive.words())), archive.folder)
        archive.spoil()
        ran = call(*archive.words())
        self.tally.check('verify: only what has changed', ran.stderr.startswith(f'verify: {count - len(archive.told)} of {count} files'), ran.stderr)
        self.tally.check('verify: a spoiled archive', archive.shows(ran), ran)
        self.interrupted(archive, 'interrupted', lambda child: os.killpg(child.pid, signal.SIGINT))
        self.interrupted(archive, 'killed', lambda child: os.killpg(child.pid, signal.SIGKILL))
        self.interrupted(archive, 'killed alone', lambda child: child.kill())
        self.of_bar(archive)
        sample = [f'{self.folder}/maps/sample.map', f'{self.folder}/maps/sample.yaml']
        for what, words, why in (
                ('other rules', [f'{TOOLS}/verify', archive.folder, '--map', *sample, '--program', self.program], ' is of another program, map or rules'),
                ('rules with a fault', [f'{TOOLS}/verify', archive.folder, sample[1], f'{self.folder}/mod/slip.yaml', '--program', self.program],
                 f'refused {self.folder}/mod/slip.yaml 5 NothingToRemove'),
                ('no files', [f'{TOOLS}/verify', os.path.dirname(UNIT) + '/none', '--program', self.program], 'is no folder')):
            ran = call(*words)
            self.tally.check(f'verify: {what}', ran.returncode == 2 and why in ran.stderr and not ran.stdout, ran)
        self.of_machines(count // 5)

    def of_bar(self, archive):
        """On a terminal there is a bar with an estimate."""
        reading, writing = pty.openpty()
        child = subprocess.Popen(archive.words('--log', f'{self.top}/bar.log'), stdin=subprocess.DEVNULL, stdout=subprocess.PIPE, stderr=writing, text=True)
        os.close(writing)
        shown = b''
        with contextlib.suppress(OSError):
            while piece := os.read(reading, 4096):
                shown += piece
        os.close(reading)
        out = child.communicate()[0]
        bar = re.search(rb'\d+% \d+:\d+=\d+s', shown)
        self.tally.check('verify: a bar', bar and archive.shows(subprocess.CompletedProcess([], child.returncode, out)), shown[-300:])

    def of_machines(self, count):
        """The archive on a second machine, which has nothing but what is copied there, and nothing of it afterwards."""
        path = f'{os.environ["PATH"]}:/usr/sbin'
        missing = next((it for it in ('parallel', 'sshd', 'ssh', 'ssh-keygen', 'rsync', 'unshare') if not shutil.which(it, path=path)), None)
        if missing:
            self.tally.skip('verify --machines', f'no {missing}')
            return
        # What lies below this folder is hidden from the second machine, the stage of the tool too.
        with tempfile.TemporaryDirectory() as hidden, tempfile.TemporaryDirectory() as folder, second_machine(folder, hidden) as (machines, environment):
            shutil.copytree(self.folder, f'{hidden}/examples')
            archive = Archive(self.program, hidden, count)
            archive.spoil()
            ran = call(*archive.words('--machines', machines), env={**environment, 'TMPDIR': hidden})
            self.tally.check('verify --machines', archive.shows(ran), ran)
            with open(f'{archive.folder}.log') as it:
                rows = [it.split('\t') for it in it.read().split('\n')[1:-1]]
            self.tally.check('verify --machines: where', {it[3] for it in rows} == {'second'}, {it[3] for it in rows})
            left = call('ssh', '-F', f'{folder}/ssh/client', 'second', f'find {shlex.quote(hidden)} -type f')
            self.tally.same('verify --machines: nothing is left there', (left.returncode, left.stdout), (0, ''))


def run_all(tally, program, is_long):
    with tempfile.TemporaryDirectory() as folder:
        it = Hosting(tally, program, folder)
        it.of_page()
        it.of_tls()
        it.of_unit()
        it.of_service()
        it.of_calls()
        it.of_many()
        it.of_archive(1000 if is_long else 40)


if __name__ == '__main__':
    from harness import Tally
    told = Tally()
    run_all(told, os.path.abspath(sys.argv[-1]), '--long' in sys.argv)
    print(f'{told.passed} passed, {told.failed} failed, {told.skipped} skipped')
