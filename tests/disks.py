"""What is left of a file that is written over while its disk fills or the program is killed, and servers and players
whose output goes away. The kills take minutes, so they are run with `--long` alone. By itself: disks.py [--long] PROGRAM."""
import contextlib, os, random, re, signal, subprocess, sys, tempfile, time

from harness import PATIENCE, Ran, free_address, lacking, run, with_examples
from links import Started
from statuses import BATTLE, COMMANDS, WRITERS

PAGE = 4096
OLD = b'what was there before\n' * 100
# How the files begin that take a file's place once they are whole, and how many there may be in a folder.
NEW, MOST_NEW = '.lockstep-new-', 16
# The calls at which a run is killed. At those of other names nothing can happen to a file.
CALLS = ('openat', 'write', 'pwrite64', 'fsync', 'fdatasync', 'rename', 'renameat', 'renameat2', 'unlink', 'unlinkat', 'fchmod', 'chmod', 'ftruncate',
         'close', 'exit_group')


def content(path):
    with open(path, 'rb') as it:
        return it.read()


@contextlib.contextmanager
def small_disk(folder, options):
    """A disk of memory that is this small."""
    os.makedirs(folder)
    subprocess.run(['mount', '-t', 'tmpfs', '-o', options, 'none', folder], check=True)
    try:
        yield folder
    finally:
        subprocess.run(['umount', folder], check=True)


def fill(folder, pages):
    """Fills a disk, but for so many pages."""
    with open(f'{folder}/filler', 'wb', buffering=0) as it:
        with contextlib.suppress(OSError):
            while it.write(bytes(PAGE)):
                pass
        it.truncate(it.tell() - pages * PAGE)


class Disks:
    def __init__(self, tally, program, folder):
        self.tally, self.program, self.top, self.folder = tally, program, folder, with_examples(folder)
        with open(f'{self.folder}/long.drill', 'w') as it:
            it.write('match 1 1 1\n' + ''.join(f'seal 0\nup {at}\ndown 0 0 {at}\ntick 0\ntick server\n' for at in range(2_000)))
        run(self.program, ['drill', '--script', 'long.drill', '--record', 'long.replay'], self.folder)
        with open(f'{self.folder}/wide.map', 'w') as it:
            it.write('Size: 128,128\n')
        run(self.program, 'drill --script one_frame.drill --record wide.replay --map wide.map'.split(), self.folder)
        # Commands that write the file AT: short ones, and ones that write many pages.
        self.short = {name: COMMANDS[name].replace(f'{option} new', f'{option} AT') for name, (option, _) in WRITERS.items()}
        self.long = {'record': 'drill --script long.drill --record AT', 'migrate': 'migrate --file long.replay --to AT',
                     'save': 'save --file wide.replay --frames 1 --to AT --map wide.map'}

    def run(self, words, at, before=()):
        words = words.replace('AT', at).split()
        return run(before[0], [*before[1:], self.program, *words], self.folder) if before else run(self.program, words, self.folder)

    def whole(self, words):
        """What a command prints and writes where nothing fails."""
        ran = self.run(words, f'{self.top}/whole')
        self.tally.same(f'{words}: status', ran.status, 0)
        return ran, content(f'{self.top}/whole')

    def of_full(self):
        """The disk has room for so many pages more: status 5 and the old bytes where these are too few."""
        for name, words in self.long.items():
            plain, data = self.whole(words)
            need = -(-len(data) // PAGE)
            self.tally.check(f'{name}: its file has pages', need > 2, need)
            for free in sorted({0, 1, need // 2, need - 1, need}):
                with small_disk(f'{self.top}/disk-{name}-{free}', f'size={(need * 2 + 8) * PAGE}') as disk:
                    self.holds(f'{name}: {free} free pages of {need}', words, disk, plain, data, free >= need, free)
            # A folder, the old file and the filler: no file more can be made.
            with small_disk(f'{self.top}/disk-{name}-names', f'size={(need * 2 + 8) * PAGE},nr_inodes=3') as disk:
                self.holds(f'{name}: no file more', words, disk, plain, data, False, need)

    def holds(self, what, words, disk, plain, data, is_room, free):
        with open(f'{disk}/old', 'wb') as it:
            it.write(OLD)
        fill(disk, free)
        ran = self.run(words, f'{disk}/old')
        self.tally.same(f'{what}: status and text', ran, Ran(0 if is_room else 5, plain.out))
        self.tally.check(f'{what}: the bytes', content(f'{disk}/old') == (data if is_room else OLD), 'are others')
        self.tally.same(f'{what}: the files', sorted(os.listdir(disk)), ['filler', 'old'])

    def killed_at(self, words, call, number, disk):
        """Runs a command that is killed as it makes this call for so many times."""
        with open(f'{disk}/old', 'wb') as it:
            it.write(OLD)
        return self.run(words, f'{disk}/old', ('strace', '-f', '-o', '/dev/null', '-e', f'trace={call}', '-e', f'inject={call}:signal=SIGKILL:when={number}'))

    def calls_of(self, words):
        """How often a run makes each of the calls."""
        log = f'{self.top}/calls'
        self.run(words, f'{self.top}/whole', ('strace', '-f', '-o', log, '-e', f'trace={",".join(CALLS)}'))
        with open(log) as it:
            made = re.findall(r'^\d+ +(\w+)\(', it.read(), re.MULTILINE)
        return {call: made.count(call) for call in CALLS if call in made}

    def of_kills_at_calls(self):
        """Killed at each of its calls a run leaves the old bytes or the new ones."""
        if lacking('strace'):
            self.tally.skip('kills at each call', 'no strace')
            return
        for name, words in self.short.items():
            _, data = self.whole(words)
            found, disk = {OLD: 0, data: 0}, f'{self.top}/kills-{name}'
            os.makedirs(disk)
            for call, count in self.calls_of(words).items():
                for number in range(1, count + 1):
                    ran = self.killed_at(words, call, number, disk)
                    left = content(f'{disk}/old')
                    what = f'{name}: killed at {call} {number}'
                    self.tally.check(what, left in found and (ran.status == -signal.SIGKILL or left == data), f'{ran}, {left[:40]!r}')
                    found[left] = found.get(left, 0) + 1
                    for it in os.listdir(disk):
                        self.tally.check(f'{what}: {it}', it == 'old' or it.startswith(NEW), 'is another file')
                        os.remove(f'{disk}/{it}')
            self.tally.check(f'{name}: kills before and after', all(found.values()), found)

    def of_kills(self):
        """Killed at some moment while it writes a long file, too."""
        dice = random.Random(1)
        for name, words in self.long.items():
            _, data = self.whole(words)
            disk, cut = f'{self.top}/moments-{name}', 0
            os.makedirs(disk)
            for turn in range(40):
                with open(f'{disk}/old', 'wb') as it:
                    it.write(OLD)
                child = Started(self.program, words.replace('AT', f'{disk}/old'), self.folder)
                while child.child.poll() is None and len(os.listdir(disk)) < 2 and content(f'{disk}/old') == OLD:
                    pass
                time.sleep(dice.random() * 0.002)
                child.child.kill()
                child.child.communicate()
                self.tally.check(f'{name}: killed, turn {turn}', content(f'{disk}/old') in (OLD, data), 'the bytes are mixed')
                cut += len(os.listdir(disk)) > 1
                for it in os.listdir(disk):
                    os.remove(f'{disk}/{it}')
            self.tally.check(f'{name}: killed as it writes', cut, 'never')

    def of_left(self):
        """What killed runs left is passed over, until there is too much of it."""
        for name, words in self.short.items():
            _, data = self.whole(words)
            disk = f'{self.top}/left-{name}'
            os.makedirs(disk)
            for count, status, want in ((MOST_NEW - 1, 0, data), (MOST_NEW, 5, OLD)):
                for number in range(count):
                    with open(f'{disk}/{NEW}{number}', 'wb') as it:
                        it.write(b'left')
                with open(f'{disk}/old', 'wb') as it:
                    it.write(OLD)
                self.tally.same(f'{name}: {count} are left: status', self.run(words, f'{disk}/old').status, status)
                self.tally.check(f'{name}: {count} are left: the bytes', content(f'{disk}/old') == want, 'are others')
                self.tally.same(f'{name}: {count} are left: the files', len(os.listdir(disk)), count + 1)

    def of_outputs(self):
        """A server and a player whose output is closed, or whose reader is gone: status 5."""
        with open(f'{self.folder}/three.script', 'w') as it:
            it.write('script 1 1\n0\n0\n0\n')
        for what in ('closed', 'a closed pipe'):
            how = {'stdout': None, 'closed': (1,)}
            if what != 'closed':
                reading, writing = os.pipe()
                os.close(reading)
                how = {'stdout': writing}
            at = free_address()
            server = Started(self.program, f'serve --at {at} --clients 2', self.folder, **how)
            players = [Started(self.program, f'play --at {at} --script three.script', self.folder, **it) for it in (how, {})]
            self.tally.same(f'serve and play: {what}', [it.ended().status for it in (server, *players)], [5, 5, 0])
            if what != 'closed':
                os.close(writing)

    def of_heads(self):
        """Each command of which more than one piece is read: the reader goes after the first line."""
        for name, words in {**COMMANDS, 'worlds of a long match': 'worlds --file long.replay', 'a long drill': 'drill --script long.drill'}.items():
            line = '"$0" "$@" | head -n 1 >/dev/null; exit "${PIPESTATUS[0]}"'
            ran = run('/bin/bash', ['-c', line, self.program, *words.split()], self.folder)
            # A text that fits into the pipe may be written before its reader goes.
            wanted = (5,) if 'long' in name else (0, 5)
            self.tally.check(f'{name} | head -n 1', ran.status in wanted, ran)


def run_all(tally, program, is_long):
    with tempfile.TemporaryDirectory() as folder:
        it = Disks(tally, program, folder)
        if os.geteuid():
            tally.skip('disks that fill', 'only the superuser may mount one')
        else:
            it.of_full()
        if is_long:
            it.of_kills_at_calls()
            it.of_kills()
        it.of_left()
        it.of_outputs()
        it.of_heads()


if __name__ == '__main__':
    from harness import Tally
    told = Tally()
    run_all(told, os.path.abspath(sys.argv[-1]), '--long' in sys.argv)
    print(f'{told.passed} passed, {told.failed} failed, {told.skipped} skipped')
    sys.exit(1 if told.failed else 0)
