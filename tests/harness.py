"""What the parts of `tests/run` share: checks that are counted, the program's runs, free addresses."""
import os, random, resource, shutil, socket, subprocess, sys, tempfile, threading

TOP = os.path.dirname(os.path.dirname(os.path.abspath(__file__)))
EXAMPLES = os.path.join(TOP, 'examples')

# No run of the program here takes as many seconds on a machine that does nothing else; on a busy one four times that.
PATIENCE = 60


class Tally:
    """Counts what held, what did not, and what was skipped; says the last two aloud."""

    def __init__(self):
        self.passed, self.failed, self.skipped = 0, 0, 0
        self.lock = threading.Lock()

    def check(self, name, holds, why=''):
        with self.lock:
            if holds:
                self.passed += 1
            else:
                self.failed += 1
                print(f'FAILED: {name}: {why}', flush=True)
        return holds

    def same(self, name, got, want):
        return self.check(name, got == want, f'{got!r} in place of {want!r}')

    def skip(self, name, why):
        with self.lock:
            self.skipped += 1
            print(f'skipped: {name}: {why}', flush=True)


class Ran:
    """How a run ended: its status (below 0: minus the signal that ended it), and what it printed."""

    def __init__(self, status, out, err=b''):
        self.status, self.out, self.err = status, out, err

    def __eq__(self, other):
        return (self.status, self.out) == (other.status, other.out)

    def __repr__(self):
        out = self.out if len(self.out) <= 300 else self.out[:300] + b'..'
        err = f', on standard error {self.err[:200]!r}' if self.err else ''
        return f'status {self.status}, {out!r}{err}'


def limited(kilobytes):
    """Limits the memory of the process that it is called in, as `ulimit -v` does."""
    resource.setrlimit(resource.RLIMIT_AS, (kilobytes * 1024, kilobytes * 1024))


def run(program, words, folder=EXAMPLES, stdin=subprocess.DEVNULL, stdout=subprocess.PIPE, kilobytes=None, closed=()):
    """Runs the program in a folder, its descriptors `closed` closed. One that takes too long is killed: its status is None."""

    def prepare():
        if kilobytes is not None:
            limited(kilobytes)
        for it in closed:
            os.close(it)

    child = subprocess.Popen([program, *words], cwd=folder, stdin=stdin, stdout=stdout, stderr=subprocess.PIPE, preexec_fn=prepare)
    try:
        out, err = child.communicate(timeout=PATIENCE * 4)
    except subprocess.TimeoutExpired:
        child.kill()
        out, err = child.communicate()
        return Ran(None, out or b'', err)
    return Ran(child.returncode, out or b'', err)


# The ports that were handed out.
HANDED, HANDING = set(), threading.Lock()


def free_address():
    """A free address, with a port below those from which systems dial, which no other test of this run has."""
    while True:
        port = random.randrange(20_000, 32_000)
        with HANDING, socket.socket() as probe:
            if port in HANDED:
                continue
            try:
                probe.bind(('127.0.0.1', port))
            except OSError:
                continue
            HANDED.add(port)
            return f'127.0.0.1:{port}'


def with_examples(folder):
    """A copy of the examples, in which files may be written."""
    to = os.path.join(folder, 'examples')
    shutil.copytree(EXAMPLES, to)
    return to


def lacking(*tools):
    """The first of these tools that is not there, or None."""
    return next((it for it in tools if shutil.which(it) is None), None)
