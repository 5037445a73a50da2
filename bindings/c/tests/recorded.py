"""Recorded command lines, answered through the library.

The command lines are those of crates/case_runs/data whose commands `engine` has. Left out are those that the program
refuses for another reason than rules and maps, replays of the first version, and those that need devices of the tests:
what decides there is not in the library.
"""
import importlib.machinery, importlib.util, os, subprocess, tempfile
from concurrent.futures import ThreadPoolExecutor

HERE = os.path.dirname(os.path.abspath(__file__))
TOP = os.path.dirname(os.path.dirname(os.path.dirname(HERE)))

COMMANDS = ('drill', 'local', 'replay', 'worlds', 'view', 'check', 'route')
CAUSES = {'NotUtf8', 'BadIndent', 'TooDeep', 'LineTooLong', 'TooManyLines', 'NoParent', 'Cycle', 'NothingToRemove',
          'TooLarge', 'BadValue', 'OutOfRange', 'MissingField', 'UnknownKindName', 'TooManyKinds', 'BadField', 'BadRow',
          'UnknownTerrain', 'UnknownKind', 'CellTaken', 'BadOwner', 'TooManyActors'}
PATIENCE = 120


def load(path, name):
    """A Python file without an ending, as a module."""
    loader = importlib.machinery.SourceFileLoader(name, path)
    module = importlib.util.module_from_spec(importlib.util.spec_from_loader(name, loader))
    loader.exec_module(module)
    return module


def is_within(case):
    """Whether what decides the answer is in the library."""
    if not case.words or case.words[0] not in COMMANDS or case.is_devised:
        return False
    if len(case.endings) != 1 or case.endings[0][0] not in (0, 3, 7):
        return False
    if any(content[:6] == b'LSRP\x01\x00' for _, content in case.files):
        return False
    words = case.endings[0][1].split()
    if words[:1] != [b'refused']:
        return True
    return words[-1].decode() in CAUSES


def as_engine(command, text):
    """What the engine prints where the program prints a text."""
    lines = text.splitlines(keepends=True)
    if command == 'check':
        lines = [it for it in lines if not it.startswith(b'skipped ')]
    return b''.join(lines)


def difference(command, case):
    """What the engine answers otherwise than is recorded, if anything."""
    with tempfile.TemporaryDirectory() as work:
        at = f'{work}/one/two/three'
        os.makedirs(at)
        for name, content in case.files:
            path = os.path.normpath(f'{at}/{name}')
            os.makedirs(os.path.dirname(path), exist_ok=True)
            with open(path, 'wb') as it:
                it.write(content)
        try:
            ran = subprocess.run([*command, *case.words], cwd=at, stdin=subprocess.DEVNULL, capture_output=True, timeout=PATIENCE)
        except subprocess.TimeoutExpired:
            return 'not ended in time'
    status, text = case.endings[0]
    text = as_engine(case.words[0], text)
    if (ran.returncode, ran.stdout) == (status, text):
        return None
    return f'{ran.returncode} {ran.stdout[-300:]!r} {ran.stderr[-300:]!r} in place of {status} {text[-300:]!r}'


def cases():
    """The recorded command lines that the library decides."""
    compare = load(f'{TOP}/tools/program/compare', 'compare')
    with open(f'{TOP}/crates/case_runs/args', encoding='utf-8') as it:
        return [case for file in it.read().split() for case in compare.read_cases(file) if is_within(case)]


def run(command, every=1):
    """Runs each, or each `every`-th, with a command; gives how many were run, and what differs."""
    chosen = cases()[::every]
    with ThreadPoolExecutor(os.cpu_count()) as pool:
        found = list(pool.map(lambda case: difference(command, case), chosen))
    return len(chosen), [f'{case.file}: {case.name}: {why}' for case, why in zip(chosen, found) if why]


if __name__ == '__main__':
    import sys
    count, wrong = run(sys.argv[1:])
    print(*wrong, sep='\n')
    print(f'{count - len(wrong)} of {count}')
