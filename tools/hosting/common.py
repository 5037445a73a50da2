"""What the tools of hosting share: where the program is, free ports, and who listens."""
import os
import socket
import subprocess
import sys
import time

HERE = os.path.dirname(os.path.realpath(__file__))
# In the package these tools stand in /usr/share/lockstep/hosting, in the repository in tools/hosting.
PACKAGED = f'{HERE}/../../../lib/lockstep/match_cli'
TOP = f'{HERE}/../..'
EXAMPLES = os.path.realpath(f'{HERE}/../../doc/lockstep/examples' if os.path.isfile(PACKAGED) else f'{TOP}/examples')

# How long a server may take to listen.
PATIENCE = 30


def fail(tool, text, status=2):
    print(f'{tool}: {text}', file=sys.stderr)
    sys.exit(status)


def found_program(tool, given):
    """The program itself, not the script that runs it: the one that is given, the package's, or the one that is built
    in this repository."""
    if given or os.path.isfile(PACKAGED):
        path = os.path.realpath(given or PACKAGED)
        return path if os.access(path, os.X_OK) else fail(tool, f'there is no program {path}')
    told = subprocess.run([f'{TOP}/lockstep', '--version'], capture_output=True, text=True).stdout.split('\n')
    state = told[3] if len(told) > 3 else 'not built'
    if state == 'not built':
        fail(tool, 'no program is built: run ./lockstep first')
    return os.path.realpath(f'{TOP}/crates/match_cli/out/match_cli' if state == 'proved' else f'{TOP}/out/checked')


def free_port():
    """A port of this machine that nobody has now."""
    with socket.socket() as probe:
        probe.bind(('127.0.0.1', 0))
        return probe.getsockname()[1]


def listens(port):
    """Whether somebody listens at this port, without asking him."""
    rows = []
    for name in filter(os.path.exists, ('/proc/net/tcp', '/proc/net/tcp6')):
        with open(name) as table:
            rows += [it.split() for it in table.readlines()[1:]]
    return any(row[3] == '0A' and int(row[1].split(':')[1], 16) == port for row in rows)


def await_listening(port, child):
    """Waits until a child listens at this port: whether it does. If not it has ended, or takes too long."""
    until = time.monotonic() + PATIENCE
    while not listens(port):
        if child.poll() is not None or time.monotonic() > until:
            return False
        time.sleep(0.01)
    return True
