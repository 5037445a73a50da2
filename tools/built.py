"""What the benches share: a small program over crates of this repository is built, and commands are timed."""
import os, shutil, subprocess, sys, tempfile

ROOT = os.path.dirname(os.path.dirname(os.path.abspath(__file__)))


def build(work, sources, name, below, deps):
    """Builds the program `name`, whose files are in the folder `sources`, in the folder `work`, over the crates `below`
    and the dependencies `deps`; what isn't proved yet is proved first. Returns its path."""
    lines = [line for line in open(f'{ROOT}/crates.txt') if line.split(':')[0] in below]
    lines.append(f'{name}: {deps}\n')
    os.makedirs(f'{work}/crates/{name}/src')
    open(f'{work}/crates.txt', 'w').writelines(lines)
    shutil.copy(f'{ROOT}/HANDLES', work)
    for crate in below:
        subprocess.run(['cp', '-al', f'{ROOT}/crates/{crate}', f'{work}/crates'], check=True)
    for there, _, files in os.walk(sources):
        for file in files:
            to = os.path.relpath(f'{there}/{file}', sources).removesuffix('.txt')
            to = f'{work}/crates/{name}/' + (f'src/{to}' if to.endswith('.rt') else to)
            os.makedirs(os.path.dirname(to), exist_ok=True)
            shutil.copy(f'{there}/{file}', to)
    at = f'{work}/crates/{name}'
    made = subprocess.run(['rt', 'run'], cwd=at, stdout=subprocess.PIPE, stderr=subprocess.STDOUT, text=True)
    if made.returncode:
        sys.exit(made.stdout)
    return f'{at}/out/{name}'


def measured(command, stdin=None):
    """What a command prints, and its processor seconds."""
    with open(stdin or os.devnull) as given, tempfile.TemporaryFile() as out:
        child = subprocess.Popen(command, stdin=given, stdout=out)
        _, status, used = os.wait4(child.pid, 0)
        out.seek(0)
        if status:
            sys.exit(f'{command[0]} failed')
        return out.read(), used.ru_utime + used.ru_stime
