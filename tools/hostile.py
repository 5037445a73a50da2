#!/usr/bin/env python3
"""Runs the command `yaml` of a built program over hostile rule files, which it makes in a folder of its own, and prints
the time, the peak memory and the outcome of each.

usage: hostile.py PROGRAM [NAME ..]      names: hostile.py --list
"""
import os, resource, subprocess, sys, tempfile, time

LINES = 65_536  # of a file, at most
BYTES = 4_194_304  # of a file, at most


def old_hash(key):
    """A hash of fixed constants (FNV of 64 bits)."""
    h = 0xCBF29CE484222325
    for byte in key:
        h = ((h ^ byte) * 0x100000001B3) % 2**64
    return h


def leaves(count, word='n'):
    return ''.join('\t%s%d: %d\n' % (word, k, k) for k in range(count))


def nested():
    """63 parents that each inherit the one before at level 31"""
    text = []
    for k in range(63, 0, -1):
        text.append('T%d:\n' % k + ''.join('\t' * level + 'X:\n' for level in range(1, 31)))
        text.append('\t' * 31 + 'Inherits: T%d\n\t-X:\n' % (k - 1))
    return [''.join(text) + 'T0:\n\tX:\n\t-X:\n']


def inherits_of_one(count=8_000, nodes=8_000):
    """8,000 `Inherits@i` of one parent of 8,000 nodes"""
    return ['^P:\n' + leaves(nodes) + 'K:\n' + ''.join('\tInherits@%d: ^P\n' % i for i in range(count))]


def filling_a_file():
    """the same filling a file of 65,536 lines"""
    return inherits_of_one(LINES // 2 - 2, LINES // 2)


def by_turns():
    """8,000 `Inherits@i` by turns of two parents of 8,000 nodes"""
    text = ['^P:\n' + leaves(8_000, 'p') + '^Q:\n' + leaves(8_000, 'q') + 'K:\n']
    text += ['\tInherits@%d: ^%s\n' % (i, 'PQ'[i % 2]) for i in range(8_000)]
    return [''.join(text)]


def chain():
    """62 chained kinds over a parent of 50,000 nodes"""
    text = ['K0:\n' + leaves(50_000)]
    text += ['K%d:\n\tInherits: K%d\n' % (k, k - 1) for k in range(1, 63)]
    return [''.join(text)]


def chain_from_the_end():
    """the same chain, its last kind first"""
    text = ['K%d:\n\tInherits: K%d\n' % (k, k - 1) for k in range(62, 0, -1)]
    return [''.join(text) + 'K0:\n' + leaves(50_000)]


def many_parents():
    """one kind with 8,000 parents that each inherit one of 32,000 nodes"""
    text = ['K:\n' + ''.join('\tInherits@%d: ^P%d\n' % (i, i) for i in range(8_000))]
    text += ['^P%d:\n\tInherits: ^B\n' % i for i in range(8_000)]
    return [''.join(text) + '^B:\n' + leaves(32_000)]


def full_parents():
    """one kind with 400 parents that each inherit one of 262,000 nodes, in five files"""
    text = ['K:\n' + ''.join('\tInherits@%d: ^P%d\n' % (i, i) for i in range(400))]
    text += ['^P%d:\n\tInherits: ^B\n' % i for i in range(400)]
    return [''.join(text)] + ['^B:\n' + leaves(65_500, 'n%d_' % f) for f in range(4)]


def wide_files():
    """64 files of 4 MiB"""
    files = []
    for f in range(64):
        text, k = [], 0
        size = 0
        while size < BYTES - 4_000:
            line = 'f%d_%d: %s\n' % (f, k, 'v' * 3_900)
            text.append(line)
            size += len(line)
            k += 1
        files.append(''.join(text))
    return files


def short_lines():
    """64 files of 65,536 short lines"""
    return [''.join('%d_%d\n' % (f, k) for k in range(LINES)) for f in range(64)]


def colliding():
    """12,000 keys that collide in the low 17 bits of a fixed hash"""
    keys, n = [], 0
    while len(keys) < 12_000:
        key = b'%x' % n
        if old_hash(key) % 2**17 < 96:
            keys.append(key.decode())
        n += 1
    return ['K:\n' + ''.join('\t%s: 1\n' % key for key in keys)]


def removals():
    """32,768 removals at the top level"""
    names = ['k%d' % k for k in range(LINES // 2)]
    return [''.join('%s:\n' % n for n in names) + ''.join('-%s:\n' % n for n in reversed(names))]


def missing_removal():
    """32,767 removals at the top level, the last of a name that is not there"""
    names = ['k%d' % k for k in range(LINES // 2 - 1)]
    return [''.join('%s:\n' % n for n in names) + ''.join('-%s:\n' % n for n in names) + '-none:\n']


# Each with the limit of its stack in kB, if it has one.
CASES = {f.__name__: (f, stack) for f, stack in [
    (nested, 1_024), (inherits_of_one, None), (filling_a_file, None), (by_turns, None), (chain, None),
    (chain_from_the_end, None), (many_parents, None), (full_parents, None), (wide_files, None), (short_lines, None),
    (colliding, None), (removals, None), (missing_removal, None)]}


def run(program, name):
    make, stack = CASES[name]
    with tempfile.TemporaryDirectory() as folder:
        names = []
        for k, text in enumerate(make()):
            names.append('f%d.yaml' % k)
            with open(os.path.join(folder, names[-1]), 'w') as file:
                file.write(text)

        def limit():
            if stack:
                resource.setrlimit(resource.RLIMIT_STACK, (stack * 1_024, stack * 1_024))
        with open(os.path.join(folder, 'out'), 'wb') as out:
            begun = time.monotonic()
            p = subprocess.Popen([program, 'yaml'] + names, cwd=folder, stdout=out, stderr=subprocess.DEVNULL,
                                 stdin=subprocess.DEVNULL, preexec_fn=limit)
            _, status, use = os.wait4(p.pid, 0)
            took = time.monotonic() - begun
        with open(os.path.join(folder, 'out'), 'rb') as out:
            first = out.readline(200).decode().strip()
        size = os.path.getsize(os.path.join(folder, 'out'))
    code = os.waitstatus_to_exitcode(status)
    outcome = '%d bytes' % size if code == 0 else first
    print('%-19s %7.2f s %7.2f cpu %6d MB  status %d, %s' % (
        name, took, use.ru_utime + use.ru_stime, use.ru_maxrss // 1_024, code, outcome), flush=True)


def main():
    words = sys.argv[1:]
    if not words or words[0] == '--list':
        for name, (make, _) in CASES.items():
            print('%-19s %s' % (name, make.__doc__))
        return
    for name in words[1:] or CASES:
        run(os.path.abspath(words[0]), name)


main()
