#!/usr/bin/env python3
"""Runs `save` and `continue` of a built program over recorded games, and over saves that are cut and changed.

usage: saves.py PROGRAM frames [--every N] GAME ..
       saves.py PROGRAM hostile [--frames K] GAME ..

A GAME is a replay, a map or a blank, and rule files, parted by commas, as examples/battle/battle.replay,MAP,RULES; or a
folder with one file `map`, rule files `*.yaml`, and replays `*.replay`, each of which is a game.

`frames`   saves each game after each of its frames (with --every after each N-th, and after the last), goes on from
           each save with the same replay, and compares what is printed, but for the lines of marks before the save,
           with what `replay` prints.
`hostile`  saves each game after K of its frames (after half of them without --frames). Each beginning of the save, the
           save with a byte more, and the save with each of its first 200 bytes changed to each of 8 values is given to
           `continue`: it is refused with a place, or a world that goes on to the end.

The last line is `N passed, M failed`; the status is 1 where one failed.
"""
import glob, os, re, subprocess, sys, tempfile

VALUES = [0, 1, 2, 16, 91, 127, 128, 255]  # that a byte is changed to
CHANGED = 200  # bytes at the beginning of a save are changed
SECONDS = 120  # that a run may take: a world may have drawn 2^32 random words
FAULTS = ['BadMagic', 'BadVersion', 'OtherRules', 'Torn', 'BadWorld', 'TrailingBytes']  # of a save
MISFITS = ['OtherMatch', 'TooFewFrames']  # of a replay beside it


class Game:
    """A replay with its map and rules, and the words by which commands name them."""

    def __init__(self, replay, map_file, rules):
        self.name = replay
        self.replay = os.path.abspath(replay)
        self.words = (['--map', os.path.abspath(map_file)] if map_file else []) + [os.path.abspath(r) for r in rules]


def games(word):
    if os.path.isdir(word):
        maps = [m for m in [f'{word}/map'] if os.path.exists(m)]
        rules = sorted(glob.glob(f'{word}/*.yaml'))
        return [Game(r, maps[0] if maps else '', rules) for r in sorted(glob.glob(f'{word}/*.replay'))]
    replay, *more = word.split(',')
    return [Game(replay, more[0] if more else '', more[1:])]


class Tally:
    def __init__(self):
        self.passed, self.failed = 0, 0

    def take(self, what, fault):
        if fault:
            self.failed += 1
            print(f'{what}: {fault}', flush=True)
        else:
            self.passed += 1


def run(program, folder, words):
    """Status and text of a command."""
    try:
        made = subprocess.run([program, *words], cwd=folder, stdin=subprocess.DEVNULL, stdout=subprocess.PIPE,
                              stderr=subprocess.PIPE, timeout=SECONDS)
    except subprocess.TimeoutExpired:
        return 'late', ''
    if made.stderr:
        return 'report', made.stderr.decode(errors='replace')[:300]
    return made.returncode, made.stdout.decode(errors='replace')


def save(program, folder, game, frames):
    return run(program, folder, ['save', '--file', game.replay, '--frames', str(frames), '--to', 's', *game.words])


def go_on(program, folder, game):
    return run(program, folder, ['continue', '--save', 's', '--file', game.replay, *game.words])


def wanted(frames, status, text):
    """What `continue` prints of a save after so many frames where `replay` prints this; None where the mark that
    `replay` found stands before the save, so that it tells of the last lines alone."""
    mark = re.match(r'mark (\d+) ', text)
    if mark and int(mark[1]) < frames:
        return None
    return status, text


def saved_fault(frames, status, text, bytes_written):
    if status != 0 or text != f'saved frames {frames} bytes {bytes_written}\nend\n':
        return f'save: {status} {text!r}'


def frames_of_game(program, folder, game, tally, every):
    status, text = run(program, folder, ['replay', '--file', game.replay, *game.words])
    line = re.search(r'^replay frames (\d+) .*\nend\n\Z', text, re.M)
    if status not in (0, 7) or not line:
        return tally.take(game.name, f'replay: {status} {text!r}')
    total = int(line[1])
    for frames in sorted({*range(0, total + 1, every), total}):
        status_of_save, text_of_save = save(program, folder, game, frames)
        size = os.path.getsize(f'{folder}/s') if os.path.exists(f'{folder}/s') else 0
        fault = saved_fault(frames, status_of_save, text_of_save, size)
        if not fault:
            got = go_on(program, folder, game)
            want = wanted(frames, status, text)
            if want and got != want:
                fault = f'continue: {got}, where replay: {want}'
            if not want and not (got[0] in (0, 7) and got[1].endswith(line[0])):
                fault = f'continue: {got}, where the last lines of replay are {line[0]!r}'
        tally.take(f'{game.name} after {frames} frames', fault)
    status, text = save(program, folder, game, total + 1)
    fault = None if (status, text) == (3, f'refused {game.replay} 0 TooFewFrames\n') else f'{status} {text!r}'
    tally.take(f'{game.name} after {total + 1} frames', fault)


def fault_of(game, length, got):
    """What is wrong with the answer of `continue` to a save of so many bytes, if something is."""
    status, text = got
    refused = re.fullmatch(r'refused (.+) (\d+) (\w+)\n', text)
    if status == 3 and refused:
        name, place, cause = refused[1], int(refused[2]), refused[3]
        if name == 's' and cause in FAULTS and place <= length:
            return None
        if name == game.replay and cause in MISFITS and place == 0:
            return None
    if status in (0, 7) and re.search(r'^replay frames \d+ hash [0-9a-f]{16} .*\nend\n\Z', text, re.M):
        return None
    return f'{status} {text!r}'


def hostile_saves(whole):
    """The changed saves, each with what was done."""
    for length in range(len(whole)):
        yield f'cut to {length} bytes', whole[:length]
    yield 'with a byte more', whole + b'\0'
    for place in range(min(CHANGED, len(whole))):
        for value in VALUES:
            yield f'with {value} at {place}', whole[:place] + bytes([value]) + whole[place + 1:]


def hostile_game(program, folder, game, tally, frames):
    if frames is None:
        _, text = run(program, folder, ['replay', '--file', game.replay, *game.words])
        line = re.search(r'^replay frames (\d+) ', text, re.M)
        frames = int(line[1]) // 2 if line else 0
    status, text = save(program, folder, game, frames)
    if status != 0:
        return tally.take(game.name, f'save: {status} {text!r}')
    whole = open(f'{folder}/s', 'rb').read()
    counts = {}
    for what, changed in hostile_saves(whole):
        open(f'{folder}/s', 'wb').write(changed)
        got = go_on(program, folder, game)
        fault = fault_of(game, len(changed), got)
        if not fault and len(changed) != len(whole) and got[0] != 3:
            fault = f'accepted: {got}'
        tally.take(f'{game.name} {what}', fault)
        cause = got[1].split()[-1] if got[0] == 3 else f'status {got[0]}'
        counts[cause] = counts.get(cause, 0) + 1
    print(f'{game.name} after {frames} frames, {len(whole)} bytes:',
          ', '.join(f'{cause} {count}' for cause, count in sorted(counts.items())), flush=True)


def main():
    words = sys.argv[1:]
    if len(words) < 3 or words[1] not in ('frames', 'hostile'):
        sys.exit(__doc__)
    program, mode, given = os.path.abspath(words[0]), words[1], words[2:]
    number = None
    if given[0] == {'frames': '--every', 'hostile': '--frames'}[mode]:
        number, given = int(given[1]), given[2:]
    tally = Tally()
    for word in given:
        for game in games(word):
            with tempfile.TemporaryDirectory() as folder:
                if mode == 'frames':
                    frames_of_game(program, folder, game, tally, number or 1)
                else:
                    hostile_game(program, folder, game, tally, number)
    print(f'{tally.passed} passed, {tally.failed} failed')
    sys.exit(1 if tally.failed else 0)


main()
