"""The commands of the pages, run as they stand there, each beside the text that its page shows."""
import os, re, shutil, subprocess, tempfile

from harness import TOP, Ran, free_address, lacking, run, with_examples

# How a command begins in a page.
COMMAND = re.compile(r'^(?:\$ )?((?:\.\./\.\./|\./)?lockstep [^`]*)$')

# Each command: its page, the command, the folder in which it is run, its status. What it prints is shown after it: in the
# same block, or in the next one. Of a long text the page shows a part, as the README of the worked schedule's; so what is
# shown is a piece of what is printed, and `..` in it stands for any lines, or any words.
BATTLE, RIVER = 'examples/battle', 'examples/river'
DIFFERS = f'./lockstep replay --file {BATTLE}/differs.replay --map {BATTLE}/map {BATTLE}/rules.yaml'
SHOWN = [
    ('README.md', './lockstep drill --script examples/departure.drill', '.', 0),
    ('README.md', DIFFERS, '.', 7),
    ('docs/DESYNC.md', '../../lockstep save --file river.replay --frames 269 --to here.save --map map rules.yaml', RIVER, 0),
    ('docs/DESYNC.md', '../../lockstep compare --file here.save --with there.save --map map rules.yaml', RIVER, 7),
    ('docs/DESYNC.md', '../../lockstep worlds --file river.replay --from 268 --to 268 --map map rules.yaml', RIVER, 0),
    ('docs/DESYNC.md', '../../lockstep drill --script battle.drill --map map rules.yaml', BATTLE, 0),
    ('docs/DESYNC.md', '../../lockstep worlds --file battle.replay --from 1 --to 2 --map map rules.yaml', BATTLE, 0),
    ('docs/FORMATS.md', './lockstep drill --script examples/one_frame.drill --record new.replay', '.', 0),
    ('docs/FORMATS.md', './lockstep replay --file examples/one_frame.replay', '.', 0),
    ('docs/FORMATS.md', './lockstep migrate --file examples/one_frame_old.replay --to new.replay', '.', 0),
    ('docs/FORMATS.md', './lockstep replay --file examples/one_frame.replay --map examples/battle/map examples/battle/rules.yaml', '.', 3),
    ('docs/FORMATS.md', './lockstep save --file examples/one_frame.replay --frames 1 --to one_frame.save', '.', 0),
    ('docs/FORMATS.md', './lockstep continue --save one_frame.save --file examples/one_frame.replay', '.', 0),
    ('docs/FORMATS.md', './lockstep compare --file examples/battle/battle.replay --with examples/battle/differs.replay --map examples/battle/map examples/battle/rules.yaml', '.', 7),
    ('docs/FORMATS.md', './lockstep view --file examples/scout/scout.replay --client 0 --map examples/scout/map examples/scout/rules.yaml', '.', 0),
    ('docs/FORMATS.md', './lockstep datagrams --script examples/datagrams.script', '.', 0),
    ('docs/LOCKSTEP.md', './lockstep local --script examples/local.script', '.', 0),
    ('docs/MAPS.md', './lockstep check --map examples/maps/sample.map examples/maps/sample.yaml', '.', 0),
    ('docs/MAPS.md', './lockstep route --map examples/maps/corner.map --kind unit --from 0,1 --to 2,1 examples/maps/walker.yaml', '.', 0),
    ('docs/RULES.md', 'lockstep check jeep.yaml', 'examples/yaml', 0),
    ('docs/RULES.md', 'lockstep check --map ../maps/sample.map ../maps/sample.yaml mod.yaml', 'examples/mod', 0),
    ('docs/RULES.md', 'lockstep yaml ../maps/sample.yaml mod.yaml', 'examples/mod', 0),
    ('docs/RULES.md', 'lockstep check ../maps/sample.yaml slip.yaml', 'examples/mod', 3),
    ('docs/RULES.md', '../../lockstep local --script idle.script --bots 1 --map map rules.yaml', 'examples/bots', 0),
]

# What DESYNC has another machine do, whose program has another line in this file of the source.
THERE = '../../lockstep save --file river.replay --frames 269 --to there.save --map map rules.yaml'
CHANGED = 'crates/combat/src/fields.rt'

# Commands that are run by a function below, and those that stand for others: their words are no files.
TRIED = {THERE, '../../lockstep migrate --file differs.replay --to new.replay --map map rules.yaml',
         '../../lockstep local --script my.script --map ../maps/sample.map ../maps/sample.yaml mod.yaml',
         '../../lockstep serve --at 127.0.0.1:7070 --clients 3 --seed 9 $files </dev/null &',
         '../../lockstep play --at 127.0.0.1:7070 --script drive.script $files & sleep 1',
         '../../lockstep play --at 127.0.0.1:7070 --script five.script $files; wait',
         '../../lockstep local --script all.script $files',
         # These by tests/hosting.py.
         '../../lockstep serve --at 127.0.0.1:7070 --clients 3 --seed 9 --record match.replay $files </dev/null &',
         '../../lockstep replay --file match.replay $files'}
PATTERNS = re.compile(r' FILE|FILES|RULES|lockstep --')


def lines_of(page):
    with open(os.path.join(TOP, page)) as file:
        return file.read().split('\n')


def commands_of(lines):
    """Each command of a page, with the place after its line."""
    for at, line in enumerate(lines):
        whole = COMMAND.match(line.strip()) if line.startswith('    ') else None
        if whole:
            yield whole[1], at + 1
        else:
            yield from ((it, at + 1) for it in re.findall(r'`((?:\.\./\.\./|\./)?lockstep [^`]+)`', line))


def block_after(lines, at):
    """The block of indented lines at or after a place, without its indent, to the next command in it."""
    while at < len(lines) and not lines[at].startswith('    '):
        at += 1
    block = []
    while at < len(lines) and (lines[at].startswith('    ') or not lines[at]) and not lines[at].startswith('    $ '):
        block.append(lines[at][4:])
        at += 1
    while block and not block[-1]:
        block.pop()
    return block


def is_line(got, want):
    return got.startswith(want[:-2]) if want.endswith(' ..') else got == want


def shows(block, printed):
    """Whether a block shows a piece of what is printed."""
    pieces, start = [[]], 0
    for line in block:
        if line == '..':
            pieces.append([])
        else:
            pieces[-1].append(line)
    for piece in pieces:
        found = next((at for at in range(start, len(printed) - len(piece) + 1)
                      if all(map(is_line, printed[at:], piece))), None)
        if found is None:
            return False
        start = found + len(piece)
    return bool(block)


class Pages:
    def __init__(self, tally, program, folder):
        self.tally, self.top = tally, folder
        with_examples(folder)
        script = os.path.join(folder, 'lockstep')
        with open(script, 'w') as file:
            file.write(f'#!/bin/sh\nexec \'{program}\' "$@"\n')
        os.chmod(script, 0o755)

    def bash(self, line, folder):
        line = f'PATH={self.top}:$PATH\n{line}'
        return run('/bin/bash', ['-c', line], os.path.join(self.top, folder))

    def lines(self, page, what, ran, status, block):
        """Holds what was printed to what a page shows."""
        printed = ran.out.decode().split('\n')
        self.tally.same(f'{page}: {what}: status', ran.status, status)
        self.tally.check(f'{page}: {what}', shows(block, printed), f'printed {printed}, shown {block}')

    def of_shown(self):
        for page, command, folder, status in SHOWN:
            lines = lines_of(page)
            places = [at for found, at in commands_of(lines) if found == command]
            if not self.tally.check(f'{page}: has {command}', len(places) == 1, f'{len(places)} times'):
                continue
            self.lines(page, command, self.bash(command, folder), status, block_after(lines, places[0]))

    def of_new_files(self):
        """What FORMATS says that some of the commands have written: a file of the examples."""
        for written, example in (('new.replay', 'one_frame.replay'), ('one_frame.save', 'one_frame.save')):
            with open(os.path.join(self.top, 'examples', example), 'rb') as file:
                want = file.read()
            for command in (it[1] for it in SHOWN if it[1].endswith(f' {written}')):
                self.bash(f'rm -f {written}; {command}', '.')
                with open(os.path.join(self.top, written), 'rb') as file:
                    self.tally.same(f'docs/FORMATS.md: the file of {command}', file.read(), want)

    def of_dumps(self):
        """The bytes of the small replay and the small save, as FORMATS has them: all of each, in order."""
        lines = lines_of('docs/FORMATS.md')
        for name in ('one_frame.replay', 'one_frame.save'):
            at = next(at for at, line in enumerate(lines) if line.startswith(f'**A small one,** `examples/{name}`'))
            rows = [re.match(r'([0-9a-f]{2})  ((?:[0-9a-f]{2} {1,2})+)', it) for it in block_after(lines, at)]
            shown = b''
            for row in rows:
                self.tally.same(f'docs/FORMATS.md: {name}: a place', int(row[1], 16), len(shown))
                shown += bytes.fromhex(row[2])
            with open(os.path.join(self.top, 'examples', name), 'rb') as file:
                self.tally.same(f'docs/FORMATS.md: the bytes of {name}', shown, file.read())

    def of_untried(self):
        """Each command of a page is tried, or a pattern."""
        tried = TRIED | {it[1] for it in SHOWN}
        pages = ['README.md', 'CONTRIBUTING.md', 'examples/README.md']
        pages += sorted(f'docs/{it}' for it in os.listdir(os.path.join(TOP, 'docs')) if it.endswith('.md'))
        for page in pages:
            for command, _ in commands_of(lines_of(page)):
                self.tally.check(f'{page}: {command}', command in tried or PATTERNS.search(command), 'is tried by no row of tests/pages.py')

    def of_refused_drill(self):
        """The sentence of FORMATS on a refused drill."""
        text = ' '.join(lines_of('docs/FORMATS.md'))
        told = re.search(r'`drill --script (\S+)` prints `([^`]+)`', text)
        if self.tally.check('docs/FORMATS.md: a refused drill', told, 'is not told of'):
            ran = self.bash(f'lockstep drill --script {told[1]}', '.')
            self.tally.same('docs/FORMATS.md: a refused drill', ran, Ran(3, f'{told[2]}\n'.encode()))

    def of_refused_migration(self):
        """What DESYNC says of a replay that differs: the line `mark` of README, `end`, and no file."""
        lines = lines_of('README.md')
        command = next(it for it in TRIED if ' migrate ' in it)
        above = block_after(lines, dict(commands_of(lines))[DIFFERS])
        ran = self.bash(command, 'examples/battle')
        self.tally.same(f'docs/DESYNC.md: {command}', ran, Ran(7, f'{above[0]}\nend\n'.encode()))
        self.tally.check('docs/DESYNC.md: no file', not os.path.exists(f'{self.top}/examples/battle/new.replay'), 'it is there')

    def changed_source(self):
        """The source that DESYNC changes, with its line as it is and as it is there."""
        text = ' '.join(lines_of('docs/DESYNC.md'))
        told = re.search(r'`' + CHANGED + r'` the last line of `is_in_range` is +`([^`]+)`\. .* in which it is +(\S.*?)  ', text)
        with open(os.path.join(TOP, CHANGED)) as file:
            source = file.read()
        holds = told and source.count(told[1]) == 1 and told[1] != told[2]
        self.tally.check('docs/DESYNC.md: the changed line', holds, f'{CHANGED} has it not, or not once')
        return source.replace(told[1], told[2]) if holds else None

    def of_changed_program(self):
        """The other machine of DESYNC: its program is built, in some minutes, and run."""
        source, there = self.changed_source(), os.path.join(self.top, 'there')
        if lacking('rt'):
            self.tally.skip('docs/DESYNC.md: the other machine', 'no rt')
            return
        leave = shutil.ignore_patterns('out', 'proofs', 'must-fail', 'data')
        for part in ('crates', 'tools', 'examples'):
            shutil.copytree(os.path.join(TOP, part), os.path.join(there, part), ignore=leave)
        for part in ('crates.txt', 'HANDLES', 'lockstep'):
            shutil.copy(os.path.join(TOP, part), there)
        with open(os.path.join(there, CHANGED), 'w') as file:
            file.write(source)
        river = os.path.join(there, RIVER)
        saved = subprocess.run(['/bin/bash', '-c', THERE], cwd=river, stdin=subprocess.DEVNULL, stdout=subprocess.PIPE)
        lines = lines_of('docs/DESYNC.md')
        shown = block_after(lines, dict(commands_of(lines))[THERE])
        self.lines('docs/DESYNC.md', THERE, Ran(saved.returncode, saved.stdout), 0, shown)
        with open(os.path.join(river, 'there.save'), 'rb') as new, open(os.path.join(TOP, RIVER, 'there.save'), 'rb') as old:
            self.tally.same('docs/DESYNC.md: there.save', old.read(), new.read())
        before = THERE.replace('269', '268').replace('there', 'before')
        ran, here = run('/bin/bash', ['-c', before], river), self.bash(before, RIVER)
        self.tally.same('docs/DESYNC.md: the save before', ran, here)
        with open(os.path.join(river, 'before.save'), 'rb') as new, open(os.path.join(self.top, RIVER, 'before.save'), 'rb') as old:
            self.tally.same('docs/DESYNC.md: before.save', new.read(), old.read())
        ran = run('/bin/bash', ['-c', '../../lockstep replay --file river.replay --map map rules.yaml'], river)
        told = re.search(r'its first line is `(mark [^`]+)`', ' '.join(lines))
        holds = told and ran.status == 7 and ran.out.startswith(f'{told[1]}\n'.encode())
        self.tally.check('docs/DESYNC.md: the mark of the other machine', holds, ran)

    def of_script(self):
        """The script of RULES that builds a scout."""
        lines = lines_of('docs/RULES.md')
        at = next(at for at, line in enumerate(lines) if line.endswith('as `my.script`:'))
        with open(f'{self.top}/examples/mod/my.script', 'w') as file:
            file.write('\n'.join(block_after(lines, at)) + '\n')
        command = next(it for it in TRIED if 'my.script' in it)
        told = re.search(r'prints the world has (\d+) actors, one more than the map, and ([\d,]+) cash', ' '.join(lines))
        if self.tally.check('docs/RULES.md: what a scout makes', told, 'is not told of'):
            ran = self.bash(command, 'examples/mod')
            want = f' actors {told[1]} cash {told[2].replace(",", "")} '.encode()
            self.tally.check(f'docs/RULES.md: {command}', ran.status == 0 and want in ran.out.replace(b'\n', b' '), ran)

    def of_files(self):
        """The mod that RULES shows without its comments."""
        with open(f'{self.top}/examples/mod/mod.yaml') as file:
            mod = [it for it in file.read().split('\n') if it and not it.startswith('#')]
        lines = lines_of('docs/RULES.md')
        blocks = [block_after(lines, at) for at, line in enumerate(lines) if line == '    jeep:']
        self.tally.check('docs/RULES.md: shows mod.yaml', mod in blocks, blocks)

    def of_bad_maps(self):
        """The table of MAPS: lines of a map, and how it is refused."""
        rows = [re.match(r'\| (`.*`) \| `(refused bad\.map [^`]+)` \|$', it) for it in lines_of('docs/MAPS.md')]
        rows = [it for it in rows if it]
        self.tally.check('docs/MAPS.md: maps that are refused', len(rows) >= 10, f'{len(rows)} rows')
        for row in rows:
            lines = [it.replace('>', '\t') for it in re.findall(r'`([^`]+)`', row[1])]
            with open(f'{self.top}/bad.map', 'w') as file:
                file.write('\n'.join(lines) + '\n')
            ran = self.bash('lockstep check --map bad.map examples/maps/walker.yaml', '.')
            self.tally.same(f'docs/MAPS.md: {lines}', ran, Ran(3, f'{row[2]}\n'.encode()))

    def of_bad_lines(self):
        """The table of FORMATS: lines of a drill, and their fault."""
        lines = lines_of('docs/FORMATS.md')
        at = lines.index('| Line in a match of 2 clients | Fault | Why |')
        for line in lines[at + 2:]:
            row = re.match(r'\| `([^`]+)` \| `(\w+)` \|', line)
            if row:
                with open(f'{self.top}/bad.drill', 'w') as file:
                    file.write(f'match 2 1 1\n{row[1]}\n')
                ran = self.bash('lockstep drill --script bad.drill', '.')
                self.tally.same(f'docs/FORMATS.md: {row[1]}', ran, Ran(3, f'refused bad.drill 2 {row[2]}\n'.encode()))
            if not line.startswith('|'):
                break

    def of_schedule(self):
        """The schedule of LOCKSTEP: each line of the drill, and what comes of it."""
        lines = lines_of('docs/LOCKSTEP.md')
        rows = [re.match(r'\| (\d+) \| `([^`]+)` \| `([^`]+)` \|', it) for it in lines]
        rows = [it for it in rows if it]
        with open(f'{self.top}/examples/departure.drill') as file:
            events = [it.strip() for it in file if it.strip() and not it.startswith('#')][1:]
        self.tally.same('docs/LOCKSTEP.md: the lines of departure.drill', [it[2] for it in rows], events)
        ran = self.bash('lockstep drill --script examples/departure.drill', '.')
        after = block_after(lines, lines.index('After the events these lines follow:'))
        self.lines('docs/LOCKSTEP.md', 'departure.drill', ran, 0, [f'{it[1]} {it[3]}' for it in rows] + after)

    def of_hosting(self):
        """The match of HOSTING, as its page has it, over a free port; and the match again without a net."""
        page = 'docs/HOSTING.md'
        lines = lines_of(page)
        at = next(at for at, line in enumerate(lines) if line.startswith('    files='))
        commands = block_after(lines, at)
        shown = block_after(lines, at + len(commands))
        line = '\n'.join(commands).replace('127.0.0.1:7070', free_address())
        ran = self.bash(line, 'examples/links')
        # The players print in any order.
        self.lines(page, 'the server', ran, 0, shown[shown.index('..') + 1:])
        printed = ran.out.decode().split('\n')
        for it in shown[:shown.index('..')]:
            self.tally.check(f'{page}: {it}', it in printed, printed)
        self.tally.same(f'{page}: three players', sum(it.startswith('play ') for it in printed), 3)
        at = next(at for at, line in enumerate(lines) if line.startswith('       { echo script'))
        again = '\n'.join([commands[0], *block_after(lines, at)])
        told = re.search(r'`(local frames 20 hash \w+) \.\.`', ' '.join(lines))
        if self.tally.check(f'{page}: the match again', told, 'is not told of'):
            self.lines(page, 'the match again', self.bash(again, 'examples/links'), 0, [f'{told[1]} ..'])


def run_all(tally, program, is_long):
    with tempfile.TemporaryDirectory() as folder:
        it = Pages(tally, program, folder)
        it.of_shown()
        it.of_new_files()
        it.of_dumps()
        it.of_untried()
        it.of_refused_drill()
        it.of_refused_migration()
        it.of_changed_program() if is_long else it.changed_source()
        it.of_script()
        it.of_files()
        it.of_bad_maps()
        it.of_bad_lines()
        it.of_schedule()
        it.of_hosting()
