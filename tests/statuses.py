"""Each status that a command can have, through the program's `main`: with real files, a full device, a closed pipe, a
closed input, limited memory. `serve` and `play` are tried by links.py too."""
import os, shutil, subprocess, tempfile

from harness import EXAMPLES, Ran, free_address, lacking, run, with_examples

# The rules and the map of the battle, and of the scout.
BATTLE = '--map battle/map battle/rules.yaml'
SCOUT = '--map scout/map scout/rules.yaml'

# The commands that end by themselves, in the folder of the examples. `record`, `migrate` and `save` write the file `new`.
COMMANDS = {
    'drill': 'drill --script battle/battle.drill --map battle/map battle/rules.yaml',
    'record': 'drill --script one_frame.drill --record new',
    'replay': 'replay --file battle/battle.replay --map battle/map battle/rules.yaml',
    'migrate': 'migrate --file one_frame_old.replay --to new',
    'save': 'save --file one_frame.replay --frames 1 --to new',
    'continue': f'continue --save battle/battle.save --file battle/battle.replay {BATTLE}',
    'compare': f'compare --file battle/battle.save --with battle/battle.save {BATTLE}',
    'compare replays': f'compare --file battle/battle.replay --with battle/battle.replay {BATTLE}',
    'view': f'view --file scout/scout.replay --client 0 {SCOUT}',
    'worlds': f'worlds --file battle/battle.replay {BATTLE}',
    'local': 'local --script local.script',
    'local with bots': 'local --script local.script --bots 1',
    'datagrams': 'datagrams --script datagrams.script',
    'make': 'make --number 1',
    'yaml': 'yaml yaml/base.yaml yaml/units.yaml',
    'check': 'check --map maps/sample.map maps/sample.yaml',
    'route': 'route --map maps/corner.map --kind unit --from 0,1 --to 2,1 maps/walker.yaml',
}

# The option of each command that writes a file, and which example has what it then writes.
WRITERS = {'record': ('--record', 'one_frame.replay'), 'migrate': ('--to', 'one_frame.replay'), 'save': ('--to', 'one_frame.save')}

# What each command that reads files says of a file of its that is missing, and of one that has a fault.
REFUSED = {
    'drill --script none': 'none 0 Missing',
    'drill --script one_frame.drill none': 'none 0 Missing',
    'drill --script refused.drill': 'refused.drill 4 NoSuchClient',
    'drill --script refused.drill --record new': 'refused.drill 4 NoSuchClient',
    'replay --file none': 'none 0 Missing',
    'replay --file one_frame.replay --map battle/map battle/rules.yaml': 'one_frame.replay 6 OtherRules',
    'migrate --file none --to new': 'none 0 Missing',
    'migrate --file one_frame.replay --to new --map battle/map battle/rules.yaml': 'one_frame.replay 6 OtherRules',
    'save --file none --frames 1 --to new': 'none 0 Missing',
    f'save --file one_frame.replay --frames 1 --to new {BATTLE}': 'one_frame.replay 6 OtherRules',
    'save --file one_frame.replay --frames 2 --to new': 'one_frame.replay 0 TooFewFrames',
    'continue --save none --file none': 'none 0 Missing',
    'continue --save one_frame.save --file none': 'none 0 Missing',
    'continue --save one_frame.replay --file one_frame.save': 'one_frame.replay 0 BadMagic',
    f'continue --save one_frame.save --file one_frame.replay {BATTLE}': 'one_frame.save 6 OtherRules',
    'continue --save one_frame.save --file short': 'short 0 TooFewFrames',
    'continue --save one_frame.save --file other': 'other 0 OtherMatch',
    'continue --save one_frame.save --file other_and_short': 'other_and_short 0 OtherMatch',
    'compare --file none --with one_frame.replay': 'none 0 Missing',
    'compare --file one_frame.save --with none': 'none 0 Missing',
    'compare --file one_frame.replay --with none': 'none 0 Missing',
    'compare --file empty --with none': 'none 0 Missing',
    'compare --file empty --with one_frame.save': 'empty 0 BadMagic',
    'compare --file one_frame.save --with one_frame.replay': 'one_frame.replay 0 BadMagic',
    'compare --file one_frame.replay --with one_frame.save': 'one_frame.save 0 BadMagic',
    'compare --file one_frame.save --with one_frame.save maps/sample.yaml mod/slip.yaml': 'mod/slip.yaml 5 NothingToRemove',
    f'compare --file one_frame.save --with empty {BATTLE}': 'one_frame.save 6 OtherRules',
    f'compare --file battle/battle.save --with one_frame.save {BATTLE}': 'one_frame.save 6 OtherRules',
    f'compare --file battle/battle.replay --with one_frame.replay {BATTLE}': 'one_frame.replay 6 OtherRules',
    'view --file none --client 0': 'none 0 Missing',
    'view --file one_frame.replay --client 1': 'view 0 NoSuchClient',
    'worlds --file none': 'none 0 Missing',
    'worlds --file one_frame.replay --to 2': 'one_frame.replay 0 TooFewFrames',
    'worlds --file one_frame.replay --from 2 --to 0': 'one_frame.replay 0 TooFewFrames',
    'local --script none': 'none 0 Missing',
    'local --script refused.drill': 'refused.drill 3 BadWord',
    'local --script local.script --bots 15': 'local.script 0 TooManyClients',
    'local --script refused.drill --bots 15': 'refused.drill 3 BadWord',
    'datagrams --script none': 'none 0 Missing',
    'datagrams --script one_frame.drill': 'one_frame.drill 2 BadWord',
    'yaml yaml/base.yaml none': 'none 0 Missing',
    'yaml maps/sample.yaml mod/slip.yaml': 'mod/slip.yaml 5 NothingToRemove',
    'check none': 'none 0 Missing',
    'check --map none maps/sample.yaml': 'none 0 Missing',
    'check maps/sample.yaml mod/slip.yaml': 'mod/slip.yaml 5 NothingToRemove',
    'route --map none --kind unit --from 0,1 --to 2,1 maps/walker.yaml': 'none 0 Missing',
    'route --map maps/corner.map --kind none --from 0,1 --to 2,1 maps/walker.yaml': 'route 0 NoKind',
    'route --map maps/corner.map --kind unit --from 0,1 --to 99,1 maps/walker.yaml': 'route 0 OffMap',
    'serve --at 127.0.0.1:1 --clients 1 none': 'none 0 Missing',
    'serve --at 127.0.0.1:1 --clients 1 maps/sample.yaml mod/slip.yaml': 'mod/slip.yaml 5 NothingToRemove',
    'play --at 127.0.0.1:1 --script none': 'none 0 Missing',
    'play --at 127.0.0.1:1 --script refused.drill': 'refused.drill 3 BadWord',
    'play --at 127.0.0.1:1 --bot --frames 1 none': 'none 0 Missing',
    'play --at 127.0.0.1:1 --bot --frames 1 maps/sample.yaml mod/slip.yaml': 'mod/slip.yaml 5 NothingToRemove',
}

# Commands of which one file can't be read: UNREAD stands for its name.
UNREADABLE = ['drill --script UNREAD', 'drill --script one_frame.drill --map UNREAD', 'replay --file UNREAD',
              'migrate --file UNREAD --to new', 'save --file UNREAD --frames 1 --to new',
              'continue --save UNREAD --file one_frame.replay', 'continue --save one_frame.save --file UNREAD',
              'compare --file UNREAD --with one_frame.replay', 'compare --file one_frame.replay --with UNREAD',
              'compare --file one_frame.save --with UNREAD', 'view --file UNREAD --client 0', 'worlds --file UNREAD', 'local --script UNREAD',
              'local --script UNREAD --bots 1', 'datagrams --script UNREAD', 'yaml UNREAD', 'check maps/sample.yaml UNREAD',
              'route --map UNREAD --kind unit --from 0,1 --to 2,1 maps/walker.yaml',
              'serve --at 127.0.0.1:1 --clients 1 UNREAD', 'play --at 127.0.0.1:1 --script UNREAD',
              'play --at 127.0.0.1:1 --bot --frames 1 UNREAD']

# Commands whose replay has a mark that differs.
DIFFERING = ['replay --file battle/differs.replay --map battle/map battle/rules.yaml',
             'migrate --file battle/differs.replay --to new --map battle/map battle/rules.yaml',
             f'continue --save battle/battle.save --file battle/differs.replay {BATTLE}']

# Two replays that differ, and how.
COMPARED = f'compare --file battle/battle.replay --with battle/differs.replay {BATTLE}'
DIFFERENCES = b'mark 2 e0ea008602e0482f e0ea008602e0482e\ndifferences 1\nend\n'

WORDS_REFUSED = Ran(2, b'refused words\n')
READ_FAULT = Ran(4, b'fault read\n')

# The lengths that files may have.
LONGEST = {'drill --script long': 67_108_864, 'local --script long': 67_108_864, 'datagrams --script long': 67_108_864, 'yaml long': 4_194_304,
           'check maps/sample.yaml --map long': 4_194_304, 'replay --file long': 268_435_456,
           'save --file long --frames 1 --to new': 268_435_456, 'continue --save long --file one_frame.replay': 4_194_304,
           'continue --save one_frame.save --file long': 268_435_456, 'view --file long --client 0': 268_435_456,
           'compare --file long --with one_frame.replay': 268_435_456, 'compare --file one_frame.replay --with long': 268_435_456,
           'compare --file one_frame.save --with long': 4_194_304,
           'worlds --file long': 268_435_456}

# How much memory the program is given, in kB, from little on.
LIMITS = range(2_000, 60_000, 500)


def files_of(folder):
    """The files below a folder with what they hold."""
    found = {}
    for there, _, names in os.walk(folder):
        for name in names:
            path = os.path.join(there, name)
            with open(path, 'rb') as file:
                found[os.path.relpath(path, folder)] = file.read()
    return found


class Statuses:
    def __init__(self, tally, program, folder):
        self.tally, self.program, self.folder = tally, program, with_examples(folder)
        self.files = files_of(self.folder)
        self.plain = {}

    def run(self, words, **how):
        words = words.split() if isinstance(words, str) else words
        return run(self.program, words, self.folder, **how)

    def written(self):
        """The files that a run wrote, which are then taken away, and whether all others are as they were."""
        found = files_of(self.folder)
        new = {name: data for name, data in found.items() if self.files.get(name) != data}
        for name in new:
            if name not in self.files:
                os.remove(os.path.join(self.folder, name))
        return new

    def wrote(self, name, want):
        self.tally.same(f'{name}: the files that are written', self.written(), want)

    def of_success(self):
        """Status 0, and the file that is then written."""
        for name, words in COMMANDS.items():
            self.plain[name] = ran = self.run(words)
            self.tally.same(f'{name}: status', ran.status, 0)
            self.tally.check(f'{name}: its text', ran.out.endswith(b'\n') and not ran.err, ran)
            self.wrote(name, {'new': self.files[WRITERS[name][1]]} if name in WRITERS else {})

    def of_words(self):
        """Status 2."""
        for words in ('', 'dance', 'drill --script', 'make --number 4294967296', 'save --file r --frames 4294967296 --to v',
                      'view --file r --client -1', 'worlds --file r --every 0', 'local --script s --bots 16', 'play --at a --bot',
                      'play --at a --script s --bot --frames 1', 'play --at a --bot --frames 262145', *(f'{it} --what' for it in COMMANDS.values())):
            self.tally.same(f'"{words}"', self.run(words), WORDS_REFUSED)
        for words in ([b'\xff'], [b'drill', b'--script', b'\xff.drill'], [b'yaml', b'\xc3']):
            self.tally.same(f'{words}, no UTF-8', self.run(words), WORDS_REFUSED)

    def add(self, name, data):
        """A file more beside the examples."""
        with open(os.path.join(self.folder, name), 'wb') as file:
            file.write(data)
        self.files[name] = data

    def of_files(self):
        """Status 3, of missing files, of faults, of what is refused, of files that are too long."""
        replay = self.files['one_frame.replay']
        # The seed stands from byte 14 on and the first part at byte 19; a zero byte ends a replay.
        other = replay[:14] + b'\x09' + replay[15:]
        for name, data in (('short', replay[:19] + b'\0'), ('other', other), ('other_and_short', other[:19] + b'\0'), ('empty', b'')):
            self.add(name, data)
        for words, what in REFUSED.items():
            self.tally.same(words, self.run(words), Ran(3, f'refused {what}\n'.encode()))
        long = os.path.join(self.folder, 'long')
        for words, length in LONGEST.items():
            with open(long, 'wb') as file:
                file.truncate(length + 1)
            self.tally.same(f'{words}, {length + 1} bytes', self.run(words), Ran(3, b'refused long 0 TooLong\n'))
        # What begins as a save may have as many bytes as one. What it is compared with is not read then.
        with open(long, 'wb') as file:
            file.write(b'LSSV')
            file.truncate(4_194_305)
        self.tally.same('a long save that is compared', self.run('compare --file long --with none'), Ran(3, b'refused long 0 TooLong\n'))
        os.remove(long)
        self.wrote('status 3', {})

    def of_reading(self):
        """Status 4, of a folder in place of a file and of a file that may not be read."""
        for words in UNREADABLE:
            self.tally.same(f'{words}, a folder', self.run(words.replace('UNREAD', 'battle')), READ_FAULT)
            self.tally.same(f'{words}, reading fails', self.run(words.replace('UNREAD', '/proc/self/mem')), READ_FAULT)
        if os.geteuid() == 0:
            self.tally.skip('files that may not be read', 'the superuser may read all')
            return
        closed = os.path.join(self.folder, 'closed')
        with open(closed, 'wb'):
            pass
        os.chmod(closed, 0)
        for words in UNREADABLE:
            self.tally.same(f'{words}, may not be read', self.run(words.replace('UNREAD', 'closed')), READ_FAULT)
        os.remove(closed)

    def of_output(self):
        """Status 5, of each command, also in place of 2, 3, 4 and 7. Then no file is written."""
        rows = {**COMMANDS, 'no command': '', 'a missing file': 'drill --script none', 'a folder': 'drill --script battle',
                'a differing mark': DIFFERING[0], 'files that differ': COMPARED}
        for name, words in rows.items():
            with open('/dev/full', 'wb') as full:
                self.tally.same(f'{name}: a full device', self.run(words, stdout=full).status, 5)
            reading, writing = os.pipe()
            os.close(reading)
            with os.fdopen(writing, 'wb') as closed:
                self.tally.same(f'{name}: a closed pipe', self.run(words, stdout=closed).status, 5)
            self.tally.same(f'{name}: no output', self.run(words, stdout=None, closed=(1,)).status, 5)
            self.wrote(f'{name}: a failed output', {})

    def of_head(self):
        """A reader that takes one line and goes."""
        script = os.path.join(self.folder, 'long.drill')
        with open(script, 'w') as file:
            file.write('match 1 1 1\n' + 'tick server\n' * 20_000)
        line = f'"$0" drill --script long.drill | head -n 1; echo "${{PIPESTATUS[0]}}"'
        ran = run('/bin/bash', ['-c', line, self.program], self.folder)
        self.tally.same('drill .. | head -n 1', ran, Ran(0, b'0 not yet 0\n5\n'))
        os.remove(script)

    def of_records(self):
        """Status 5 where the file can't be written, after the whole text; old files, and links to files."""
        for name, (option, example) in WRITERS.items():
            words, whole = COMMANDS[name], self.plain[name].out
            for place in ('none/new', 'battle', '/dev/full'):
                ran = self.run(words.replace(f'{option} new', f'{option} {place}'))
                self.tally.same(f'{name} into {place}', ran, Ran(5, whole))
            self.wrote(f'{name}: a failed write', {})
            with open(os.path.join(self.folder, 'old'), 'wb') as file:
                file.write(b'what was there before' * 100)
            os.chmod(os.path.join(self.folder, 'old'), 0o640)
            os.symlink('old', os.path.join(self.folder, 'link'))
            self.tally.same(f'{name} over a link', self.run(words.replace(f'{option} new', f'{option} link')), self.plain[name])
            self.tally.check(f'{name}: the link stays', os.path.islink(os.path.join(self.folder, 'link')), 'it is gone')
            mode = os.stat(os.path.join(self.folder, 'old')).st_mode & 0o777
            self.tally.same(f'{name}: the mode stays', oct(mode), '0o640')
            os.remove(os.path.join(self.folder, 'link'))
            self.wrote(f'{name} over a link', {'old': self.files[example]})
            ran = self.run(words.replace(f'{option} new', f'{option} /dev/null'))
            self.tally.same(f'{name} into /dev/null', ran, self.plain[name])

    def of_differences(self):
        """Status 7, of a mark and of two files."""
        self.tally.same(COMPARED, self.run(COMPARED), Ran(7, DIFFERENCES))
        for words in DIFFERING:
            ran = self.run(words)
            start = b'mark 2 file e0ea008602e0482e here e0ea008602e0482f\n'
            self.tally.check(words, ran.status == 7 and ran.out.startswith(start) and ran.out.endswith(b'\nend\n'), ran)
            self.wrote(words, {})

    def of_input(self):
        """No command here reads its input: none, a closed one, one with lines."""
        for name, words in COMMANDS.items():
            self.tally.same(f'{name}: a closed input', self.run(words, stdin=None, closed=(0,)), self.plain[name])
            self.written()

    def of_memory(self):
        """Status 6, with a prefix of the text, and no file; or the whole, once there is enough."""
        with open(os.path.join(self.folder, 'long.drill'), 'w') as file:
            file.write('match 1 1 1\n' + 'tick server\n' * 20_000)
        self.files = files_of(self.folder)
        # A thread that can't be started has no answer, so `local` is left out.
        rows = {**COMMANDS, 'a long drill': 'drill --script long.drill'}
        del rows['local'], rows['local with bots']
        short = 0
        for name, words in rows.items():
            whole, least = self.run(words), None
            self.written()
            for kilobytes in LIMITS:
                ran = self.run(words, kilobytes=kilobytes)
                short += self.holds_limited(name, kilobytes, ran, whole)
                if ran == whole:
                    least = kilobytes
                    break
            if self.tally.check(f'{name}: enough memory', least, f'{LIMITS[-1]} kB are too little'):
                for kilobytes in range(least - LIMITS.step, least, 20):
                    short += self.holds_limited(name, kilobytes, self.run(words, kilobytes=kilobytes), whole)
        self.tally.check('limited memory', short, 'no run was out of memory')

    def holds_limited(self, name, kilobytes, ran, whole):
        """Whether a run had too little memory. One for which the loader or the system had too little never began."""
        new = self.written()
        if ran.status in (127, -9, -11) and not ran.out:
            return False
        holds = ran == whole or (ran.status == 6 and whole.out.startswith(ran.out) and not new)
        self.tally.check(f'{name}: {kilobytes} kB', holds, ran)
        return ran.status == 6


def run_all(tally, program):
    with tempfile.TemporaryDirectory() as folder:
        it = Statuses(tally, program, folder)
        it.of_success()
        it.of_words()
        it.of_files()
        it.of_reading()
        it.of_output()
        if lacking('bash', 'head'):
            tally.skip('a reader that takes one line', f'no {lacking("bash", "head")}')
        else:
            it.of_head()
        it.of_records()
        it.of_differences()
        it.of_input()
        it.of_memory()
