"""The C library beside the program: its header, its names, and what programs in C, C++ and Python make of it."""
import os, random, re, subprocess, sys, tempfile, time
from concurrent.futures import ThreadPoolExecutor

import recorded
from drills import Drill, random_drill
from harness import PATIENCE, TOP, free_address, lacking
from made import made_drill

HERE = os.path.dirname(os.path.abspath(__file__))
HEADER = f'{TOP}/bindings/c/lockstep.h'
LIBRARY = f'{TOP}/bindings/c/out/liblockstep.a'
SHARED = f'{TOP}/bindings/c/out/liblockstep.so'
SAMPLE = f'{TOP}/examples/maps/sample.map', f'{TOP}/examples/maps/sample.yaml'
BATTLE = f'{TOP}/examples/battle/map', f'{TOP}/examples/battle/rules.yaml'
SCOUT = f'{TOP}/examples/scout/map', f'{TOP}/examples/scout/rules.yaml'

STRICT = '-Wall -Wextra -Wpedantic -Werror'
WRAPPED = '-Wl,--wrap=malloc,--wrap=realloc,--wrap=free'
ADDRESS = '-fsanitize=address,undefined -fno-sanitize-recover=all'
VALGRIND = 'valgrind -q --error-exitcode=98 --leak-check=full --errors-for-leak-kinds=all'


def call(words, folder=None, seconds=PATIENCE * 10, **how):
    """Runs a command to its end: its status, what it printed, and what it said on standard error."""
    if isinstance(words, str):
        words = words.split()
    try:
        ran = subprocess.run(words, cwd=folder, stdin=subprocess.DEVNULL, capture_output=True, timeout=seconds, **how)
    except subprocess.TimeoutExpired as late:
        return None, late.stdout or b'', late.stderr or b''
    return ran.returncode, ran.stdout, ran.stderr


class Library:
    # The files of a test program beside its own.
    BESIDE = {'engine': ('words', 'match')}

    def __init__(self, tally, program, folder, is_long):
        self.tally, self.program, self.folder, self.is_long = tally, program, folder, is_long

    def build(self, name, flags='-O1', cc='gcc', sources=None, libraries=''):
        """A test program that is linked to the library, as NAME in the folder."""
        sources = sources or [name, *self.BESIDE.get(name, ()), 'common', 'memory']
        to = f'{self.folder}/{name}{random.randrange(1 << 30)}'
        files = [f'{HERE}/{it}.c' for it in sources]
        wrapped = WRAPPED if 'memory' in sources else ''
        words = f'{cc} -std=c11 -g {STRICT} {flags} -o {to} {" ".join(files)} {LIBRARY} {wrapped} {libraries}'
        status, _, said = call(words)
        return to if self.tally.check(f'{name}: builds by {cc} {flags}', status == 0, said) else None

    def answers(self, name, words, want, **how):
        """That a command ends with 0 and prints this."""
        status, out, said = call(words, **how)
        why = f'status {status}, printed {out[-300:]!r}, said {said[-600:]!r}'
        return self.tally.check(name, (status, out) == (0, want), f'{why}, in place of {want!r}')

    # ---- The header and the names ----

    def of_header(self):
        """It compiles without a warning as C99 and C++17, and what it says of sizes and bytes is so."""
        for cc in ('gcc -std=c99', 'gcc -x c++ -std=c++17', 'clang -std=c99', 'clang -x c++ -std=c++17'):
            if lacking(cc.split()[0]):
                self.tally.skip(f'header: {cc}', f'no {cc.split()[0]}')
                continue
            to = f'{self.folder}/layout'
            status, _, said = call(f'{cc} {STRICT} {HERE}/layout.c -o {to}')
            self.tally.check(f'header: {cc}', status == 0, said)
            self.answers(f'header: layout by {cc}', [to], b'')

    def of_names(self):
        """The archive and the shared library have the calls of the header, and no other names."""
        with open(HEADER, encoding='utf-8') as it:
            declared = set(re.findall(r'^(?:uint32_t|void) (lockstep_\w+)\(', it.read(), re.MULTILINE))
        for file, words in ((LIBRARY, 'nm -g --defined-only'), (SHARED, 'nm -D --defined-only')):
            status, out, said = call(f'{words} {file}')
            found = {it.split()[2].decode() for it in out.splitlines() if len(it.split()) == 3}
            self.tally.same(f'names of {os.path.basename(file)}', sorted(found), sorted(declared))
        status, out, said = call(f'nm -g --undefined-only {LIBRARY}')
        wanted = {it.split()[-1].decode() for it in out.splitlines() if it.split()[:1] == [b'U']}
        allowed = {'malloc', 'realloc', 'free', 'memcpy', 'memmove', 'memset', 'memcmp', 'bcmp'}
        self.tally.check('names that the library wants', wanted <= allowed, wanted - allowed)

    # ---- The same text as the program's ----

    def of_recorded(self, command, name, every=1):
        """Recorded command lines, whose answers other programs agree on."""
        count, wrong = recorded.run(command, every)
        self.tally.check(f'recorded command lines{name}', count > 0 and not wrong, wrong[:5])
        if not wrong:
            print(f'bindings/c/test: {count} recorded command lines{name}', flush=True)

    def one_drill(self, engine, number, drill, files):
        """What differs between the program and the library over the recorded frames of one drill, if anything."""
        at = f'{self.folder}/drill{number}'
        script, record = f'{at}.drill', f'{at}.replay'
        with open(script, 'w') as it:
            it.write(drill)
        words = ['--map', files[0], *files[1:]]
        ran = call([self.program, 'drill', '--script', script, '--record', record, *words])
        if ran[0] != 0:
            return f'the program: {ran}'
        status, out, said = call([*engine, 'drill', '--script', script, *words])
        if (status, out) != (0, ran[1]):
            return f'drill {number}: status {status}, {said[-300:]!r}; {script}'
        for name in ('replay', 'worlds'):
            want = recorded.as_engine(name, call([self.program, name, '--file', record, *words])[1])
            status, out, said = call([*engine, name, '--file', record, *words])
            if (status, out) != (0, want):
                return f'drill {number}: {name}: status {status}, {said[-300:]!r}; {script}'
        os.remove(script)
        os.remove(record)
        return None

    def of_drills(self, engine, name, count, made):
        """The battle, made matches and random games. Of peers and a server, among which packets are lost, repeated and
        reordered: each answer, and the hashes of all. Of the replay: the hash after each frame, and each world."""
        with open(f'{TOP}/examples/battle/battle.drill', encoding='utf-8') as it:
            jobs = [('battle', it.read(), BATTLE)]
        jobs += [(f'made{it}', made_drill(it), SAMPLE) for it in made]
        jobs += [(it, random_drill(it, 40 if it % 2 else 60), SAMPLE) for it in range(count)]
        with ThreadPoolExecutor(os.cpu_count()) as pool:
            wrong = [it for it in pool.map(lambda job: self.one_drill(engine, *job), jobs) if it]
        self.tally.check(f'drills{name}', not wrong, wrong[:3])
        if not wrong:
            print(f'bindings/c/test: {len(jobs)} drills{name}', flush=True)

    # ---- Memory that is refused, bytes at random, threads ----

    def of_refused(self, engine):
        """Each allocation refused in turn: NO_MEMORY, and after the call is made again the same text."""
        script = f'{self.folder}/short.drill'
        record = f'{self.folder}/short.replay'
        with open(script, 'w') as it:
            it.write(random_drill(3, 60 if self.is_long else 6))
        call([self.program, 'drill', '--script', script, '--record', record, '--map', *SAMPLE])
        battle = f'{TOP}/examples/battle/battle.replay'
        scout = f'{TOP}/examples/scout/scout.replay'
        for words in (['drill', '--script', script, '--map', *SAMPLE],
                      ['worlds', '--file', battle, '--map', *BATTLE], ['worlds', '--file', record, '--map', *SAMPLE],
                      ['view', '--file', scout, '--client', '0', '--map', *SCOUT], ['check', '--map', *SAMPLE]):
            want = call([self.program, *words])
            status, out, said = call([engine, '--refuse', *words], seconds=PATIENCE * 60)
            same = (status, out) == (want[0], recorded.as_engine(words[0], want[1]))
            self.tally.check(f'refused memory: {words[0]}', same and b'refused ' in said, (status, out[-300:], said[-300:]))

    def of_codes(self, codes, name, before=''):
        """Each code of each call."""
        words = [*before.split(), codes, *SAMPLE]
        self.answers(f'codes{name}', words, b'', seconds=PATIENCE * 10)

    def of_bytes(self, bytes_of, name, calls, seed=1):
        words = [bytes_of, str(calls), str(seed), *SAMPLE]
        self.answers(f'bytes at random{name}', words, b'%d calls\n' % calls, seconds=PATIENCE * 60)

    def of_groups(self, groups, name, frames, before=''):
        """Three worlds on two threads: that of a script of the same orders, which the program plays."""
        script = f'{self.folder}/groups.script'
        with open(script, 'w') as it:
            it.write('script 2 7\n' + ''.join(f'{c} move {1 + (7 * n + c) % 16} {3 * n % 16} {5 * n % 16}\n'
                                              for n in range(frames) for c in range(2)))
        found = re.search(rb'local (frames \d+ hash \w+)', call([self.program, 'local', '--script', script, '--map', *SAMPLE])[1])
        words = [*before.split(), groups, str(frames), *SAMPLE]
        self.answers(f'groups on threads{name}', words, found and found[1] + b'\n', seconds=PATIENCE * 30)

    # ---- Over TCP ----

    def of_client(self, name, client, frames):
        """A client beside a bot of the program, both of the program's server: one hash. `client` gives its command at an
        address."""
        address = free_address()
        files = ['--map', *SAMPLE]
        words = ([self.program, 'serve', '--at', address, '--clients', '2', '--lag', '3', '--seed', '5', *files],
                 [self.program, 'play', '--at', address, '--bot', '--frames', str(frames), *files], client(address))
        with ThreadPoolExecutor(3) as pool:
            ends = list(pool.map(call, words))
        found = re.search(rb'server (frames \d+ hash \w+)', ends[0][1])
        same = found and ends[2][:2] == (0, found[1] + b'\n') and found[1].startswith(b'frames %d ' % frames)
        self.tally.check(name, same, ends)

    def of_joined(self, joined, name, frames, before=''):
        def client(address):
            return [*before.split(), joined, address.rsplit(':', 1)[1], str(frames), *SAMPLE]
        self.of_client(f'a client of serve{name}', client, frames)

    # ---- In C++ and Python ----

    def of_wrapped(self):
        """A match of two bots by lockstep.hpp, also without exceptions."""
        want = self.two_bots(60, SAMPLE, 7)
        for cc in ('g++ -std=c++17 -O1', 'g++ -std=c++20 -O2 -fno-exceptions -fno-rtti', 'clang++ -std=c++17 -O1'):
            if lacking(cc.split()[0]):
                self.tally.skip(f'wrapped: {cc}', f'no {cc.split()[0]}')
                continue
            to = f'{self.folder}/wrapped'
            status, _, said = call(f'{cc} {STRICT} {HERE}/wrapped.cpp -o {to} {LIBRARY}')
            if self.tally.check(f'wrapped: builds by {cc}', status == 0, said):
                self.answers(f'wrapped: two bots by {cc}', [to, '60', '7', *SAMPLE], want)

    def of_python(self):
        """Matches by lockstep.py, what it raises, and a player of its own rule at a server."""
        self.of_records()
        wrapped = [sys.executable, f'{HERE}/wrapped.py']
        self.answers('python: two bots', [*wrapped, 'bots', '60', '7', *SAMPLE], self.two_bots(60, SAMPLE, 7))
        self.answers('python: what raises', [*wrapped, 'faults', *SAMPLE], b'')
        for number in range(5):
            drill, script = Drill(number, 0, 12, (16, 16)), f'{self.folder}/orders.script'
            lines = [f'{client} {" ; ".join(drill.order() for _ in range(drill.random.randrange(5)))}'.rstrip()
                     for _ in range(40) for client in range(drill.clients) if drill.random.randrange(9)]
            with open(script, 'w') as it:
                it.write(f'script {drill.clients} {number}\n' + ''.join(f'{line}\n' for line in lines))
            found = call([self.program, 'local', '--script', script, '--map', *SAMPLE])[1]
            want = re.search(rb'local frames \d+ hash \w+', found)
            self.answers(f'python: orders {number}', [*wrapped, 'script', script, *SAMPLE], want and want[0] + b'\n')
        rules = f'{self.folder}/faulty.yaml'
        with open(rules, 'w') as it:
            it.write('jeep:\n\tHealth:\n\t\tHP: none\n')
        want = call([self.program, 'check', '--map', SAMPLE[0], SAMPLE[1], rules])
        self.tally.check('python: a fault to find', want[0] == 3, want)
        self.answers('python: a fault', [*wrapped, 'check', *SAMPLE, rules], want[1])
        player = [sys.executable, f'{TOP}/bindings/python/player.py']
        self.of_client('a client of serve in Python', lambda address: [*player, address, '80', '--map', *SAMPLE], 80)

    def of_records(self):
        """The records, numbers, causes and calls of lockstep.py are those of the header."""
        with open(HEADER, encoding='utf-8') as it:
            header = it.read()
        told = recorded.load(f'{TOP}/bindings/python/lockstep.py', 'lockstep')
        fields = [(kind, name) for kind, record in told.RECORDS.items() for name, _ in record._fields_]
        shown = ''.join(f'  SHOW({kind}, {name})\n' for kind, name in fields)
        shown += ''.join(f'  printf("{kind} %zu\\n", sizeof(lockstep_{kind}));\n' for kind in told.RECORDS)
        source, to = f'{self.folder}/records.c', f'{self.folder}/records'
        with open(source, 'w') as it:
            it.write(f'#include "{HEADER}"\n#include <stdio.h>\n#define SHOW(kind, name) printf(#kind " " #name " %zu %zu\\n", '
                     'offsetof(lockstep_##kind, name), sizeof(((lockstep_##kind *)0)->name));\n'
                     f'int main(void) {{\n{shown}  for (uint32_t it = 0; it < 64; it++) puts(lockstep_cause(it));\n}}\n')
        want = ''
        for kind, name in fields:
            place = getattr(told.RECORDS[kind], name)
            want += f'{kind} {name} {place.offset} {place.size}\n'
        want += ''.join(f'{kind} {told.ctypes.sizeof(record)}\n' for kind, record in told.RECORDS.items())
        want += ''.join(f'{told.CAUSES.get(it, "?")}\n' for it in range(64))
        status, _, said = call(f'gcc -std=c99 {STRICT} {source} -o {to}')
        if self.tally.check('python: its records as C', status == 0, said):
            self.answers('python: its records', [to], want.encode())
        of_header = dict(re.findall(r'\bLOCKSTEP_(\w+)(?: =)? (\d+)', header))
        numbers = {it.name: it.value for group in (told.Code, told.Traits) for it in group}
        numbers.update((it, getattr(told, it)) for it in told.__all__ if it.isupper())
        # What the methods of a setup say instead.
        beside = {'RULES', 'MAP'}
        self.tally.same('python: its numbers', {it: int(of_header[it]) for it in of_header if it not in beside}, numbers)
        calls = set(re.findall(r'^(?:uint32_t|void) lockstep_(\w+)\(', header, re.MULTILINE))
        self.tally.same('python: its calls', sorted(told.CALLS), sorted(calls))

    # ---- The page and the demo ----

    def page_program(self, first, source):
        """Writes the program of the page that begins with a line."""
        with open(f'{TOP}/docs/EMBEDDING.md', encoding='utf-8') as it:
            lines = it.read().split('\n')
        begin = lines.index(f'    {first}')
        end = next(at for at in range(begin, len(lines)) if lines[at] and not lines[at].startswith('    '))
        with open(source, 'w') as it:
            it.write('\n'.join(line[4:] for line in lines[begin:end]))

    def of_page(self):
        """The least program of the page, in C and in C++, and that in Python; they print what the program does."""
        self.page_program('import lockstep', f'{self.folder}/least.py')
        self.answers('the page: in Python', [sys.executable, f'{self.folder}/least.py'], self.crossing(), folder=TOP,
                     env={**os.environ, 'PYTHONPATH': f'{TOP}/bindings/python'})
        source, to = f'{self.folder}/least.c', f'{self.folder}/least'
        self.page_program('#include <lockstep.h>', source)
        for cc in ('gcc -std=c99', 'gcc -x c++ -std=c++17'):
            status, _, said = call([*cc.split(), *STRICT.split(), f'-I{TOP}/bindings/c', source, '-x', 'none', '-o', to, LIBRARY])
            if self.tally.check(f'the page: {cc}', status == 0, said):
                self.answers('the page: its program', [to], self.crossing(), folder=TOP)

    def crossing(self):
        """What the least program prints, by the program's world after the same orders."""
        script = f'{self.folder}/crossing.script'
        with open(script, 'w') as it:
            it.write('script 1 1\n0 move 4 8 5\n' + '0\n' * 99)
        found = re.search(rb'local (frames \d+ hash \w+)', call([self.program, 'local', '--script', script, '--map', *SAMPLE])[1])
        return found and found[1] + b'\n'

    def of_demo(self):
        """The demo builds, and without a screen its match of two bots is that of the program's bots."""
        if lacking('pkg-config') or call('pkg-config --exists sdl2')[0] != 0:
            self.tally.skip('demo', 'no SDL2')
            return
        demo = f'{self.folder}/demo'
        flags = call('pkg-config --cflags --libs sdl2')[1].decode().split()
        source = f'{TOP}/bindings/c/demo/demo.c'
        status, _, said = call(['gcc', '-std=c99', '-O1', *STRICT.split(), f'-I{TOP}/bindings/c', source, '-o', demo, LIBRARY, *flags])
        if self.tally.check('demo: builds', status == 0, said):
            words = [demo, '--bots', '--pause', '0', '--frames', '100', *SAMPLE]
            self.answers('demo: two bots', words, self.two_bots(100, SAMPLE, 1), env={**os.environ, 'SDL_VIDEODRIVER': 'dummy'})

    def two_bots(self, frames, files, seed):
        """The frames and the hash of a match of two bots, of which the program plays each over a link."""
        address = free_address()
        files = ['--map', *files]
        server = [self.program, 'serve', '--at', address, '--clients', '2', '--lag', '1', '--seed', str(seed), *files]
        player = [self.program, 'play', '--at', address, '--bot', '--frames', str(frames), *files]
        with ThreadPoolExecutor(3) as pool:
            ends = list(pool.map(call, (server, player, player)))
        found = re.search(rb'server (frames \d+ hash \w+)', ends[0][1])
        return found[1] + b'\n' if found else None


def timed(name, begun):
    print(f'bindings/c/test: {name}: {time.monotonic() - begun:.1f} s', flush=True)


def run_all(tally, program, is_long):
    """The whole suite, or without `is_long` its part below two minutes."""
    missing = lacking('gcc', 'nm')
    if missing or not os.path.exists(LIBRARY):
        tally.skip('bindings/c/test', f'no {missing}' if missing else 'bindings/c/build has made no library')
        return
    with tempfile.TemporaryDirectory() as folder:
        run_parts(Library(tally, program, folder, is_long))


def run_parts(it):
    begun, is_long = time.monotonic(), it.is_long
    it.of_header()
    it.of_names()
    it.of_page()
    engine, codes, bytes_of = (it.build(name) for name in ('engine', 'codes', 'bytes'))
    groups = it.build('groups', sources=['groups'], libraries='-pthread')
    joined = it.build('joined')
    if not (engine and codes and bytes_of and groups and joined):
        return
    it.of_codes(codes, '')
    it.of_recorded([engine], '')
    it.of_drills([engine], '', 500 if is_long else 40, range(1, 21 if is_long else 3))
    it.of_refused(engine)
    it.of_bytes(bytes_of, '', 10_000_000 if is_long else 1_000_000)
    it.of_groups(groups, '', 500 if is_long else 100)
    it.of_joined(joined, '', 200)
    small = it.build('groups', '-O2 -DSTACK=81920', sources=['groups'], libraries='-pthread')
    if small:
        it.of_groups(small, ', 64 KB of stack for a call', 100)
    it.of_wrapped()
    it.of_python()
    it.of_demo()
    timed('plain', begun)
    begun = time.monotonic()
    checked = it.build('engine', f'-O1 {ADDRESS}')
    if checked:
        it.of_recorded([checked], ', address and undefined sanitizers', 1 if is_long else 8)
        it.of_drills([checked], ', address and undefined sanitizers', 100 if is_long else 4, (1,))
    if is_long:
        spoiled = it.build('bytes', f'-O1 {ADDRESS}')
        if spoiled:
            it.of_bytes(spoiled, ', address and undefined sanitizers', 10_000_000, 2)
        threads = it.build('groups', '-O1 -fsanitize=thread', sources=['groups'], libraries='-pthread')
        if threads:
            it.of_groups(threads, ', thread sanitizer', 200)
    timed('sanitizers', begun)
    if lacking('valgrind'):
        it.tally.skip('valgrind, helgrind', 'no valgrind')
        return
    begun = time.monotonic()
    it.of_codes(codes, ', valgrind', VALGRIND)
    it.of_recorded([*VALGRIND.split(), engine], ', valgrind', 3 if is_long else 40)
    it.of_drills([*VALGRIND.split(), engine], ', valgrind', 10 if is_long else 1, ())
    it.of_joined(joined, ', valgrind', 40, VALGRIND)
    it.of_groups(groups, ', helgrind', 60 if is_long else 10, 'valgrind -q --tool=helgrind --error-exitcode=98')
    timed('valgrind', begun)
