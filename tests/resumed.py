"""Matches that are interrupted: the made match, saved after some of its frames, each time continued to the same end.

A record has a mark after each frame, and `continue` compares all from the save's frames on. So where it ends with
status 0, the world that was read from the save has had the hash of the uninterrupted one after every later frame."""
import os, tempfile

from harness import EXAMPLES, Ran, run
from made import ROUNDS, made_drill

# The made match of this number, and how many of its worlds are saved, spread over its frames.
NUMBER, SAVES = 7, 50

RULES = ['--map', os.path.join(EXAMPLES, 'maps/sample.map'), os.path.join(EXAMPLES, 'maps/sample.yaml')]


def run_all(tally, program):
    with tempfile.TemporaryDirectory() as folder:

        def of(*words):
            return run(program, [*words, *RULES], folder)

        with open(os.path.join(folder, 'made.drill'), 'w') as file:
            file.write(made_drill(NUMBER))
        made = run(program, ['make', '--number', str(NUMBER)]).out.partition(b'\n')[2]
        recorded = of('drill', '--script', 'made.drill', '--record', 'made.replay')
        tally.check('the made match, as a drill', recorded.status == 0 and recorded.out.endswith(b'\n' + made), recorded)
        whole = of('replay', '--file', 'made.replay')
        tally.same('the made match, replayed: status', whole.status, 0)
        for at in range(SAVES):
            frames = at * ROUNDS // (SAVES - 1)
            saved = of('save', '--file', 'made.replay', '--frames', str(frames), '--to', 'made.save')
            length = os.path.getsize(os.path.join(folder, 'made.save'))
            tally.same(f'saved after {frames} frames', saved, Ran(0, f'saved frames {frames} bytes {length}\nend\n'.encode()))
            resumed = of('continue', '--save', 'made.save', '--file', 'made.replay')
            tally.same(f'continued after {frames} frames', resumed, whole)
