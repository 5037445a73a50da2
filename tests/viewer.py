"""The pages of `tools/viewer` in a headless Chromium, where there is one: in short, or with all that its test has."""
import os, subprocess, sys

from harness import TOP

VIEWER = os.path.join(TOP, 'tools/viewer')
sys.path.append(VIEWER)

import browser

# What takes less than a minute.
SHORT = ('texts', 'battle')


def run_all(tally, program, is_long):
    if not browser.found():
        tally.skip('the viewer', 'no chromium')
        return
    ran = subprocess.run([os.path.join(VIEWER, 'test'), '--program', program, *(() if is_long else SHORT)])
    tally.check('tools/viewer/test', ran.returncode == 0, f'status {ran.returncode}')
