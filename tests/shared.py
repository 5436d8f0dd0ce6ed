"""What the tests of the bench and of the tools share."""

import os
import subprocess
import sys
from functools import cache
from itertools import zip_longest
from pathlib import Path
from runpy import run_path
from types import SimpleNamespace

ROOT = Path(__file__).resolve().parent.parent
MACHINE = ROOT / 'tools/machine'
PATIENCE = 20  # seconds, for a program that should be done at once


def loaded_tool(name='script', root=ROOT):
    """A tool as a module. Its name has no ending, so it is loaded by its path."""
    return SimpleNamespace(**run_path(str(root / 'tools' / name)))


# ---- programs


def succeed(*command, folder=ROOT):
    """Runs a command of the build; where it fails its output is shown and the test ends."""
    done = subprocess.run(command, cwd=folder, stdin=subprocess.DEVNULL, stdout=subprocess.PIPE, stderr=subprocess.STDOUT, check=False)
    if done.returncode != 0:
        sys.exit(done.stdout.decode() + f'failed: {" ".join(map(str, command))}')


def built(name):
    """A proved program, built where there is none or a source is younger; `rt ci` leaves those that it has run."""
    program = ROOT / 'crates' / name / 'out' / name
    if not loaded_tool('bench').is_current(program):
        succeed('rt', 'run', folder=ROOT / 'crates' / name)
        os.utime(program)  # rt leaves it as it is where nothing has changed
    return program


def compiled(source, program, *flags):
    succeed(MACHINE, 'cc', *flags, source, '-o', program)
    return program


@cache
def prefix():
    """The words that stand before a program for x86-64; asked once, since a test runs many."""
    done = subprocess.run([MACHINE, 'prefix'], stdout=subprocess.PIPE, check=False)
    return done.stdout.decode().splitlines() if done.returncode == 0 else sys.exit(1)


def running(program, *words):
    """The command that runs a program for x86-64."""
    return [*prefix(), program, *words]


def started(*command):
    return subprocess.Popen(command, bufsize=0, stdin=subprocess.PIPE, stdout=subprocess.PIPE, stderr=subprocess.PIPE)


def printed(process, source=b''):
    """What a program prints for this input; how it ended, where that is not as it should be."""
    try:
        out, errors = process.communicate(source, timeout=PATIENCE)
    except subprocess.TimeoutExpired:
        process.kill()
        process.communicate()
        return b'(no end in time)'
    if process.returncode != 0 or errors:
        return f'(exit status {process.returncode}, errors {errors!r})'.encode()
    return out


# ---- comparisons


def first_difference(a, b):
    """The first lines in which two outputs differ; None where one has ended."""
    return next(pair for pair in zip_longest(a.splitlines(True), b.splitlines(True)) if pair[0] != pair[1])


class Cases:
    """Counts comparisons, and shows those that fail."""

    def __init__(self, name):
        self.name, self.passed, self.failed = name, 0, 0

    def same(self, what, wanted, got):
        if wanted == got:
            self.passed += 1
        else:
            self.failed += 1
            if isinstance(wanted, bytes):
                wanted, got = first_difference(wanted, got)
            print(f'{self.name}: {what}\n  wanted {repr(wanted)[:400]}\n  got    {repr(got)[:400]}')

    def end(self):
        """The last line of a test; its exit status says whether all is well."""
        print(f'{self.name}: {self.passed} cases passed' + (f', {self.failed} FAILED' if self.failed else ''))
        sys.exit(1 if self.failed or not self.passed else 0)
