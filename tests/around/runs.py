"""Parallel runs of tffmt-all in one folder: no text gets into the wrong file, and each run reports the outcome of its own
files."""

import errno
import fcntl
import os
import random

from attacks import Held, attacked
from files import contents
from harness import lines, put

# How many names are tried for a new file.
NAMES = 1000
# Before which calls a run is held up: of a leftover and of a new file.
CALLS = (
    ('lock', 1),
    ('lock', 2),
    ('unlink', 1),
    ('write', 1),
    ('chmod', 1),
    ('seek', 1),
    ('rename', 1),
)
# A file for each run, before and after.
TEXTS = {'%s.tf' % name: (b'%s=1\n' % name.encode(), b'%s = 1\n' % name.encode()) for name in 'abc'}
TRIOS = 60
LEFT = b'left'


def lay(top, free=()):
    """The files, and old leftovers of runs under each name for a new file, except the free names."""
    put(top, {name: old for name, (old, _) in TEXTS.items()})
    for number in range(NAMES):
        path = str(top / ('.tffmt.%d' % number))
        if number in free:
            if os.path.exists(path):
                os.remove(path)
        elif not os.path.exists(path):
            with open(path, 'wb') as file:
                file.write(LEFT)
            os.utime(path, (1, 1))


def fault_of(top, shown):
    """The fault after these runs, or nothing."""
    found = contents(top)
    for name, (status, out, err) in shown.items():
        old, new = TEXTS[name]
        done = {0: (new, lines(name)), 4: (old, b'')}.get(status)
        if done != (found.get(name), out) or (status == 4) != err.startswith(name.encode() + b': '):
            return '%s has %r after %r' % (name, found.get(name), (status, out, err))
    left = {text for name, text in found.items() if name not in TEXTS}
    return 'of a run is left: %r' % left if left - {LEFT} else None


def side_by_side(group, top, held, order):
    """The output of the runs that are held up before these calls, started in turn, and let go in this order."""
    runs = []
    for name, (kind, number) in zip(TEXTS, held):
        runs.append((name, Held(group, [name], top, kind, REFUSE=str(number))))
        runs[-1][1].reached()
    shown = {}
    for name, run in [runs[at] for at in order]:
        run.go_on()
        shown[name] = run.ended()
    return shown


def two(group):
    """Two runs, each held up before each call, with all names taken, and with one free."""
    top = group.fresh()
    for free in ((), (7,)):
        wrong, ends = [], []
        for held in [(one, other) for one in CALLS for other in CALLS]:
            for order in ((0, 1), (1, 0)):
                lay(top, free)
                shown = side_by_side(group, top, held, order)
                done = [status for status, _, _ in shown.values()]
                ends += done
                fault = fault_of(top, shown)
                wrong += [(held, order, fault)] * bool(fault)
                if done.count(0) < (2 if held[0][0] == held[1][0] == 'rename' else 1):
                    wrong.append((held, order, shown))
        group.check('two runs, with %d free names' % len(free), wrong[:1], [])
        group.holds('and most do their work', ends.count(0) > len(ends) * 9 // 10, ends.count(0))


def three(group):
    """Three runs, each held up before some call."""
    top, chance, wrong = group.fresh(), random.Random(11), []
    for _ in range(TRIOS):
        lay(top, chance.choice([(), (0,), (999,)]))
        held, order = [chance.choice(CALLS) for _ in range(3)], chance.sample(range(3), 3)
        fault = fault_of(top, side_by_side(group, top, held, order))
        wrong += [(held, order, fault)] * bool(fault)
    group.check('three runs', wrong[:1], [])


def locked(group):
    """A file that another run may hold isn't taken for a leftover, nor is any file if there are no locks."""
    top = group.fresh()
    lay(top)
    with open(str(top / '.tffmt.0'), 'rb') as file:
        fcntl.flock(file, fcntl.LOCK_SH)
        done = group.format('a.tf', cwd=top)
    found = contents(top)
    group.check('the first leftover is locked', (done, found['a.tf']), ((0, lines('a.tf'), b''), b'a = 1\n'))
    group.check('and stays', [found.get('.tffmt.%d' % number) for number in range(3)], [LEFT, None, LEFT])
    no_locks = dict(REFUSE='1', FROM_THEN='1', REASON=str(errno.EOPNOTSUPP))
    for free, wanted in (((), (4, b'', lines('b.tf: no file can be made beside it'))), ((1,), (0, lines('b.tf'), b''))):
        lay(top, free)
        shown, reached, _ = attacked(group, ['b.tf'], top, 'lock', **no_locks)
        group.check('without locks, with %d free names' % len(free), (shown, reached), (wanted, b'lock'))


def exchanged(group):
    """A pipe in the place of a leftover isn't waited for, and isn't removed."""
    top, wrong = group.fresh(), []
    # The last of these calls opens the leftover; before that come those for new files, and for the old one.
    for number in range(NAMES, NAMES + 5):
        lay(top)
        os.mkfifo(str(top / 'pipe'))
        setting = dict(REFUSE=str(number), EXCHANGE='.tffmt.0', FOR='pipe')
        shown, reached, woken = attacked(group, ['a.tf'], top, 'open', **setting)
        pipes = [it for it in top.iterdir() if it.is_fifo()]
        if woken or len(pipes) != 1 or shown[0] != 0:
            wrong.append((number, shown, reached, woken, pipes))
        pipes[0].unlink()
        if (top / 'pipe').exists():
            (top / 'pipe').unlink()
    group.check('a pipe in the place of a leftover', wrong[:1], [])


def run(group):
    if not os.access(group.trees, os.X_OK):
        group.skip('runs side by side', 10, 'bin/tffmt-all is not built')
    elif group.has('gcc', checks=10):
        for part in (two, three, locked, exchanged):
            part(group)
