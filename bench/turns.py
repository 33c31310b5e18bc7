"""Times the workloads of two built checkouts by turns.

    bench/run OLD NEW [SEED]

OLD and NEW are checkouts in which each program that bench/workloads.txt names is built (`rt run` in its crate). A line of
that file is NAME CRATE WORD..: the program crates/CRATE/out/CRATE is run with these words in the folder bench/ of this
checkout, with SEED, 1 by default, in place of the word SEED, and with the file of a last word <FILE, or nothing, as its
standard input. The runs take turns, so that a slow spell of the machine hits both checkouts. If the outputs of the two
differ, or those of one from turn to turn, it stops. It prints the medians in seconds, and their ratio.
"""

import pathlib
import statistics
import subprocess
import sys
import time

TOP = pathlib.Path(__file__).resolve().parent.parent
TURNS = 9


def workloads():
    """(name, crate, words) of each line."""
    for line in (TOP / 'bench' / 'workloads.txt').read_text(encoding='utf-8').splitlines():
        if line.strip() and not line.startswith('#'):
            name, crate, *words = line.split()
            yield name, crate, words


def once(program, words):
    """(seconds, output) of one run."""
    given = subprocess.DEVNULL
    if words and words[-1].startswith('<'):
        given = open(TOP / 'bench' / words.pop()[1:], 'rb')
    begin = time.perf_counter()
    done = subprocess.run([str(program), *words], cwd=TOP / 'bench', stdin=given, capture_output=True)
    taken = time.perf_counter() - begin
    if given is not subprocess.DEVNULL:
        given.close()
    return taken, (done.returncode, done.stdout, done.stderr)


def medians(name, programs, words):
    """The median of each program's times, taken by turns."""
    times, wanted = [[] for _ in programs], None
    for turn in range(TURNS):
        # Each begins every other turn.
        for number in sorted(range(len(programs)), reverse=turn % 2 == 1):
            taken, given = once(programs[number], list(words))
            if given[0] != 0:
                sys.exit('bench/run: %s: %s ended with status %d' % (name, programs[number], given[0]))
            if given != (wanted or given):
                sys.exit('bench/run: %s: the outputs differ: %r and %r' % (name, wanted, given))
            wanted = given
            times[number].append(taken)
    return [statistics.median(it) for it in times]


def compare(old, new, seed):
    """Prints the medians of each workload in both checkouts, and their ratio."""
    tops = [pathlib.Path(it).resolve() for it in (old, new)]
    chosen = list(workloads())
    for _, crate, _ in chosen:
        for top in tops:
            if not (top / 'crates' / crate / 'out' / crate).is_file():
                sys.exit('bench/run: %s has no built %s: `rt run` in its crate builds it' % (top, crate))
    print('| workload | seconds at the start | seconds now | start over now |')
    print('|---|---:|---:|---:|')
    for name, crate, words in chosen:
        programs = [top / 'crates' / crate / 'out' / crate for top in tops]
        words = [str(seed) if it == 'SEED' else it for it in words]
        before, now = medians(name, programs, words)
        print('| %s | %.3f | %.3f | %.2f |' % (name, before, now, before / now), flush=True)
