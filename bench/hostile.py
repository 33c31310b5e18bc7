"""The table of bench/scan and bench/syntax: hostile inputs, timed through the program, or counted in instructions."""

import argparse
import concurrent.futures
import os
import pathlib
import sys
import tempfile

import inputs
from measure import MAX, MIB, best, in_ms, instructions, table

TOP = pathlib.Path(__file__).resolve().parent.parent
TIMES = 10
LIMIT = 60
# How many instructions a byte of a hostile input may take: five times the 85 that are the goal for ordinary
# configuration that isn't formatted.
MOST = 425


def main(name, cases, most={}):
    """Times the cases, or counts their instructions.

    `most` has those of which a byte may take more than `MOST`; their ratio may be as many times the limit.
    """
    read = argparse.ArgumentParser(
        usage='%s [--limit N] [--keep FOLDER] [PROGRAM]\n       %s --count [PROGRAM]' % (name, name)
    )
    read.add_argument('--limit', type=float, default=12)
    read.add_argument('--keep')
    read.add_argument('--count', action='store_true')
    read.add_argument('program', nargs='?', default=str(TOP / 'bin' / 'tffmt'))
    given = read.parse_args()
    program = os.path.abspath(given.program)
    if not os.access(program, os.X_OK):
        sys.exit('%s: %s is not a program; build it first' % (name, given.program))
    if given.count:
        return counted(name, program, cases, most)

    with tempfile.TemporaryDirectory() as made:
        store = pathlib.Path(given.keep or made)
        store.mkdir(parents=True, exist_ok=True)

        def job(text, label):
            path = store / label
            path.write_bytes(text)
            return [program], str(path)

        # it isn't in the style, as most of these inputs aren't: what is formatted is walked once less
        ordinary = inputs.messy(MAX)
        texts = [make(MAX) for _, make in cases]
        small = [make(MIB) for _, make in cases]
        jobs = [job(ordinary, 'ordinary.tf')]
        for number, ((label, _), text, less) in enumerate(zip(cases, texts, small)):
            assert len(text) <= MAX and len(less) <= MIB, label
            jobs += [job(text, '%02d.tf' % number), job(less, '%02d-small.tf' % number)]
        (usual, status), *found = best(jobs, TIMES, LIMIT)
        rows = [['ordinary configuration', format(len(ordinary), ','), shown(status), '', in_ms(usual), '1.0', '']]
        high = []
        for (label, _), text, (taken, status), (less, _) in zip(cases, texts, found[::2], found[1::2]):
            ratio = taken / usual
            rows.append(
                [
                    label,
                    format(len(text), ','),
                    shown(status),
                    in_ms(less),
                    in_ms(taken),
                    '%.1f' % ratio,
                    '%.1f' % (taken / less),
                ]
            )
            allowed = given.limit * most.get(label, MOST) / MOST
            if given.limit and ratio > allowed or status is None or status not in (0, 2):
                high.append(label)
        print(table(['input', 'bytes', 'status', '1 MiB', '4 MiB', 'ratio', 'growth'], rows))
    for label in high:
        print('too slow, or an unexpected status: %s' % label)
    return 1 if high else 0


def counted(name, program, cases, most):
    """Prints the instructions a byte of each case, by callgrind, and returns 1 if one takes more than it may."""

    def a_byte(case):
        label, make = case
        with tempfile.NamedTemporaryFile(suffix='.tf') as file:
            text = make(MIB)
            file.write(text)
            file.flush()
            found = instructions([program], file.name)
        if found is None:
            sys.exit('%s: --count needs valgrind' % name)
        return label, len(text), found / len(text), most.get(label, MOST)

    with concurrent.futures.ThreadPoolExecutor(os.cpu_count()) as pool:
        found = list(pool.map(a_byte, cases))
    print(
        table(
            ['input', 'bytes', 'instructions a byte', 'at most'],
            [[label, format(size, ','), '%.1f' % taken, str(limit)] for label, size, taken, limit in found],
        )
    )
    high = [label for label, _, taken, limit in found if taken > limit]
    for label in high:
        print('too many instructions: %s' % label)
    return 1 if high else 0


def shown(status):
    return 'over %d s' % LIMIT if status is None else str(status)
