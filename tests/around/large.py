"""tffmt-all over many files, many names and long diffs, with ample memory: it says what tffmt says of each file."""

import os

from files import ended
from harness import lines, put

FILES, NAMES = 20000, 5000
TEXTS = (b'a=1\n', b'a = 1\n', b'b "x" {\n  a=1\n    long = "${c}"\n}\n', b'# a\n', b'a=\n')
MIDDLE = 'tree/%03d/file%03d.tf'
ALL = 'tree/all/'


def name_of(number):
    """One folder has NAMES files, and each other one a hundred."""
    return ALL + 'a_name_of_26_bytes_%04d.tf' % number if number < NAMES else MIDDLE % (number // 100, number % 100)


class Judged:
    """What tffmt says of each of TEXTS."""

    def __init__(self, group):
        self.prints, self.faults = {}, {}
        for text in TEXTS:
            status, out, err = group.call(group.program, cwd=group.top, stdin=text)
            self.prints[text] = out if status == 0 else text
            if status != 0:
                self.faults[text] = err[len(b'tffmt: error: ') :]

    def is_other(self, text):
        return text not in self.faults and self.prints[text] != text


def tree(group, judged):
    """A tree of FILES files: their texts by their names, in the order of the reports."""
    top = group.fresh()
    texts = {name_of(number): TEXTS[number % 7 % len(TEXTS)] for number in range(FILES)}
    put(top, texts)
    return top, dict(sorted(texts.items()))


def reports(judged, texts, line):
    """The standard error for refused files, and for others with a message."""
    return b''.join(
        b'%s:%s' % (name.encode(), judged.faults[text]) if text in judged.faults else line(name, text)
        for name, text in texts.items()
    )


def many_files(group):
    judged = Judged(group)
    top, texts = tree(group, judged)
    others = [name for name, text in texts.items() if judged.is_other(text)]
    refused = reports(judged, texts, lambda name, text: b'')

    def not_formatted(name, text):
        return lines(name + ': not formatted') if judged.is_other(text) else b''

    def program(*words, **more):
        return group.format(*words, cwd=top, **more)

    group.check('--check', program('--check') == (2, b'', reports(judged, texts, not_formatted)), True)
    group.check('--list', program('--list') == (2, lines(*others), refused), True)
    listed = sum(len(name) - len(ALL) for name in texts if name.startswith(ALL))
    group.holds('a folder with over 100,000 bytes of names', listed > 100000, listed)
    named = b'\0'.join(name.encode() for name in texts)
    group.holds('names of over 100,000 bytes', len(named) > 300000, len(named))
    group.check(
        '--list of names from input', program('--list', '--null', stdin=named) == (2, ended(*others), refused), True
    )
    some = list(texts)[:300]
    shown = program('--check', *some)
    wanted = reports(judged, {name: texts[name] for name in some}, not_formatted)
    group.check('--check of 300 names', shown == (2, b'', wanted), True)
    status, diff, said = program('--diff')
    group.check('what --diff says of refused files', (status, said == refused), (2, True))
    group.check('it shows each file', diff.count(b'\n+++ ') + diff.startswith(b'+++ '), len(others))
    group.check('a run', program() == (2, lines(*others), refused), True)
    wrong = [name for name, text in texts.items() if (top / name).read_bytes() != judged.prints[text]]
    group.check('each file has what tffmt prints of it', wrong, [])
    if group.has('patch', checks=1):
        put(top, texts)
        group.call('patch', '-s', '-p1', cwd=top, stdin=diff)
        wrong = [name for name, text in texts.items() if (top / name).read_bytes() != judged.prints[text]]
        group.check('and patch makes the same of the diff', wrong, [])


def long_diff(group):
    """A diff of over four mebibytes."""
    top = group.fresh()
    text = b''.join(b'name%d  =  %d\n' % (number % 10, number) for number in range(220000))
    put(top, {'a.tf': text})
    printed = group.call(group.program, cwd=top, stdin=text)[1]
    status, diff, said = group.format('--diff', cwd=top)
    group.holds('a long diff', (status, said) == (3, b'') and len(diff) > 4 << 20, (status, said, len(diff)))
    wanted = [b'-' + line for line in text.splitlines()] + [b'+' + line for line in printed.splitlines()]
    group.check('it has each line', sorted(diff.splitlines()[3:]) == sorted(wanted), True)
    group.check('a run', group.format(cwd=top), (0, lines('a.tf'), b''))
    group.check('what it wrote', (top / 'a.tf').read_bytes() == printed, True)


def run(group):
    if not os.access(group.trees, os.X_OK):
        group.skip('large runs', 15, 'bin/tffmt-all is not built')
        return
    many_files(group)
    long_diff(group)
