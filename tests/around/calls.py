"""The system calls that tffmt-all makes on a file that it writes, in which order, and with which operands."""

import fcntl
import os
import subprocess
import tempfile

from attacks import MOST, attacked, library
from files import contents
from harness import GOOD, OTHER, put

# Longer than any buffer, and than what a file of one read has.
LONG, SHORT = b'a  =  1\n' * 30000, b'a = 1\n' * 30000
WIDE = b'a=1\n' * 30000
OWNER, GROUP, MODE = 12345, 12346, 0o640
CREATE = '%o' % (os.O_WRONLY | os.O_CREAT | os.O_EXCL)
LOCK = fcntl.LOCK_EX | fcntl.LOCK_NB
# What a write of a file can't do without: it isn't written over in place where one of these fails.
NEEDED = 'read', 'write', 'stat', 'list', 'chmod', 'sync', 'seek', 'follow'


def called(group, words, top, **setting):
    """The calls on files below a folder from the making of a new file on, without what repeats the one before."""
    with tempfile.TemporaryFile() as told:
        subprocess.run(
            [group.trees, '--quiet', *words],
            cwd=str(top),
            pass_fds=[told.fileno()],
            env=dict(group.setting, LD_PRELOAD=library(group), CALLS_FD=str(told.fileno()), **setting),
            stdin=subprocess.DEVNULL,
            stdout=subprocess.DEVNULL,
            stderr=subprocess.DEVNULL,
            timeout=60,
        )
        told.seek(0)
        rows = [row for row in told.read().decode().splitlines() if str(top) in row]
    rows = [row.replace(str(top) + '/', '').replace(str(top), '.') for row in rows]
    rows = [row.rsplit(' ', 1)[0] if row.startswith('write ') else row for row in rows]
    first = next((number for number, row in enumerate(rows) if '.tffmt.0' in row), len(rows))
    return [row for number, row in enumerate(rows) if number >= first and row != rows[number - 1]]


def lay(group, text=LONG, owner=OWNER):
    """A file, and one that a link leads to, of an owner and a mode that a new file hasn't."""
    top = group.fresh()
    put(top, {'in/x.tf': text, 'far/real.hcl': text, 'link.tf': b'->far/real.hcl'})
    for name in ('in/x.tf', 'far/real.hcl'):
        if os.getuid() == 0:
            os.chown(str(top / name), owner, GROUP)
        (top / name).chmod(MODE)
    return top


def in_order(group):
    """A new file is made for nobody else, locked, filled, given its owner and then its mode, and renamed; with --sync it is
    on the disk before that, and its own folder after it."""
    for word, folder, name in (('in', 'in', 'in/x.tf'), ('link.tf', 'far', 'far/real.hcl')):
        for synced in (False, True):
            made = folder + '/.tffmt.0'
            group.check(
                'the calls for %s%s' % (word, ', flushed' * synced),
                called(group, ['--sync'] * synced + [word], lay(group)),
                ['open %s %s 600' % (made, CREATE), 'lock %s %d' % (made, LOCK), 'write %s 600' % made]
                + ['owner %s %d %d' % (made, OWNER, GROUP)] * (os.getuid() == 0)
                + ['chmod %s 640' % made]
                + ['sync ' + made] * synced
                + ['read ' + name, 'rename %s %s' % (made, name)]
                + ['sync ' + folder] * synced,
            )


def in_place(group):
    """A file is written over if it can't be renamed, from its start, and cut after that."""
    for text, is_cut in ((LONG, True), (WIDE, False)):
        top = lay(group, text)
        rows = called(group, ['--in-place', '--sync', 'in'], top, DENIED='rename')
        group.check(
            'the calls of a file %s written over' % ('cut and' * is_cut),
            rows[rows.index('rename in/.tffmt.0 in/x.tf') + 1 :],
            ['unlink in/.tffmt.0', 'read in/x.tf', 'write in/x.tf 640']
            + ['truncate in/x.tf %d' % len(SHORT)] * is_cut
            + ['sync in/x.tf'],
        )
        group.check('what it has then', contents(top)['in/x.tf'], SHORT)


def not_in_place(group):
    """If anything else fails, it isn't overwritten. The file is the caller's, since another user's isn't replaced if
    its folder can't be held, as when a look-up of it fails, and then it may be overwritten."""
    for kind in NEEDED:
        over, number = [], 0
        for number in range(1, MOST):
            top = lay(group, owner=os.getuid())
            before = (top / 'in' / 'x.tf').stat().st_ino
            shown, reached, _ = attacked(group, ['--in-place', '--sync', 'in'], top, kind, REFUSE=str(number))
            if not reached:
                break
            after = (top / 'in' / 'x.tf').stat().st_ino
            if after == before and contents(top)['in/x.tf'] != LONG:
                over.append((number, shown))
        group.check('a file is not written over where %s fails' % kind, over, [])


def saved_before(group):
    """What another program saves before the old bytes are compared isn't written over."""
    save, lost = b'b=1\nb=2\n', []
    for number in range(1, MOST):
        top = group.fresh()
        put(top, {'a.tf': OTHER})
        _, reached, _ = attacked(
            group, ['--in-place'], top, REFUSE=str(number), SAVE=save.decode(), SAVE_TO='a.tf', DENIED='rename'
        )
        if not reached:
            break
        if (top / 'a.tf').read_bytes() not in (save, b'b = 1\nb = 2\n'):
            lost.append(reached)
    group.holds('saves that are lost where a file is written over', set(lost) == {b'seek', b'writ'}, lost)
    group.check('each once', len(lost), 2)
    put(top, {'a.tf': OTHER})
    group.check('and the file is written', (group.format(cwd=top)[0], contents(top)), (0, {'a.tf': GOOD}))


def run(group):
    if not os.access(group.trees, os.X_OK):
        group.skip('calls', 19, 'bin/tffmt-all is not built')
    elif group.has('gcc', checks=19):
        for part in (in_order, in_place, not_in_place, saved_before):
            part(group)
