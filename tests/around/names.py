"""Names that are hard to use: of any bytes, too long, taken; links out of folders of any name; rights that can't be kept;
calls that a signal interrupts."""

import errno
import os
import signal
import stat
import subprocess

from attacks import MOST, attacked
from files import contents
from harness import BAD, GOOD, NOBODY, OTHER, lines, put

# How many names are tried for a new file.
NAMES = 1000
LONGEST = 4095
# Calls that are made again where a signal interrupts them.
AGAIN = 'open', 'read', 'write', 'stat', 'list', 'rename', 'chmod', 'owner', 'sync', 'seek', 'follow', 'lock'


def other_folders(group):
    """Linked files are formatted below a folder of any name, as long as the links needn't be followed by it."""
    top = group.fresh() / os.fsdecode(b'caf\xe9')
    put(
        top,
        {
            'far/one.hcl': OTHER,
            'a/x.tf': b'->../far/two.hcl',
            'far/two.hcl': b'->one.hcl',
            'by/folder': b'->../far',
            'b.tf': b'->by/folder/three.hcl',
            'far/three.hcl': OTHER,
            'c.tf': b'->' + os.fsencode(str(top)) + b'/far/one.hcl',
        },
    )
    group.check(
        'links below a folder that is not UTF-8',
        group.format('a', 'b.tf', cwd=top),
        (0, lines('a/x.tf', 'b.tf'), b''),
    )
    found = contents(top)
    group.check('what they lead to', (found['far/one.hcl'], found['far/three.hcl']), (GOOD, GOOD))
    put(top, {'far/one.hcl': OTHER})
    group.check(
        'a link by the whole path',
        group.format('c.tf', cwd=top),
        (4, b'', lines("c.tf: the link leads to a name that isn't UTF-8")),
    )
    group.check('it stays', (top / 'far/one.hcl').read_bytes(), OTHER)


def long_paths(group):
    """A file is written whose path leaves no room for another name in its folder."""
    top, path, here = group.fresh(), '', os.getcwd()
    try:
        os.chdir(str(top))
        while len(path) < LONGEST - len('x.tf'):
            part = 'd' * min(200 - len(path) % 2, LONGEST - len('x.tf') - len(path) - 1)
            os.mkdir(part)
            os.chdir(part)
            path += part + '/'
        path += 'x.tf'
        with open('x.tf', 'wb') as file:
            file.write(OTHER)
        done = group.format(path, cwd=top)
        with open('x.tf', 'rb') as file:
            group.check('a path of %d bytes' % len(path), (done, file.read()), ((0, lines(path), b''), GOOD))
        group.check('nothing is left beside it', os.listdir('.'), ['x.tf'])
    finally:
        os.chdir(here)
        group.call('rm', '-rf', top, cwd='/')


def taken_names(group):
    """Where all names for a new file are taken, those of the caller's that are older than the run are taken again."""
    top = group.fresh()
    put(top, {'.tffmt.%d' % number: b'left' for number in range(NAMES)})
    put(top, {'a.tf': OTHER, 'b.tf': OTHER})
    for path in top.glob('.tffmt.*'):
        os.utime(str(path), (1, 1))
    group.check('where all names are taken', group.format(cwd=top), (0, lines('a.tf', 'b.tf'), b''))
    group.check('the files', ((top / 'a.tf').read_bytes(), (top / 'b.tf').read_bytes()), (GOOD, GOOD))
    group.check('what else is there', len(os.listdir(str(top))), NAMES + 1)
    put(top, {'a.tf': OTHER, '.tffmt.0': b'', '.tffmt.1': b''})
    for path in top.glob('.tffmt.*'):
        os.utime(str(path), (1 << 32, 1 << 32))
    group.check(
        'names of a run that is younger',
        group.format(cwd=top),
        (4, b'', lines('a.tf: no file can be made beside it')),
    )
    for path in top.glob('.tffmt.*'):
        path.unlink()
        path.mkdir()
    group.check(
        'names that folders have',
        group.format(cwd=top),
        (4, b'', lines('a.tf: no file can be made beside it')),
    )
    if os.getuid() == 0:
        for path in top.glob('.tffmt.*'):
            path.rmdir()
            path.write_bytes(b'')
            os.utime(str(path), (1, 1))
            os.chown(str(path), NOBODY, 0)
        group.check('names of another user', group.format(cwd=top)[0], 4)


def interrupted(group):
    """A call that a signal interrupts is made again."""
    for kind in AGAIN:
        wrong, number = [], 0
        for number in range(1, MOST):
            top = group.fresh()
            put(top, {'in/a.tf': b'a  =  1\n', 'b.tf': BAD, 'c.tf': b'->far/c', 'far/c': OTHER})
            if os.getuid() == 0:
                os.chown(str(top / 'in' / 'a.tf'), 12345, 12346)
            shown, reached, _ = attacked(group, ['--sync'], top, kind, REFUSE=str(number), REASON=str(errno.EINTR))
            if not reached:
                break
            if shown[:2] != (2, lines('c.tf', 'in/a.tf')) or contents(top)['in/a.tf'] != GOOD:
                wrong.append((number, shown))
        group.check('%s, interrupted' % kind, wrong, [])
        group.holds('a call of %s is made' % kind, number > 1, number)
    for kind, words in (('unlink', []), ('truncate', ['--in-place'])):
        top = group.fresh()
        put(top, {'a.tf': b'a  =  1\n'})
        setting = dict(REFUSE='1', REASON=str(errno.EINTR), DENIED='rename')
        shown, reached, _ = attacked(group, words, top, kind, **setting)
        group.check(
            '%s, interrupted' % kind,
            (shown[0], reached, contents(top)),
            ((0, b'trun', {'a.tf': GOOD}) if words else (4, b'unli', {'a.tf': b'a  =  1\n'})),
        )


def groups(group):
    """If the group can't be kept, it and all others get the rights that both had. It is kept if it is one of the
    caller's, even if the owner can't be."""
    for before, after in ((0o640, 0o600), (0o604, 0o600), (0o664, 0o644), (0o646, 0o644), (0o2775, 0o755)):
        top = group.fresh()
        put(top, {'x.tf': OTHER})
        for path, mode in ((top / 'x.tf', before), (top, 0o755)):
            os.chown(str(path), NOBODY, 12346)
            path.chmod(mode)
        status = group.format('x.tf', cwd=top, user=NOBODY)[0]
        now = (top / 'x.tf').stat()
        group.check(
            'the rights of a file of mode %o whose group is lost' % before,
            (status, now.st_gid, stat.S_IMODE(now.st_mode), (top / 'x.tf').read_bytes()),
            (0, NOBODY, after, GOOD),
        )
    for owner in (NOBODY, 12345):
        top = group.fresh()
        put(top, {'x.tf': OTHER})
        for path, mode in ((top / 'x.tf', 0o664), (top, 0o775)):
            os.chown(str(path), owner, 12346)
            path.chmod(mode)
        done = group.format('x.tf', cwd=top, user=NOBODY, groups=[12346])
        now = (top / 'x.tf').stat()
        group.check(
            'the group of a file of %d, which the caller has' % owner,
            (done, now.st_uid, now.st_gid, stat.S_IMODE(now.st_mode), (top / 'x.tf').read_bytes()),
            ((0, lines('x.tf'), b''), NOBODY, 12346, 0o664, GOOD),
        )


def too_large(group):
    """A file that grows past the limit on sizes ends the run by a signal; it stays as it is, and the next run goes on."""
    top = group.fresh()
    put(top, {'a.tf': b'a=1\n' * 1000})

    def limited():
        import resource

        resource.setrlimit(resource.RLIMIT_FSIZE, (2000, 2000))
        signal.signal(signal.SIGXFSZ, signal.SIG_DFL)

    done = subprocess.run([group.trees], cwd=str(top), stdin=subprocess.DEVNULL, preexec_fn=limited)
    group.check('past a limit', (done.returncode, (top / 'a.tf').read_bytes()), (-signal.SIGXFSZ, b'a=1\n' * 1000))
    group.check('and the next run', (group.format(cwd=top)[0], len(os.listdir(str(top)))), (0, 2))


def run(group):
    if not os.access(group.trees, os.X_OK):
        group.skip('names', 47, 'bin/tffmt-all is not built')
        return
    for part in (other_folders, long_paths, taken_names, too_large):
        part(group)
    if group.has('gcc', checks=2 * len(AGAIN) + 2):
        interrupted(group)
    if os.getuid() == 0:
        groups(group)
    else:
        group.skip('groups', 7, 'not run by root')
