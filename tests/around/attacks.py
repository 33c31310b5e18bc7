"""The program tffmt-all over a tree of another user, who exchanges entries while the program works: nothing of his gets into
a folder that isn't his, whatever he exchanges and when. And which pipes the two programs of trees wait for."""

import contextlib
import ctypes
import errno
import os
import select
import shutil
import stat
import subprocess
import threading

from files import contents
from harness import GOOD, LIMIT, NOBODY, OTHER, TOP, lines, put

EXCHANGE, HERE = 2, -100
MOST = 200
# How often the program runs beside an attacker at full speed.
RACES = 520
# How long a run may take that doesn't wait for anybody.
SECONDS = 5


def exchanger():
    """A function that exchanges two names by one call of the system, and answers whether it did."""
    system = ctypes.CDLL(None, use_errno=True)
    return lambda one, other: system.renameat2(HERE, os.fsencode(one), HERE, os.fsencode(other), EXCHANGE) == 0


def library(group):
    """The library of tests/refuse.c, which stands before the C library's calls."""
    made = group.top / 'refuse.so'
    if not made.exists():
        subprocess.run(
            ['gcc', '-O1', '-shared', '-fPIC', '-o', str(made), str(TOP / 'tests' / 'refuse.c'), '-ldl'], check=True
        )
    return str(made)


def outputs(started, top):
    """(what a run says, whether it waited at a pipe, and was woken). A run that is slow for the machine's sake goes on."""
    woken = False
    for _ in range(0, LIMIT, SECONDS):
        try:
            return started.communicate(timeout=SECONDS), woken
        except subprocess.TimeoutExpired:
            woken = wake(top) or woken
    raise TimeoutError('a run waits, and not at a pipe')


def attacked(group, words, top, counted='any', program=None, **setting):
    """(the output of a run, whether the call was reached before which something is done, whether the run had to be
    woken)."""
    back, told = os.pipe()
    started = subprocess.Popen(
        [program or group.trees, '--quiet', *words],
        cwd=str(top),
        pass_fds=[told],
        env=dict(group.setting, LD_PRELOAD=library(group), REFUSED=counted, REFUSE_FD=str(told), **setting),
        stdin=subprocess.DEVNULL,
        stdout=subprocess.PIPE,
        stderr=subprocess.PIPE,
    )
    os.close(told)
    try:
        (out, err), woken = outputs(started, top)
        return (started.returncode, out, err), os.read(back, 4), woken
    finally:
        started.kill()
        os.close(back)


class Held:
    """A run that waits before its Nth call of a kind, and with FROM_THEN before each later one too."""

    def __init__(self, group, words, top, counted='any', **setting):
        self.told, told = os.pipe()
        waits, self.to = os.pipe()
        self.started = subprocess.Popen(
            [group.trees, '--quiet', *words],
            cwd=str(top),
            pass_fds=[told, waits],
            env=dict(
                group.setting,
                LD_PRELOAD=library(group),
                REFUSED=counted,
                REFUSE_FD=str(told),
                WAIT_FD=str(waits),
                **setting,
            ),
            stdin=subprocess.DEVNULL,
            stdout=subprocess.PIPE,
            stderr=subprocess.PIPE,
        )
        os.close(told)
        os.close(waits)

    def reached(self):
        """The kind of the call before which the run waits, or nothing once it has ended."""
        if not select.select([self.told], [], [], LIMIT)[0]:
            self.started.kill()
        return os.read(self.told, 4)

    def go_on(self):
        with contextlib.suppress(BrokenPipeError):  # where the run has ended
            os.write(self.to, b'.')

    def ended(self):
        """The output of the run, once it has ended."""
        out, err = self.started.communicate(timeout=LIMIT)
        os.close(self.told)
        os.close(self.to)
        return self.started.returncode, out, err


def wake(top):
    """Opens the pipes that a run waits to read, so that it goes on. Whether there was one."""
    woken = False
    for path in top.rglob('*'):
        try:
            if stat.S_ISFIFO(os.lstat(str(path)).st_mode):
                os.close(os.open(str(path), os.O_WRONLY | os.O_NONBLOCK))
                woken = True
        except OSError as fault:
            if fault.errno not in (errno.ENXIO, errno.ENOENT):
                raise
    return woken


def give_away(path):
    for where, folders, names in os.walk(str(path)):
        for name in [where] + [os.path.join(where, name) for name in folders + names]:
            os.lchown(name, NOBODY, NOBODY)


def lay(group, what):
    """(the attacker's tree, root's folder, the exchanged name, and its replacement)."""
    top, victim = group.fresh(), group.fresh()
    put(top, {'in/x.tf': OTHER, 'in/y.tf': OTHER})
    put(victim, {'x.tf': OTHER, 'note': b'of root\n'})
    if what == 'a folder for a link':
        put(top, {'evil': b'->' + os.fsencode(str(victim))})
        pair = 'in', 'evil'
    elif what == 'a folder for another':
        put(top, {'evil/x.tf': b'->' + os.fsencode(str(victim / 'x.tf'))})
        pair = 'in', 'evil'
    elif what == 'a file for a link':
        put(top, {'evil': b'->' + os.fsencode(str(victim / 'note'))})
        pair = 'in/x.tf', 'evil'
    else:
        os.mkfifo(str(top / 'evil'))
        pair = 'in/x.tf', 'evil'
    give_away(top)
    return top, victim, pair


def is_untouched(victim):
    """Whether root's folder has its own files and no others; root may have formatted them."""
    found = {path.name: path for path in victim.iterdir()}
    return (
        set(found) == {'x.tf', 'note'}
        and {path.stat().st_uid for path in found.values()} == {0}
        and found['note'].read_bytes() == b'of root\n'
        and found['x.tf'].read_bytes() in (OTHER, GOOD)
    )


def held_up(group):
    """Before each call in turn the attacker makes his exchange."""
    for what in ('a folder for a link', 'a folder for another', 'a file for a link', 'a file for a pipe'):
        wrong, waited, number = [], [], 0
        for words in ([], ['--in-place', '--sync']):
            for number in range(1, MOST):
                top, victim, pair = lay(group, what)
                shown, reached, woken = attacked(group, words, top, REFUSE=str(number), EXCHANGE=pair[0], FOR=pair[1])
                waited += [reached] * woken
                files = [path.name for path in list(top.rglob('*')) + list(victim.rglob('*'))]
                if not is_untouched(victim) or any(name.startswith('.tffmt.') for name in files):
                    wrong.append((words, number, reached, shown, files))
                shutil.rmtree(str(top))
                shutil.rmtree(str(victim))
                if not reached:
                    break
        group.check('%s, before each call' % what, wrong[:1], [])
        group.holds('%s, before over 30 calls' % what, 30 < number < MOST - 1, number)
        # What stays: a pipe that comes between the look at a file and its opening for a read.
        group.check('%s: what is waited for' % what, waited, [b'open'] * 2 if what == 'a file for a pipe' else [])


def linter_held_up(group):
    """tfrules-all waits for no more than such a pipe, and goes on once that is opened for writing."""
    waited, number = [], 0
    for number in range(1, MOST):
        top, _, pair = lay(group, 'a file for a pipe')
        shown, reached, woken = attacked(
            group, ['in'], top, program=group.linted, REFUSE=str(number), EXCHANGE=pair[0], FOR=pair[1]
        )
        waited += [(reached, shown)] * woken
        if not reached:
            break
    told = lines('tfrules-all: error: in/x.tf: not a file')
    group.check('tfrules-all and a pipe, before each call', waited, [(b'open', (1, b'', told))])
    group.holds('before over 10 calls', 10 < number < MOST - 1, number)


def stepped(group, top, victim, moments):
    """(the output of a run over the attacker's file, the number of its calls, the entries of root's folder at one of
    them that shouldn't be there). Before some calls the attacker exchanges the folder above his for a link to the one
    above root's."""
    run, number, exchange, wrong = Held(group, ['up/in/x.tf'], top, REFUSE='1', FROM_THEN='1'), 0, exchanger(), []
    while run.reached():
        number += 1
        if number in moments:
            exchange(str(top / 'up'), str(top / 'evil'))
        found = {path.name: path.stat().st_uid for path in (victim / 'in').iterdir()}
        if set(found.values()) != {0} or not set(found) <= {'x.tf', 'note', '.tffmt.0'}:
            wrong.append((number, found))
        run.go_on()
    return run.ended(), number, wrong


def above(group):
    """The attacker exchanges a folder above before one call, and back before a later one."""
    top, victim = group.fresh(), group.fresh()
    exchange, number, most, first, second, wrong = exchanger(), MOST, 0, 1, 2, []
    while first < number:
        put(top, {'up/in/x.tf': OTHER})
        put(victim, {'in/x.tf': OTHER, 'in/note': b'of root\n'})
        if not os.path.lexists(str(top / 'evil')):
            put(top, {'evil': b'->' + os.fsencode(str(victim))})
        give_away(top)
        shown, number, seen = stepped(group, top, victim, (first, second))
        if (top / 'up').is_symlink():
            exchange(str(top / 'up'), str(top / 'evil'))
        left = os.listdir(str(top / 'up' / 'in'))
        if seen or left != ['x.tf'] or not is_untouched(victim / 'in'):
            wrong.append(((first, second), shown, seen, left))
        most = max(most, number)
        first, second = (first, second + 1) if second < number else (first + 1, first + 2)
    group.check('a folder above for a link, before each two calls', wrong[:1], [])
    group.holds('it makes over 20 calls', 20 < most < MOST, most)


class Attacker(threading.Thread):
    """Exchanges two names as often as it can, if it is to."""

    def __init__(self, *pair):
        super().__init__(daemon=True)
        self.pair, self.count = [str(name) for name in pair], 0
        self.at_work, self.is_over = threading.Lock(), False
        self.exchange = exchanger()

    def run(self):
        while not self.is_over:
            with self.at_work:
                self.count += self.exchange(*self.pair)


def at_full_speed(group):
    """The attacker exchanges a folder for a link to root's as often as he can, while the program runs."""
    top, victim, _ = lay(group, 'a folder for a link')
    names, wrong, ended = ['in/%02d.tf' % number for number in range(4)], [], {}
    attacker = Attacker(top / 'in', top / 'evil')
    attacker.at_work.acquire()
    attacker.start()
    for number in range(RACES):
        if (top / 'in').is_symlink():
            attacker.exchange(*attacker.pair)
        put(top, {name: OTHER for name in names})
        put(victim, {'x.tf': OTHER, 'note': b'of root\n'})
        give_away(top)
        attacker.at_work.release()
        done = group.format('in' if number % 2 else 'in/x.tf', *names, cwd=top)
        attacker.at_work.acquire()
        ended[done[0]] = ended.get(done[0], 0) + 1
        if not is_untouched(victim):
            wrong.append((number, done, sorted(os.listdir(str(victim)))))
            break
    attacker.is_over = True
    attacker.at_work.release()
    attacker.join()
    group.check('an attacker at full speed', wrong, [])
    group.holds('he made an exchange in many of over 500 runs', attacker.count > 500 < sum(ended.values()), ended)


def owners(group):
    """A file keeps its owner, who may do with it what he might, whoever else can put files into its folder."""
    for owner in (0, NOBODY, 12345):
        for mode in (0o755, 0o775, 0o2775, 0o777, 0o1777):
            for rights in (0o600, 0o640, 0o644):
                top = group.fresh()
                put(top, {'x.tf': OTHER})
                os.chown(str(top / 'x.tf'), NOBODY, 12346)
                (top / 'x.tf').chmod(rights)
                os.chown(str(top), owner, 12347)
                top.chmod(mode)
                status = group.format(cwd=top)[0]
                now = (top / 'x.tf').stat()
                used = group.call('sh', '-c', 'cat x.tf && echo b = 1 >>x.tf', cwd=top, user=NOBODY)
                group.check(
                    'a file of mode %o in a folder of %d of mode %o' % (rights, owner, mode),
                    (status, now.st_uid, now.st_gid, stat.S_IMODE(now.st_mode), used, (top / 'x.tf').read_bytes()),
                    (0, NOBODY, 12346, rights, (0, GOOD, b''), GOOD + b'b = 1\n'),
                )
    told = lines('x.tf: its owner cannot be kept; left as it is')
    for words, wanted in (([], ((4, b'', told), OTHER)), (['--in-place'], ((0, lines('x.tf'), b''), GOOD))):
        top = group.fresh()
        put(top, {'x.tf': OTHER})
        give_away(top)
        setting = dict(REFUSE='1', FROM_THEN='1', REASON=str(errno.EDQUOT))
        shown, reached, _ = attacked(group, [*words, 'x.tf'], top, 'owner', **setting)
        group.check(
            'a file that root cannot give to its owner %r' % words,
            ((shown, (top / 'x.tf').read_bytes()), reached, (top / 'x.tf').stat().st_uid, os.listdir(str(top))),
            (wanted, b'owne', NOBODY, ['x.tf']),
        )
    top = group.fresh()
    put(top, {'his/x.tf': OTHER, 'all/note': b''})
    give_away(top / 'his')
    (top / 'all').chmod(0o777)
    os.link(str(top / 'his' / 'x.tf'), str(top / 'all' / 'x.tf'))
    group.check('a file that has a name elsewhere', group.format('all', cwd=top)[0], 0)
    group.check(
        'the owner of each',
        [((top / name / 'x.tf').stat().st_uid, (top / name / 'x.tf').read_bytes()) for name in ('all', 'his')],
        [(NOBODY, GOOD), (NOBODY, OTHER)],
    )


def without_proc(group):
    """Where there is no /proc a folder is gone by its path, if nobody else can write it, for files of the caller's."""
    script = 'mount -t tmpfs none /proc && cd "$1" || exit 99\n"$2" --quiet --sync 2>&1; echo $?'
    top = group.fresh()
    put(top, {name: OTHER for name in ('mine/a.tf', 'mine/b.tf', 'his/a.tf', 'ours/a.tf')})
    give_away(top / 'his')
    os.chown(str(top / 'mine' / 'b.tf'), NOBODY, NOBODY)
    (top / 'ours').chmod(0o775)
    done = shutil.which('unshare') and group.call('unshare', '-m', 'sh', '-c', script, 'sh', top, group.trees, cwd='/')
    if not done or done[0] in (1, 99):
        group.skip('a system without /proc', 2, 'nothing can be mounted')
        return
    told = [name + ': no file can be made beside it' for name in ('his/a.tf', 'mine/b.tf', 'ours/a.tf')]
    group.check('without /proc', sorted(done[1].splitlines()), sorted(lines('mine/a.tf', '4', *told).splitlines()))
    group.check(
        'and what was written',
        contents(top),
        {'mine/a.tf': GOOD, 'mine/b.tf': OTHER, 'his/a.tf': OTHER, 'ours/a.tf': OTHER},
    )


def linked_folders(group):
    """A folder that is named by a link is gone into, however it is named; one that was none isn't, once it is a link."""
    for word in ('other', 'other/', './/other/.', 'other/a.tf', 'other//a.tf'):
        top = group.fresh()
        put(top, {'real/a.tf': OTHER, 'other': b'->real'})
        group.check(
            'a linked folder as %r' % word,
            (group.format(word, cwd=top), (top / 'real' / 'a.tf').read_bytes()),
            ((0, lines('other/a.tf'), b''), GOOD),
        )


def run(group):
    if not all(os.access(it, os.X_OK) for it in (group.trees, group.linted)):
        group.skip('attacks', 74, 'bin/tffmt-all or bin/tfrules-all is not built')
        return
    linked_folders(group)
    if not group.has('gcc', checks=69):
        return
    if os.getuid() != 0:
        group.skip('attacks', 69, 'not run by root')
        return
    for part in (held_up, linter_held_up, above, at_full_speed, owners, without_proc):
        part(group)
