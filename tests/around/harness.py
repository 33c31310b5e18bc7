"""Shared by the checks of tests/contrib: counting, and calling programs in a folder of their own."""

import os
import pathlib
import shutil
import signal
import stat
import subprocess
import tempfile

TOP = pathlib.Path(__file__).resolve().parent.parent.parent
NOBODY = 65534
GOOD, OTHER, BAD = b'a = 1\n', b'a=1\n', b'a=\n'
REFUSED = ':1:3: unexpected token'
LIMIT = 60
# What a git or a make around the tests says to those that they start, which isn't meant for these.
FOREIGN = ('GIT_', 'MAKE', 'MFLAGS')


def is_open(path):
    """Whether another user may enter each folder above a path, so that a check as such a user can reach it."""
    return all(it.stat().st_mode & 0o001 for it in pathlib.Path(os.path.realpath(path)).parents)


class Group:
    """Checks of one subject, with a temporary folder. `lines` is printed in the end."""

    def __init__(self, name, program, contrib):
        self.name, self.program, self.contrib = name, program, contrib
        self.passed = self.failed = self.skipped = 0
        self.lines, self.ran, self.missing = [], [], []
        self.made = tempfile.TemporaryDirectory(prefix='tffmt-tests-')
        self.top = pathlib.Path(os.path.realpath(self.made.name))
        self.top.chmod(0o755)
        self.setting = {name: value for name, value in os.environ.items() if not name.startswith(FOREIGN)}
        beside = pathlib.Path(program).with_name('tfrules')
        self.linter = str(beside if beside.exists() else TOP / 'bin' / 'tfrules')
        beside = pathlib.Path(program).with_name('tffmt-all')
        self.trees = str(beside if beside.exists() else TOP / 'bin' / 'tffmt-all')
        beside = pathlib.Path(program).with_name('tfrules-all')
        self.linted = str(beside if beside.exists() else TOP / 'bin' / 'tfrules-all')
        beside = pathlib.Path(program).with_name('tfls')
        self.server = str(beside if beside.exists() else TOP / 'bin' / 'tfls')
        under_test = [self.program, self.linter, self.trees, self.linted, str(self.contrib)]
        if all(map(os.path.exists, under_test)) and not all(map(is_open, under_test)):
            self.take_in()
        for name, program in (('tffmt-all', self.trees), ('tfrules-all', self.linted)):
            (self.folder('trees') / name).symlink_to(program)
        self.setting.update(
            TFFMT=self.program,
            TFFMT_ALL=self.trees,
            HOME=str(self.folder('home')),
            TMPDIR=str(self.folder('tmp')),
            GIT_CONFIG_NOSYSTEM='1',
            LC_ALL='C.UTF-8',
            TERM='dumb',
        )
        self.top.joinpath('tmp').chmod(0o777)

    def take_in(self):
        """Copies the tested files below the temporary folder, where another user reaches them."""
        under_test = self.folder('under-test')
        self.program, self.linter, self.trees, self.linted = (
            shutil.copy(it, str(under_test)) for it in (self.program, self.linter, self.trees, self.linted)
        )
        shutil.copytree(str(self.contrib), str(under_test / 'contrib'))
        self.contrib = under_test / 'contrib'

    def folder(self, name):
        made = self.top / name
        made.mkdir(parents=True, exist_ok=True)
        return made

    def fresh(self):
        """A new empty folder."""
        made = pathlib.Path(tempfile.mkdtemp(dir=str(self.top)))
        made.chmod(0o755)
        return made

    def check(self, name, given, wanted):
        if given == wanted:
            self.passed += 1
        else:
            self.failed += 1
            self.lines.append('%s: %s: wanted %r, got %r' % (self.name, name, wanted, given))

    def holds(self, name, truth, said=''):
        self.check(name, (bool(truth), '' if truth else said), (True, ''))

    def has(self, program, checks=1, why=None):
        """Whether a program is there. Where it isn't, the checks that need it count as skipped."""
        found = why is None and shutil.which(program)
        if found:
            if program not in self.ran:
                self.ran.append(program)
        else:
            self.skip(program, checks, why)
        return bool(found)

    def skip(self, what, checks, why=None):
        self.skipped += checks
        self.missing.append('%s (%s)' % (what, why or 'not installed'))

    def call(self, *words, cwd, stdin=b'', user=None, groups=(), limit=None, within=LIMIT, **setting):
        """(status, standard output, standard error) of a command; a status below 0 is a signal."""

        def prepare():
            if limit is not None:
                import resource

                resource.setrlimit(resource.RLIMIT_FSIZE, (limit, limit))
                signal.signal(signal.SIGXFSZ, signal.SIG_IGN)  # so that a write fails, as on a full device
            if user is not None:
                os.setgroups(groups)
                os.setgid(user)
                os.setuid(user)

        done = subprocess.run(
            [os.fspath(w) for w in words],
            cwd=str(cwd),
            env=dict(self.setting, **setting),
            input=stdin,
            stdout=subprocess.PIPE,
            stderr=subprocess.PIPE,
            timeout=within,
            preexec_fn=prepare,
        )
        return done.returncode, done.stdout, done.stderr

    def leaves(self, *words, cwd, given):
        """The result of a command on these bytes, as a file and as a pipe that is its standard input."""
        out, into = os.pipe()
        os.write(into, given)
        os.close(into)
        with tempfile.TemporaryFile(buffering=0) as file, open(out, 'rb', buffering=0) as pipe:
            file.write(given)
            file.seek(0)
            for stdin in (file, pipe):
                subprocess.run(
                    [os.fspath(w) for w in words],
                    cwd=str(cwd),
                    env=self.setting,
                    stdin=stdin,
                    stdout=subprocess.DEVNULL,
                    stderr=subprocess.DEVNULL,
                    timeout=LIMIT,
                )
            return file.read(), pipe.read()

    def format(self, *words, **more):
        """The output of tffmt-all without the count of files at its end."""
        return self.call(self.trees, '--quiet', *words, **more)

    def start(self, *words, cwd, **setting):
        def hear():
            # A shell's job in the background ignores this signal, and so would all that is started below it.
            signal.signal(signal.SIGINT, signal.SIG_DFL)

        return subprocess.Popen(
            [os.fspath(w) for w in words],
            cwd=str(cwd),
            env=dict(self.setting, **setting),
            stdin=subprocess.DEVNULL,
            stdout=subprocess.PIPE,
            stderr=subprocess.PIPE,
            preexec_fn=hear,
        )

    def end(self, process, sent=signal.SIGTERM):
        """(status, standard output, standard error) of a started command after a signal."""
        process.send_signal(sent)
        try:
            out, err = process.communicate(timeout=20)
        except subprocess.TimeoutExpired:
            process.kill()
            return 'did not end', b'', b''
        return process.returncode, out, err

    def script(self, name, text):
        """A folder with one program, to be put in front of the path."""
        folder = self.fresh()
        made = folder / name
        made.write_text('#!/bin/sh\n' + text)
        made.chmod(0o755)
        return made

    def before_path(self, *folders):
        """The path with these folders first, and then one that has the programs of trees alone."""
        return ':'.join([str(f) for f in folders] + [str(self.top / 'trees'), self.setting['PATH']])


def put(folder, files):
    """Writes files, by their names below a folder; a text that begins with `->` is a link."""
    for name, text in files.items():
        made = os.path.join(os.fsencode(str(folder)), name if isinstance(name, bytes) else os.fsencode(name))
        os.makedirs(os.path.dirname(made), exist_ok=True)
        if text.startswith(b'->'):
            os.symlink(text[2:], made)
        else:
            with open(made, 'wb') as file:
                file.write(text)


def special_links(top):
    """Makes a pipe and a socket below a folder, and links to these and to a device. Gives the names of the links."""
    (top / 'in').mkdir()
    os.mkfifo(str(top / 'in' / 'pipe.tf'))
    os.mknod(str(top / 'in' / 'socket.tf'), stat.S_IFSOCK | 0o600)
    links = {
        'in/device.tf': b'->/dev/null',
        'in/full.tf': b'->/dev/full',
        'in/linked.tf': b'->../pipe.tf',
        'pipe.tf': b'->in/pipe.tf',
        'socket.tf': b'->in/socket.tf',
    }
    put(top, links)
    return list(links)


def quoted(name):
    """A name as it is shown: between double quotes, with escapes of C, if it has a control character, `"` or `\\`."""
    odd = {code: '\\' + letter for code, letter in zip(b'\a\b\t\n\v\f\r"\\', 'abtnvfr"\\')}
    odd.update({code: '\\%03o' % code for code in [*range(32), 127] if code not in odd})
    return '"%s"' % name.translate(odd) if any(ord(letter) in odd for letter in name) else name


def shard_of(name, count):
    """The sum of docs/SCALE.md."""
    total = 0
    for byte in os.fsencode(name):
        total = (total * 31 + (1 if byte == 10 else byte)) % 4294967291
    return total % count


def lines(*each):
    """The bytes of lines of text."""
    return b''.join((one if isinstance(one, bytes) else one.encode()) + b'\n' for one in each)


def run(subject):
    """Runs a function over a group of its own; what came of it. A function that breaks off counts as failed."""
    function, name, program, contrib = subject
    group = Group(name, program, contrib)
    try:
        function(group)
    except Exception as fault:  # one group's fault must not hide another's
        group.failed += 1
        group.lines.append('%s: broke off: %r' % (name, fault))
    group.made.cleanup()
    return group.passed, group.failed, group.skipped, group.lines, group.ran, group.missing
