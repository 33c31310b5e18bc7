"""Shared by the scripts that prove and pack: crates, calls of `rt`, and the programs in bin/.

Each crate that is a program is in bin/ under its name, with `-` for `_`. Beside it PROGRAM.sha256 notes the checksums of
the program and of the object that it was linked from, as `rt` had just made both, so that a release, which is linked
again, takes no other object. Called by itself, this ends with status 0 if all programs and objects are as noted.
"""

import contextlib
import fcntl
import hashlib
import os
import pathlib
import shutil
import signal
import subprocess
import sys
import tempfile

TOP = pathlib.Path(__file__).resolve().parent.parent
BIN = TOP / 'bin'


class Refusal(Exception):
    """Why the work can't be done."""


def crates():
    """The crates of crates.txt, each with the names of those that it depends on."""
    found = {}
    for line in (TOP / 'crates.txt').read_text().splitlines():
        if line.strip() and not line.startswith('#'):
            name, _, stands_on = line.partition(':')
            found[name.split()[0]] = stands_on.split()
    return {name: [it for it in stands_on if it in found] for name, stands_on in found.items()}


def is_program(crate):
    return (TOP / 'crates' / crate / 'src' / 'main.rt').exists()


def programs():
    """The crates that are programs, except the benchmark's."""
    return [it for it in crates() if is_program(it) and it != 'workloads']


def built_name(crate):
    return crate.replace('_', '-')


# --- calls of rt -------------------------------------------------------------------------------------------------------


@contextlib.contextmanager
def running(*words, **how):
    """A run of `rt`, which is ended if the work that it is for is ended first."""
    process = subprocess.Popen(['rt', *words], stdin=subprocess.DEVNULL, **how)
    try:
        yield process
    finally:
        if process.poll() is None:
            process.terminate()
        process.wait()


def interrupt(*_):
    raise KeyboardInterrupt


def work(script, target, function):
    """Does the work of a script, and says in one line why it can't go on. Gives the status."""
    # Ended by another program, it ends as after Ctrl-C, even if that signal is ignored, as in the background.
    signal.signal(signal.SIGTERM, interrupt)
    try:
        return function()
    except Refusal as why:
        print('%s: %s' % (script, why), file=sys.stderr)
    except OSError as error:
        print('%s: %s' % (script, reason(error)), file=sys.stderr)
    except KeyboardInterrupt:
        said = '%s: interrupted; what is proved is kept, and `%s` continues from there'
        print(said % (script, target), file=sys.stderr)
    return 1


def reason(error):
    return '%s: %s' % (error.filename, error.strerror) if error.filename else error.strerror


def hold_writable(folders):
    for folder in folders:
        try:
            folder.mkdir(exist_ok=True)
            with tempfile.TemporaryFile(dir=folder):
                pass
        except OSError as error:
            raise Refusal('%s can\'t be written: %s' % (folder.relative_to(TOP), error.strerror))


def work_alone():
    """Waits while another script proves in this checkout. Gives what keeps others waiting until it is closed."""
    held = open(str(BIN / 'lock'), 'w')
    try:
        fcntl.flock(held, fcntl.LOCK_EX | fcntl.LOCK_NB)
    except BlockingIOError:
        print('waiting for another make in this checkout', flush=True)
        fcntl.flock(held, fcntl.LOCK_EX)
    return held


# --- what it made ------------------------------------------------------------------------------------------------------


def made_by_rt(crate):
    return TOP / 'crates' / crate / 'out' / crate


def object_of(crate):
    return TOP / 'crates' / crate / 'out' / (crate + '.o')


def note_of(crate):
    return BIN / (built_name(crate) + '.sha256')


def note_on(crate, program):
    """The note on a program and its object, in the form of sha256sum."""
    files = ((program, BIN / built_name(crate)), (object_of(crate), object_of(crate)))
    sums = ((hashlib.sha256(file.read_bytes()).hexdigest(), name.relative_to(TOP)) for file, name in files)
    return ''.join('%s  %s\n' % it for it in sums)


def is_noted(crate):
    """Whether the program in bin/ and the object are those that were noted."""
    program, note = BIN / built_name(crate), note_of(crate)
    parts = (program, object_of(crate), note)
    return all(it.exists() for it in parts) and note.read_text() == note_on(crate, program)


def forget(crate):
    """Removes an earlier result of `rt` for a program, so that only its next result is taken."""
    for it in (made_by_rt(crate), object_of(crate), note_of(crate)):
        with contextlib.suppress(FileNotFoundError):
            it.unlink()


def put(crate):
    """Puts the program that `rt` has just made into bin/, and notes it with its object, if that is there."""
    with tempfile.TemporaryDirectory(dir=str(BIN)) as room:
        program, note = pathlib.Path(room, 'program'), pathlib.Path(room, 'note')
        shutil.copy(str(made_by_rt(crate)), str(program))
        if object_of(crate).exists():
            note.write_text(note_on(crate, program))
            os.replace(str(note), str(note_of(crate)))
        os.replace(str(program), str(BIN / built_name(crate)))


if __name__ == '__main__':
    sys.exit(0 if all(map(is_noted, programs())) else 1)
