"""The messages of `make` when it can't do its work, on a copy of the repository, with a kit that proves nothing."""

import os
import shutil
import signal
import subprocess
import time

from harness import TOP

# Stands for `rt`: it proves nothing, waits for PAUSE seconds, fails in the crate NOT_PROVED, and has a program that is
# built already, which it makes with an object where there is none.
STAND_IN = '''echo "$PWD $*" >>"$CALLS"
sleep "${PAUSE-0}"
mkdir -p out || exit 1
[ "${PWD##*/}" != "${NOT_PROVED-}" ] || { echo logic=not-proved; exit 1; }
made=out/${PWD##*/}
[ ! -e src/main.rt ] || [ -e "$made" ] || { echo "its object" >"$made.o"; cp "$PROGRAM" "$made"; }
echo logic=proved
'''


def run(group):
    if not group.has('make', checks=20):
        return
    copy = group.fresh() / 'copy'
    shutil.copytree(str(TOP), str(copy), ignore=shutil.ignore_patterns('.git', 'out', 'bin', 'cases', '__pycache__'))
    calls = group.top / 'calls'
    stand_in = group.script('rt', STAND_IN).parent
    nothing = group.script('python3', 'exec %s "$@"\n' % shutil.which('python3')).parent
    tools = tools_alone(group)

    def make(*words, path, user=None, **setting):
        status, out, err = group.call(
            'make',
            '-s',
            '-C',
            copy,
            *words,
            cwd=copy,
            PATH=path,
            user=user,
            CALLS=str(calls),
            PROGRAM=group.program,
            **setting,
        )
        own = [it for it in err.decode().splitlines() if not it.startswith('make: ***') and ' Error 1' not in it]
        return status, out.decode(), own

    kit = 'there is no rt on the path: the proofs need the Rattle kit; CONTRIBUTING.md says which'
    for target in ('all', 'bin/tffmt', 'try', 'test'):
        group.check(
            'make %s without rt' % target, make(target, path='%s:%s' % (nothing, tools)), (2, '', ['make: ' + kit])
        )
    group.check(
        'tools/prove without rt',
        group.call(copy / 'tools/prove', cwd=copy, PATH='%s:%s' % (nothing, tools)),
        (1, b'', b'tools/prove: %s\n' % kit.encode()),
    )
    group.check(
        'make without Python',
        make(path='%s:%s' % (stand_in, tools)),
        (2, '', ['make: there is no python3 of version 3.8 or later on the path']),
    )
    old = group.script('python3', 'exit 1\n').parent
    group.check(
        'make with an old Python',
        make(path='%s:%s:%s' % (old, stand_in, tools)),
        (2, '', ['make: there is no python3 of version 3.8 or later on the path']),
    )
    group.check('nothing was made, and rt was not called', ((copy / 'bin').exists(), calls.exists()), (False, False))
    calls.touch()
    calls.chmod(0o666)
    interrupted(group, copy, calls, stand_in)
    not_proved(group, copy, calls, stand_in)
    two_at_once(group, copy, calls, stand_in)
    full_disk(group, copy, calls, stand_in)
    unwritable(group, copy, calls, make, '%s:%s' % (stand_in, group.setting['PATH']))


def tools_alone(group):
    """A folder with the tools that the Makefile's rules need, and neither Python nor rt."""
    folder = group.fresh()
    for name in ('sh', 'find', 'echo', 'make', 'env', 'sed'):
        os.symlink(shutil.which(name), str(folder / name))
    return folder


def interrupted(group, copy, calls, stand_in):
    """After a signal nothing is half done, and no prover is left; begun again, the work ends."""
    setting = dict(
        group.setting,
        PATH='%s:%s' % (stand_in, group.setting['PATH']),
        CALLS=str(calls),
        PAUSE='2',
        PROGRAM=group.program,
    )
    # A shell's job in the background ignores the signal of Ctrl-C.
    words = ['sh', '-c', 'trap "" INT; exec "$@"', 'sh', str(copy / 'tools/prove'), 'tffmt']
    process = subprocess.Popen(words, cwd=str(copy), env=setting, stdout=subprocess.PIPE, stderr=subprocess.PIPE)
    deadline = time.monotonic() + 20
    while not calls.read_bytes() and time.monotonic() < deadline:
        time.sleep(0.05)
    status, out, err = group.end(process, signal.SIGTERM)
    group.check(
        'interrupted',
        (status, err),
        (1, b'tools/prove: interrupted; what is proved is kept, and `make` continues from there\n'),
    )
    group.check('nothing half done', made_in(copy / 'bin'), [])
    done = group.call(copy / 'tools/prove', 'tffmt', cwd=copy, **dict(setting, PAUSE='0'))
    group.check('begun again', (done[0], done[2], os.access(str(copy / 'bin/tffmt'), os.X_OK)), (0, b'', True))
    group.check(
        'the last line',
        'proved, in bin/tffmt, and its stored run is right' in done[1].decode().splitlines()[-1],
        True,
    )


def made_in(folder):
    """The files, except the prover's output and the file that keeps another make waiting."""
    return sorted(it.name for it in folder.iterdir() if not it.name.endswith('.log') and it.name != 'lock')


def not_proved(group, copy, calls, stand_in):
    """A crate above one that isn't proved, at any distance, is not tried, and the work ends."""
    setting = dict(
        PATH='%s:%s' % (stand_in, group.setting['PATH']),
        CALLS=str(calls),
        NOT_PROVED='hcl_layout',
        PROGRAM=group.program,
    )
    status, out, err = group.call(copy / 'tools/prove', 'tffmt', cwd=copy, **setting)
    not_tried = ' not tried, since a crate that it depends on is not proved'
    group.check(
        'a crate that is not proved',
        (status, [line.split()[0] for line in out.decode().splitlines() if line.endswith(not_tried)], err),
        (1, ['text_format', 'tffmt_command', 'tffmt'], b''),
    )


def two_at_once(group, copy, calls, stand_in):
    """If two build the same at once, the second waits, and finds it done."""
    setting = dict(
        PATH='%s:%s' % (stand_in, group.setting['PATH']), CALLS=str(calls), PAUSE='0.1', PROGRAM=group.program
    )
    both = [group.start(copy / 'tools/prove', 'tffmt', cwd=copy, **setting) for _ in range(2)]
    said = [(*it.communicate(timeout=60), it.returncode) for it in both]
    waited = sorted(out.count(b'waiting for another make in this checkout\n') for out, _, _ in said)
    group.check('two at once', (waited, [it[1:] for it in said]), ([0, 1], [(b'', 0)] * 2))
    sums = group.call('sha256sum', '--quiet', '-c', 'bin/tffmt.sha256', cwd=copy)
    group.check('what they made', (made_in(copy / 'bin'), sums), (['tffmt', 'tffmt.sha256'], (0, b'', b'')))
    # Another object isn't noted as that of the program: both are made again.
    made = copy / 'crates/tffmt/out/tffmt.o'
    made.write_bytes(b'of another program\n')
    done = group.call(copy / 'tools/prove', 'tffmt', cwd=copy, **setting)
    sums = group.call('sha256sum', '--quiet', '-c', 'bin/tffmt.sha256', cwd=copy)
    group.check('another object', (done[0], made.read_bytes(), sums), (0, b'its object\n', (0, b'', b'')))


def full_disk(group, copy, calls, stand_in):
    """On a full disk one line says so, and nothing is half done."""
    script = 'mount -t tmpfs -o size=64k none bin && "$@"; status=$?; [ "$status" = 32 ] || ls bin; exit "$status"'
    words = ['unshare', '-m', 'sh', '-c', script, 'sh', copy / 'tools/prove', 'tffmt']
    setting = dict(PATH='%s:%s' % (stand_in, group.setting['PATH']), CALLS=str(calls), PROGRAM=group.program)
    done = shutil.which('unshare') and group.call(*words, cwd=copy, NOT_PROVED='hcl_source', **setting)
    if not done or b'hcl_source' not in done[1]:
        group.skip('a full disk', 2, 'nothing can be mounted')
        return
    why = b'not proved; bin/hcl_source.log says why; the disk is nearly full'
    group.check(
        'a proof on a full disk', (done[0], done[1].splitlines()[1].partition(b's: ')[2], done[2]), (1, why, b'')
    )
    done = group.call(*words, cwd=copy, **setting)
    why = b"proved, but bin/tffmt can't be written: No space left on device"
    said = [it.partition(b's: ')[2] for it in done[1].splitlines() if it.startswith(b'tffmt ')]
    group.check('a program that has no room', (done[0], said, done[2]), (1, [why], b''))


def unwritable(group, copy, calls, make, path):
    """Where a folder can't be written, one line says which."""
    if os.geteuid():
        group.skip('a folder of another user', 3, 'needs root')
        return
    shutil.rmtree(str(copy / 'bin'))
    for it in copy.glob('crates/*/out'):
        shutil.rmtree(str(it))
    calls.write_bytes(b'')
    group.check(
        "a folder that can't be written",
        (make('bin/tffmt', path=path, user=65534), calls.read_bytes()),
        ((2, '', ["tools/prove: bin can't be written: Permission denied"]), b''),
    )
    group.check(
        "make test where it can't be written",
        (make('test', path=path, user=65534), calls.read_bytes()),
        ((2, '', ["tests/gate: bin can't be written: Permission denied"]), b''),
    )
    (copy / 'bin').mkdir()
    (copy / 'bin').chmod(0o777)
    group.check(
        "a crate that can't be written",
        (make('bin/tffmt', path=path, user=65534), calls.read_bytes()),
        ((2, '', ["tools/prove: crates/hcl_source/out can't be written: Permission denied"]), b''),
    )
