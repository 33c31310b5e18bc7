"""The packages of `make dist`: the same bytes each time, and programs that run where there is nothing else."""

import os
import re
import shutil
import stat
import struct
import subprocess
import tarfile

from harness import GOOD, OTHER, TOP, lines

ELSEWHERE = {'TZ': 'Asia/Tokyo', 'LC_ALL': 'C', 'USER': 'nobody', 'LOGNAME': 'nobody'}
MESSAGE = b'tffmt: error: 1:3: unexpected token\n'


NEEDS = ('git', 'make', 'gcc', 'strip', 'readelf', 'dpkg-deb', 'dpkg-query', 'rt')
PROGRAMS = ('tffmt', 'tfrules', 'tffmt-all', 'tfrules-all', 'tfls')
# The kind of a segment that names the loader.
LOADER = 3


def missing(group, needs, checks):
    lacking = [it for it in needs if not shutil.which(it)]
    made = [TOP / 'bin' / (it + end) for it in PROGRAMS for end in ('', '.sha256')]
    made += [object_of(TOP, it) for it in PROGRAMS]
    if not lacking and not all(it.exists() for it in made):
        group.skip('make dist', checks, 'the programs or their objects are not built')
        return True
    if lacking:
        group.has(lacking[0], checks=checks)
    return bool(lacking)


def object_of(top, name):
    crate = name.replace('-', '_')
    return top / 'crates' / crate / 'out' / (crate + '.o')


def tree(folder):
    """What lies below a folder: the name, mode and bytes of each file, and the name of each folder."""
    return sorted(
        (str(it.relative_to(folder)), '' if it.is_dir() else (stat.S_IMODE(it.lstat().st_mode), it.read_bytes()))
        for it in folder.rglob('*')
        if not it.is_symlink()
    )


def pack(group, to, top=TOP, **setting):
    return group.call(top / 'tools' / 'dist', '--untried', to, cwd=group.top, **setting)


def copy_of_sources(group):
    """The repository in another folder, with other times and modes."""
    made = group.fresh() / 'another place'
    shutil.copytree(
        str(TOP),
        str(made),
        ignore=shutil.ignore_patterns('.git', 'out', 'cases', '__pycache__'),
        copy_function=shutil.copyfile,
    )
    for it in [*made.joinpath('bin').iterdir(), *made.joinpath('contrib').iterdir(), *made.joinpath('tools').iterdir()]:
        if it.is_file():
            it.chmod(0o700)
    for name in PROGRAMS:
        object_of(made, name).parent.mkdir()
        shutil.copy(str(object_of(TOP, name)), str(object_of(made, name)))
    return made


def packing(group):
    """Two packings, in two folders and of two copies, give the same bytes."""
    if missing(group, NEEDS, 15):
        return
    first, second = group.fresh() / 'one', group.fresh() / 'two'
    group.check(
        'SOURCE_DATE_EPOCH that is no number',
        pack(group, first, SOURCE_DATE_EPOCH='now'),
        (1, b'', b'tools/dist: SOURCE_DATE_EPOCH is no number of seconds: now\n'),
    )
    group.check('and nothing is packed', first.exists(), False)
    done = pack(group, first, SOURCE_DATE_EPOCH='1700000000')
    group.check('packing', (done[0], done[2]), (0, b''))
    other = copy_of_sources(group)
    done = group.call(
        'sh',
        '-c',
        'umask 077; exec "$@"',
        'sh',
        other / 'tools' / 'dist',
        '--untried',
        second,
        cwd=group.top,
        SOURCE_DATE_EPOCH='1700000000',
        **ELSEWHERE,
    )
    group.check('packing a copy', (done[0], done[2]), (0, b''))
    same = [(it.name, it.read_bytes() == (second / it.name).read_bytes()) for it in sorted(first.iterdir())]
    version = (TOP / 'VERSION').read_text().strip()
    names = [
        'SHA256SUMS',
        'tffmt-%s-linux-x86_64.tar.gz' % version,
        'tffmt-%s-py3-none-manylinux_2_17_x86_64.whl' % version,
        'tffmt-%s-relink.tar.gz' % version,
        'tffmt_%s_amd64.deb' % version,
    ]
    group.check('the same bytes', same, [(name, True) for name in names])
    group.check('SHA256SUMS', group.call('sha256sum', '--quiet', '-c', 'SHA256SUMS', cwd=first), (0, b'', b''))
    programs = in_tarball(group, first / names[1])
    in_package(group, first / names[4], version)
    relinked(group, first / names[3], programs)
    not_packed(group, other)


def in_tarball(group, file):
    """The programs that a tarball has, whose entries don't tell who packed it."""
    with tarfile.open(str(file)) as archive:
        entries = archive.getmembers()
        group.check(
            'owners, modes and times',
            {(it.uid, it.gid, it.uname, it.mtime) for it in entries},
            {(0, 0, 'root', 1700000000)},
        )
        group.check('modes', {it.mode for it in entries}, {0o755, 0o644})
        group.check('names are sorted', [it.name for it in entries], sorted(it.name for it in entries))
        programs = {
            it.name.rpartition('/')[2]: archive.extractfile(it).read()
            for it in entries
            if re.search('/bin/(%s)$' % '|'.join(PROGRAMS), it.name)
        }
    held = [
        path
        for path in (str(TOP), '/crates/', '/home/', '/tmp/', '/root/')
        for text in programs.values()
        if path.encode() in text
    ]
    group.check(
        'no path of the build, no symbol table, and no loader',
        (sorted(programs), held, [(b'.symtab' in it, LOADER in segments(it)) for it in programs.values()]),
        (sorted(PROGRAMS), [], [(False, False)] * len(PROGRAMS)),
    )
    return programs


def segments(program):
    """The kinds of the segments of a program."""
    first, size, count = struct.unpack_from('<Q', program, 32)[0], *struct.unpack_from('<HH', program, 54)
    return {struct.unpack_from('<I', program, first + size * it)[0] for it in range(count)}


def in_package(group, file, version):
    control = group.call('dpkg-deb', '-f', file, 'Package', 'Version', 'Architecture', 'Depends', cwd=group.top)
    group.check(
        'the package depends on nothing',
        control[1].decode(),
        'Package: tffmt\nVersion: %s\nArchitecture: amd64\n' % version,
    )
    if group.has('lintian'):
        said = group.call('lintian', '--allow-root', '--fail-on', 'error', file, cwd=group.top)
        group.check('lintian', (said[0], [it for it in said[1].splitlines() if it.startswith(b'E')]), (0, []))


def relinked(group, file, programs):
    """The objects for who has another C library give the programs of the release, by the commands beside them."""
    room = group.fresh()
    group.call('tar', '-xzf', file, cwd=room)
    folder = next(room.iterdir())
    words = re.findall(r'^    (gcc .*)', (folder / 'README').read_text(), re.M)
    for it in words:
        group.call('sh', '-c', it, cwd=folder)
        group.call('strip', '--strip-all', '--remove-section=.comment', it.split(' -o ')[1].split()[0], cwd=folder)
    group.check(
        'linked again by the commands of its README',
        {name: (folder / name).exists() and (folder / name).read_bytes() == text for name, text in programs.items()},
        {name: True for name in PROGRAMS},
    )


def not_packed(group, copy):
    """What isn't packed: a program that needs a loader, and an object that bin/ wasn't linked from."""
    to = group.fresh() / 'none'
    gcc = shutil.which('gcc')
    shared = group.script('gcc', '[ "$1" = -static-pie ] || exec %s "$@"\nshift\nexec %s -pie "$@"\n' % (gcc, gcc))
    group.check(
        'a program with a loader',
        (pack(group, to, copy, PATH=group.before_path(shared.parent), SOURCE_DATE_EPOCH='1')[::2], to.exists()),
        ((1, b'tools/dist: tffmt names a loader\n'), False),
    )
    shutil.copy(str(object_of(copy, 'tfrules')), str(object_of(copy, 'tffmt')))
    group.check(
        'an object of another program',
        (pack(group, to, copy, SOURCE_DATE_EPOCH='1')[::2], to.exists()),
        (
            (
                1,
                b'tools/dist: bin/tffmt and crates/tffmt/out/tffmt.o are not of one build; tools/prove makes both\n',
            ),
            False,
        ),
    )


def runs_in(group, root, folder):
    """The programs' behaviour in the root."""
    (root / 'a.tf').write_bytes(OTHER)
    how = {'cwd': str(root)}
    said = [
        group.call('chroot', root, '%s/tffmt' % folder, stdin=OTHER, **how),
        group.call('chroot', root, '%s/tffmt' % folder, stdin=b'a=\n', **how),
        group.call('chroot', root, '%s/tfrules' % folder, '/a.tf', **how)[::2],
        group.call('chroot', root, '%s/tffmt-all' % folder, '--quiet', '/a.tf', **how),
        (root / 'a.tf').read_bytes(),
    ]
    (root / 'a.tf').unlink()
    return said, [(0, GOOD, b''), (2, b'', MESSAGE), (0, b''), (0, b'/a.tf\n', b''), GOOD]


def may_chroot():
    return not os.geteuid() and not subprocess.run(['chroot', '/', '/bin/true'], stderr=subprocess.DEVNULL).returncode


def releasing(group):
    """The tarball and the package are installed into an empty root, run there, and removed; nothing is left. Then in a
    root with busybox alone, where the scripts that need no git run too."""
    if not may_chroot():
        group.skip('an empty root', 22, 'chroot is not allowed here')
        return
    if missing(group, NEEDS + ('dpkg',), 22):
        return
    made = group.fresh() / 'dist'
    group.check('packing', pack(group, made)[0], 0)
    as_the_readme_says(group, made)
    from_tarball(group, next(made.glob('*-linux-x86_64.tar.gz')))
    from_package(group, next(made.glob('*.deb')))
    beside_busybox(group, next(made.glob('*-linux-x86_64.tar.gz')))


def unpacked(group, file):
    """The folder of an unpacked tarball, with the script that installs from the folder of scripts under test."""
    room = group.fresh()
    group.check('unpacking', group.call('tar', 'xzf', file, cwd=room), (0, b'', b''))
    folder = next(room.iterdir())
    shutil.copy(str(group.contrib / 'release' / 'install.sh'), str(folder))
    return folder


def told(prefix, path=False):
    """What install.sh says."""
    names = sorted(PROGRAMS + ('tffmt-hook', 'tfrules-modules'))
    said = ['installed in %s/bin: %s' % (prefix, ' '.join(names))]
    said += ['with man pages, completions, and documents in %s/share/doc/tffmt' % prefix]
    if not path:
        said += ['add to PATH, in the file that your shell reads first: export PATH="%s/bin:$PATH"' % prefix]
    said += ['to remove it again: sh "%s/share/doc/tffmt/install.sh" --remove "%s"' % (prefix, prefix)]
    return lines(*said)


def as_the_readme_says(group, made):
    """The commands of the README that install a release, with the folder of the release as its place."""
    if not group.has('curl'):
        return
    blocks = re.findall(r'```sh\n(.*?)```', (TOP / 'README.md').read_text(encoding='utf-8'), re.S)
    script = next(it for it in blocks if 'PLACE/' in it).replace('PLACE/', 'file://%s/' % made)
    home = group.fresh()
    done = group.call('sh', '-ec', script, cwd=group.fresh(), HOME=str(home))
    version = group.call(home / '.local/bin/tffmt-all', '--version', cwd=home)[1] if done[0] == 0 else done
    group.check('as the README says', version, lines('tffmt-all ' + (TOP / 'VERSION').read_text().strip()))


def from_tarball(group, file):
    root = group.fresh()
    script = unpacked(group, file) / 'install.sh'
    prefix = root / 'opt' / "a folder's name"
    group.check('install.sh', group.call('sh', script, prefix, cwd=group.top), (0, told(prefix), b''))
    got, wanted = runs_in(group, root, "/opt/a folder's name/bin")
    group.check('run in an empty root, by the tarball', got, wanted)
    whole = tree(prefix)
    path = '%s/bin:%s' % (prefix, group.setting['PATH'])
    group.check(
        'installed again, it is the same',
        (group.call('sh', script, prefix, cwd=group.top, PATH=path), [name for name, _ in tree(prefix)]),
        ((0, told(prefix, True), b''), [name for name, _ in whole]),
    )
    own = prefix / 'share/doc/tffmt/install.sh'
    group.check(
        'install.sh --remove, by the one that was installed',
        group.call('sh', own, '--remove', prefix, cwd=group.top),
        (0, b'', b''),
    )
    group.check('the prefix is removed', [it.name for it in (root / 'opt').iterdir()], [])
    shutil.rmtree(str(root / 'opt'))
    group.check('nothing is left', [name for name, _ in tree(root)], [])
    beside_others(group, root, script)
    program = script.parent / 'bin/tffmt'
    program.write_bytes(program.read_bytes()[:100])
    group.check(
        'where the programs do not run',
        (group.call('sh', script, root / 'new', cwd=group.top), (root / 'new').exists()),
        (
            (1, b'', b"install.sh: the programs don't run here: they are for Linux on x86-64; nothing is installed\n"),
            False,
        ),
    )


def beside_others(group, root, script):
    """What others put under the prefix stays, and without a list nothing is removed."""
    (root / 'usr/bin').mkdir(parents=True)
    (root / 'usr/bin/other').write_bytes(b'kept')
    group.call('sh', script, root / 'usr', cwd=group.top)
    group.call('sh', script, '--remove', root / 'usr', cwd=group.top)
    group.check(
        'what else stood there is kept',
        [str(it.relative_to(root)) for it in sorted((root / 'usr').rglob('*'))],
        ['usr/bin', 'usr/bin/other'],
    )
    group.check(
        'no list, no removal',
        group.call('sh', script, '--remove', root / 'usr', cwd=group.top)[::2],
        (
            1,
            b"install.sh: %s: there is no such list, so nothing is removed\n"
            % os.fsencode(str(root / 'usr/share/doc/tffmt/installed')),
        ),
    )
    group.check(
        'two folders',
        group.call('sh', script, 'a', 'b', cwd=group.top)[::2],
        (2, b'install.sh: usage: install.sh [--remove] [PREFIX]\n'),
    )


def from_package(group, file):
    root = group.fresh()
    admin = root / 'var/lib/dpkg'
    for name in ('info', 'updates', 'triggers'):
        (admin / name).mkdir(parents=True)
    (admin / 'status').write_bytes(b'')
    before = tree(root)

    def dpkg(*words):
        return group.call('dpkg', '--root=%s' % root, '--force-not-root', '--log=/dev/null', *words, cwd=group.top)[0]

    group.check('dpkg --install, where no C library is installed', dpkg('--install', file), 0)
    got, wanted = runs_in(group, root, '/usr/bin')
    group.check('run in an empty root, by the package', got, wanted)
    group.check('dpkg --purge', dpkg('--purge', 'tffmt'), 0)
    left = [name for name, _ in tree(root) if not name.startswith('var/lib/dpkg')]
    group.check('nothing is left', left, [name for name, _ in before if not name.startswith('var/lib/dpkg')])


def is_static(program):
    said = subprocess.run(['readelf', '--program-headers', program], stdout=subprocess.PIPE, stderr=subprocess.DEVNULL)
    return b'INTERP' not in said.stdout


def beside_busybox(group, file):
    """A root with a static busybox and its names alone, as small systems have it."""
    if not group.has('busybox', checks=5):
        return
    if not is_static(shutil.which('busybox')):
        group.skip('a root with busybox', 5, 'busybox is not static')
        return
    root = group.fresh()
    for name in ('bin', 'tmp', 'dev'):
        (root / name).mkdir()
    try:
        os.mknod(str(root / 'dev/null'), stat.S_IFCHR | 0o666, os.makedev(1, 3))
    except PermissionError:  # a container may not make devices; what is written there is read by nobody
        (root / 'dev/null').touch()
    shutil.copy(shutil.which('busybox'), str(root / 'bin'))
    group.call('chroot', root, '/bin/busybox', '--install', '-s', '/bin', cwd=group.top)
    shutil.copytree(str(unpacked(group, file)), str(root / 'release'))
    how = {'cwd': str(root), 'PATH': '/bin:/usr/local/bin', 'TMPDIR': '/tmp', 'HOME': '/'}

    def inside(*words, **more):
        return group.call(shutil.which('chroot'), root, *words, **how, **more)

    group.check('install.sh', inside('sh', '/release/install.sh'), (0, told('/usr/local', True), b''))
    got, wanted = runs_in(group, root, '/usr/local/bin')
    group.check('run beside busybox', got, wanted)
    (root / 'm').mkdir()
    (root / 'm/a.tf').write_bytes(b'variable "n" {}\n')
    said = inside('tfrules-modules', '--quiet', '/m')
    group.check('modules are linted there', (said[0], said[1].count(b'/m/a.tf:1:1: Warning'), said[2]), (2, 2, b''))
    group.check('install.sh --remove', inside('sh', '/usr/local/share/doc/tffmt/install.sh', '--remove')[0], 0)


def older_debian(group):
    """The package and the tarball in Debian 11, whose C library is older than the one that the programs are linked with."""
    if not may_chroot():
        group.skip('an older Debian', 5, 'chroot is not allowed here')
        return
    if missing(group, NEEDS, 5) or not group.has('debootstrap', checks=5):
        return
    root, mirror = group.fresh(), os.environ.get('DEBIAN_MIRROR', 'http://deb.debian.org/debian')
    words = ['debootstrap', '--variant=minbase', 'bullseye', str(root), mirror]
    try:
        made = subprocess.run(words, stdout=subprocess.DEVNULL, stderr=subprocess.DEVNULL, timeout=600).returncode
    except subprocess.TimeoutExpired:
        made = 1
    if made:
        group.skip('an older Debian', 5, 'debootstrap of bullseye failed')
        return
    dist = group.fresh() / 'dist'
    group.check('packing', pack(group, dist)[0], 0)
    shutil.copy(str(next(dist.glob('*.deb'))), str(root / 'tffmt.deb'))
    said = group.call('chroot', root, 'dpkg', '--install', '/tffmt.deb', cwd=group.top)
    group.check('dpkg --install', said[0], 0)
    got, wanted = runs_in(group, root, '/usr/bin')
    group.check('run in Debian 11, by the package', got, wanted)
    shutil.copytree(str(unpacked(group, next(dist.glob('*-linux-x86_64.tar.gz')))), str(root / 'release'))
    group.call('chroot', root, 'sh', '/release/install.sh', '/opt/tffmt', cwd=group.top)
    got, wanted = runs_in(group, root, '/opt/tffmt/bin')
    group.check('run in Debian 11, by the tarball', got, wanted)


# Where Debian has the wheels that pip itself builds with; pre-commit's own package for an environment needs them.
BUILDERS = '/usr/share/python-wheels'


def wheel(group):
    """The wheel is installed by pip without an index, runs, and is removed; and pre-commit takes it from a folder."""
    if missing(group, NEEDS, 7):
        return
    python = shutil.which('python3')
    if subprocess.run([python, '-c', 'import ensurepip, venv'], stderr=subprocess.DEVNULL).returncode:
        group.skip('the wheel', 7, 'no venv')
        return
    made = group.fresh() / 'dist'
    group.check('packing', pack(group, made)[0], 0)
    here = group.fresh()
    group.check('venv', group.call(python, '-m', 'venv', 'env', cwd=here)[0], 0)
    before = [name for name, _ in tree(here / 'env')]
    file = next(made.glob('*.whl'))
    done = group.call('env/bin/pip', 'install', '--no-index', '--no-compile', file, cwd=here)
    group.check('pip install', (done[0], done[2]), (0, b''))
    (here / 'a.tf').write_bytes(OTHER)
    path = '%s:%s' % (here / 'env/bin', group.setting['PATH'])
    said = [
        group.call('env/bin/tffmt', cwd=here, stdin=OTHER)[:2],
        group.call('env/bin/tffmt-all', cwd=here)[:2],
        group.call('tfrules-modules', cwd=here, PATH=path)[0],
        (here / 'env/share/man/man1/tffmt.1').exists(),
    ]
    group.check('what it installed runs', said, [(0, GOOD), (0, b'a.tf\n'), 0, True])
    group.call('env/bin/pip', 'uninstall', '-y', 'tffmt', cwd=here)
    left = [name for name, _ in tree(here / 'env') if '__pycache__' not in name]
    group.check('pip uninstall', [it for it in left if it not in before and '.' in it], [])
    by_wheel(group, made)


def by_wheel(group, made):
    """The example for pre-commit with the wheel, with pip knowing only a folder."""
    if not all([group.has('git', checks=0), group.has('pre-commit', checks=2)]):
        return
    if not os.path.isdir(BUILDERS):
        group.skip('pre-commit with the wheel', 2, 'no ' + BUILDERS)
        return
    here, home = group.fresh(), group.fresh()
    (here / 'a.tf').write_bytes(OTHER)
    (here / 'v.tf').write_bytes(b'variable "n" {}\n')
    shutil.copy(str(group.contrib / 'pre-commit-wheel.yaml'), str(here / '.pre-commit-config.yaml'))
    for words in (['init', '-q'], ['add', '-A']):
        group.call('git', *words, cwd=here)
    # The programs are those of the wheel, and this test's own Python may hide that of pre-commit.
    how = {'PATH': '/usr/bin:/bin', 'PRE_COMMIT_HOME': str(home)}
    how.update(PIP_NO_INDEX='1', PIP_FIND_LINKS='%s %s' % (made, BUILDERS))
    status, out, _ = group.call('pre-commit', 'run', '--all-files', cwd=here, **how)
    group.holds('pre-commit with the wheel', status == 1 and b'v.tf:1:1: Warning' in out, out)
    group.check('formats the files', (here / 'a.tf').read_bytes(), GOOD)


def image(group):
    """The image on an empty base, built of the tarball, and a check of a file in it."""
    if os.geteuid():
        group.skip('an image', 3, 'needs root')
        return
    if missing(group, NEEDS, 3) or not group.has('buildah', checks=3):
        return
    made = group.fresh() / 'dist'
    group.check('packing', pack(group, made)[0], 0)
    shutil.copy(str(group.contrib / 'ci/Containerfile'), str(made))
    version = (TOP / 'VERSION').read_text().strip()
    store = ['--storage-driver', 'vfs', '--root', group.folder('store'), '--runroot', group.folder('run')]

    def buildah(*words):
        return group.call('buildah', *store, *words, cwd=made)

    words = [
        '--isolation',
        'chroot',
        '--build-arg',
        'VERSION=' + version,
        '--target',
        'programs',
        '--tag',
        'tffmt',
        '.',
    ]
    group.holds('built on an empty base', buildah('bud', *words)[0] == 0)
    name = buildah('from', 'tffmt')[1].decode().strip()
    done = buildah('run', '--isolation', 'chroot', name, '--', 'tffmt-all', '--version')
    group.check('a program runs in it', done[:2], (0, lines('tffmt-all ' + version)))
    buildah('rm', '--all')
