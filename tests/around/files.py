"""The program tffmt-all on real folders: which files it takes, what it does to them, and its messages if something fails."""

import contextlib
import os
import random
import re
import shutil
import signal
import stat
import subprocess
import time

from editors import on_terminal
from harness import BAD, GOOD, NOBODY, OTHER, REFUSED, lines, put, quoted, shard_of, special_links

# A tree, and the files of it that a walk takes.
WALKED = [
    '[x]/a.tf',
    'a b/bad\\c.tf',
    'a.tofu',
    'b.tftest.hcl',
    'b.tofutest.hcl',
    'c.tfmock.hcl',
    'c.tfquery.hcl',
    'd.tfvars',
    'link.tf',
    'new\nline.tf',
    'tab\t"quote".tf',
    'x/y/-z.tf',
    '\u00e9.tf',
]
PASSED_OVER = ['.hidden.tf', '.terraform/m.tf', 'old~/o.tf', '#x#/o.tf', 'e.hcl', 'f.tf.json', 'g.tf~', 'h.txt']
KILLS = 200


def tree(group, text=OTHER):
    top = group.fresh()
    put(top, {name: text for name in WALKED + PASSED_OVER if name != 'link.tf'})
    put(
        top,
        {
            'link.tf': b'->elsewhere/real.hcl',
            'elsewhere/real.hcl': text,
            'folder_link': b'->elsewhere/inner',
            'elsewhere/inner/.keep': b'',
        },
    )
    return top


def contents(top):
    """The bytes of each file, by its name. A temporary file may go while they are read."""
    found = {}
    for where, _, names in os.walk(str(top)):
        for name in names:
            path = os.path.join(where, name)
            with contextlib.suppress(FileNotFoundError), open(path, 'rb') as file:
                found[os.path.relpath(path, str(top))] = file.read()
    return found


def run(group):
    if not os.access(group.trees, os.X_OK):
        group.skip('tffmt-all', 229, 'bin/tffmt-all is not built')
        return

    def program(*words, cwd, **more):
        return group.format(*words, cwd=cwd, **more)

    for part in (
        walk,
        exclusions,
        checks,
        writes,
        links,
        links_and_files,
        links_and_hard_links,
        hard_links,
        linked_diffs,
        paths_of_one_file,
        refusals,
        special_files,
        options,
        names_from_input,
        input_left,
        other_names,
        shown_names,
        counted,
        diffs,
        sizes,
        full_devices,
        full_folder,
        full_output,
        rights,
        in_place,
        owners,
        synced,
        signals,
        killed,
        many,
        shards,
        progress,
        faults_shown,
    ):
        part(group, program)


def walk(group, program):
    top = tree(group)
    taken = lines(*map(quoted, WALKED))
    group.check('what a walk takes', program('--list', cwd=top), (3, taken, b''))
    group.check('the current folder by name', program('--list', '.', cwd=top), (3, taken, b''))
    group.check(
        'the folder by its path',
        program('--list', top, cwd='/'),
        (3, lines(*[quoted('%s/%s' % (top, name)) for name in WALKED]), b''),
    )
    group.check('each file once', program('--list', '.', 'x', './x/y', 'x//y/./-z.tf', cwd=top), (3, taken, b''))
    group.check(
        'a hidden folder by name', program('--list', '.terraform/', cwd=top), (3, lines('.terraform/m.tf'), b'')
    )
    group.check('an operand with brackets', program('--list', '[x]', cwd=top), (3, lines('[x]/a.tf'), b''))
    put(top, {'.a[x]/h.tf': OTHER})
    group.check('a hidden one with brackets', program('--list', '.a[x]', cwd=top), (3, lines('.a[x]/h.tf'), b''))
    group.check(
        'any name that is given',
        program('--list', 'e.hcl', './d.tfvars', cwd=top),
        (3, lines('d.tfvars', 'e.hcl'), b''),
    )
    other = ': not named as a Terraform file; --any-name formats it'
    names = ['h.txt', './f.tf.json', 'd.tfvars', 'g.tf~', 'x']
    group.check(
        'a file of another kind that is named',
        program('--list', *names, cwd=top),
        (4, lines('d.tfvars', 'x/y/-z.tf'), lines(*[name + other for name in ('f.tf.json', 'g.tf~', 'h.txt')])),
    )
    group.check(
        'the same with any name',
        program('--list', '--any-name', *names, cwd=top),
        (3, lines('d.tfvars', 'f.tf.json', 'g.tf~', 'h.txt', 'x/y/-z.tf'), b''),
    )
    put(top, {'env.sh': OTHER, 'env.hcl': OTHER})
    done = program('env.sh', 'env.hcl', cwd=top)
    kept = [(top / name).read_bytes() == OTHER for name in ('env.sh', 'env.hcl')]
    group.check('a script that is named', (*done, kept), (4, lines('env.hcl'), lines('env.sh' + other), [True, False]))
    os.remove(top / 'env.sh')
    os.remove(top / 'env.hcl')
    excluded = [name for name in WALKED if name.split('/')[0] not in ('[x]', 'x') and name != 'link.tf']
    group.check(
        'what is excluded',
        program('--list', '--exclude', '[x]/', '--exclude=y', '--exclude', './link.tf', '.', 'x/y', 'link.tf', cwd=top),
        (3, lines(*map(quoted, excluded)), b''),
    )
    group.check(
        'an excluded path, which is nothing elsewhere',
        program('--list', '--exclude', 'y', '--exclude', './a.tf', '[x]', 'x', cwd=top),
        (3, lines('[x]/a.tf'), b''),
    )
    group.check('all is excluded', program('--check', '--exclude', 'x', 'x', 'x/y/-z.tf', cwd=top), (0, b'', b''))
    (top / 'other').symlink_to('x')
    group.check('a linked folder by name', program('--list', 'other', cwd=top), (3, lines('other/y/-z.tf'), b''))
    group.check(
        'a name that begins with a dash',
        program('--list', '--', '-z.tf', cwd=top / 'x' / 'y'),
        (3, lines('-z.tf'), b''),
    )
    group.check('an empty folder', program('--check', cwd=group.fresh()), (0, b'', b''))


def exclusions(group, program):
    """Exclusions match the names that are met, and not the targets of links; one that matches nothing isn't reported."""
    top = group.fresh()
    put(top, {'in/a.tf': OTHER, 'b.tf': OTHER})
    for word in ('im', 'in/b.tf', str(top / 'in'), '../%s/in' % top.name, 'in/../in', 'in/*', ''):
        group.check(
            'an exclusion that meets nothing: %r' % word,
            program('--list', '--exclude', word, cwd=top),
            (3, lines('b.tf', 'in/a.tf'), b''),
        )
    for word, folder in ((str(top / 'in'), str(top)), ('../%s/in' % top.name, '../' + top.name)):
        group.check(
            'it meets the path that reports show: %r' % word,
            program('--list', '--exclude', word, folder, cwd=top),
            (3, lines(folder + '/b.tf'), b''),
        )
    put(top, {'kept/c.tf': OTHER, 'kept/d.tf': OTHER, 'd.tf': b'->kept/d.tf', 'other': b'->kept'})
    group.check(
        'a link into an excluded folder is followed',
        (program('--exclude', 'kept', cwd=top), contents(top)['kept/c.tf'], contents(top)['kept/d.tf']),
        ((0, lines('b.tf', 'd.tf', 'in/a.tf'), b''), OTHER, GOOD),
    )
    group.check(
        'and so is one to it that is named',
        (program('--exclude', 'kept', 'other', cwd=top), contents(top)['kept/c.tf']),
        ((0, lines('other/c.tf'), b''), GOOD),
    )


def checks(group, program):
    top = tree(group)
    before = contents(top)
    group.check(
        'what --check says',
        program('--check', cwd=top),
        (3, b'', lines(*[quoted(name) + ': not formatted' for name in WALKED])),
    )
    for mode in ('--check', '--list', '--diff'):
        program(mode, cwd=top)
    group.check('nothing is changed', contents(top), before)
    top = tree(group, GOOD)
    group.check(
        'all formatted', [program(mode, cwd=top) for mode in ('--check', '--list', '--diff')], [(0, b'', b'')] * 3
    )


def writes(group, program):
    top = tree(group)
    (top / 'd.tfvars').chmod(0o640)
    put(top, {'good.tf': GOOD})
    os.utime(str(top / 'good.tf'), (1, 1))
    kept = os.stat(str(top / 'good.tf'))
    group.check('files that were changed', program(cwd=top), (0, lines(*map(quoted, WALKED)), b''))
    after = contents(top)
    group.check('each is formatted', {name: after[name] for name in WALKED}, {name: GOOD for name in WALKED})
    group.check('the others stay', {name: after[name] for name in PASSED_OVER}, {name: OTHER for name in PASSED_OVER})
    group.check('the mode stays', stat.S_IMODE((top / 'd.tfvars').stat().st_mode), 0o640)
    now = os.stat(str(top / 'good.tf'))
    group.check('a formatted file is untouched', (now.st_ino, now.st_mtime), (kept.st_ino, kept.st_mtime))
    group.check(
        'nothing is left beside the files',
        set(after),
        set(WALKED + PASSED_OVER + ['good.tf', 'elsewhere/real.hcl', 'elsewhere/inner/.keep']),
    )
    group.check('again, nothing to do', program(cwd=top), (0, b'', b''))
    blanks = group.fresh()
    put(blanks, {'a.tf': b'  \n\t', 'b.tf': b'a=1\r\nb=2', 'c.tf': b''})
    group.check(
        'blanks, CR LF and no newline',
        (program(cwd=blanks), contents(blanks)),
        ((0, lines('a.tf', 'b.tf'), b''), {'a.tf': b'\n', 'b.tf': b'a = 1\r\nb = 2', 'c.tf': b''}),
    )
    left = group.fresh()
    put(left, {'a.tf': OTHER, '.tffmt.0': b'of a run that was killed'})
    group.check(
        'what another run left stays',
        (program(cwd=left), contents(left)),
        ((0, lines('a.tf'), b''), {'a.tf': GOOD, '.tffmt.0': b'of a run that was killed'}),
    )


def links(group, program):
    top = group.fresh()
    put(
        top,
        {
            'far/one.tf': OTHER,
            'a/two.tf': b'->../b/three',
            'b/three': b'->' + os.fsencode(str(top)) + b'/far/one.tf',
            'a/gone.tf': b'->nowhere',
            'a/ring.tf': b'->ring.tf',
            'round/round': b'->.',
            'round/b.tf': OTHER,
        },
    )
    group.check(
        'links in a walk',
        program('a', cwd=top),
        (4, lines('a/two.tf'), lines('a/gone.tf: the link leads nowhere', 'a/ring.tf: the link cannot be followed')),
    )
    group.check(
        'a link is followed, and stays',
        ((top / 'far' / 'one.tf').read_bytes(), os.readlink(str(top / 'a/two.tf')), os.readlink(str(top / 'b/three'))),
        (GOOD, '../b/three', str(top / 'far/one.tf')),
    )
    group.check('nothing is left beside it', sorted(it.name for it in (top / 'far').iterdir()), ['one.tf'])
    group.check('a folder in itself', program('round', cwd=top), (0, lines('round/b.tf'), b''))
    group.check(
        'a ring by name', program('a/ring.tf', cwd=top), (4, b'', lines('a/ring.tf: the link cannot be followed'))
    )
    (top / 'far/one.tf').write_bytes(OTHER)
    os.link(str(top / 'far/one.tf'), str(top / 'far/other.tf'))
    group.check(
        'of two names of a file the one that is given',
        (program('far/one.tf', cwd=top), (top / 'far/one.tf').read_bytes(), (top / 'far/other.tf').read_bytes()),
        ((0, lines('far/one.tf'), b''), GOOD, OTHER),
    )


def four_names(group):
    """A file with two hard links and two links."""
    top = group.fresh()
    put(top, {'one.tf': OTHER, 'two.tf': b'->one.tf', 'in/three.tf': b'->../one.tf'})
    os.link(str(top / 'one.tf'), str(top / 'hard.tf'))
    return top


def links_and_files(group, program):
    """A link is passed over if its file is met under a name that is no link, or under an earlier link."""
    top = four_names(group)
    for words, told in (
        ([], ['hard.tf', 'one.tf']),
        (['two.tf'], ['two.tf']),
        (['two.tf', 'one.tf'], ['one.tf']),
        (['one.tf', 'in'], ['one.tf']),
        (['two.tf', 'in'], ['in/three.tf']),
    ):
        group.check('of a file of four names %r' % words, program('--list', *words, cwd=top), (3, lines(*told), b''))
        group.check(
            'the same from standard input',
            program('--null', '--list', cwd=top, stdin=ended(*words or ['.'])),
            (3, ended(*told), b''),
        )
    shards = [program('--list', '--shard', '%d/3' % k, cwd=top)[1].splitlines() for k in (1, 2, 3)]
    group.check('each is in one shard', sorted(sum(shards, [])), [b'hard.tf', b'one.tf'])
    group.check(
        'each is formatted and counted',
        (group.call(group.trees, cwd=top), set(contents(top).values()), os.readlink(str(top / 'two.tf'))),
        ((0, lines('hard.tf', 'one.tf'), lines('2 files formatted, 0 unchanged')), {GOOD}, 'one.tf'),
    )
    for files, told in (
        ({'a.tf': b'->z.tf', 'z.tf': OTHER}, 'z.tf'),
        ({'a.tf': OTHER, 'z.tf': b'->a.tf'}, 'a.tf'),
        ({'a.tf': b'->far/x', 'b.tf': b'->far/x', 'far/x': OTHER}, 'a.tf'),
        ({'a.tf': b'->c.tf', 'b.tf': b'->a.tf', 'c.tf': OTHER}, 'c.tf'),
        ({'a.tf': b'->b.tf', 'b.tf': b'->far/x', 'far/x': OTHER}, 'a.tf'),
        ({'b.tf': b'->other/z.tf', 'in/z.tf': OTHER, 'other': b'->in'}, 'in/z.tf'),
    ):
        top = group.fresh()
        put(top, files)
        group.check(
            'links and a file: %r' % files, program('--check', cwd=top), (3, b'', lines(told + ': not formatted'))
        )
        group.check('and a run', (program(cwd=top), set(contents(top).values())), ((0, lines(told), b''), {GOOD}))


def links_and_hard_links(group, program):
    """A link is looked at if a hard link of its file is, but its own name isn't: the names come apart."""
    top = four_names(group)
    told = lines('hard.tf', 'two.tf')
    group.check('a link, and a hard link of its file', program('--list', 'two.tf', 'hard.tf', cwd=top), (3, told, b''))
    group.check(
        'both are written',
        (program('two.tf', 'hard.tf', cwd=top), set(contents(top).values()), program('--check', cwd=top)),
        ((0, told, b''), {GOOD}, (0, b'', b'')),
    )
    top = group.fresh()
    put(top, {'far/a.txt': OTHER, 'x.tf': b'->far/a.txt', 'y.tf': b'->far/b.txt'})
    put(top, {'z.tf': b'->other/a.txt', 'other': b'->far'})
    os.link(str(top / 'far' / 'a.txt'), str(top / 'far' / 'b.txt'))
    told = lines('x.tf', 'y.tf')
    group.check(
        'links to two names of a file', (program(cwd=top), set(contents(top).values())), ((0, told, b''), {GOOD})
    )


def hard_links(group, program):
    """Each is looked at, and is a file of its own once it is formatted."""
    top = group.fresh()
    put(top, {'a.tf': OTHER, 'c.tf': GOOD})
    for name, other in (('b.tf', 'a.tf'), ('d.tf', 'c.tf'), ('rest', 'a.tf')):
        os.link(str(top / other), str(top / name))
    names = ['a.tf', 'b.tf']
    group.check('--list of hard links', program('--list', cwd=top), (3, lines(*names), b''))
    said = lines(*[name + ': not formatted' for name in names])
    group.check('--check of hard links', program('--check', cwd=top), (3, b'', said))
    heads = re.findall(rb'^--- (.*)', program('--diff', cwd=top)[1], re.M)
    group.check('--diff of hard links', heads, [b'old/a.tf', b'old/b.tf'])
    group.check('a run', group.call(group.trees, cwd=top), (0, lines(*names), lines('2 files formatted, 2 unchanged')))
    group.check(
        'what they have, and another name',
        contents(top),
        {'a.tf': GOOD, 'b.tf': GOOD, 'c.tf': GOOD, 'd.tf': GOOD, 'rest': OTHER},
    )
    group.check(
        'how many names each has', [(top / name).stat().st_nlink for name in 'a.tf b.tf c.tf'.split()], [1, 1, 2]
    )
    if os.getuid() != 0:
        group.skip('hard links written in place', 1, 'not run by root')
        return
    top = group.fresh()
    put(top, {'a.tf': OTHER})
    os.link(str(top / 'a.tf'), str(top / 'b.tf'))
    os.chown(str(top / 'a.tf'), NOBODY, NOBODY)
    top.chmod(0o555)
    group.check(
        'written in place they stay one file',
        (group.call(group.trees, '--in-place', cwd=top, user=NOBODY), contents(top), (top / 'a.tf').stat().st_nlink),
        ((0, lines('a.tf'), lines('1 file formatted, 1 unchanged')), {'a.tf': GOOD, 'b.tf': GOOD}, 2),
    )


def linked_diffs(group, program):
    """patch takes the diff of a file and its links, and makes hard links files of their own; it refuses a link."""
    for tool, words in (('patch', ['-s', '-p1']), ('git', ['apply'])):
        if not group.has(tool, checks=2):
            continue
        top = four_names(group)
        diff = program('--diff', cwd=top)[1]
        group.check(
            '%s takes the diff of a file of four names' % tool,
            (group.call(tool, *words, cwd=top, stdin=diff), contents(top)),
            ((0, b'', b''), dict.fromkeys(['hard.tf', 'one.tf', 'two.tf', 'in/three.tf'], GOOD)),
        )
        top = group.fresh()
        put(top, {'a.tf': b'->x', 'x': OTHER})
        diff = program('--diff', cwd=top)[1]
        done = group.call(tool, *words, cwd=top, stdin=diff)
        group.check('%s refuses a link' % tool, (done[0], (top / 'x').read_bytes()), (1, OTHER))


def paths_of_one_file(group, program):
    """A file is looked at under each path that the operands give it, through a linked folder or `..`."""
    for word in ('other', 'a/../a'):
        top = group.fresh()
        put(top, {'a/x.tf': OTHER, 'other': b'->a'})
        names = sorted(['a/x.tf', word + '/x.tf'])
        group.check('--list of a folder as %r' % word, program('--list', 'a', word, cwd=top), (3, lines(*names), b''))
        group.check(
            'a run of it',
            group.call(group.trees, 'a', word, cwd=top),
            (0, lines(names[0]), lines('1 file formatted, 1 unchanged')),
        )


def refusals(group, program):
    top = group.fresh()
    put(top, {'a.tf': BAD, 'b.tf': OTHER, 'c.tf': GOOD})
    group.check('a refused file alone', program('--check', 'a.tf', 'c.tf', cwd=top), (2, b'', lines('a.tf' + REFUSED)))
    group.check(
        'a refused file and one that is not formatted',
        program('--check', cwd=top),
        (2, b'', lines('a.tf' + REFUSED, 'b.tf: not formatted')),
    )
    for mode in ('--list', '--diff'):
        given = program(mode, cwd=top)
        group.check('a refused file with ' + mode, (given[0], given[2]), (2, lines('a.tf' + REFUSED)))
    group.check(
        'work goes on after a refusal',
        (program(cwd=top), contents(top)),
        ((2, lines('b.tf'), lines('a.tf' + REFUSED)), {'a.tf': BAD, 'b.tf': GOOD, 'c.tf': GOOD}),
    )
    for name, said in (
        ('nowhere.tf', 'no such file or folder'),
        ('nowhere/', 'no such file or folder'),
        ('c.tf/', 'no such file or folder'),
        ('c.tf/x.tf', 'no such file or folder'),
    ):
        group.check('%s alone' % name, program('--check', name, cwd=top), (4, b'', lines('%s: %s' % (name, said))))
    group.check(
        'a dash is no file',
        program('--check', '-', cwd=top),
        (4, b'', lines('-: no such file or folder; tffmt reads standard input, and tffmt-all formats files')),
    )
    os.mkfifo(str(top / 'pipe.tf'))
    group.check(
        'what cannot be read',
        program('--check', 'nowhere.tf', 'pipe.tf', 'c.tf', cwd=top),
        (4, b'', lines('nowhere.tf: no such file or folder', 'pipe.tf: not a file')),
    )
    group.check('a pipe in a walk is no file', program('--check', cwd=top), (2, b'', lines('a.tf' + REFUSED)))
    put(top, {'b.tf': OTHER})
    group.check(
        'work goes on after what failed',
        (program('nowhere.tf', 'pipe.tf', 'a.tf', 'b.tf', cwd=top), (top / 'b.tf').read_bytes()),
        (
            (4, lines('b.tf'), lines('a.tf' + REFUSED, 'nowhere.tf: no such file or folder', 'pipe.tf: not a file')),
            GOOD,
        ),
    )


def special_files(group, program):
    """Pipes, sockets and devices are passed over in a walk, and so are links to them; a named one is reported."""
    top = group.fresh()
    put(top, {'a.tf': OTHER})
    links = special_links(top)
    group.check(
        'links to pipes, sockets and devices in a walk',
        group.call(group.trees, cwd=top),
        (0, lines('a.tf'), lines('1 file formatted, 0 unchanged')),
    )
    group.check('nothing else', group.call(group.trees, 'in', cwd=top), (0, b'', lines('no files found')))
    for mode in ('--check', '--list', '--diff'):
        group.check('the same with ' + mode, program(mode, cwd=top), (0, b'', b''))
    told = lines(*[name + ': not a file' for name in links])
    group.check('they are told by name', program('--check', *links, cwd=top), (4, b'', told))
    (top / 'in' / 'gone.tf').symlink_to('../nowhere')
    gone = lines('in/gone.tf: the link leads nowhere')
    group.check('a link that leads nowhere is told still', program(cwd=top), (4, b'', gone))


def options(group, program):
    top = group.fresh()
    put(top, {'a.tf': OTHER})
    status, out, err = program('--help', cwd=top)
    group.check('--help', (status, out.startswith(b'usage: tffmt-all '), err), (0, True, b''))
    group.check('-h', program('-h', cwd=top), (status, out, err))
    usage = program('--shard', cwd=top)[2]
    group.holds('the usage is what --help begins with', out.startswith(usage.rstrip(b'\n')[:30]), usage)
    modes = '--list takes neither --check nor --diff beside it'
    part = '--shard takes K/N, with K from 1 to N, at most 99999'
    jobs = '--jobs takes a number from 1 to 9999'
    for words, said in (
        (['-j', '0'], jobs),
        (['--jobs', 'x'], jobs),
        (['--jobs'], None),
        (['-j', '01'], jobs),
        (['-j', '10000'], jobs),
        (['-0', 'a.tf'], '--null takes no names on the command line'),
        (['--shard', '0/2'], part),
        (['--shard=3/2'], part),
        (['--shard', '1'], part),
        (['--shard', '1/2/3'], part),
        (['--shard', '01/2'], part),
        (['--shard', '1/100000'], part),
        (['--shard'], None),
        (['--shard', '1/1', '--shard', '1/1'], None),
        (['--list', '--check'], modes),
        (['--list', '--diff'], modes),
        (['--check=1'], None),
        (['--shard=3/2', '--', '--bogus'], part),
    ):
        told = lines('tffmt-all: error: ' + said) if said else usage
        group.check('a wrong line %r' % words, program(*words, cwd=top), (2, b'', told))
    for words, said in (
        (['--bogus'], b'--bogus'),
        (['-V'], b'-V'),
        (['-j', '-4'], b'-4'),
        (['--list', '--check', '--a\nb'], b'"--a\\nb"'),
        (['a.tf', '-check'], b'-check; write --check'),
        (['-diff'], b'-diff; write --diff'),
        (['-recursive', '-check'], b'-recursive; folders are always walked whole'),
        (['--recursive'], b'--recursive; folders are always walked whole'),
        (['-write=false'], b'-write=false; write --list, --check or --diff'),
        (['--write=false'], b'--write=false; write --list, --check or --diff'),
    ):
        told = b'tffmt-all: error: unknown option ' + said + b'\n' + usage
        group.check('a wrong word %r' % words, program(*words, cwd=top), (2, b'', told))
    group.check('nothing is changed by a wrong line', contents(top), {'a.tf': OTHER})
    group.check(
        'an option after an operand',
        (program('a.tf', '--check', cwd=top), contents(top)),
        ((3, b'', lines('a.tf: not formatted')), {'a.tf': OTHER}),
    )
    group.check(
        'options given twice',
        program('--check', '--check', '-j', '3', '--jobs=9999', cwd=top),
        (3, b'', lines('a.tf: not formatted')),
    )
    group.check(
        'without a temporary folder',
        (program(cwd=top, TMPDIR='/nowhere', PATH='/nowhere'), contents(top)),
        ((0, lines('a.tf'), b''), {'a.tf': GOOD}),
    )


def ended(*names):
    """Names as --null has them."""
    return b''.join(os.fsencode(name) + b'\0' for name in names)


def names_from_input(group, program):
    top = tree(group)
    given = ended('new\nline.tf', 'x', 'e.hcl')
    for stdin in (given, given[:-1]):
        group.check(
            'names from standard input',
            program('--null', '--list', cwd=top, stdin=stdin),
            (3, ended('e.hcl', 'new\nline.tf', 'x/y/-z.tf'), b''),
        )
    before = contents(top)
    group.check('no names', (program('-0', cwd=top), contents(top)), ((0, b'', b''), before))
    here = os.open(str(top), os.O_RDONLY)
    done = subprocess.run([group.trees, '-0'], cwd=str(top), stdin=here, stdout=subprocess.PIPE, stderr=subprocess.PIPE)
    os.close(here)
    group.check(
        'names that cannot be read',
        (done.returncode, done.stdout, done.stderr, contents(top)),
        (4, b'', b'tffmt-all: error: read failed\n', before),
    )


def input_left(group, program):
    """Standard input is read for --null alone: a shell's loop over names keeps those that follow."""
    top, given = group.fresh(), ended('b.tf')
    put(top, {'a.tf': OTHER, 'b.tf': OTHER, 'in/c.tf': BAD})
    for words in (
        [],
        ['a.tf'],
        ['--', 'in', 'gone.tf'],
        ['--check', 'a.tf'],
        ['--check'],
        ['--list', '.'],
        ['--diff', 'b.tf'],
        ['-'],
        ['--help'],
        ['--version'],
        ['--bogus'],
        ['--null', '--bogus'],
        ['--null', 'a.tf'],
    ):
        group.check(
            'standard input is left with %r' % words,
            group.leaves(group.trees, *words, cwd=top, given=given),
            (given,) * 2,
        )
    group.check('it is read with --null', group.leaves(group.trees, '-0', cwd=top, given=given), (b'', b''))


def other_names(group, program):
    """A name that isn't UTF-8 is reported, and the work continues."""
    top = group.fresh()
    put(top, {b'caf\xe9.tf': OTHER, 'a.tf': OTHER, b'in/b\xff/c.tf': OTHER, b'.h\xff': OTHER})
    said = b"caf\xe9.tf: the name isn't UTF-8\nin/b\xff: the name isn't UTF-8\n"
    group.check('names that are not UTF-8', program(cwd=top), (4, lines('a.tf'), said))
    group.check(
        'one from standard input',
        program('-0', '--check', cwd=top, stdin=b'caf\xe9.tf\0a.tf\0'),
        (4, b'', b"caf\xe9.tf: the name isn't UTF-8\n"),
    )
    put(top, {'a.tf': OTHER})
    group.check(
        'one among the words',
        program(b'caf\xe9.tf', 'a.tf', b'\xff', cwd=top),
        (4, lines('a.tf'), b"caf\xe9.tf: the name isn't UTF-8\n\xff: the name isn't UTF-8\n"),
    )


def shown_names(group, program):
    """No name in the output begins a line of its own, or forges a part of a diff; and a name is reported once."""
    evil = 'x\n--- old/good.tf\n+++ new/good.tf\n@@ -1 +1 @@\n-a = 1\n+a = "evil"\n.tf'.replace('/', '\\')
    names = [evil, 'esc\x1b[2J.tf', 'bell\a.tf', 'del\x7f.tf', 'a.tf:1:1: error: x\n.tf', '\x01.tf', '\u00e9.tf']
    top = group.fresh()
    put(top, dict({name: OTHER for name in names}, **{'good.tf': GOOD, 'bad\n.tf': BAD}))
    shown = sorted(names, key=os.fsencode)
    refused = lines(quoted('bad\n.tf') + REFUSED)
    group.check('--list', program('--list', cwd=top), (2, lines(*map(quoted, shown)), refused))
    said = sorted((refused + lines(*[quoted(name) + ': not formatted' for name in names])).splitlines())
    given = program('--check', cwd=top)
    group.check('--check', (given[:2], sorted(given[2].splitlines())), ((2, b''), said))
    status, diff, err = program('--diff', cwd=top)
    group.check('--diff', (status, err, len(diff.splitlines())), (2, refused, 5 * len(names)))
    group.check(
        'its names', diff.splitlines()[::5], [quoted('old/' + name).join(['--- ', '']).encode() for name in shown]
    )
    group.check('no control goes to the terminal', sorted({b for b in diff + given[2] if b < 32 or b == 127}), [10])
    if group.has('patch', checks=1):
        group.call('patch', '-s', '-p1', cwd=top, stdin=diff)
        after = contents(top)
        group.check(
            'what patch makes of it', (after['good.tf'], [after[name] for name in names]), (GOOD, [GOOD] * len(names))
        )
    blank = group.fresh()
    put(blank, {'a b/c  d.tf': OTHER, ' .tf': OTHER})
    diff = program('--diff', cwd=blank)[1]
    if group.has('patch', checks=1):
        group.call('patch', '-s', '-p1', cwd=blank, stdin=diff)
        group.check('names with blanks', contents(blank), {'a b/c  d.tf': GOOD, ' .tf': GOOD})
    blank = group.fresh()
    put(blank, {'in/a.tf': OTHER, 'x.tf': b'->in', 'y.tf': b'->nowhere'})
    group.check(
        'a linked folder that is called as a file',
        program('--list', cwd=blank),
        (4, lines('in/a.tf'), lines('y.tf: the link leads nowhere')),
    )


def counted(group, program):
    """The end of a run counts the files, unless it is to be quiet."""
    top = group.fresh()
    put(top, {'a.tf': OTHER, 'b.tf': GOOD, 'c.tf': BAD, 'd.tf': GOOD})
    for words, status, said in (
        (['--check', 'a.tf', 'b.tf'], 3, ['a.tf: not formatted', '1 file not formatted, 1 unchanged']),
        (['--check', '--diff', 'b.tf'], 0, ['0 files not formatted, 1 unchanged']),
        (['gone.tf'], 4, ['gone.tf: no such file or folder', '0 files formatted, 0 unchanged, 1 failed']),
        ([], 2, ['c.tf' + REFUSED, '1 file formatted, 2 unchanged, 1 refused']),
    ):
        done = group.call(group.trees, *words, cwd=top)
        group.check('what is counted with %r' % words, (done[0], done[2]), (status, lines(*said)))
    group.check('no files', group.call(group.trees, cwd=group.fresh()), (0, b'', lines('no files found')))
    group.check('the same, quiet', program(cwd=group.fresh()), (0, b'', b''))
    put(top, {'a.tf': OTHER})
    diff = program('--diff', 'a.tf', cwd=top)
    group.check('--check with --diff', program('--check', '--diff', 'a.tf', cwd=top), diff)
    group.check('and it changes nothing', contents(top)['a.tf'], OTHER)


def diffs(group, program):
    top = group.fresh()
    put(top, {'a b.tf': b'x = 1\na=1\n', 'c.tf': GOOD, 'd.tf': b'a=1'})
    group.check(
        '--diff',
        program('--diff', cwd=top),
        (
            3,
            lines(
                '--- old/a b.tf\t',
                '+++ new/a b.tf\t',
                '@@ -1,2 +1,2 @@',
                ' x = 1',
                '-a=1',
                '+a = 1',
                '--- old/d.tf',
                '+++ new/d.tf',
                '@@ -1 +1 @@',
                '-a=1',
                '\\ No newline at end of file',
                '+a = 1',
                '\\ No newline at end of file',
            ),
            b'',
        ),
    )
    if not group.has('patch', checks=2):
        return
    text = b''.join(b'%sk%d%s= %d\n' % (b' ' * (i % 3), i % 7, b' ' * (i % 2), i) + b'\n' * (i % 4) for i in range(200))
    put(top, {'c.tf': text, 'e.tf': text.replace(b'\n', b'\r\n')})
    patch = program('--diff', cwd=top)[1]
    group.check('patch takes it', group.call('patch', '--binary', '-s', '-p1', cwd=top, stdin=patch), (0, b'', b''))
    group.check('and all is formatted', program('--check', cwd=top), (0, b'', b''))


def sizes(group, program):
    """A file beyond the limit is reported with its name, and so is one whose print is."""
    top = group.fresh()
    put(top, {'a.tf': b'#' * (4 << 20) + b'\n', 'b.tf': OTHER, 'c.tf': b'a=1\n' * ((4 << 20) // 4)})
    large, wide = program('--check', 'a.tf', cwd=top)[2], program('--check', 'c.tf', cwd=top)[2]
    group.check(
        'files past the limit',
        (program(cwd=top), large.startswith(b'a.tf:1:1: '), wide.startswith(b'c.tf:1:1: '), large == wide),
        ((2, lines('b.tf'), large + wide), True, True, False),
    )


def full_devices(group, program):
    """A limit on the size of a file serves as a full device."""
    top = group.fresh()
    text = b'a=1\n' * 1000
    for limit in (2000, 5000):  # too small for the old text, and for the print alone
        put(top, {'a.tf': text, 'b.tf': OTHER})
        group.check(
            'a write past %d bytes' % limit,
            (program(cwd=top, limit=limit), contents(top)),
            ((4, lines('b.tf'), lines('a.tf: could not be written; left as it is')), {'a.tf': text, 'b.tf': GOOD}),
        )


def full_output(group, program):
    """Standard output that is full or closed: the files are whole, and so are the messages."""
    top = group.fresh()
    for mode in ('--list', '--diff', '--help', ''):
        for output in ('/dev/full', '&-'):
            put(top, {'a.tf': OTHER, 'b.tf': OTHER})
            done = group.call('sh', '-c', '"$1" --quiet %s >%s' % (mode, output), 'sh', group.trees, cwd=top)
            group.check(
                '%s where output is %s' % (mode or 'a run', output), done, (4, b'', b'tffmt-all: error: write failed\n')
            )
            group.holds(
                'files are whole, %s %s' % (mode, output),
                all(text in (GOOD, OTHER) for text in contents(top).values())
                and set(contents(top)) == {'a.tf', 'b.tf'},
                contents(top),
            )
    put(top, {'a.tf': BAD, 'b.tf': OTHER})
    for output in ('/dev/full', '&-'):
        done = group.call('sh', '-c', '"$1" --quiet --check 2>%s' % output, 'sh', group.trees, cwd=top)
        group.check(
            'standard error that is %s' % output, (done, contents(top)), ((4, b'', b''), {'a.tf': BAD, 'b.tf': OTHER})
        )


def mounted(group, size, script, *words):
    """Runs a script below a small device of its own, if one can be mounted; otherwise returns None."""
    if not shutil.which('unshare'):
        return None
    done = group.call(
        'unshare',
        '-m',
        'sh',
        '-c',
        'mount -t tmpfs -o size=%s,mode=755 none "$1" && cd "$1" || exit 99\n%s' % (size, script),
        'sh',
        group.fresh(),
        group.trees,
        *words,
        cwd='/',
    )
    return None if done[0] in (1, 99) else done


def full_folder(group, program):
    """A device that is really full: room for both texts, and not for both."""
    script = 'yes a=1 | head -c "$3" >a.tf; "$2" >/dev/null 2>&1; echo $?; ls -A; wc -c <a.tf; grep -c "a=1" a.tf; true'
    if mounted(group, '64k', script, '4') is None:
        group.skip('a full device', 2, 'nothing can be mounted')
        return
    group.check(
        'room for both texts', mounted(group, '64k', script, '24000')[1].split(), [b'0', b'a.tf', b'36000', b'0']
    )
    group.check(
        'no room for both', mounted(group, '64k', script, '32000')[1].split(), [b'4', b'a.tf', b'32000', b'8000']
    )


def rights(group, program):
    if os.getuid() != 0:
        group.skip('rights of files', 6, 'not run by root')
        return
    top = group.fresh()
    put(top, {'a.tf': OTHER, 'b.tf': OTHER, 'in/c.tf': OTHER, 'shut/d.tf': OTHER, 'z.tf': OTHER})
    for path in [top] + list(top.rglob('*')):
        os.chown(str(path), NOBODY, NOBODY)
    (top / 'a.tf').chmod(0)
    (top / 'b.tf').chmod(0o444)
    (top / 'in').chmod(0o555)
    (top / 'shut').chmod(0)
    group.check(
        'what may not be read or written',
        program(cwd=top, user=NOBODY),
        (
            4,
            lines('z.tf'),
            lines(
                'a.tf: cannot be read',
                'b.tf: cannot be written',
                'in/c.tf: no file can be made beside it',
                'shut/: the folder cannot be read',
            ),
        ),
    )
    group.check('an unreadable file alone', program('--check', 'a.tf', cwd=top, user=NOBODY)[0], 4)
    group.check(
        'an unreadable folder alone',
        program('--check', 'shut', cwd=top, user=NOBODY),
        (4, b'', lines('shut/: the folder cannot be read')),
    )
    group.check(
        'it is told by each part',
        [program('--check', '--shard', '%d/3' % k, 'shut', cwd=top, user=NOBODY)[0] for k in (1, 2, 3)],
        [4, 4, 4],
    )
    group.check(
        'what is below it',
        program('--check', 'shut/d.tf', cwd=top, user=NOBODY),
        (4, b'', lines('shut/d.tf: cannot be read')),
    )
    node = (top / 'in' / 'c.tf').stat().st_ino
    group.check(
        'in place where it is asked for',
        (
            program('--in-place', 'in', cwd=top, user=NOBODY),
            (top / 'in/c.tf').read_bytes(),
            (top / 'in/c.tf').stat().st_ino,
        ),
        ((0, lines('in/c.tf'), b''), GOOD, node),
    )


def in_place(group, program):
    """A file over which another is mounted can't be replaced."""
    script = (
        'printf "a  =  1\\n" >a.tf; printf "b  =  1\\n" >b.tf; touch over.tf; mount --bind a.tf over.tf || exit 99\n'
        '"$2" --quiet $3 over.tf b.tf 2>&1; echo $?; cat a.tf b.tf; ls -A'
    )
    given = [mounted(group, '64k', script, word) for word in ('', '--in-place', '--in-place --sync')]
    if None in given:
        group.skip('a file over which another is mounted', 3, 'nothing can be mounted')
        return
    names = lines('a.tf', 'b.tf', 'over.tf')
    group.check(
        'a file that cannot be replaced',
        given[0][1],
        lines('b.tf', 'over.tf: cannot be replaced', '4', 'a  =  1', 'b = 1') + names,
    )
    for done in given[1:]:
        group.check('is written in place', done[1], lines('b.tf', 'over.tf', '0', 'a = 1', 'b = 1') + names)


def owners(group, program):
    if os.getuid() != 0:
        group.skip('owners of files', 2, 'not run by root')
        return
    top = group.fresh()
    put(top, {'z.tf': OTHER})
    os.chown(str(top / 'z.tf'), 12345, 12346)
    (top / 'z.tf').chmod(0o2604)
    program('z.tf', cwd=top)
    now = (top / 'z.tf').stat()
    group.check(
        'the owner and the mode stay',
        (now.st_uid, now.st_gid, stat.S_IMODE(now.st_mode), (top / 'z.tf').read_bytes()),
        (12345, 12346, 0o2604, GOOD),
    )
    top.chmod(0o777)
    put(top, {'y.tf': OTHER})
    (top / 'y.tf').chmod(0o4666)
    program('y.tf', cwd=top, user=NOBODY)
    now = (top / 'y.tf').stat()
    group.check(
        'where that is not allowed it runs by nobody else\'s rights',
        (now.st_uid, stat.S_IMODE(now.st_mode), (top / 'y.tf').read_bytes()),
        (NOBODY, 0o666, GOOD),
    )


def synced(group, program):
    """With --sync each new file is flushed before it is renamed, and its folder after that."""
    if not group.has('strace', checks=2):
        return
    top = group.fresh()
    for words, wanted in ((['--sync'], ['fsync', 'rename', 'fsync']), ([], ['rename'])):
        put(top, {'in/a.tf': OTHER})
        trace = top / 'trace'
        group.call(
            'strace',
            '-f',
            '-o',
            trace,
            '-e',
            'trace=fsync,fdatasync,rename,renameat,renameat2',
            group.trees,
            *words,
            'in',
            cwd=top,
        )
        calls = re.findall(r'\b(f(?:data)?sync|rename)\w*\(', trace.read_text())
        group.check('flushes with %r' % words, (calls, (top / 'in/a.tf').read_bytes()), (wanted, GOOD))


def slow_trees(group, seconds):
    """The program with each open delayed this long."""
    return [
        'strace',
        '-f',
        '-qq',
        '-o',
        '/dev/null',
        '-e',
        'trace=openat,open',
        '-e',
        'inject=openat,open:delay_enter=%d' % (seconds * 1000000),
        group.trees,
        '--quiet',
    ]


def signals(group, program):
    if not group.has('strace', checks=2):
        return
    top = group.fresh()
    put(top, {'%d.tf' % i: OTHER for i in range(10, 40)})
    for sent in (signal.SIGTERM, signal.SIGINT):
        before = {name for name, text in contents(top).items() if text == GOOD}
        started = group.start('sh', '-c', 'echo $$ >pid; exec "$@"', 'sh', *slow_trees(group, 0.05), cwd=top)
        end = time.monotonic() + 20
        while len([1 for text in contents(top).values() if text == GOOD]) < len(before) + 3 and time.monotonic() < end:
            time.sleep(0.05)
        for child in subprocess.run(
            ['ps', '-o', 'pid=', '--ppid', str(started.pid)], stdout=subprocess.PIPE
        ).stdout.split():
            os.kill(int(child), sent)
        out = started.communicate(timeout=20)[0]
        (top / 'pid').unlink()
        after = {name: text for name, text in contents(top).items() if not name.startswith('.tffmt.')}
        done = [name for name in sorted(after) if after[name] == GOOD and name not in before]
        group.check(
            '%s: files are whole, and what was done is said' % sent.name,
            (set(after.values()) <= {GOOD, OTHER}, sorted(after), done[: len(out.splitlines())], 2 < len(done) < 30),
            (True, ['%d.tf' % i for i in range(10, 40)], out.decode().splitlines(), True),
        )


def killed(group, program):
    """Killed at any moment, each file is old or new."""
    top, texts = group.fresh(), (b'a=1\n' * 2000, b'a = 1\n' * 2000)
    names = ['%02d.tf' % i for i in range(20)]
    put(top, {name: texts[0] for name in names})
    began = time.monotonic()
    program(cwd=top)
    whole, seed = time.monotonic() - began, random.Random(7)
    wrong, old, new = [], 0, 0
    for _ in range(KILLS):
        for name in names:
            if (top / name).read_bytes() != texts[0]:
                (top / name).write_bytes(texts[0])
        process = subprocess.Popen([group.trees], cwd=str(top), stdout=subprocess.DEVNULL, stderr=subprocess.DEVNULL)
        time.sleep(seed.uniform(0, whole))
        process.kill()
        process.wait()
        after = contents(top)
        wrong += [name for name in names if after.get(name) not in texts]
        wrong += [name for name in after if name not in names and not name.startswith('.tffmt.')]
        old += sum(after.get(name) == texts[0] for name in names)
        new += sum(after.get(name) == texts[1] for name in names)
        for name in after:
            if name.startswith('.tffmt.'):
                (top / name).unlink()
    group.check('killed %d times, each file is old or new' % KILLS, wrong, [])
    group.holds('some were new, and some old', old and new, (old, new))


def many(group, program):
    top = group.fresh()
    names = ['%03d/main.tf' % i for i in range(70)]
    put(top, {name: OTHER for name in names})
    group.check('many files, in order', program('-j', '5', cwd=top), (0, lines(*names), b''))


def shards(group, program):
    """Each file is in one shard, which depends on its name alone."""
    names = sorted(['new\nline.tf', 'a b/\u00e9.tf'] + ['d/%d.tf' % i for i in range(40)], key=os.fsencode)
    top = group.fresh()
    put(top, {name: OTHER for name in names})
    parts = [program('--list', '--shard', '%d/3' % k, cwd=top)[1] for k in range(1, 4)]
    wanted = [lines(*[quoted(name) for name in names if shard_of(name, 3) == k]) for k in range(3)]
    group.check('each file in the shard that the guide says', parts, wanted)
    given = b'\0'.join(b'.//' + os.fsencode(name) for name in names[:9]) + b'\0'
    group.check(
        'the same among fewer files, however they are named',
        [program('--null', '--list', '--shard=%d/3' % k, cwd=top, stdin=given)[1] for k in range(1, 4)],
        [ended(*[name for name in names[:9] if shard_of(name, 3) == k]) for k in range(3)],
    )
    told = [program('--check', '--shard', '%d/3' % k, 'gone.tf', cwd=top)[2] for k in range(1, 4)]
    group.check('a missing file is told by one', sorted(told), [b'', b'', b'gone.tf: no such file or folder\n'])


def progress(group, program):
    """A line of progress on a terminal, and nowhere else."""
    if not group.has('strace', checks=2):
        return
    top = group.fresh()
    put(top, {'%d.tf' % i: GOOD if i % 2 else OTHER for i in range(4)})
    said = on_terminal(group, slow_trees(group, 0.6) + ['--list'], top)
    group.holds(
        'progress is shown, and wiped',
        re.fullmatch(rb'(?:(?:\r[0-4] files, [0-2] of them not formatted)+\r\x1b\[K|[02]\.tf\r\n)+', said)
        and said.count(b'.tf\r\n') == 2
        and b'files, ' in said,
        said,
    )
    group.check(
        'not in a file', group.call(*slow_trees(group, 0.6), '--list', cwd=top), (3, lines('0.tf', '2.tf'), b'')
    )


def faults_shown(group, program):
    """The line of a fault on a terminal, and nowhere else."""
    top = group.fresh()
    put(top, {'bad.tf': b'a = 1\n\tb = "\xe5\x90\x8d" ] # \x1b[2J\n', 'long.tf': b'=' + b' ' * 240 + b'\n'})
    told = [b'bad.tf:2:10: unexpected token', b'long.tf:1:1: unexpected token']
    line = [b'   b = "\xe5\x90\x8d" ] #  [2J', b'            ^']
    said = on_terminal(group, [group.trees, '--quiet', '--check'], top)
    group.check(
        'the line of a fault on a terminal', said, b''.join(text + b'\r\n' for text in told[:1] + line + told[1:])
    )
    said = program('--quiet', '--check', cwd=top)
    group.check('and not in a file', said, (2, b'', b''.join(text + b'\n' for text in told)))
