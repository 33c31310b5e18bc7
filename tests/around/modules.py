"""Which modules tfrules-all lints on real folders, which files each of them has, and its messages about those that can't be
looked at."""

import json
import os
import re
import signal
import time

from harness import BAD, NOBODY, TOP, lines, put, quoted, shard_of, special_links

DECLARED, USED = b'variable "n" { type = string }\n', b'x = var.n\n'
UNUSED = '%s:1:1: Warning - variable "n" is declared but not used (terraform_unused_declarations)'
UNTYPED = '%s:1:1: Warning - variable "n" has no type (terraform_typed_variables)'
MISSING = 'no such file or folder'
GUIDE = (TOP / 'docs' / 'RULES.md').read_text(encoding='utf-8')
ALL = sorted(re.findall(r'^## (terraform_\w+)$', GUIDE, re.M))
DEFAULT = sorted(re.findall(r'^\| \[`(\w+)`\]\S+ \| \w+ \| yes \|', GUIDE, re.M))


def report(*each):
    """The report of one module."""
    return lines('%d issue(s) found:' % len(each), '', *each)


def unused(*names):
    """The reports of modules that have each one such variable."""
    return b'\n'.join(report(UNUSED % name) for name in names)


def fault(name, text):
    return 'tfrules-all: error: %s: %s' % (name, text)


def tree(group, files):
    top = group.fresh()
    put(top, files)
    return top


def run_parts(group, parts, checks):
    """Runs functions that get the program as a function, which says nothing of the run as a whole."""
    if not os.path.exists(group.linted):
        group.skip(group.name, checks, 'bin/tfrules-all is not built')
        return

    def lint(*words, cwd, **more):
        return group.call(group.linted, '--quiet', *words, cwd=cwd, **more)

    for part in parts:
        part(group, lint)


def run(group):
    parts = (
        whole_modules,
        linked_modules,
        names,
        walk,
        special_files,
        deleted,
        limits,
        many_modules,
        names_from_input,
        input_left,
        shards,
        rights,
        signals,
    )
    run_parts(group, parts, 93)


def whole_modules(group, lint):
    """The files of a folder are taken together, whichever is named."""
    top = tree(
        group, {'m/a.tf': DECLARED, 'm/b.tf': USED, 'o/a.tf': DECLARED, 'o/b.tofu': USED, 'other/a.tf': DECLARED}
    )
    for name in ('m/a.tf', 'm/b.tf', './m/a.tf', 'm//a.tf', 'o/a.tf', 'o/b.tofu', 'm', 'm/'):
        group.check('whatever is named of a module: ' + name, lint(name, cwd=top), (0, b'', b''))
    group.check('all of a module', lint('m/a.tf', 'm/b.tf', cwd=top), (0, b'', b''))
    group.check(
        'another folder is another module', lint('m/b.tf', 'other/a.tf', cwd=top), (2, unused('other/a.tf'), b'')
    )
    group.check('in its folder', lint('a.tf', cwd=top / 'other'), (2, unused('a.tf'), b''))
    group.check('by a path', lint(top / 'other' / 'a.tf', cwd='/'), (2, unused('%s/other/a.tf' % top), b''))
    group.check(
        'once, though two are named',
        lint('a.tf', 'b.tf', cwd=tree(group, {'a.tf': DECLARED, 'b.tf': b''})),
        (2, unused('a.tf'), b''),
    )
    put(top, {'none/a.tfvars': b'n = 1\n', 'none/b.tf.json': b'{}', 'none/c.tftest.hcl': DECLARED})
    group.check('a folder without such files', lint('none', 'none/a.tfvars', cwd=top), (0, b'', b''))


def link(top, name, other, is_hard):
    """Gives a file another name."""
    if is_hard:
        (top / name).parent.mkdir(exist_ok=True)
        os.link(str(top / other), str(top / name))
    else:
        put(top, {name: b'->' + os.fsencode(os.path.relpath(other, os.path.dirname(name)))})


def linked_modules(group, lint):
    """A folder that has a file is a module, whatever other names the file has."""
    for is_hard in (False, True):
        kind = 'a hard link' if is_hard else 'a link'
        top = tree(group, {'a/main.tf': b'variable "n" {}\n'})
        link(top, 'b/main.tf', 'a/main.tf', is_hard)
        each = [report(UNTYPED % name, UNUSED % name) for name in ('a/main.tf', 'b/main.tf')]
        for words in ([], ['b', 'a'], ['b/main.tf', 'a/main.tf'], ['a', 'b/main.tf']):
            group.check(
                'two modules of one file by %s: %r' % (kind, words), lint(*words, cwd=top), (2, b'\n'.join(each), b'')
            )
        group.check('%s by name' % kind, lint('b/main.tf', cwd=top), (2, each[1], b''))
        top = tree(group, {'shared/versions.tf': DECLARED, 'one/main.tf': USED, 'two/main.tf': b'locals {}\n'})
        for name in ('one', 'two', 'three'):
            link(top, name + '/versions.tf', 'shared/versions.tf', is_hard)
        told = ['shared/versions.tf', 'three/versions.tf', 'two/versions.tf']
        group.check('a file that three modules share by %s' % kind, lint(cwd=top), (2, unused(*told), b''))
        given = b'\0'.join(b'%s/versions.tf' % name for name in (b'three', b'one', b'two'))
        group.check('its names, by %s' % kind, lint('--null', cwd=top, stdin=given), (2, unused(*told[1:]), b''))
        top = tree(group, {'a/a.tf': DECLARED, 'a/b.tf': USED})
        for name, other in (('b/a.tf', 'a/a.tf'), ('c/a.tf', 'b/a.tf'), ('c/b.tf', 'a/b.tf'), ('d/b.tf', 'a/b.tf')):
            link(top, name, other, is_hard)
        group.check('modules whose files are all %ss' % kind[2:], lint(cwd=top), (2, unused('b/a.tf'), b''))
    top = tree(group, {'a/a.tf': DECLARED, 'other': b'->a'})
    for word in ('other', 'a/../a'):
        group.check(
            'a folder under two names: %r' % word,
            lint('a', word, cwd=top),
            (2, unused('a/a.tf', word + '/a.tf'), b''),
        )


def names(group, lint):
    """Names with blanks, newlines, quotes, brackets and a dash in front."""
    every = [
        '-d/-z.tf',
        '[x]/a.tf',
        'a b/c d.tf',
        'back\\slash/a.tf',
        'new\nline/x\ny.tf',
        'q"u\'o/a.tf',
        '\u00e9/\u00e9.tf',
    ]
    top = tree(group, {name: DECLARED for name in every})
    put(top, {'x/a.tf': b'', '[x]/*.tf': b''})
    shown = unused(*(quoted(name) for name in every))
    group.check('any name', lint('--', *every, cwd=top), (2, shown, b''))
    group.check('a file with a dash in front', lint('--', '-z.tf', cwd=top / '-d'), (2, unused('-z.tf'), b''))
    group.check('any name in a walk', lint(cwd=top), (2, shown, b''))
    for name, told in ((b'm/caf\xe9.tf', b'm/caf\xe9.tf'), (b'm/caf\xe9 "\\.tf', b'"m/caf\xe9 \\"\\\\.tf"')):
        top = tree(group, {name: DECLARED, 'm/bad.tf': DECLARED, 'n/good.tf': DECLARED})
        wanted = 1, unused('n/good.tf'), b'tfrules-all: error: %s: the name isn\'t UTF-8\n' % told
        group.check('a name that is not UTF-8 is told, and other modules are linted', lint(cwd=top), wanted)
        group.check('the same of a word', lint(name, 'n/good.tf', cwd=top), wanted)


def walk(group, lint):
    taken = ['a.tf', 'm/a.tf', 'm/in/a.tf', 'o/b.tofu']
    passed_over = ['.hidden.tf', '.terraform/m/a.tf', 'old~/a.tf', '#x#/a.tf', 'n/a.tf~', 'n/b.hcl']
    top = tree(group, {name: DECLARED for name in taken + passed_over})
    put(top, {'linked': b'->m'})
    group.check('what a walk takes', lint(cwd=top), (2, unused(*taken), b''))
    group.check('a folder by name, and those below', lint('m', cwd=top), (2, unused('m/a.tf', 'm/in/a.tf'), b''))
    group.check('a folder above one that is named', lint('m/in', 'm', cwd=top), (2, unused('m/a.tf', 'm/in/a.tf'), b''))
    group.check('a hidden folder by name', lint('.terraform', cwd=top)[0], 2)
    group.check('a linked folder by name', lint('linked/', cwd=top), (2, unused('linked/a.tf', 'linked/in/a.tf'), b''))
    group.check('an empty folder', lint(cwd=group.fresh()), (0, b'', b''))
    top = tree(group, {'a.tf': DECLARED, 'b.tf': b'->far/x', 'far/x': USED, 'c.tf/d.txt': b''})
    group.check('a linked file is taken, a folder of such a name isn\'t', lint('a.tf', cwd=top), (0, b'', b''))
    put(top, {'gone.tf': b'->nowhere'})
    group.check(
        'a module with a link that leads nowhere is refused',
        lint('a.tf', '.', cwd=top),
        (1, b'', lines(fault('gone.tf', 'the link leads nowhere'))),
    )
    top = tree(group, {'a/m.tf': DECLARED, 'a-b/m.tf': DECLARED, 'a/c/m.tf': DECLARED, 'm.tf': DECLARED})
    order = ['m.tf', 'a-b/m.tf', 'a/m.tf', 'a/c/m.tf']
    group.check('by the names of the folders with a slash', lint(cwd=top), (2, unused(*order), b''))


def special_files(group, lint):
    """A module with a pipe, a socket or a device under the name of a file, or a link to one, is refused."""
    top = tree(group, {'a.tf': DECLARED, 'm/a.tf': DECLARED})
    links = special_links(top)
    within = ['in/pipe.tf', 'in/socket.tf']
    told = [fault(name, 'not a file') for name in sorted(links + within)]
    group.check('links to pipes, sockets and devices', lint(cwd=top), (1, unused('m/a.tf'), lines(*told)))
    group.check('they make a module', lint('in', cwd=top), (1, b'', lines(*told[:5])))
    group.check('also if they are named', lint(*links, 'm', cwd=top), (1, unused('m/a.tf'), lines(*told)))
    put(top, {'n/a.tf': DECLARED, 'n/gone.tfvars': b'->nowhere'})
    os.mkfifo(str(top / 'n' / 'pipe.tfvars'))
    group.check('under other names they are no matter', lint('n', cwd=top), (2, unused('n/a.tf'), b''))


def deleted(group, lint):
    """A missing file of a module stands for its folder, if that exists."""
    top = tree(group, {'m/a.tf': DECLARED, 'm/b.tf': USED, 'o/a.tofu': DECLARED, 'none/x.txt': b'', 'gone/a.tf': USED})
    (top / 'm' / 'b.tf').unlink()
    group.check(
        'a file that was deleted', lint('m/b.tf', 'o/gone.tofu', cwd=top), (2, unused('m/a.tf', 'o/a.tofu'), b'')
    )
    group.check('and one that is there', lint('m/b.tf', 'm/a.tf', cwd=top), (2, unused('m/a.tf'), b''))
    group.check('in the current folder', lint('b.tf', cwd=top / 'm'), (2, unused('a.tf'), b''))
    group.check('the last one of a folder', lint('none/gone.tf', cwd=top), (0, b'', b''))
    group.check('one of another kind', lint('m/gone.tfvars', cwd=top), (1, b'', lines(fault('m/gone.tfvars', MISSING))))
    if not group.has('git', checks=2):
        return

    def git(*words):
        return group.call('git', '-c', 'user.name=n', '-c', 'user.email=n@localhost', *words, cwd=top)[1]

    put(top, {'m/b.tf': USED, 'gone/b.tf': b''})
    for words in (
        ['init', '-q', '-b', 'main'],
        ['add', '-A'],
        ['commit', '-q', '-m', 'x'],
        ['checkout', '-q', '-b', 'other'],
        ['rm', '-q', '-r', 'm/b.tf', 'gone'],
        ['commit', '-q', '-m', 'y'],
    ):
        git(*words)
    diff = git('diff', '--name-only', '-z', 'main', '--', '*.tf')
    group.check('what git says was deleted', diff, b'gone/a.tf\0gone/b.tf\0m/b.tf\0')
    wanted = 1, unused('m/a.tf'), lines(fault('gone/', MISSING))
    group.check('a module that is gone is told once, and git is not asked', lint('-0', cwd=top, stdin=diff), wanted)


def limits(group, lint):
    files = {'m/%d.tf' % number: b'' for number in range(255)}
    top = tree(group, dict(files, **{'m/b.tofu': DECLARED, 'm/a.tf': b'', 'n/a.tf': DECLARED}))
    group.check(
        'too many files, and the others are linted',
        lint(cwd=top),
        (1, unused('n/a.tf'), lines(fault('m/', 'more than 256 files'))),
    )
    (top / 'm' / '0.tf').unlink()
    group.check('as many as there may be', lint('m', cwd=top), (2, unused('m/b.tofu'), b''))


MODULES, FILES = 4000, 5

# texts of files, by the number of the module and of the file; `b.tf` of each hundredth module is refused
TEXTS = (
    b'variable "n" {}\noutput "o" {\n  value = "${var.n}"\n}\n',
    b'locals {\n  a = 1\n  b = local.a\n}\n',
    b'module "m" {\n  source = "hashicorp/consul/aws"\n}\n',
    b'# tflint-ignore: terraform_unused_declarations\ndata "a" "b" {}\n',
    b'resource "a" "b" {\n  c = var.n\n}\n',
    b'variable "n" {\n  type = string\n}\n',
    b'',
)


def many_modules(group, lint):
    """Each of very many modules is linted: its output is that of tfrules for its files."""
    names = ['a.tf', 'b.tf', 'c.tofu', 'main.tf', 'z.tofu']
    files = {}
    for number in range(MODULES):
        folder = 'tree/%02d/module%04d/' % (number % 40, number)
        for place, name in enumerate(names):
            text = BAD if number % 100 == 57 and name == 'b.tf' else TEXTS[(number * 3 + place * place) % len(TEXTS)]
            files[folder + name] = text
    top = tree(group, files)
    folders = sorted({os.path.dirname(name) + '/' for name in files})
    out, err, worst = [], [], 0
    for folder in folders:
        given = [folder + name for name in names]
        status, told, said = group.call(group.linter, '--rules', 'all', *given, cwd=top)
        out.append(told)
        err.append(said.replace(b'tfrules: error: ', b'tfrules-all: error: '))
        worst = 1 if 1 in (status, worst) else max(status, worst)
    wanted = worst, b'\n'.join(told for told in out if told), b''.join(err)
    group.check(
        'some are refused, and some are not', (worst, len(files), sum(map(bool, err))), (1, MODULES * FILES, 40)
    )
    group.check('very many modules', lint('--rules', 'all', cwd=top), wanted)
    group.check('by their folders', lint('--rules', 'all', *folders, cwd=top), wanted)
    group.check('by their files', lint('--rules', 'all', '--null', cwd=top, stdin='\0'.join(files).encode()), wanted)
    parts = [lint('--rules', 'all', '--shard', '%d/7' % part, cwd=top) for part in range(1, 8)]
    told = [line for part in parts for line in part[1].split(b'\n') if b' - ' in line]
    group.check('in parts', sorted(told), sorted(line for line in wanted[1].split(b'\n') if b' - ' in line))


def names_from_input(group, lint):
    every = ['%d/%d/a.tf' % (number, each) for number in range(4) for each in range(2)]
    top = tree(group, dict({name: DECLARED for name in every}, **{'m/b.tf': b'', 'm/a.tf': DECLARED, 'm\nn/a.tf': b''}))
    put(top, {'m\nn/b.tf': DECLARED})
    given = b'\0'.join(os.fsencode(name) for name in ['m/b.tf', 'm\nn/a.tf'] + every)
    whole = lint(cwd=top)
    group.check('what there is', whole, (2, unused(*every, '"m\\nn/b.tf"', 'm/a.tf'), b''))
    group.check('names from standard input', lint('--null', cwd=top, stdin=given), whole)
    group.check('the last one ended', lint('-0', cwd=top, stdin=given + b'\0'), whole)
    group.check('none', lint('-0', cwd=top), (0, b'', b''))


def input_left(group, lint):
    """Standard input is read for --null alone: a shell's loop over names keeps those that follow."""
    top, given = tree(group, {'a/a.tf': DECLARED, 'b/b.tf': BAD}), b'b/b.tf\0'
    for words in (
        [],
        ['a'],
        ['--', 'a/a.tf', 'gone'],
        ['--force', 'b'],
        ['--rules=all', '.'],
        ['-'],
        ['--help'],
        ['--version'],
        ['--list-rules'],
        ['--explain', 'terraform_typed_variables'],
        ['--bogus'],
        ['--null', '--bogus'],
        ['--null', 'a'],
    ):
        group.check(
            'standard input is left with %r' % words,
            group.leaves(group.linted, *words, cwd=top, given=given),
            (given,) * 2,
        )
    group.check('it is read with --null', group.leaves(group.linted, '-0', cwd=top, given=given), (b'', b''))


def folder_of(name):
    """The name of a module, by which its part is chosen."""
    return name[: name.rfind('/') + 1]


def shards(group, lint):
    """Each module is in one part, which depends on the name of its folder alone."""
    every = ['a b/m.tf', 'm.tf', 'new\nline/m.tf', '\u00e9/m.tf'] + ['d/%d/m.tf' % number for number in range(40)]
    every.sort(key=lambda name: os.fsencode(folder_of(name)))
    top = tree(group, {name: DECLARED for name in every})

    def reported(*words, **more):
        document = json.loads(lint('--format', 'json', *words, cwd=top, **more)[1].decode())
        return [it['range']['filename'] for it in document['issues']]

    def wanted(names):
        return [[name for name in names if shard_of(folder_of(name), 4) == part] for part in range(4)]

    parts = [reported('--shard', '%d/4' % part) for part in range(1, 5)]
    group.check('each module is in one part, by the sum of the guide', parts, wanted(every))
    group.holds('none is empty', all(parts), parts)
    given = b'\0'.join(os.fsencode(name) for name in reversed(every[:20])) + b'\0'
    parts = [reported('--null', '--shard=%d/4' % part, stdin=given) for part in range(1, 5)]
    group.check('the same among fewer modules', parts, wanted(every[:20]))


def rights(group, lint):
    top = tree(
        group,
        {'m/a.tf': DECLARED, 'm/b.tf': USED, 'shut/a.tf': DECLARED, 'n/a.tf': DECLARED, 'entered/a.tf': DECLARED},
    )
    (top / 'shut').chmod(0o000)
    (top / 'entered').chmod(0o311)
    (top / 'm' / 'b.tf').chmod(0o000)
    user = None if os.getuid() else NOBODY
    for path in (top, top / 'entered'):
        os.chown(str(path), user or -1, -1)
    told = [
        fault('m/b.tf', 'cannot be read'),
        fault('entered/', 'the folder cannot be read'),
        fault('shut/', 'the folder cannot be read'),
    ]
    group.check(
        'folders and a file that cannot be read are told, and the others are linted',
        lint(cwd=top, user=user),
        (1, unused('n/a.tf'), lines(*told)),
    )
    for name in ('entered', 'entered/a.tf'):
        group.check(
            'a folder that can be entered and not read, by ' + name,
            lint(name, 'n', cwd=top, user=user),
            (1, unused('n/a.tf'), lines(told[1])),
        )
    for name in ('shut', 'entered'):
        (top / name).chmod(0o755)


def signals(group, lint):
    """A signal ends a run at once, here one that waits for names."""
    top = tree(group, {'a.tf': DECLARED})
    os.mkfifo(str(top / 'names'))
    for sent in (signal.SIGHUP, signal.SIGINT, signal.SIGTERM):
        started = group.start('sh', '-c', 'exec "$0" --null <>names', group.linted, cwd=top)
        time.sleep(0.3)
        group.check('%s ends it' % sent.name, group.end(started, sent), (-sent, b'', b''))
