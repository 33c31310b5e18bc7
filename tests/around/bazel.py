"""The recipe for Bazel: which parts run again, the log of a part that fails, and that no module is passed over."""

import os
import re
import shutil

from harness import BAD, GOOD, LIMIT, lines, put, shard_of

MODULES, PARTS = 200, 10
CHECKS = 17
# Names that shells, Bazel and its texts read as something else.
ODD = "é ü|q'u|$HOME|$(x)|a b|x$$y|[x]|*|100%|%s|{b}|a,b|@x|日本|(p)|~x|a=b|x&y|x;y|<x>|!x|^x|`x`|q\"q|#".split('|')
ISSUE = b'variable "n" {\n  type = string\n}\n'
BELOW = b'''load("//:tfrules.bzl", "tfrules_parts")

tfrules_parts(
    name = "mine",
    srcs = glob(["**/*.tf", "**/*.tofu"]),
    parts = 2,
    options = ["--force", "--rules", "all"],
)
'''


def run(group):
    if not os.access(group.linted, os.X_OK):
        group.skip('bazel', CHECKS, 'bin/tfrules-all is not built')
        return
    if not group.has('bazel', checks=CHECKS, why=hindrance(group)):
        return
    work = Work(group)
    for part in (whole, changed, failing, passed_over, below):
        part(group, work)


def hindrance(group):
    """Why an installed Bazel can't be used, if it can't."""
    if not shutil.which('bazel'):
        return None
    found = re.match(rb'bazel (\d*)', group.call('bazel', '--version', cwd=group.top)[1])
    if not found or int(found.group(1) or 0) > 7:
        return 'it is of no version that reads WORKSPACE'
    top = group.fresh()
    put(top, {'WORKSPACE': b'', 'BUILD': b'genrule(name = "x", outs = ["y"], cmd = "touch $@")\n'})
    return None if build(group, top, group.fresh(), '//:x')[0] == 0 else 'it does not run here'


def build(group, top, root, *words):
    """(status, the names of the actions that ran, the output) of a build, which leaves no server, nor anything in the
    home folder."""
    status, out, err = group.call(
        'bazel',
        '--batch',
        '--output_user_root=%s' % root,
        'build',
        '--nosandbox_debug',  # Debian's settings switch it on
        '--subcommands',
        '--keep_going',
        '--color=no',
        '--curses=no',
        *words,
        cwd=top,
        within=5 * LIMIT,
    )
    return status, sorted(re.findall(r'^SUBCOMMAND: # //(\S+) \[', (out + err).decode(), re.M)), out + err


class Work:
    """A repository with the recipe, and Bazel in it."""

    def __init__(self, group):
        self.group, self.top, self.installed = group, group.fresh(), group.fresh()
        self.root = group.fresh()
        recipe = group.contrib / 'ci' / 'bazel'
        shutil.copy(str(recipe / 'tfrules.BUILD'), str(self.top / 'BUILD.bazel'))
        shutil.copy(str(recipe / 'tfrules.bzl'), str(self.top))
        text = (recipe / 'WORKSPACE').read_text()
        (self.top / 'WORKSPACE').write_text(text.replace('"/usr/local/bin"', '"%s"' % self.installed))
        shutil.copy(group.linted, str(self.installed / 'tfrules-all'))
        files = {
            'tree/%02d/module%04d/%s' % (number % 20, number, name): GOOD
            for number in range(MODULES)
            for name in ('main.tf', 'other.tf', 'third.tofu')
        }
        files.update({'odd/%s/a.tf' % name: GOOD for name in ODD})
        files.update({name: GOOD for name in ('top.tf', 'tree/00/a.tf', 'a/b/c/d.tofu')})
        self.first = {name[: name.rfind('/') + 1]: name for name in sorted(files, reverse=True)}
        files.update({name: ISSUE for name in ('.terraform/m/a.tf', 'old~/a.tf', '#x#/a.tf', 'tree/.a.tf', 'x/.a.tf')})
        files.update({'below/m/a.tf': ISSUE, 'below/b.tf': GOOD, 'below/BUILD.bazel': BELOW})
        put(self.top, files)

    def build(self, *words):
        return build(self.group, self.top, self.root, *words)

    def counts(self):
        """How many modules each part has."""
        return [sum(part_of(folder) == part for folder in self.first) for part in range(1, PARTS + 1)]

    def report(self, name):
        return (self.top / 'bazel-bin' / (name.replace(':', '/').lstrip('/') + '.txt')).read_bytes()


def part_of(folder):
    return shard_of(folder, PARTS) + 1


def names_of(*parts):
    return sorted(':terraform_%d' % part for part in set(parts))


def counted(count):
    return lines('no issues in %d module%s' % (count, '' if count == 1 else 's'))


def whole(group, work):
    """Each part is an action, and each module is in its part."""
    status, ran, _ = work.build('//:terraform')
    every = range(1, PARTS + 1)
    group.check('a build', (status, ran), (0, names_of(*every)))
    group.holds('each part has some modules', min(work.counts()) > 1, work.counts())
    reports = [work.report(':terraform_%d' % part) for part in every]
    group.check('the reports', reports, list(map(counted, work.counts())))
    status, ran, _ = work.build('//:terraform')
    group.check('a second build runs nothing', (status, ran), (0, []))


def changed(group, work):
    """The parts of files that changed, came and went are linted again, and no others."""
    folder = 'odd/é ü/'
    put(work.top, {folder + 'a.tf': GOOD + b'# more\n'})
    status, ran, _ = work.build('//:terraform')
    group.check('a file that changed', (status, ran), (0, names_of(part_of(folder))))
    (work.top / 'tree/03/module0003/other.tf').unlink()
    put(work.top, {'new/a.tf': GOOD, 'x/b.tf.txt': GOOD})
    work.first['new/'] = 'new/a.tf'
    parts = names_of(part_of('tree/03/module0003/'), part_of('new/'))
    status, ran, _ = work.build('//:terraform')
    group.check('a file that came and one that went', (status, ran), (0, parts))


def failing(group, work):
    """Parts with an issue and with a refused file fail, and the log has the program's output for them."""
    issue, bad = 'odd/$HOME/', next(it for it in sorted(work.first) if part_of(it) != part_of('odd/$HOME/'))
    put(work.top, {work.first[issue]: ISSUE, work.first[bad]: BAD})
    status, ran, said = work.build('//:terraform')
    group.check('parts that fail', (status, ran), (1, names_of(part_of(issue), part_of(bad))))
    given = '\0'.join(work.first.values()).encode()
    words = [group.linted, '--null', '--shard', '%d/%d' % (part_of(issue), PARTS)]
    _, out, err = group.call(*words, cwd=work.top, stdin=given)
    group.holds('the log has the report', out + err in said, (out + err, said[-4000:]))
    group.check('it is of one issue', out.count(b'\n'), 3)
    told = lines('tfrules-all: error: %s:1:3: unexpected token' % work.first[bad])
    group.holds('the log has the refusal', told in said, said[-4000:])
    group.check(
        'which status each has', sorted(re.findall(rb'terraform_\d+ failed: \(Exit (\d)\)', said)), [b'1', b'2']
    )
    status, ran, _ = work.build('//:terraform')
    group.check('a part that failed is not cached', (status, len(ran)), (1, 2))
    put(work.top, {work.first[issue]: GOOD, work.first[bad]: GOOD})


def passed_over(group, work):
    """With another program all parts are linted again; one that passes modules over doesn't pass."""
    program = work.installed / 'tfrules-all'
    program.write_text('#!/bin/sh\ncat >/dev/null\necho "no issues in 1 module" >&2\n')
    status, ran, said = work.build('//:terraform')
    group.check('another program', (status, len(ran)), (1, PARTS))
    told = re.findall(rb'^part (\d+) of 10 has (\d+) modules, and some were passed over$', said, re.M)
    found = sorted((int(part), int(count)) for part, count in told)
    group.check('modules that it passes over', found, list(enumerate(work.counts(), 1)))
    shutil.copy(group.linted, str(program))


def below(group, work):
    """A package below, with options of its own, and without a sandbox: its folders are named by their whole paths."""
    status, ran, _ = work.build('--spawn_strategy=local', '//...')
    every = names_of(*range(1, PARTS + 1)) + ['below:mine_1', 'below:mine_2']
    group.check('a package below', (status, ran), (0, every))
    names = ['below/', 'below/m/']
    for part in (1, 2):
        given = [name for name in names if shard_of(name, 2) + 1 == part]
        words = [group.linted, '--force', '--rules', 'all', '--shard', '%d/2' % part, 'below']
        _, out, err = group.call(*words, cwd=work.top)
        group.check('its part %d' % part, work.report('below:mine_%d' % part), (out + err) if given else b'')
