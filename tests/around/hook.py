"""contrib/tffmt-hook in real git, and the hooks for pre-commit in the real pre-commit."""

import os
import pathlib
import re
import shlex
import shutil
import textwrap

from harness import BAD, GOOD, OTHER, REFUSED, TOP, lines, put, quoted
from modules import DECLARED, USED, unused

FORMAT = 'tffmt-hook: the commit is refused: format these files and stage them again:'
MEND = 'tffmt-hook: the commit is refused: fix these files and stage them again'
BLIND = 'tffmt-hook: the commit is refused: not every staged file could be looked at'


class Repository:
    def __init__(self, group, folder=None):
        self.group, self.top = group, folder or group.fresh()
        self.hook = group.contrib / 'tffmt-hook'
        for words in (['init', '-q', '.'], ['config', 'user.name', 'n'], ['config', 'user.email', 'n@localhost']):
            self.git(*words)

    def git(self, *words, **more):
        more.setdefault('cwd', self.top)
        return self.group.call('git', *words, **more)

    def stage(self, files):
        put(self.top, files)
        self.git('add', '-A')

    def commit(self, *words, **more):
        """Whether the commit passed, and the output."""
        status, _, err = self.git('commit', '-q', '-m', 'x', *words, **more)
        return status == 0, b''.join(sorted(err.splitlines(True)))

    def run_hook(self, **more):
        return self.group.call(self.hook, cwd=self.top, **more)

    def install(self, **more):
        more.setdefault('cwd', self.top)
        return self.group.call(self.hook, '--install', **more)

    def uninstall(self):
        return self.group.call(self.hook, '--uninstall', cwd=self.top)


def said(*each):
    return b''.join(sorted(lines(*each).splitlines(True)))


def mend(*names):
    """The line that the hook prints for files with plain names."""
    return '  tffmt-all -- ' + ' '.join(names)


def run(group):
    if group.has('git', checks=82):
        for part in (
            first_commit,
            later_commits,
            alone,
            odd_names,
            mended,
            many_files,
            without_program,
            noted_program,
            uninstalling,
            failing_tools,
            filters,
            sparse,
            installing,
            other_hooks,
            with_the_linter,
            command_line,
        ):
            part(group)
        group.check('nothing is left in the temporary folder', list(group.folder('tmp').iterdir()), [])


def installed(group):
    made = Repository(group)
    made.install()
    return made


def first_commit(group):
    here = installed(group)
    here.stage(
        {
            'good.tf': GOOD,
            'other.tf': OTHER,
            'vars.tfvars': OTHER,
            'b.tofu': OTHER,
            'c.tftest.hcl': OTHER,
            'd.tfmock.hcl': OTHER,
            'text.txt': OTHER,
            'e.hcl': OTHER,
            'a folder/bad.tf': BAD,
            '\u00e9.tf': OTHER,
            'f.tfquery.hcl': OTHER,
            'g.tofutest.hcl': OTHER,
            '.config/h.tf': OTHER,
            'old~/#i#/i.tf': OTHER,
            'link.tf': b'->other.tf',
        }
    )
    group.check(
        'first commit, all reported',
        here.commit(),
        (
            False,
            said(
                'other.tf: not formatted',
                'vars.tfvars: not formatted',
                '\u00e9.tf: not formatted',
                'b.tofu: not formatted',
                'c.tftest.hcl: not formatted',
                'd.tfmock.hcl: not formatted',
                'a folder/bad.tf' + REFUSED,
                'f.tfquery.hcl: not formatted',
                'g.tofutest.hcl: not formatted',
                '.config/h.tf: not formatted',
                'old~/#i#/i.tf: not formatted',
                MEND,
                mend(
                    '.config/h.tf',
                    'b.tofu',
                    'c.tftest.hcl',
                    'd.tfmock.hcl',
                    'f.tfquery.hcl',
                    'g.tofutest.hcl',
                    "'old~/#i#/i.tf'",
                    'other.tf',
                    'vars.tfvars',
                    "'\u00e9.tf'",
                ),
            ),
        ),
    )
    group.check('the status is the worst', here.run_hook()[0], 2)
    here.stage(
        {
            name: GOOD
            for name in (
                'other.tf',
                'vars.tfvars',
                'b.tofu',
                'c.tftest.hcl',
                'd.tfmock.hcl',
                'a folder/bad.tf',
                '\u00e9.tf',
                'f.tfquery.hcl',
                'g.tofutest.hcl',
                '.config/h.tf',
                'old~/#i#/i.tf',
            )
        }
    )
    put(here.top, {'other.tf': OTHER})
    group.check('what is staged counts, not the working tree', here.commit(), (True, b''))


def later_commits(group):
    here = installed(group)
    here.stage({'old.tf': OTHER, 'good.tf': GOOD, 'gone.tf': OTHER, 'link.tf': b'->good.tf', 'in/x.tf': GOOD})
    here.commit('--no-verify')
    here.stage({'new.tf': GOOD})
    group.check('a file that was committed before is not looked at', here.commit(), (True, b''))
    here.git('rm', '-q', 'gone.tf')
    group.check('nor one that is removed', here.commit(), (True, b''))
    here.stage({'in/x.tf': OTHER})
    group.check(
        'a changed file, from a folder below',
        here.commit(cwd=here.top / 'in'),
        (False, said('in/x.tf: not formatted', FORMAT, mend('../in/x.tf'))),
    )
    here.git('reset', '-q', '--hard')
    (here.top / 'link.tf').unlink()
    here.stage({'link.tf': OTHER})
    group.check(
        'a link that became a file', here.commit(), (False, said('link.tf: not formatted', FORMAT, mend('link.tf')))
    )
    here.git('reset', '-q', '--hard')
    here.git('mv', 'old.tf', 'moved.tf')
    group.check(
        'a file under a new name', here.commit(), (False, said('moved.tf: not formatted', FORMAT, mend('moved.tf')))
    )
    here.git('reset', '-q', '--hard')
    put(here.top, {'good.tf': b'a = 1\nb = 2\n', 'in/x.tf': OTHER})
    here.git('add', 'in/x.tf')
    group.check('a commit of one file by its name', here.commit('good.tf'), (True, b''))


def alone(group):
    """Each kind of fault by itself refuses."""
    for name, text, status, line, last in (
        ('bad.tf', BAD, 2, 'bad.tf' + REFUSED, [MEND]),
        ('other.tf', OTHER, 3, 'other.tf: not formatted', [FORMAT, mend('other.tf')]),
    ):
        here = installed(group)
        here.stage({name: text, 'good.tf': GOOD})
        group.check(name + ' alone', here.commit(), (False, said(line, *last)))
        group.check(name + ' alone, the status', here.run_hook(), (status, b'', lines(line, *last)))


def odd_names(group):
    names = ['new\nline.tf', 'tab\t.tf', 'quo"te.tf', 'back\\slash.tf', 'a\\c.tf', '-n.tf', '*.tf', ':0:x.tf', ' .tf']
    here = installed(group)
    here.stage({name: GOOD for name in names})
    group.check('formatted files of any name', here.commit(), (True, b''))
    here.stage({name: OTHER for name in names})
    ordered = sorted(names)
    words = ["'%s'" % name if set(name) & set(' \n\t"\\*') else name for name in ordered]
    group.check(
        'other files of any name',
        here.run_hook(),
        (3, b'', lines(*([quoted(name) + ': not formatted' for name in ordered] + [FORMAT, mend(*words)]))),
    )
    group.check('refuse', here.commit()[0], False)
    here = installed(group)
    here.stage({b'caf\xe9.tf': OTHER})
    group.check('a name that is not UTF-8', here.commit(), (False, said(b"caf\xe9.tf: the name isn't UTF-8", BLIND)))


def mended(group):
    """The printed command formats just the reported files, from where git was called."""
    names = [
        '.config/x.tf',
        'in/a b.tf',
        "in/it's.tf",
        'in/new\nline.tf',
        '-n.tf',
        'in/$x`y`.tf',
        'x.tf~/y.tf',
        'a:1:1.tf',
    ]
    for folder in ('.', 'in', 'in/deep'):
        here = installed(group)
        put(here.top, {'in/deep/text.txt': b''})
        here.stage(dict({name: OTHER for name in names}, **{'good.tf': GOOD, 'in/good.tf': GOOD}))
        put(here.top, {'other.tf': OTHER})
        done = here.git('commit', '-q', '-m', 'x', cwd=here.top / folder)
        command = re.search(rb'^  (tffmt-all -- .*)', done[2], re.M | re.S).group(1)
        told = group.call('sh', '-c', command, cwd=here.top / folder, PATH=group.before_path(group.contrib))
        group.check('the command works, from ' + folder, told[0], 0)
        group.check(
            'the files are formatted, and no other, from ' + folder,
            {name: (here.top / name).read_bytes() for name in names + ['other.tf']},
            dict({name: GOOD for name in names}, **{'other.tf': OTHER}),
        )
        here.git('add', '--', *names)
        group.check('and the commit passes, from ' + folder, here.commit(), (True, b''))


def many_files(group):
    """Of many files no names are printed, but still the command that formats them. All are checked in a few processes."""
    here = installed(group)
    names = ['in/%03d.tf' % i for i in range(120)]
    here.stage(dict({name: OTHER for name in names}, **{'in/text.txt': OTHER, '.h/x.tf': OTHER}))
    done = here.git('commit', '-q', '-m', 'x', cwd=here.top / 'in')
    command = done[2].splitlines()[-1].strip()
    group.check('one line', (len(done[2].splitlines()), b'--null' in command), (len(names) + 3, True))
    told = group.call('sh', '-c', command, cwd=here.top / 'in', PATH=group.before_path(group.contrib))
    group.check('the command works', told[0], 0)
    group.check(
        'the files are formatted, and no other',
        ({(here.top / name).read_bytes() for name in names + ['.h/x.tf']}, (here.top / 'in' / 'text.txt').read_bytes()),
        ({GOOD}, OTHER),
    )
    here.git('add', '-A')
    calls = group.fresh() / 'calls'
    counting = group.script('git', 'echo >>"%s"\nexec %s "$@"\n' % (calls, shutil.which('git'))).parent
    formatter = group.script('t', 'echo >>"%s"\nexec "%s" "$@"\n' % (calls, group.trees))
    group.check('they pass', here.run_hook(PATH=group.before_path(counting), TFFMT_ALL=str(formatter)), (0, b'', b''))
    group.holds('a few processes for all of them', len(calls.read_text()) < 10, len(calls.read_text()))


def sparse(group):
    """The staged text counts if a sparse checkout has no file of it."""
    here = installed(group)
    here.stage({'in/x.tf': OTHER, 'out/y.tf': OTHER})
    here.git('update-index', '--skip-worktree', 'out/y.tf')
    (here.top / 'out' / 'y.tf').unlink()
    group.check(
        'a file that is not in the working tree',
        here.run_hook(),
        (3, b'', lines('in/x.tf: not formatted', 'out/y.tf: not formatted', FORMAT, mend('in/x.tf', 'out/y.tf'))),
    )


def without_program(group):
    here = installed(group)
    here.stage({'text.txt': OTHER, 'link.tf': b'->text.txt'})
    group.check('without the program and such a file', here.commit(TFFMT_ALL='no-such-program'), (True, b''))
    here.stage({'good.tf': GOOD})
    group.check(
        'without the program',
        here.commit(TFFMT_ALL='no-such-program'),
        (False, said('tffmt-hook: no-such-program: not found', BLIND)),
    )
    group.check('without the program, the status', here.run_hook(TFFMT_ALL='no-such-program')[0], 4)


def noted_program(group):
    """A git that finds no program takes the one that was there when the hook was installed."""
    here = Repository(group)
    folder = group.folder(str(group.fresh() / "it's here"))
    (folder / 'tffmt-all').symlink_to(group.trees)
    without = '%s:/usr/bin:/bin' % group.fresh()
    here.install(TFFMT_ALL='', PATH='%s:%s' % (folder, without))
    here.stage({'other.tf': OTHER})
    wanted = (False, said('other.tf: not formatted', FORMAT, mend('other.tf')))
    group.check('the program as it was noted', here.commit(TFFMT_ALL='', PATH=without), wanted)
    group.check('installing again where there is none', here.install(TFFMT_ALL='', PATH=without)[0], 0)
    group.check('and it is noted still', here.commit(TFFMT_ALL='', PATH=without), wanted)
    group.check(
        'a program that is named and not there',
        here.commit(TFFMT_ALL='no-such-program', PATH=without),
        (False, said('tffmt-hook: no-such-program: not found', BLIND)),
    )
    (folder / 'tffmt-all').unlink()
    group.check(
        'one that is gone',
        here.commit(TFFMT_ALL='', PATH=without),
        (False, said('tffmt-hook: %s/tffmt-all: not found' % folder, BLIND)),
    )


def uninstalling(group):
    here = installed(group)
    hook = here.top / '.git' / 'hooks' / 'pre-commit'
    here.stage({'other.tf': OTHER})
    group.check(
        'the hook is removed',
        (here.uninstall(), hook.exists(), here.commit()),
        ((0, lines('removed %s' % hook), b''), False, (True, b'')),
    )
    group.check('where there is none', here.uninstall(), (4, b'', lines('tffmt-hook: %s: there is no hook' % hook)))
    hook.write_text('#!/bin/sh\nexit 0\n')
    group.check(
        'another hook stays',
        (here.uninstall(), hook.read_text()),
        (
            (4, b'', lines('tffmt-hook: %s: there is another hook; it is left alone' % hook)),
            '#!/bin/sh\nexit 0\n',
        ),
    )


def failing_tools(group):
    here = installed(group)
    here.stage({'good.tf': GOOD})
    failing = group.script('t', 'echo "good.tf: read failed" >&2\nexit 4\n')
    group.check(
        'a program that fails', here.commit(TFFMT_ALL=str(failing)), (False, said('good.tf: read failed', BLIND))
    )
    for status in (1, 139):
        other = str(group.script('t', 'exit %d\n' % status))
        group.check(
            'another program',
            here.run_hook(TFFMT_ALL=other),
            (4, b'', lines('tffmt-hook: %s failed with status %d' % (other, status), BLIND)),
        )
    for tool, text in (
        ('xargs', 'exit 1\n'),
        ('git', 'case $* in *diff-index*) exit 1 ;; esac\n%s "$@"\n'),
        ('git', 'case $* in *--stdin*) exit 1 ;; esac\n%s "$@"\n'),
        ('git', 'case $* in *--stdin*) exit 0 ;; esac\n%s "$@"\n'),
    ):
        made = group.script(tool, text.replace('%s', shutil.which('git')))
        group.check('a %s that fails' % tool, here.run_hook(PATH=group.before_path(made.parent))[0], 4)
    group.check('without a temporary folder', here.run_hook(TMPDIR='/nowhere')[0], 4)


def filters(group):
    """The staged text is judged as a checkout would have it."""
    here = installed(group)
    here.git('config', 'filter.turned.clean', 'tr =a-y y=-x')
    here.git('config', 'filter.turned.smudge', 'tr y=-x =a-y')
    put(here.top, {'.gitattributes': b'*.tfvars filter=turned\n'})
    here.stage({'secret.tfvars': GOOD})
    group.check('a filter turns the text', here.git('cat-file', 'blob', ':secret.tfvars')[1] != GOOD, True)
    group.check('a formatted file after a filter', here.commit(), (True, b''))
    here.stage({'secret.tfvars': OTHER})
    group.check(
        'another one', here.commit(), (False, said('secret.tfvars: not formatted', FORMAT, mend('secret.tfvars')))
    )


def refuses(group, name, here, top):
    """Whether a hook is at work in a working tree."""
    put(top, {'other.tf': OTHER})
    here.git('add', 'other.tf', cwd=top)
    group.check(
        'the hook works ' + name,
        here.commit(cwd=top),
        (False, said('other.tf: not formatted', FORMAT, mend('other.tf'))),
    )


def installing(group):
    here = Repository(group)
    inner = group.folder(str(here.top / 'in'))
    place = lines('installed %s/.git/hooks/pre-commit' % here.top)
    group.check('installing', here.install(cwd=inner), (0, place, b''))
    group.check('installing again', here.install(), (0, place, b''))
    refuses(group, 'after installing', here, here.top)
    here.commit('--no-verify')
    # a worktree has the hooks of its repository
    tree = pathlib.Path(str(here.top) + '-tree')
    here.git('worktree', 'add', '-q', tree)
    (here.top / '.git' / 'hooks' / 'pre-commit').unlink()
    group.check('installing in a worktree', here.install(cwd=tree), (0, place, b''))
    put(tree, {'new.tf': OTHER})
    here.git('add', '-A', cwd=tree)
    group.check(
        'the hook works in a worktree',
        here.commit(cwd=tree),
        (False, said('new.tf: not formatted', FORMAT, mend('new.tf'))),
    )
    # a submodule has hooks of its own
    outer = Repository(group)
    outer.git('-c', 'protocol.file.allow=always', 'submodule', '--quiet', 'add', here.top, 'sub')
    sub = outer.top / 'sub'
    for words in (['user.name', 'n'], ['user.email', 'n@localhost']):
        outer.git('config', *words, cwd=sub)
    group.check(
        'installing in a submodule',
        outer.install(cwd=sub),
        (0, lines('installed %s/.git/modules/sub/hooks/pre-commit' % outer.top), b''),
    )
    put(sub, {'new.tf': OTHER})
    outer.git('add', '-A', cwd=sub)
    group.check(
        'the hook works in a submodule',
        outer.commit(cwd=sub),
        (False, said('new.tf: not formatted', FORMAT, mend('new.tf'))),
    )
    # core.hooksPath
    here = Repository(group)
    here.git('config', 'core.hooksPath', '.githooks')
    group.check(
        'installing under core.hooksPath',
        here.install(cwd=group.folder(str(here.top / 'in'))),
        (0, lines('installed %s/.githooks/pre-commit' % here.top), b''),
    )
    refuses(group, 'under core.hooksPath', here, here.top)


def other_hooks(group):
    here = Repository(group)
    theirs = here.top / '.git' / 'hooks' / 'pre-commit'
    theirs.write_text('#!/bin/sh\nexit 0\n')
    group.check(
        'another hook is left alone',
        (here.install(), theirs.read_text()),
        (
            (4, b'', lines('tffmt-hook: %s: there is another hook already; have it call tffmt-hook' % theirs)),
            '#!/bin/sh\nexit 0\n',
        ),
    )
    theirs.write_text('#!/bin/sh\n"%s" || exit\n' % here.hook)
    theirs.chmod(0o755)
    refuses(group, 'when another hook calls it', here, here.top)
    theirs.unlink()
    theirs.symlink_to('nowhere')
    group.check('nor is a link', (here.install()[0], os.readlink(str(theirs))), (4, 'nowhere'))
    theirs.unlink()
    theirs.write_text((here.hook).read_text() + '# of an earlier version\n')
    noted = here.hook.read_text().replace('\nnoted=\n', '\nnoted=%s\n' % group.trees)
    group.check('an earlier version is replaced', (here.install()[0], theirs.read_text()), (0, noted))


def with_the_linter(group):
    """The hook of docs/USING.md, which lints the modules of the staged files too."""
    text = (TOP / 'docs/USING.md').read_text(encoding='utf-8')
    script = next(block for block in re.findall(r'```sh\n(.*?)```', text, re.S) if 'tffmt-hook || exit' in block)
    here = Repository(group)
    hook = here.top / '.git' / 'hooks' / 'pre-commit'
    hook.write_text('#!/bin/sh\n' + script)
    hook.chmod(0o755)
    path = group.before_path(group.contrib)
    here.stage({'m/a b.tf': DECLARED, 'm/u.tf': USED, 'lost/x.tf': GOOD, 'text.txt': OTHER})
    group.check('a hook with the linter passes', here.commit(PATH=path), (True, b''))
    here.git('rm', '-q', 'lost/x.tf')
    group.check('where a module is gone', here.commit(PATH=path), (True, b''))
    here.stage({'other.txt': OTHER})
    group.check('and without a file of a module', here.commit(PATH=path), (True, b''))
    here.stage({'m/a b.tf': b'variable "n" { type = number }\n'})
    group.check('with one file of a module staged', here.commit(PATH=path), (True, b''))
    here.stage({'m/u.tf': b'x=var.n\n'})
    group.check(
        'and refuses a file that is not formatted',
        here.commit(PATH=path),
        (False, said('m/u.tf: not formatted', FORMAT, mend('m/u.tf'))),
    )
    put(here.top, {'m/u.tf': GOOD})
    for name, words in (('without a use', ['add', '-A']), ('without the file', ['rm', '-qf', 'm/u.tf'])):
        here.git(*words)
        done = here.git('commit', '-q', '-m', 'x', PATH=path)
        group.holds('and an issue ' + name, done[0] == 1 and unused('m/a b.tf') in done[1] + done[2], done)


def command_line(group):
    here = Repository(group)
    group.check(
        'without git',
        group.call(here.hook, '--install', cwd=here.top, PATH='/nowhere'),
        (4, b'', b'tffmt-hook: git: not found\n'),
    )
    status, out, err = group.call(here.hook, '--help', cwd=here.top)
    group.check('--help', (status, out.startswith(b'usage: tffmt-hook '), err), (0, True, b''))
    usage = out.split(b'\n')[0] + b'\n'
    for words in (['--bogus'], ['--install', 'x'], ['']):
        group.check('a wrong line %r' % words, group.call(here.hook, *words, cwd=here.top), (2, b'', usage))
    for words in ([], ['--install']):
        group.check(
            'outside a repository %r' % words,
            group.call(here.hook, *words, cwd=group.fresh(), GIT_CEILING_DIRECTORIES=str(group.top))[0],
            4,
        )


# --- pre-commit ------------------------------------------------------------------------------------------------


def run_framework(group):
    """The hooks for pre-commit: the linter's as pre-commit calls it, in each shell; and all of them in pre-commit itself,
    from a repository of this folder's files."""
    if not os.access(group.linted, os.X_OK):
        group.skip('pre-commit', 78, 'bin/tfrules-all is not built')
        return
    if not group.has('git', checks=78):
        return
    for shell in ('dash', 'bash', 'busybox'):
        if group.has(shell, checks=19):
            hook = ByHand(group, shell)
            for part in (changed_by_hand, lost_by_hand, odd_losses, refs_by_hand):
                part(group, hook, shell)
    if group.has('pre-commit', checks=20):
        framework = Framework(group)
        for part in (formats_by_framework, lints_by_framework, lost_by_framework, refs_by_framework, example):
            part(group, framework)
    if group.has('shellcheck'):
        script = ByHand(group, 'sh').words[2].encode()
        group.check(
            'shellcheck', group.call('shellcheck', '-s', 'dash', '-', cwd=group.top, stdin=script), (0, b'', b'')
        )


class Framework:
    """pre-commit, the programs, and a repository that has the hooks."""

    def __init__(self, group):
        self.group, self.source, self.home = group, Repository(group), str(group.fresh())
        shutil.copy(str(TOP / '.pre-commit-hooks.yaml'), str(self.source.top))
        self.source.git('add', '-A')
        self.source.git('commit', '-q', '-m', 'x')
        self.revision = self.source.git('rev-parse', 'HEAD')[1].decode().strip()
        # this test's own Python may hide that of pre-commit
        self.path = '%s:/usr/bin:/bin' % (group.top / 'trees')

    def use(self, here, identity, args=''):
        """Has a repository call a hook."""
        (here.top / '.pre-commit-config.yaml').write_text(
            'repos:\n- repo: %s\n  rev: %s\n  hooks:\n  - id: %s\n' % (self.source.top, self.revision, identity) + args
        )
        here.git('add', '.pre-commit-config.yaml')

    def __call__(self, here, *words):
        status, out, _ = self.group.call('pre-commit', *words, cwd=here.top, PATH=self.path, PRE_COMMIT_HOME=self.home)
        return status, out.decode('utf-8', 'replace')

    def lint(self, here, *words):
        """The status, and the places of issues."""
        status, out = self(here, 'run', *words)
        return status, re.findall(r'^(.*:\d+:\d+): \w+ - ', out, re.M)


def formats_by_framework(group, framework):
    here = Repository(group)
    here.stage({'good.tf': GOOD, 'a b.tf': OTHER, '-x.tfvars': OTHER, 'e.hcl': OTHER})
    framework.use(here, 'tffmt-check')
    status, out = framework(here, 'run', '--all-files')
    group.check(
        'tffmt-check refuses',
        (status, [line for line in out.splitlines() if ': not formatted' in line]),
        (1, ['-x.tfvars: not formatted', 'a b.tf: not formatted']),
    )
    framework.use(here, 'tffmt')
    status, out = framework(here, 'run', '--all-files')
    group.check('tffmt formats, and fails once', (status, 'files were modified by this hook' in out), (1, True))
    group.check(
        'in place',
        {name: (here.top / name).read_bytes() for name in ('a b.tf', '-x.tfvars', 'e.hcl')},
        {'a b.tf': GOOD, '-x.tfvars': GOOD, 'e.hcl': OTHER},
    )
    here.git('add', '-A')
    for identity in ('tffmt', 'tffmt-check'):
        framework.use(here, identity)
        group.check(identity + ' passes', framework(here, 'run', '--all-files')[0], 0)
    group.check('as the hook of a commit', framework(here, 'install')[0], 0)
    here.stage({'bad.tf': BAD})
    status, _, err = here.git('commit', '-q', '-m', 'x', PATH=framework.path, PRE_COMMIT_HOME=framework.home)
    group.holds('a refused file refuses the commit', status == 1 and b'bad.tf:1:3: unexpected token' in err, err)


def with_modules(group, framework, args=''):
    """A repository with the linter's hook: a module whose files use one another, one with an issue, and one to be lost."""
    here = Repository(group)
    here.stage({'m/a b.tf': DECLARED, 'm/-u.tf': USED, 'm/x.tf': GOOD, 'o/a.tf': DECLARED, 'lost/a.tf': GOOD})
    framework.use(here, 'tfrules', args)
    here.git('commit', '-q', '-m', 'x', '--no-verify')
    return here


def lints_by_framework(group, framework):
    """Each module that has a changed file is linted as a whole, and all are with --all-files."""
    here = with_modules(group, framework)
    group.check('all files', framework.lint(here, '--all-files'), (1, ['o/a.tf:1:1']))
    here.stage({'m/a b.tf': DECLARED + b'# more\n'})
    group.check('tfrules lints the whole module', framework.lint(here), (0, []))
    here.stage({'m/-u.tf': GOOD})
    group.check('and sees what a changed file uses no more', framework.lint(here), (1, ['m/a b.tf:1:1']))
    here = with_modules(group, framework, '    args: [--rules, terraform_documented_variables]\n')
    here.stage({'m/x.tf': b'variable "Name" {}\noutput "v" {\n  value = var.Name\n}\n'})
    group.check('by the options of `args`', framework.lint(here), (1, ['m/a b.tf:1:1', 'm/x.tf:1:1']))


def lost_by_framework(group, framework):
    """A commit that only deletes files lints the modules that lost one, and one without such files none."""
    for args, others in (('', []), ('    args: [--rules, terraform_documented_variables, --]\n', ['m/a b.tf:1:1'])):
        here = with_modules(group, framework, args)
        here.git('rm', '-q', 'm/x.tf', 'lost/a.tf')
        group.check('what nothing uses is lost, and a module%s' % args, framework.lint(here), (len(others), others))
        here.git('rm', '-q', 'm/-u.tf')
        group.check('what is used no more%s' % args, framework.lint(here), (1, ['m/a b.tf:1:1']))
    here = with_modules(group, framework)
    here.stage({'text.txt': b''})
    status, out = framework(here, 'run')
    group.check('no such file', (status, re.findall('Passed|Failed|Skipped', out)), (0, ['Passed']))


def refs_by_framework(group, framework):
    """Files that a commit lost and that aren't staged any more, as in a pipeline."""
    here = with_modules(group, framework)
    here.git('rm', '-q', 'm/-u.tf', 'lost/a.tf')
    here.git('commit', '-q', '-m', 'x', '--no-verify')
    refs = ('--from-ref', 'HEAD~', '--to-ref', 'HEAD')
    group.check('lost between two commits', framework.lint(here, *refs), (1, ['m/a b.tf:1:1']))
    group.check('nothing is staged', framework.lint(here), (0, []))


def example(group, framework):
    """The example for installed programs."""
    here = Repository(group)
    here.stage({'a.tf': OTHER, 'b.txt': OTHER})
    shutil.copy(str(group.contrib / 'pre-commit-config.yaml'), str(here.top / '.pre-commit-config.yaml'))
    here.git('add', '-A')
    given = [framework(here, 'run', '--all-files')[0] for _ in range(2)]
    group.check('the example formats, and passes then', (given, (here.top / 'a.tf').read_bytes()), ([1, 0], GOOD))
    here.stage({'v.tf': b'variable "n" {}\n'})
    group.check('the example lints', framework.lint(here, '--all-files'), (1, ['v.tf:1:1', 'v.tf:1:1']))


class ByHand:
    """The linter's hook of the example as pre-commit calls it, with a `sh` that is only a shell, and with only it, git
    and the program there."""

    def __init__(self, group, shell):
        text = (group.contrib / 'pre-commit-config.yaml').read_text().split('- id: tfrules\n')[1]
        entry = re.search(r'^( +)entry: \|\n((?:\1 .*\n)+)', text, re.M).group(2)
        self.words, self.files = shlex.split(textwrap.dedent(entry)), re.search(r'^ +files: (.*)', text, re.M).group(1)
        self.is_always_run = re.search(r'^ +always_run: true$', text, re.M)
        self.group, self.path = group, group.fresh()
        for name, program in (('sh', shutil.which(shell)), ('git', shutil.which('git')), ('tfrules-all', group.linted)):
            (self.path / name).symlink_to(program)

    def __call__(self, here, *args, named=None, **setting):
        """The hook on the staged files, or on the named files."""
        if named is None:
            staged = ('diff', '--staged', '--name-only', '-z', '--diff-filter=ACMRTUXB')
            named = here.git(*staged)[1].decode().split('\0')[:-1]
        named = [name for name in named if re.search(self.files, name)]
        if not named and not self.is_always_run:
            return 'skipped', b'', b''
        setting.setdefault('PATH', str(self.path))
        return self.group.call(*self.words, *args, *named, cwd=here.top, **setting)


def committed(group, files):
    here = Repository(group)
    here.stage(files)
    here.git('commit', '-q', '-m', 'x')
    return here


MODULES = {'m/a.tf': DECLARED, 'm/u.tf': USED, 'm/x.tf': GOOD, 'o/a.tf': DECLARED, 'lost/a.tf': GOOD}


def summary(issues, of):
    return lines('%s in %s' % (issues, of))


def changed_by_hand(group, hook, shell):
    here = committed(group, MODULES)
    here.stage({'m/x.tf': GOOD + b'# more\n', 'text.txt': b''})
    group.check('a module that changed, ' + shell, hook(here, '--'), (0, b'', summary('no issues', '1 module')))
    here.stage({'m/u.tf': GOOD, '-n/é ü.tofu': DECLARED})
    told = unused('-n/é ü.tofu', 'm/a.tf'), summary('2 issues', '2 of 2 modules')
    group.check('and one that has an issue, ' + shell, hook(here, '--'), (2, *told))
    every = sorted([*MODULES, '-n/é ü.tofu'])
    told = unused('-n/é ü.tofu', 'm/a.tf', 'o/a.tf'), summary('3 issues', '3 of 4 modules')
    group.check('all files, ' + shell, hook(here, '--', named=every), (2, *told))
    here.git('commit', '-q', '-m', 'x')
    here.stage({'other.txt': b''})
    none = group.script('tfrules-all', 'echo called\nexit 9\n').parent
    group.check('no such file, ' + shell, hook(here, '--', PATH='%s:%s' % (none, hook.path)), (0, b'', b''))
    group.check('and no args, ' + shell, hook(here, PATH='%s:%s' % (none, hook.path)), (0, b'', b''))
    here.stage({'m/x.tf': GOOD})
    group.check('the program is called, ' + shell, hook(here, PATH='%s:%s' % (none, hook.path))[0], 9)


def lost_by_hand(group, hook, shell):
    here = committed(group, dict(MODULES, **{'m/in/a.tf': DECLARED, 'n/u.tf': USED, 'n/v.tf': DECLARED}))
    here.git('rm', '-q', 'lost/a.tf')
    group.check('a module that is gone, ' + shell, hook(here, '--'), (0, b'', b''))
    here.git('rm', '-q', 'm/u.tf')
    told = unused('m/a.tf'), summary('1 issue', '1 of 1 module')
    group.check('a file that was deleted, ' + shell, hook(here, '--'), (2, *told))
    group.check('with `--force`, ' + shell, hook(here, '--force', '--'), (0, *told))
    words = ['--rules', 'terraform_typed_variables']
    group.check('with a rule, ' + shell, hook(here, *words), (0, b'', summary('no issues', '1 module')))
    here.git('reset', '-q', '--hard')
    here.git('mv', 'n/u.tf', 'o/moved.tf')
    told = unused('n/v.tf'), summary('1 issue', '1 of 2 modules')
    group.check('a file that was moved, ' + shell, hook(here, '--'), (2, *told))
    here.git('reset', '-q', '--hard')
    put(here.top, {'lost/.terraform/x': b''})
    here.git('rm', '-q', 'lost/a.tf')
    group.check('a folder with other files, ' + shell, hook(here, '--'), (0, b'', lines('no modules found')))


def odd_losses(group, hook, shell):
    """Names that git quotes, and others."""
    files = {'a b/é $(x)`*.tf': USED, 'a b/n.tf': DECLARED, '-d/-u.tf': USED, '-d/-v.tf': DECLARED, 't.tf': USED}
    here = committed(group, dict(files, **{'o/a.tf': DECLARED, 'n.tf': DECLARED}))
    here.git('rm', '-q', '--', 'a b/é $(x)`*.tf', '-d/-u.tf', 't.tf')
    told = unused('n.tf', '-d/-v.tf', 'a b/n.tf'), summary('3 issues', '3 of 3 modules')
    group.check('blanks, dashes and dollars, ' + shell, hook(here, '--'), (2, *told))
    for name in ('q"u', 'new\nline', 'back\\slash'):
        here = committed(group, {name + '/a.tf': DECLARED, name + '/u.tf': USED, 'o/a.tf': DECLARED})
        here.git('rm', '-q', name + '/u.tf')
        names = sorted([name + '/a.tf', 'o/a.tf'])
        told = unused(*map(quoted, names)), summary('2 issues', '2 of 2 modules')
        group.check('a name that git quotes: all, %r, %s' % (name, shell), hook(here, '--'), (2, *told))


def refs_by_hand(group, hook, shell):
    here = committed(group, MODULES)
    here.git('rm', '-q', 'm/u.tf')
    here.git('commit', '-q', '-m', 'x')
    refs = {'PRE_COMMIT_FROM_REF': 'HEAD~', 'PRE_COMMIT_TO_REF': 'HEAD'}
    told = unused('m/a.tf'), summary('1 issue', '1 of 1 module')
    group.check('lost between two commits, ' + shell, hook(here, '--', named=[], **refs), (2, *told))
    group.check('nothing is staged, ' + shell, hook(here, '--', named=[]), (0, b'', b''))
    refs['PRE_COMMIT_FROM_REF'] = 'no-such-ref'
    status, out, _ = hook(here, '--', named=[], **refs)
    group.check('where git fails, all, ' + shell, (status, out), (2, unused('m/a.tf', 'o/a.tf')))
