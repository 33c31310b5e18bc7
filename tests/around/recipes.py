"""Completions in the real shells, the recipes for pipelines, the settings that no program here reads, the man
pages, and what `make install` installs."""

import json
import os
import pathlib
import re
import shutil
import subprocess
import textwrap

from editors import on_terminal
from form_readers import REFUSED, read
from harness import BAD, GOOD, OTHER, TOP, lines, put

PROGRAMS, SCRIPTS = ['tffmt', 'tfrules', 'tffmt-all', 'tfrules-all', 'tfls'], ['tffmt-hook']
PAGES = PROGRAMS + SCRIPTS


# --- completions -----------------------------------------------------------------------------------------------

RULES = sorted(re.findall(rb'^## (terraform_\w+)$', (TOP / 'docs' / 'RULES.md').read_bytes(), re.M))
FORMS = [b'checkstyle', b'github', b'gitlab', b'json', b'junit', b'sarif', b'text']
DEPRECATED = [b'deprecated_index', b'deprecated_interpolation', b'documented_outputs', b'documented_variables']


def options_of_linter():
    """The long options of tfrules-all that its man page has."""
    page = (TOP / 'man' / 'tfrules-all.1').read_bytes().partition(b'.SH OPTIONS\n')[2].partition(b'.SH ')[0]
    heads = re.findall(rb'^\.TP\n(.*)', page.replace(b'\\-', b'-'), re.M)
    return {option for head in heads for option in re.findall(rb'--[a-z-]+', head)}


def completions(group):
    folder = group.contrib / 'completions'
    here = group.fresh()
    put(here, {'good.tf': GOOD, 'text.txt': GOOD, 'in/x.tf': GOOD, 't.tftest.hcl': GOOD, 'v.tfvars': GOOD})
    path = group.before_path(group.script('tffmt', 'exit 0\n').parent, group.contrib)
    every = sorted(options_of_linter())
    if group.has('bash', checks=27):

        def bash(line):
            words = line.split(' ')
            script = 'source "$1"; COMP_WORDS=(%s); COMP_CWORD=%d; _tffmt %s; printf "%%s\\n" "${COMPREPLY[@]}"' % (
                ' '.join('"%s"' % w for w in words),
                len(words) - 1,
                words[0],
            )
            return sorted(group.call('bash', '-c', script, 'bash', folder / 'tffmt.bash', cwd=here)[1].split())

        group.check(
            'bash: options',
            bash('tffmt-all --'),
            [
                b'--any-name',
                b'--check',
                b'--diff',
                b'--exclude',
                b'--help',
                b'--in-place',
                b'--jobs',
                b'--list',
                b'--null',
                b'--quiet',
                b'--shard',
                b'--sync',
                b'--version',
            ],
        )
        group.check('bash: one option', (bash('tffmt --c'), bash('tffmt-hook --i')), ([b'--check'], [b'--install']))
        group.check(
            'bash: files and folders', bash('tffmt-all --check '), [b'good.tf', b'in', b't.tftest.hcl', b'v.tfvars']
        )
        group.check('bash: no option after --', bash('tffmt-all -- --'), [])
        group.check('bash: what is excluded', bash('tffmt-all --exclude i'), [b'in'])
        group.check('bash: options of tfls', bash('tfls --'), [b'--help', b'--stdio'])
        for name in ('tfrules', 'tfrules-all'):
            group.check(
                'bash: ' + name,
                (bash(name + ' --forc'), bash(name + ' --rules a'), bash(name + ' g')),
                ([b'--force'], [b'all'], [b'good.tf']),
            )
        group.check('bash: its own option', (bash('tfrules-all --nu'), bash('tfrules --nu')), ([b'--null'], []))
        group.check('bash: each option', bash('tfrules-all --'), every)
        for name in ('tfrules', 'tfrules-all'):
            group.check('bash: files of ' + name, bash(name + ' '), [b'good.tf', b'in'])
            group.check(
                'bash: rules of ' + name,
                bash(name + ' --rules terraform_d'),
                [b'terraform_' + rule for rule in DEPRECATED],
            )
            for words in ('--rules = terraform_typ', '--rules=terraform_typ'):
                group.check(
                    'bash: %s %s' % (name, words),
                    [w.split(b'=')[-1] for w in bash('%s %s' % (name, words))],
                    [b'terraform_typed_variables'],
                )
            group.check('bash: --naming= of ' + name, bash(name + ' --naming ='), [b'mixed_snake_case', b'snake_case'])
            group.check(
                'bash: several rules of ' + name,
                bash(name + ' --rules default,terraform_n'),
                [b'default,terraform_naming_convention'],
            )
        group.check('bash: forms', bash('tfrules-all --format '), FORMS)
        group.check('bash: a rule to explain', bash('tfrules-all --explain '), RULES)
        group.check('bash: a form after =', bash('tfrules-all --format=ju'), [b'--format=junit'])
        said = on_terminal(
            group,
            ['bash', '--norc', '-i'],
            here,
            PATH=path,
            PS1='> ',
            keys=[
                (b'> ', b'source "%s"; echo rea""dy\n' % os.fsencode(str(folder / 'tffmt.bash'))),
                (b'ready.*> ', b'tfrules --rules=terraform_ty\t'),
                (b'', b'\x15exit\n'),
            ],
        )
        group.holds('bash: --rules= on a terminal', b'tfrules --rules=terraform_typed_variables' in said, said)
        said = on_terminal(
            group,
            ['bash', '--norc', '-i'],
            here,
            PATH=path,
            PS1='> ',
            keys=[
                (b'> ', b'source "%s"; echo rea""dy\n' % os.fsencode(str(folder / 'tffmt.bash'))),
                (b'ready.*> ', b'tffmt-hook --in\t'),
                (b'--install', b'\x15exit\n'),
            ],
        )
        group.holds('bash: on a terminal', b'tffmt-hook --install' in said, said)
    if group.has('zsh', checks=17):
        setup = b'fpath=("%s" $fpath); autoload -U compinit; compinit -u -D; print rea""dy\n' % os.fsencode(str(folder))
        for typed, wanted in (
            (b'tffmt-all --ch\t', b'tffmt-all --check'),
            (b'tffmt-hook --in\t', b'tffmt-hook --install'),
            (b'tffmt --c\t', b'tffmt --check'),
            (b'tffmt-all goo\t', b'tffmt-all good.tf'),
            (b'tfrules-all --nu\t', b'tfrules-all --null'),
            (b'tfrules-all --ch\t', b'tfrules-all --check-comments'),
            (b'tfrules-all --li\t', b'tfrules-all --list-rules'),
            (b'tfrules-all --explain terraform_ty\t', b'tfrules-all --explain terraform_typed_variables'),
            (b'tfrules --rules terraform_ty\t', b'tfrules --rules terraform_typed_variables'),
            (b'tfrules --rules=terraform_ty\t', b'tfrules --rules=terraform_typed_variables'),
            (b'tfrules --rules=default,terraform_n\t', b'tfrules --rules=default,terraform_naming_convention'),
            (b'tfrules-all --rules ter\t', b'tfrules-all --rules terraform_'),
            (b'tfrules-all --naming=mi\t', b'tfrules-all --naming=mixed_snake_case'),
            (b'tfrules --naming=\t', b'snake_case'),
            (b'tfrules t\t', b'tfrules t'),
            (b'tfrules-all --format te\t', b'tfrules-all --format text'),
            (b'tfrules-all --format=ju\t', b'tfrules-all --format=junit'),
        ):
            said = on_terminal(
                group,
                ['zsh', '-f', '-i'],
                here,
                PATH=path,
                PS1='> ',
                keys=[(b'> ', setup), (b'ready.*> ', typed), (b'', b'\x15exit\n')],
            )
            shown = re.sub(rb'\x1b\[[0-9;?]*[a-zA-Z]|.\x08', b'', said)
            group.holds(
                'zsh: ' + typed.decode().strip(),
                wanted in shown and (typed != b'tfrules t\t' or b'tftest' not in shown),
                said,
            )
    if group.has('fish', checks=17):

        def fish(line):
            done = group.call(
                'fish', '--no-config', '-c', 'source "%s"; complete -C "%s"' % (folder / 'tffmt.fish', line), cwd=here
            )
            return sorted(each.split(b'\t')[0] for each in done[1].splitlines())

        group.check(
            'fish: options',
            fish('tffmt-all --'),
            [
                b'--any-name',
                b'--check',
                b'--diff',
                b'--exclude',
                b'--help',
                b'--in-place',
                b'--jobs',
                b'--list',
                b'--null',
                b'--quiet',
                b'--shard',
                b'--sync',
                b'--version',
            ],
        )
        group.check('fish: one option', (fish('tffmt --c'), fish('tffmt-hook --i')), ([b'--check'], [b'--install']))
        group.check('fish: files', fish('tffmt-all g'), [b'good.tf'])
        group.check(
            'fish: files of each kind',
            (fish('tffmt-all '), fish('tfrules ')),
            ([b'good.tf', b'in/', b't.tftest.hcl', b'v.tfvars'], [b'good.tf', b'in/']),
        )
        for name in ('tfrules', 'tfrules-all'):
            for words in ('--rules terraform_d', '--rules=terraform_d'):
                group.check(
                    'fish: %s %s' % (name, words),
                    [w.split(b'=')[-1] for w in fish('%s %s' % (name, words))],
                    [b'terraform_' + rule for rule in DEPRECATED],
                )
            group.check(
                'fish: --naming= of ' + name,
                [w.split(b'=')[-1] for w in fish(name + ' --naming=')],
                [b'mixed_snake_case', b'snake_case'],
            )
        group.check(
            'fish: several rules', fish('tfrules --rules default,terraform_n'), [b'default,terraform_naming_convention']
        )
        group.check('fish: forms', fish('tfrules-all --format '), FORMS)
        group.check('fish: a rule to explain', fish('tfrules-all --explain '), RULES)
        group.check('fish: a form after =', fish('tfrules-all --format=ju'), [b'--format=junit'])
        group.check('fish: its own option', (fish('tfrules-all --nu'), fish('tfrules --nu')), ([b'--null'], []))
        group.check('fish: each option', fish('tfrules-all --'), every)
        group.check('fish: all rules', fish('tfrules --rules a'), [b'all'])


# --- recipes ---------------------------------------------------------------------------------------------------


def recipes(group):
    contrib = group.contrib
    lint_matchers(group)
    matcher = json.loads((contrib / 'ci' / 'tffmt-matcher.json').read_text())
    tasks = json.loads((contrib / 'editors' / 'vscode' / 'tasks.json').read_text())
    here = group.fresh()
    put(here, {'a b:1/bad.tf': BAD, 'other.tf': OTHER, 'good.tf': GOOD})
    path = group.before_path(group.contrib)
    said = group.call('tffmt-all', '--check', cwd=here, PATH=path)[2].decode()
    for name, problems in (
        ('GitHub', [p['pattern'][0] for p in matcher['problemMatcher']]),
        ('VS Code', [p['pattern'] for p in tasks['tasks'][0]['problemMatcher']]),
    ):
        found = [
            {key: match.group(number) for key, number in pattern.items() if isinstance(number, int)}
            for line in said.splitlines()
            for pattern in problems
            for match in [re.match(pattern['regexp'], line)]
            if match
        ]
        group.check(
            'the matchers of %s read the reports' % name,
            found,
            [
                {'file': 'a b:1/bad.tf', 'line': '1', 'column': '3', 'message': 'unexpected token'},
                {'file': 'other.tf', 'message': 'not formatted'},
            ],
        )
    for name, before in (('github.yml', 1), ('gitlab.yml', 0)):
        text = (contrib / 'ci' / name).read_text()
        steps = re.findall(r'^ +- (?:run: )?((?:echo|tffmt|tfrules).*)$', text, re.M)
        done = [group.call('sh', '-e', '-c', step, cwd=here, PATH=path)[0] for step in steps]
        group.check('the steps of ' + name, done, [0] * before + [2] + [0] * before + [1] * (2 - before))
        group.check(
            'pass on formatted files ' + name,
            [group.call('sh', '-e', '-c', step, cwd=group.fresh(), PATH=path)[0] for step in steps],
            [0] * len(steps),
        )
    suffixes = {'tf', 'tfvars', 'tofu', 'tftest.hcl', 'tfmock.hcl', 'tfquery.hcl', 'tofutest.hcl'}
    sharded(group, path, suffixes)
    scanning(group, here, path)
    quality(group, here, path)
    jobs = (contrib / 'ci' / 'gitlab.yml').read_text().split('\ntfrules:\n')
    jobs[1:] = jobs[1].split('\ncode-quality:\n')
    gitlab = [set(re.findall(r'\*\*/\*\.([a-z.]+)', job)) for job in jobs]
    for job in jobs:
        group.check(
            'when a job of GitLab runs',
            re.findall(r'if: (.*)', job),
            ['$CI_PIPELINE_SOURCE == "merge_request_event"', '$CI_COMMIT_BRANCH == $CI_DEFAULT_BRANCH'],
        )
    kinds = [
        set(re.search(r'files: \\\.\((.*?)\)\$', (TOP / name).read_text()).group(1).replace('\\.', '.').split('|'))
        for name in ('.pre-commit-hooks.yaml', 'contrib/pre-commit-config.yaml', 'contrib/pre-commit-wheel.yaml')
    ]
    group.check('the kinds of files for pre-commit', kinds, [suffixes] * 3)
    same_hooks(group)
    treefmt = set(re.findall(r'"\*\.([a-z.]+)"', (contrib / 'treefmt.toml').read_text()))
    group.check('the kinds of files', (gitlab, treefmt), ([suffixes, {'tf', 'tofu'}, {'tf', 'tofu'}], suffixes))
    python = next(
        (
            p
            for p in ('/usr/bin/python3', 'python3')
            if subprocess.run([p, '-c', 'import yaml'], stderr=subprocess.DEVNULL).returncode == 0
        ),
        None,
    )
    if python is None:
        group.skip('yaml', 8, 'no PyYAML')
    else:
        for name in (
            *sorted((contrib / 'ci').glob('*.yml')),
            *sorted(contrib.glob('*.yaml')),
            TOP / '.pre-commit-hooks.yaml',
        ):
            group.check(
                '%s is YAML' % name.name,
                group.call(
                    python, '-c', 'import sys, yaml; yaml.safe_load(sys.stdin)', cwd=here, stdin=name.read_bytes()
                ),
                (0, b'', b''),
            )


def same_hooks(group):
    """The linter's hook for pre-commit is in three files, which differ only in its installation."""
    hooks = []
    for file in (
        TOP / '.pre-commit-hooks.yaml',
        group.contrib / 'pre-commit-config.yaml',
        group.contrib / 'pre-commit-wheel.yaml',
    ):
        hook = textwrap.dedent(file.read_text().split('- id: tfrules\n')[1])
        hooks.append(re.sub(r'^(?:description|language|additional_dependencies): .*\n', '', hook, flags=re.M))
    group.check('the hooks of the linter', hooks, hooks[:1] * 3)


def sharded(group, path, suffixes):
    """The jobs for very many files: the shards together report the same as one run."""
    if not group.has('git', checks=6):
        return
    here = group.fresh()
    put(
        here,
        dict(
            {'d%d/a.%s' % (i, kind): OTHER for i in range(8) for kind in suffixes},
            **{'e%d/a.tf' % i: b'variable "n" {}\n' for i in range(30)},
        ),
    )
    for words in (['init', '-q'], ['add', '-A']):
        group.call('git', *words, cwd=here)
    for name in ('github-shards.yml', 'gitlab-shards.yml'):
        text = (group.contrib / 'ci' / name).read_text()
        steps = re.findall(r'^ +- (?:run: )?(git ls-files .*)$', text, re.M)
        group.check(
            'the kinds of files of ' + name,
            [set(re.findall(r"'\*\.([a-z.]+)'", step)) for step in steps],
            [suffixes, {'tf', 'tofu'}],
        )
        for step, words in zip(steps, (['tffmt-all', '--check'], ['tfrules-all'])):
            parts = [
                group.call(
                    'sh',
                    '-e',
                    '-c',
                    step.replace('${{ matrix.shard }}', str(k)),
                    cwd=here,
                    PATH=path,
                    CI_NODE_INDEX=str(k),
                    CI_NODE_TOTAL='10',
                )
                for k in range(1, 11)
            ]

            def issues(each):
                said = (each[1] + each[2]).splitlines()
                counts = rb'issue\(s\)|, [0-9]+ unchanged|issues? in [0-9]+'
                return [line for line in said if line and not re.search(counts, line)]

            group.check(
                'the shards of %s and %s' % (words[0], name),
                sorted(line for part in parts for line in issues(part)),
                sorted(issues(group.call(*words, cwd=here, PATH=path))),
            )


def scanning(group, here, path):
    """The steps of the job for code scanning. A module with issues doesn't fail it, and a refused one does; the
    document is uploaded then too."""
    text = (group.contrib / 'ci' / 'github-code-scanning.yml').read_text()
    step, into = re.search(r'run: (tfrules-all .* >(\S+))', text).groups()
    issues = group.fresh()
    put(issues, {'m/a.tf': b'variable "n" {}\n'})
    for folder, wanted, rules in (
        (here, 1, [REFUSED]),
        (issues, 0, ['terraform_typed_variables', 'terraform_unused_declarations']),
    ):
        status = group.call('sh', '-e', '-c', step, cwd=folder, PATH=path)[0]
        told = [it[-1] for it in read('sarif', (folder / into).read_bytes())]
        group.check('code scanning', (status, told), (wanted, rules))
        (folder / into).unlink()
    upload = re.search(r'- if: (.*)\n +uses: .*/upload-sarif@.*\n +with:\n +sarif_file: (\S+)', text)
    condition = "${{ !cancelled() && hashFiles('%s') != '' }}" % into
    group.check('what is uploaded, and when', upload and upload.groups(), (condition, into))


def quality(group, here, path):
    """The job for GitLab's code quality. Its report has the refused files, and is kept if the job fails."""
    job = (group.contrib / 'ci' / 'gitlab.yml').read_text().split('\ncode-quality:\n')[1]
    step, into = re.search(r'- (tfrules-all .* >(\S+))', job).groups()
    put(here, {'m/a.tf': b'variable "n" { type = string }\n'})
    status = group.call('sh', '-e', '-c', step, cwd=here, PATH=path)[0]
    told = [it[-1] for it in read('gitlab', (here / into).read_bytes())]
    group.check('code quality', (status, told), (1, ['terraform_unused_declarations', REFUSED]))
    kept = re.search(r'artifacts:\n +when: (\S+)\n +reports:\n +codequality: (\S+)', job)
    group.check('the report that is kept', kept and kept.groups(), ('always', into))


def lint_matchers(group):
    """The matchers read a report, and the messages about files that are refused or can't be opened."""
    contrib = group.contrib
    matcher = json.loads((contrib / 'ci' / 'tfrules-matcher.json').read_text())
    tasks = json.loads((contrib / 'editors' / 'vscode' / 'tasks.json').read_text())
    here = group.fresh()
    put(here, {'a b:1/m.tf': b'variable "n" {}\n', 'bad/m.tf': BAD, 'gone/m.tf': b'->nowhere', 'odd/m.tf': b''})
    put(here, {'.tfrules': b'--rules terraform_typed_variables,terraform_documented_variables\n'})
    put(here, {'odd/.tfrules': b'--force\n--bogus\n'})
    step = re.search('run: (tfrules.*)', (contrib / 'ci' / 'github.yml').read_text()).group(1)
    task = tasks['tasks'][1]
    for name, words, problems in (
        ('GitHub', step.split(), [p['pattern'][0] for p in matcher['problemMatcher']]),
        ('VS Code', [task['command'], *task['args']], [p['pattern'] for p in task['problemMatcher']]),
    ):
        done = group.call(*words, cwd=here, PATH=group.before_path())
        group.check('the status for ' + name, done[0], 1)
        found = [
            {key: match.group(number) for key, number in pattern.items() if isinstance(number, int)}
            for line in (done[1] + done[2]).decode().splitlines()
            for match, pattern in [(re.match(p['regexp'], line), p) for p in problems]
            if match
        ]
        place = {'file': 'a b:1/m.tf', 'line': '1', 'column': '1'}
        group.check(
            'the matchers of %s read the reports of modules' % name,
            found,
            [
                dict(
                    place,
                    severity='Notice',
                    message='variable "n" has no description',
                    code='terraform_documented_variables',
                ),
                dict(place, severity='Warning', message='variable "n" has no type', code='terraform_typed_variables'),
                {'file': 'bad/m.tf', 'line': '1', 'column': '3', 'message': 'unexpected token'},
                {'file': 'gone/m.tf', 'message': 'the link leads nowhere'},
                {'file': 'odd/.tfrules', 'line': '2', 'message': 'no option of a project: "--bogus"'},
            ],
        )


def scripts(group):
    if group.has('shellcheck', checks=8):
        for shell in ('dash', 'bash'):
            for name in SCRIPTS + ['release/install.sh']:
                group.check(
                    'shellcheck of %s for %s' % (name, shell),
                    group.call('shellcheck', '-s', shell, group.contrib / name, cwd=group.top),
                    (0, b'', b''),
                )
        group.check(
            'shellcheck of where-shells-look',
            group.call('shellcheck', '-s', 'dash', TOP / 'tools' / 'where-shells-look', cwd=group.top),
            (0, b'', b''),
        )
        group.check(
            'shellcheck of the completion',
            group.call('shellcheck', '-s', 'bash', group.contrib / 'completions' / 'tffmt.bash', cwd=group.top),
            (0, b'', b''),
        )


# --- man pages and installation --------------------------------------------------------------------------------


def plain(roff):
    for old, new in (
        ('\\(aq', "'"),
        ('\\(dq', '"'),
        ('\\(ha', '^'),
        ('\\(ti', '~'),
        ('\\(ga', '`'),
        ('\\-', '-'),
        ('\\e', '\\'),
    ):
        roff = roff.replace(old, new)
    return roff


def pages(group):
    version = (TOP / 'VERSION').read_text().strip()
    group.holds('the changes tell of this version', '\n## %s\n' % version in (TOP / 'CHANGELOG.md').read_text())
    programs = [('tffmt-all', group.trees), ('tfrules-all', group.linted)]
    for name, path in programs + [(name, group.contrib / name) for name in SCRIPTS]:
        group.check(
            '%s --version' % name,
            group.call(path, '--version', cwd=group.top),
            (0, lines('%s %s' % (name, version)), b''),
        )
    for name in PAGES:
        page = TOP / 'man' / (name + '.1')
        first = page.read_text().split('\n')[0]
        group.holds(
            '%s has a date and the version' % name,
            re.match(r'\.TH %s 1 20\d\d-\d\d-\d\d "tffmt %s" ' % (name.upper(), re.escape(version)), first),
            first,
        )
        if group.has('mandoc'):
            group.check('mandoc -Tlint ' + name, group.call('mandoc', '-Tlint', page, cwd=group.top), (0, b'', b''))
    for path in (group.program, group.trees, group.linted, group.server):
        told = group.call(path, '--help', cwd=group.top)[1].decode().splitlines()
        group.check('%s --help fits 80 columns' % path, [it for it in told if len(it) > 80], [])
    rules = re.findall(r'^\| \[`(terraform_\w+)`', (TOP / 'docs/RULES.md').read_text(), re.M)
    page = (TOP / 'man' / 'tfrules.1').read_text().partition('.SH RULES')[2].partition('.SH ')[0]
    group.check('tfrules(1) names the rules', sorted(re.findall(r'^\.B (terraform_\w+)$', page, re.M)), rules)
    text = (TOP / 'man' / 'tffmt.1').read_text()
    for name in ('README.md', 'docs/USING.md', 'man/tffmt.1'):
        group.check(
            '%s redirects nothing to a file that was read' % name,
            re.findall(r'.*\.new\b.*|.*cat .*>.*\.tf\b.*', (TOP / name).read_text()),
            [],
        )
    sessions = [
        (name, plain(shown)) for name, shown in re.findall(r'\.SS (.*)\n(?:.*\n)*?\.EX\n\.RS 4\n((?:.*\n)*?)\.RE', text)
    ]
    group.check('thirteen refusals', len({name for name, _ in sessions}), 13)
    path = group.before_path(group.script('tffmt', 'exec %s "$@"\n' % group.program).parent)
    for name, shown in sessions:
        command, _, wanted = shown.partition('\n')
        group.holds('the example is of ' + name, wanted.endswith(': %s\n' % name), shown)
        group.check(
            'the example of ' + name,
            group.call('sh', '-c', command[2:] + ' 2>&1', cwd=group.top, PATH=path)[1],
            wanted.encode(),
        )


def told_shells(group):
    """Where a shell doesn't look into the folder that its completions were put in, a line says what to add; and then it
    finds them, and nothing more is said."""
    home = pathlib.Path(group.setting['HOME'])
    prefix = home / 'a place'
    setting = {
        'PATH': '%s:%s' % (prefix / 'bin', group.setting['PATH']),
        'XDG_DATA_DIRS': '/usr/local/share:/usr/share',
    }
    words = ['make', '-s', '-C', TOP, '-o', 'bin/programs', 'PREFIX=%s' % prefix, 'install']
    status, out, err = group.call(*words, cwd=home, **setting)
    shells = [shell for shell in ('bash', 'zsh', 'fish') if shutil.which(shell)]
    told = dict(line.split(': ', 1) for line in out.decode().splitlines())
    group.check('what make install says', (status, sorted(told), err), (0, sorted(shells), b''))
    for shell, line in told.items():
        file, added = re.match('add to ~/([a-z./]+)(?:, before compinit)?: (.*)', line).groups()
        put(home, {file: os.fsencode(added + '\n')})
    group.check('once it is added', group.call(*words, cwd=home, **setting), (0, b'', b''))
    if group.has('bash'):
        group.check(
            'bash finds it',
            group.call('bash', '-c', '. ~/.bashrc; complete -p tfrules-all', cwd=home, **setting)[1],
            b'complete -F _tffmt tfrules-all\n',
        )
    if group.has('zsh'):
        group.check(
            'zsh finds it',
            group.call(
                'zsh',
                '-c',
                '. ~/.zshrc; autoload -U compinit; compinit -u -D; print $_comps[tfrules-all]',
                cwd=home,
                **setting,
            )[1],
            b'_tffmt\n',
        )
    if group.has('fish'):
        said = group.call('fish', '-c', 'complete -C "tfrules-all --expl"', cwd=home, **setting)
        group.holds('fish finds it', said[1].startswith(b'--explain'), said)
    usual = {
        'bash': '/usr/share/bash-completion/completions',
        'zsh': '/usr/local/share/zsh/site-functions',
        'fish': '/usr/share/fish/vendor_completions.d',
    }
    group.check(
        'nothing of usual places',
        group.call('sh', TOP / 'tools' / 'where-shells-look', *usual.values(), cwd=home, HOME=str(group.fresh())),
        (0, b'', b''),
    )


def installing(group):
    if not all(os.access(str(TOP / 'bin' / name), os.X_OK) for name in PROGRAMS):
        group.skip('make install', 10, 'the programs are not built')
        return
    if not group.has('make', checks=10):
        return
    top = group.fresh()
    words = ['make', '-s', '-C', TOP, '-o', 'bin/programs', 'DESTDIR=%s' % (top / 'a folder'), 'PREFIX=/usr']
    group.check('make install', group.call(*words, 'install', cwd=top), (0, b'', b''))
    usr = top / 'a folder' / 'usr'
    got = sorted(str(p.relative_to(usr)) for p in usr.rglob('*') if not p.is_dir())
    wanted = ['bin/' + name for name in [*PAGES, 'tfrules-modules']] + ['share/man/man1/%s.1' % name for name in PAGES]
    wanted += ['share/bash-completion/completions/' + name for name in PAGES]
    wanted += ['share/fish/vendor_completions.d/%s.fish' % name for name in PAGES] + ['share/zsh/site-functions/_tffmt']
    documents = ['VERSION', 'README.md', 'CONTRIBUTING.md', 'CHANGELOG.md', 'bench/HISTORY.md']
    documents += ['docs/' + it.name for kind in ('*.md', '*.svg') for it in (TOP / 'docs').glob(kind)]
    wanted += ['share/doc/tffmt/' + name for name in documents]
    examples = ['pre-commit-config.yaml', 'pre-commit-wheel.yaml', 'treefmt.toml'] + [
        str(p.relative_to(TOP / 'contrib'))
        for folder in ('ci', 'editors', 'emacs', 'vim')
        for p in (TOP / 'contrib' / folder).rglob('*')
        if not p.is_dir()
    ]
    group.check('what is installed', got, sorted(wanted + ['share/doc/tffmt/examples/' + name for name in examples]))
    named = set()
    for name in PAGES:
        named |= set(re.findall(r'share/doc/[\w./-]*\w', (usr / 'share/man/man1' / (name + '.1')).read_text()))
    group.check('the man pages name nothing else', sorted(n for n in named if not (usr / n).exists()), [])
    group.check(
        'links of the installed documents',
        group.call(TOP / 'tests' / 'links', usr / 'share/doc/tffmt', cwd=top)[::2],
        (0, b''),
    )
    group.check('VERSION', (usr / 'share/doc/tffmt/VERSION').read_text(), (TOP / 'VERSION').read_text())
    here = group.fresh()
    put(here, {'a.tf': OTHER})
    path = '%s:%s' % (usr / 'bin', group.setting['PATH'])
    del group.setting['TFFMT']
    group.check(
        'what is installed works',
        (group.call('tffmt-all', '--quiet', cwd=here, PATH=path), (here / 'a.tf').read_bytes()),
        ((0, lines('a.tf'), b''), GOOD),
    )
    if group.has('bash') and os.path.exists('/usr/share/bash-completion/bash_completion'):
        script = '. /usr/share/bash-completion/bash_completion; _completion_loader tffmt-all; complete -p tffmt-all'
        group.check(
            'bash-completion finds it',
            group.call('bash', '-c', script, cwd=here, PATH=path, XDG_DATA_DIRS=str(usr / 'share'))[1],
            b'complete -F _tffmt tffmt-all\n',
        )
    else:
        group.skip('bash-completion', 1)
    if group.has('fish'):
        said = group.call(
            'fish', '-c', 'complete -C "tffmt-hook --i"', cwd=here, PATH=path, XDG_DATA_DIRS=str(usr / 'share')
        )
        group.holds('fish finds it', said[1].startswith(b'--install'), said)
    if group.has('man') and shutil.which('groff'):
        group.check(
            'man finds it',
            group.call('man', '-w', '-M', usr / 'share/man', 'tffmt-all', cwd=here)[1],
            lines('%s/share/man/man1/tffmt-all.1' % usr),
        )
    else:
        group.skip('man', 1)
    told_shells(group)
    group.check(
        'make uninstall',
        (group.call(*words, 'uninstall', cwd=top), [p for p in usr.rglob('*') if not p.is_dir()]),
        ((0, b'', b''), []),
    )
