"""The output and the status of tfrules-all on real folders, by option. modules.py tests which modules it lints, forms.py its
forms."""

import os
import re

from editors import on_terminal
from harness import BAD, TOP, lines, put, quoted
from modules import ALL, DECLARED, DEFAULT, GUIDE, MISSING, UNTYPED, UNUSED
from modules import fault, link, report, run_parts, tree, unused


def run(group):
    parts = (
        forged_lines,
        statuses,
        summaries,
        options,
        where_config_stands,
        configs,
        bad_configs,
        no_configs,
        rule_texts,
        lists_of_rules,
        comments,
        comments_and_the_rest,
        comments_asked_by_a_project,
        lines_of_files,
        many_lines_of_files,
    )
    run_parts(group, parts, 199)


def run_script(group):
    """contrib/tfrules-modules, which was a linter of its own, calls the program by whatever words it is given."""
    run_parts(group, [under_the_earlier_name], 6)


def under_the_earlier_name(group, lint):
    script, path = group.contrib / 'tfrules-modules', group.before_path()
    top = tree(group, {'a b/a.tf': DECLARED, 'a*/b.tf': BAD, '-c/c.tf': b''})
    for words in ([], ['--quiet', 'a b', 'a*'], ['-j', '2', '--', '-c', ''], ['--rules', 'x y'], ['--version']):
        wanted = group.call(group.linted, *words, cwd=top)
        group.check('the words %r' % words, group.call(script, *words, cwd=top, PATH=path), wanted)
    wanted = lint('--null', cwd=top, stdin=b'a b/a.tf')
    given = group.call(script, '--null', '--quiet', cwd=top, stdin=b'a b/a.tf', PATH=path)
    group.check('standard input', given, wanted)


def forged_lines(group, lint):
    """A name with newlines and escapes forges no line of a report or a refusal, which matchers read."""
    forged = 'a\nmain.tf:7:1: Error - all is lost (terraform_module_version)\nb.tf'
    coloured = '\x1b[31mred\x1b[0m.tf'
    top = tree(group, {forged: DECLARED, 'm/' + coloured: BAD, 'main.tf': b''})
    status, out, err = lint(cwd=top)
    wanted = (
        unused(quoted(forged)),
        b'tfrules-all: error: %s:1:3: unexpected token\n' % quoted('m/' + coloured).encode(),
    )
    group.check('a name with newlines and one with escapes', (status, out, err), (1, *wanted))
    group.check('no control byte but a newline', [byte for byte in out + err if byte < 32 and byte != 10], [])
    group.check('two lines, and an empty one', [out.count(b'\n'), err.count(b'\n')], [3, 1])


def statuses(group, lint):
    """They mean what those of tfrules mean; the worst counts, and all modules are looked at."""
    top = tree(
        group, {'a/a.tf': DECLARED, 'b/b.tf': BAD, 'c/c.tf': DECLARED, 'd/d.tf': b'', 'e/e.tf': b'variable "n" {}\n'}
    )
    refused = lines('tfrules-all: error: b/b.tf:1:3: unexpected token')
    group.check('an accepted module', lint('d', cwd=top), (0, b'', b''))
    group.check('a refused one', lint('b', cwd=top), (1, b'', refused))
    group.check('a refused one and issues', lint('a', 'b', 'c', cwd=top), (1, unused('a/a.tf', 'c/c.tf'), refused))
    group.check('issues under --force', lint('--force', 'a', 'd', cwd=top), (0, unused('a/a.tf'), b''))
    group.check('and a refusal', lint('--force', 'a', 'b', cwd=top), (1, unused('a/a.tf'), refused))
    group.check(
        'none severe enough', lint('--minimum-failure-severity', 'error', 'a', cwd=top), (0, unused('a/a.tf'), b'')
    )
    group.check('two issues', lint('e', cwd=top), (2, report(UNTYPED % 'e/e.tf', UNUSED % 'e/e.tf'), b''))
    os.mkfifo(str(top / 'd' / 'pipe.tf'))
    group.check(
        'a module with a pipe is refused', lint('d', cwd=top), (1, b'', lines(fault('d/pipe.tf', 'not a file')))
    )
    for name, told in (
        ('nowhere', 'nowhere'),
        ('nowhere/a.tf', 'nowhere/'),
        ('nowhere.txt', 'nowhere.txt'),
        ('-', '-'),
    ):
        group.check(
            'a name that leads nowhere: ' + name,
            lint('a', name, 'c', cwd=top),
            (1, unused('a/a.tf', 'c/c.tf'), lines(fault(told, MISSING))),
        )
    group.check(
        'a full device',
        group.call('sh', '-c', 'exec "$0" a >/dev/full', group.linted, cwd=top),
        (1, b'', b'tfrules-all: error: write failed\n'),
    )
    group.check('a closed standard output', group.call('sh', '-c', 'exec "$0" a >&-', group.linted, cwd=top)[0], 1)


def summaries(group, lint):
    """The last line of a run, unless it is to be quiet."""
    top = tree(
        group,
        {
            'a/a.tf': DECLARED,
            'b/b.tf': BAD,
            'c/c.tf': b'variable "n" {}\n',
            'd/d.tf': b'',
            'none/x.txt': b'',
        },
    )
    refused = lines('tfrules-all: error: b/b.tf:1:3: unexpected token')
    for words, told, said in (
        (['d'], b'', 'no issues in 1 module'),
        (['a'], b'', '1 issue in 1 of 1 module'),
        (['a', 'c', 'd'], b'', '3 issues in 2 of 3 modules'),
        (['a', 'b'], refused, '1 issue in 1 of 2 modules, 1 refused'),
        (['b'], refused, 'no issues in 1 module, 1 refused'),
        (['none'], b'', 'no modules found'),
        (['gone'], lines(fault('gone', MISSING)), 'no modules found'),
    ):
        group.check(
            'what is said at the end: %r' % words, group.call(group.linted, *words, cwd=top)[2], told + lines(said)
        )
    link(top, 'e/e.tf', 'c/c.tf', False)
    group.check(
        'a file of two modules counts in both',
        group.call(group.linted, 'c', 'e', cwd=top)[2],
        lines('4 issues in 2 of 2 modules'),
    )
    group.check('nothing under --quiet', group.call(group.linted, 'none', '--quiet', cwd=top), (0, b'', b''))


def options(group, lint):
    top = tree(group, {'a.tf': DECLARED})
    status, out, err = lint('--help', cwd=top)
    group.check('--help', (status, out.startswith(b'usage: tfrules-all '), err), (0, True, b''))
    group.check('-h', lint('-h', cwd=top), (status, out, err))
    version = (TOP / 'VERSION').read_text().strip()
    group.check('--version', lint('--version', cwd=top), (0, lines('tfrules-all ' + version), b''))
    group.check('--help fits 80 columns', [line for line in out.decode().split('\n') if len(line) > 80], [])
    usage = out.split(b'\n\n')[0] + b'\n'
    part = '--shard takes K/N, with K from 1 to N, at most 99999, not "%s"'
    jobs = '--jobs takes a number from 1 to 9999'
    for words, said in (
        (['--rules'], None),
        (['-0', 'a.tf'], '--null takes no names on the command line'),
        (['--shard', '0/2'], part % '0/2'),
        (['--shard=3/2'], part % '3/2'),
        (['--shard', '1'], part % '1'),
        (['--jobs', 'x'], jobs),
        (['-j0'], jobs),
        (['--rules=all', '--rules=all'], None),
    ):
        told = lines('tfrules-all: error: ' + said) if said else usage
        group.check('a wrong line %r' % words, lint(*words, cwd=top), (1, b'', told))
    for words, told in (
        (['--bogus'], '--bogus'),
        (['a.tf', '-x', '--bogus'], '-x'),
        (['-rules=all'], '-rules=all'),
        (['-force'], '-force; write --force'),
        (['-recursive'], '-recursive; folders are always walked whole'),
        (['--recursive'], '--recursive; folders are always walked whole'),
        (['--chdir=a'], '--chdir=a; name the folder instead'),
        (['-chdir=a'], '-chdir=a; name the folder instead'),
        (['--chdir', 'a'], '--chdir; name the folder instead'),
        (['--only=terraform_typed_variables'], '--only=terraform_typed_variables; write --rules LIST'),
        (['--fix'], '--fix; no file is ever changed'),
    ):
        told = lines('tfrules-all: error: unknown option ' + told)
        group.check('a wrong word is named: %r' % words, lint(*words, cwd=top), (1, b'', told + usage))
    for words, told in (
        (['--rules', 'default,x y,z'], 'unknown rule "x y"'),
        (['--rules='], 'unknown rule ""'),
        (['--rules', 'all,-terraform_x'], 'unknown rule "terraform_x"'),
        (['--rules', 'default,-all'], 'no rule is left by "default,-all"'),
        (['--naming', ''], 'unknown naming ""'),
        (['--minimum-failure-severity=x'], 'unknown severity "x"'),
    ):
        group.check(
            'a wrong word is told once: %r' % words,
            lint(*words, cwd=top),
            (1, b'', lines('tfrules-all: error: ' + told)),
        )
    undescribed = report('a.tf:1:1: Notice - variable "n" has no description (terraform_documented_variables)')
    for words in (
        ['--rules', 'terraform_documented_variables', 'a.tf'],
        ['a.tf', '--rules=terraform_documented_variables', '--naming', 'snake_case'],
    ):
        group.check('the options of tfrules %r' % words, lint(*words, cwd=top), (2, undescribed, b''))
    for words in (['-j', '5'], ['a.tf', '-j2', '--jobs=9999']):
        group.check('without effect %r' % words, lint(*words, cwd=top), (2, unused('a.tf'), b''))
    group.check('a flag that is repeated', lint('--force', '--force', cwd=top), (0, unused('a.tf'), b''))


def where_config_stands(group, lint):
    """In the folder of the module or the nearest above, up to the top of the repository."""
    force, quiet = b'--force\n', b'--minimum-failure-severity error\n'
    top = tree(group, {'.tfrules': force, 'r/.git/HEAD': b'', 'r/m/a.tf': DECLARED, 'w/m/a.tf': DECLARED})
    group.check('not above the top of the repository', lint('r/m', cwd=top)[0], 2)
    put(top, {'r/.tfrules': force})
    group.check('at the top of the repository', lint('r/m', cwd=top)[0], 0)
    group.check('from a folder below', lint('.', cwd=top / 'r' / 'm')[0], 0)
    group.check('without a repository, up to the current folder', lint('w/m', cwd=top)[0], 0)
    group.check('and not above it', lint('m', cwd=top / 'w')[0], 2)
    group.check('nor beside it', lint('../w/m', cwd=top / 'r')[0], 2)
    put(top, {'r/m/.tfrules': b'--rules terraform_typed_variables\n', 'r/n/a.tf': DECLARED, 'r/linked': b'->m'})
    group.check('the nearest alone counts', lint('r/m', cwd=top), (0, b'', b''))
    group.check('each module has its own', lint('r', cwd=top), (0, unused('r/n/a.tf'), b''))
    group.check('of a linked folder that of where it leads', lint('linked', cwd=top / 'r'), (0, b'', b''))
    put(top, {'w/m/.tfrules': quiet})
    group.check('in the folder itself', lint('.', cwd=top / 'w' / 'm')[0], 0)


def configs(group, lint):
    """Each option of a project counts for each of its modules, unless the line has it."""
    text = (
        b'# ours\n\n  --rules   default,terraform_naming_convention  # and names\r\n--naming=mixed_snake_case\n'
        b'\t--minimum-failure-severity error'
    )
    named = b'variable "Size" { type = string }\noutput "a-b" { value = var.Size }\n'
    top = tree(group, {'a.tf': named, '-m/b.tf': DECLARED, '.tfrules': text})
    size = 'a.tf:1:1: Notice - variable name "Size" must match snake_case (terraform_naming_convention)'
    output = 'a.tf:2:1: Notice - output name "a-b" must match %s (terraform_naming_convention)'
    undescribed = report('a.tf:2:1: Notice - output "a-b" has no description (terraform_documented_outputs)')
    mixed = report(output % 'mixed_snake_case')
    whole = mixed + b'\n' + unused('-m/b.tf')
    group.check('the options of a project', lint(cwd=top), (0, whole, b''))
    for words, status, told in (
        (['--naming', 'snake_case'], 0, report(size, output % 'snake_case')),
        (['--minimum-failure-severity=notice'], 2, mixed),
        (['--minimum-failure-severity=notice', '--force'], 0, mixed),
        (['--rules', 'terraform_documented_outputs'], 0, undescribed),
        (['--no-config', '--rules', 'terraform_documented_outputs'], 2, undescribed),
        (['--no-config'], 0, b''),
    ):
        group.check('%r before those' % words, lint('a.tf', *words, cwd=top), (status, told, b''))
    put(top, {'.tfrules': b'# ours\r\n  --rules=terraform_unused_declarations # one\n--force'})
    group.check('others of a project', lint('./-m', cwd=top), (0, unused('-m/b.tf'), b''))
    group.check('they hold beside a severity', lint('--minimum-failure-severity=notice', '--', '-m', cwd=top)[0], 0)


def bad_configs(group, lint):
    """A wrong line is reported once, and the modules of its file are not linted."""
    top = tree(group, {'m/a.tf': DECLARED, 'm/in/b.tf': DECLARED, 'n/a.tf': DECLARED})
    for text, *told in (
        (b'--force\n--bogus\n', '2: no option of a project: "--bogus"'),
        (b'force\n', '1: no option of a project: "force"'),
        (b'--null\n', '1: no option of a project: "--null"'),
        (b'--force yes\n', '1: no option of a project: "--force"'),
        (b'--x\n--force\n--y\n', '1: no option of a project: "--x"', '3: no option of a project: "--y"'),
        (b'\n--rules terraform_typed,all\n', '2: unknown rule "terraform_typed"'),
        (b'--rules\n', '1: unknown rule ""'),
        (b'--rules all --force\n', '1: unknown rule "all --force"'),
        (b'--rules default,-all\n', '1: no rule is left by "default,-all"'),
        (b'--rules=all\n--rules=default\n', '2: given twice: "--rules"'),
        (b'--force\n--force\n', '2: given twice: "--force"'),
        (b'--naming camel', '1: unknown naming "camel"'),
        (b'--minimum-failure-severity *\n', '1: unknown severity "*"'),
        (b'--force\n\xff', '2:1: invalid UTF-8'),
    ):
        put(top, {'m/.tfrules': text})
        group.check(
            'what is bad is told once: %r' % text,
            lint('m', 'n', cwd=top),
            (1, unused('n/a.tf'), lines(*['tfrules-all: error: m/.tfrules:' + it for it in told])),
        )
    group.check(
        'modules that are not linted are counted',
        group.call(group.linted, 'm', cwd=top),
        (1, b'', lines(fault('m/.tfrules:2:1', 'invalid UTF-8'), "2 modules not linted: their options aren't known")),
    )
    group.check('not with --no-config', lint('--no-config', 'm/in', cwd=top), (2, unused('m/in/b.tf'), b''))
    put(top, {'.git/HEAD': b'', '.tfrules': b'--x'})
    (top / 'm' / '.tfrules').unlink()
    told = os.path.realpath(str(top)) + '/.tfrules:1'
    said = lines(fault(told, 'no option of a project: "--x"'))
    group.check('by its full path', lint('a.tf', cwd=top / 'm'), (1, b'', said))


def no_configs(group, lint):
    """An entry under its name, of any kind, is reported, and the next one above isn't taken."""
    top = tree(group, {'m/a.tf': DECLARED, '.tfrules': b'--force\n', 'm/.tfrules': b'->nowhere'})
    group.check('a dead link', lint('m', cwd=top), (1, b'', lines(fault('m/.tfrules', 'the link leads nowhere'))))
    (top / 'm' / '.tfrules').unlink()
    (top / 'm' / '.tfrules').mkdir()
    group.check('a folder', lint('m', cwd=top), (1, b'', lines(fault('m/.tfrules', 'not a file'))))
    (top / 'm' / '.tfrules').rmdir()
    os.mkfifo(str(top / 'm' / '.tfrules'))
    group.check('a pipe', lint('m', cwd=top), (1, b'', lines(fault('m/.tfrules', 'not a file'))))


def rule_texts(group, lint):
    """The texts about the rules are those of docs/RULES.md."""
    rows = re.findall(r'^\| \[`(\w+)`\]\(#\1\) \| (\w+) \| (yes|no) \| (.*) \|$', GUIDE, re.M)
    told = ['%s (%s%s): %s' % (name, how, ', default' * (given == 'yes'), what) for name, how, given, what in rows]
    group.check('--list-rules', lint('--list-rules', cwd=TOP), (0, lines(*told), b''))
    group.check('it has each rule', [name for name, *_ in rows], ALL)
    group.check('ten, of which six are the default', (len(ALL), len(DEFAULT)), (10, 6))
    for (name, *_), line in zip(rows, told):
        status, out, err = lint('--explain', name, cwd=TOP)
        first, _, why, _, how, _, comment, end = out.decode().split('\n')
        wanted = (0, line, '  # tflint-ignore: ' + name, '', b'')
        group.check('--explain ' + name, (status, first, comment, end, err), wanted)
        section = re.search(r'^## %s\n(.*?)(?=^## |\Z)' % name, GUIDE, re.M | re.S).group(1)
        group.check('why: ' + name, why in section.split('\n\n'), True)
        group.check('how: ' + name, 'the line above it' in how, True)
    for name in ('terraform_typed', 'all', '', 'a"b'):
        told = 'tfrules-all: error: unknown rule "%s"' % name.replace('"', '\\"')
        group.check('no rule %r' % name, lint('--explain=' + name, cwd=TOP), (1, b'', lines(told)))


# a module in which each rule has one issue at least
EACH = b'''// x
variable "Bad" {}
output "o" { value = "${var.Bad}" }
module "m" { source = "git::https://example.com/m" }
module "r" { source = "hashicorp/consul/aws" }
locals { u = var.Bad.0 }
data "a" "b" {}
'''


def lists_of_rules(group, lint):
    top = tree(group, {'a.tf': EACH})

    def rules_of(*words):
        return sorted(set(re.findall(r'\((terraform_\w+)\)$', lint(*words, cwd=top)[1].decode(), re.M)))

    group.check('each rule has an issue', rules_of('--rules', 'all'), ALL)
    for given, wanted in (
        ('default', set(DEFAULT)),
        ('default,terraform_naming_convention', set(DEFAULT) | {'terraform_naming_convention'}),
        ('all,-terraform_typed_variables', set(ALL) - {'terraform_typed_variables'}),
        ('all,-default', set(ALL) - set(DEFAULT)),
        ('terraform_typed_variables,-all,default', set(DEFAULT)),
        ('default,default,-terraform_comment_syntax', set(DEFAULT)),
    ):
        group.check('--rules ' + given, rules_of('--rules', given), sorted(wanted))
    group.check('without a list', rules_of(), DEFAULT)


# --- comments --------------------------------------------------------------------------------------------------


def unknown(place, *names):
    """The message about a comment with a name that no rule has."""
    shown = [it if it.startswith('"') else '"%s"' % it for it in map(quoted, names)]
    return fault(place, 'no rule is called ' + ' or '.join(shown))


def of_file(place):
    return fault(place, 'tflint-ignore-file silences nothing here')


def comments(group, lint):
    """Each silencing comment with a name that no rule has is reported, and each for a whole file."""
    for text, *told in (
        (b'# tflint-ignore: %s\n' % ','.join(ALL + ['all']).encode(),),
        (
            b'# tflint-ignore: terraform_typed_variable, all # why, so\n',
            unknown('a.tf:1:1', 'terraform_typed_variable'),
        ),
        (b'y = 1 //\ttflint-ignore:terraform_unused_declarations,aws_x\r\n', unknown('a.tf:1:7', 'aws_x')),
        (b'y = "\xc3\xa9" # tflint-ignore: x, all,y,x\n', unknown('a.tf:1:9', 'x', 'y', 'x')),
        (b'#tflint-ignore:', unknown('a.tf:1:1', '')),
        (b'\n  # tflint-ignore: "a\\b"\n', unknown('a.tf:2:3', '"a\\b"')),
        (b'# tflint-ignore: a\x1b[31m\tb, c d\n', unknown('a.tf:1:1', 'a\x1b[31m\tb', 'c d')),
        (b'# tflint-ignore: \xc3\xa9\n', unknown('a.tf:1:1', '\u00e9')),
        (b'# tflint-ignore: Terraform_typed_variables\n', unknown('a.tf:1:1', 'Terraform_typed_variables')),
        (b'# tflint-ignore-file: terraform_typed_variables\n', of_file('a.tf:1:1')),
        (b'y = 1 //tflint-ignore-file:\n', of_file('a.tf:1:7')),
        (b'x = "# tflint-ignore: quoted"\n',),
        (b'## tflint-ignore: none\n# see tflint-ignore: a\n// tflint-ignored: b\n# see tflint-ignore-file: c\n',),
        (b'/* tflint-ignore: x */\n/*\n# tflint-ignore: x\n# tflint-ignore-file: x\n*/\n',),
        (b'x = <<E\n# tflint-ignore: x\n# tflint-ignore-file: x\nE\n',),
        (b'x = <<E\n${a /* # tflint-ignore: x */}\nE\n# tflint-ignore: x\n', unknown('a.tf:4:1', 'x')),
    ):
        top = tree(group, {'a.tf': text})
        group.check('without the option %r' % text, lint(cwd=top), (0, b'', b''))
        wanted = 2 if told else 0, b'', lines(*told)
        group.check('the comments of %r' % text, lint('--check-comments', cwd=top), wanted)


def comments_and_the_rest(group, lint):
    """Messages about comments, together with reports, refused files, and statuses."""
    comment = b'# tflint-ignore: x\n'
    top = tree(
        group, {'a/a.tf': comment + DECLARED, 'a/b.tf': comment, 'b/b.tf': BAD, 'b/c.tf': comment, 'd/d.tf': b''}
    )
    said = [unknown('a/a.tf:1:1', 'x'), unknown('a/b.tf:1:1', 'x')]
    refused = 'tfrules-all: error: b/b.tf:1:3: unexpected token'
    found = report(UNUSED.replace('1:1', '2:1') % 'a/a.tf')
    for words, wanted in (
        (['a', 'd'], (2, found, b'')),
        (['--check-comments', 'a', 'd'], (2, found, lines(*said))),
        (['--check-comments', '--minimum-failure-severity', 'error', 'a'], (2, found, lines(*said))),
        (['--check-comments', '--rules', 'terraform_typed_variables', 'a'], (2, b'', lines(*said))),
        (['--force', 'a', '--check-comments'], (0, found, lines(*said))),
        (['--check-comments', 'b', 'd'], (1, b'', lines(refused))),
        (['--check-comments', '--force', 'b', 'a'], (1, found, lines(*said, refused))),
        (['--check-comments', 'd'], (0, b'', b'')),
    ):
        group.check('comments and the rest %r' % words, lint(*words, cwd=top), wanted)
    for words, said in (
        (['--check-comments', 'a'], lines(*said, '1 issue in 1 of 1 module')),
        (['--check-comments', '--rules=terraform_typed_variables', 'a'], lines(*said, 'no issues in 1 module')),
    ):
        group.check('they are no issues: %r' % words, group.call(group.linted, *words, cwd=top)[::2], (2, said))


def comments_asked_by_a_project(group, lint):
    """The option is on the line or in a .tfrules, and governs the modules of that one."""
    top = tree(group, {name + '/a.tf': b'# tflint-ignore: x\n' for name in ('m', 'n', 'o')})
    put(top, {'m/.tfrules': b'--check-comments\n', 'n/.tfrules': b'--force\n  --check-comments # ours\r\n'})
    told = {name: unknown(name + '/a.tf:1:1', 'x') for name in ('m', 'n', 'o')}
    group.check('by options of projects', lint(cwd=top), (2, b'', lines(told['m'], told['n'])))
    group.check('where it is forced', lint('n', 'o', cwd=top), (0, b'', lines(told['n'])))
    group.check('not with --no-config', lint('--no-config', cwd=top), (0, b'', b''))
    words = ['--no-config', '--check-comments', 'm', 'o']
    group.check('by the line', lint(*words, cwd=top), (2, b'', lines(told['m'], told['o'])))
    for text, said in (
        (b'--check-comments\n--check-comments\n', '2: given twice: "--check-comments"'),
        (b'--check-comments yes\n', '1: no option of a project: "--check-comments"'),
    ):
        put(top, {'o/.tfrules': text})
        wanted = 1, b'', lines('tfrules-all: error: o/.tfrules:' + said)
        group.check('a bad line: %r' % text, lint('o', cwd=top), wanted)


def lines_of_files(group, lint):
    """On a terminal the line of a file is below the message about a place in it, and nowhere else."""
    top = tree(
        group,
        {
            'a/a.tf': b'\n\tx = "\xe5\x90\x8d" # tflint-ignore: \x1b\n' + DECLARED,
            'a/b.tf': b'variable "m" { type = string } #' + b'x' * 240 + b'\n',
            'b/b.tf': b'x = 1\ny = ]\n',
            'c/c.tf': b'x = "\xff"\n',
        },
    )
    of_n = [UNUSED.replace('1:1', '3:1') % 'a/a.tf', '  variable "n" { type = string }', '  ^']
    of_m = UNUSED.replace('"n"', '"m"') % 'a/b.tf'
    of_comment = [unknown('a/a.tf:2:10', '\x1b'), '   x = "\u540d" # tflint-ignore:  ', '  ' + 10 * ' ' + '^']
    of_fault = [fault('b/b.tf:2:5', 'unexpected token'), '  y = ]', '      ^']
    no_text = fault('c/c.tf:1:6', 'invalid UTF-8')
    found, told = lines('2 issue(s) found:', '', *of_n, of_m), lines(*of_comment, *of_fault, no_text)
    plain_found = lines('2 issue(s) found:', '', of_n[0], of_m)
    plain_told = lines(of_comment[0], of_fault[0], no_text)
    words = ['--quiet', '--check-comments', '.']
    said = on_terminal(group, [group.linted, *words], top).replace(b'\r\n', b'\n')
    group.check('lines of files on a terminal', said, found + told)
    group.check('and not in a file', lint(*words[1:], cwd=top), (1, plain_found, plain_told))
    for name, shown, plain in (('err', found, plain_told), ('out', told, plain_found)):
        command = '"$@" %s> %s' % ('2' if name == 'err' else '', name)
        said = on_terminal(group, ['sh', '-c', command, 'sh', group.linted, *words], top).replace(b'\r\n', b'\n')
        got = said, (top / name).read_bytes()
        group.check('standard %s in a file' % ('error' if name == 'err' else 'output'), got, (shown, plain))
    words.insert(0, '--format=github')
    said = on_terminal(group, [group.linted, *words], top).replace(b'\r\n', b'\n')
    form = group.call(group.linted, *words, cwd=top)[1]
    group.check('a form is what it is elsewhere', sorted(said.splitlines()), sorted((form + told).splitlines()))


def many_lines_of_files(group, lint):
    """Each of many issues has its own line."""
    names = ['v%d' % number for number in range(3000)]
    declared = ['variable "%s" { type = string }' % name for name in names]
    top = tree(group, {'a.tf': lines(*declared[:1500]), 'b.tf': lines(*declared[1500:])})
    wanted = []
    for number, name in enumerate(names):
        place = '%s.tf:%d:1' % ('ab'[number // 1500], number % 1500 + 1)
        wanted += [UNUSED.replace('%s:1:1', place).replace('"n"', '"%s"' % name), '  ' + declared[number], '  ^']
    said = on_terminal(group, [group.linted, '--quiet'], top).replace(b'\r\n', b'\n')
    wanted = lines('3000 issue(s) found:', '', *wanted)
    group.holds('3000 lines on a terminal', said == wanted, [len(said), len(wanted)])
    plain = b''.join(line for line in wanted.splitlines(True) if line[:2] != b'  ')
    group.check('and not in a file', lint(cwd=top)[1] == plain, True)
