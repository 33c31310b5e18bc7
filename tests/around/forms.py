"""`tfrules-all --format`: the real program's output in each form, on small trees and on a large one, read by readers that
aren't ours (form_readers.py, sarif_readers.py). It must agree with the reports and the messages of the same run without a
form."""

import hashlib
import json
import os
import re
import urllib.parse

import sarif_readers
from form_readers import COMMENT, FORMS, REFUSED, apart, of_text, read, shown, suites_in
from harness import BAD, NOBODY, TOP, lines, put, quoted, shard_of
from linted import EACH
from modules import ALL, DECLARED, USED, link, tree

CHECKS = 659
MODULES = 2000
PAGES = 'https://github.com/terraform-linters/tflint-ruleset-terraform/blob/main/docs/rules/'
TYPED, UNUSED = 'terraform_typed_variables', 'terraform_unused_declarations'
# Names that hold what else stands after a name, and what is escaped.
NAMES = [
    'a:1:1.tf',
    'new\nline/x.tf',
    "quo\"te'.tf",
    'x:1:1: Warning - y (terraform_typed_variables).tf',
    '<&>%,.tf',
    '\u00e9 #?.tf',
    'z:1:1: Warning - list (terraform_deprecated_index)\nz.tf',
    '-d/-z.tf',
    'back\\slash.tf',
    'a\x01\x1f\x7fb.tf',
    'tab\there\rcr.tf',
    ']]>&amp;%0A%2C.tf',
    'ends\ufffe\uffff.tf',
    '\u2028\u0085.tf',
    '\U0001f600.tf',
    "it's.tf",
]
# A text, and what is found in it.
UNTYPED = b'variable "n:1:1: (x) <&>" {}\n\noutput "o" { value = [var.n.0, "%"] }\n'
FOUND = [
    (1, 1, 'warning', 'variable "n:1:1: (x) <&>" has no type', TYPED),
    (1, 1, 'warning', 'variable "n:1:1: (x) <&>" is declared but not used', UNUSED),
    (3, 1, 'info', 'output "o" has no description', 'terraform_documented_outputs'),
    (3, 28, 'warning', 'list items should be accessed using square brackets', 'terraform_deprecated_index'),
]
# SARIF for the readers of others, by what it is of.
DOCUMENTS = {}


def run(group):
    if not os.path.exists(group.linted):
        group.skip('tfrules-all --format', CHECKS, 'bin/tfrules-all is not built')
        return
    DOCUMENTS.clear()
    for part in (
        each_rule,
        policies,
        several,
        odd_names,
        paths,
        refused,
        not_linted,
        all_at_once,
        nothing,
        statuses,
        suites,
        rules,
        comments,
        fingerprints,
        numbered,
        command_line,
        choices,
        shards,
        names_from_input,
        failing_writes,
        many_modules,
        others,
    ):
        part(group)


def lint(group, *words, **more):
    return group.call(group.linted, '--quiet', *words, **more)


def issue(file, line, column, text, rule, severity='warning'):
    return file, line, column, severity, text, rule


def unused(file):
    return issue(file, 1, 1, 'variable "n" is declared but not used', UNUSED)


def untyped(file):
    return [issue(file, 1, 1, 'variable "n" has no type', TYPED), unused(file)]


def refusal(file, text, line=1, column=1):
    return issue(file, line, column, text, REFUSED, 'error')


def in_each_form(group, name, *words, wanted=None, count=None, keep=False, names=(), **more):
    """Each form has the entries of the text, in order, as expected; messages and status are those of the text. With
    `keep` the SARIF is for the readers of others, too."""
    status, out, err = lint(group, *words, **more)
    told = of_text(out, err, {quoted(it): it for it in names})
    if wanted is not None:
        group.check(name + ', as text', apart(told, wanted), '')
    if count is not None:
        group.check(name + ', how much the text says', len(told), count)
    for form in FORMS:
        done = lint(group, '--format', form, *words, **more)
        group.check('%s, %s: the status and the messages' % (name, form), done[::2], (status, err))
        group.check('%s, %s' % (name, form), apart(read(form, done[1]), [shown(form, it) for it in told]), '')
        if keep and form == 'sarif':
            DOCUMENTS[name] = done[1]
    return status


def each_rule(group):
    """An issue of each rule at least, and each severity that issues have."""
    here = tree(group, {'m/a.tf': EACH, 'm/b.tf': USED})
    in_each_form(group, 'all rules', '--rules', 'all', cwd=here, keep=True)
    told = of_text(*lint(group, '--rules', 'all', cwd=here)[1:])
    group.check('each rule', sorted({it[5] for it in told}), ALL)
    group.check('each severity', {it[3] for it in told}, {'warning', 'info'})
    # A column counts what a reader takes for one character; SARIF's would be another, so it tells none.
    here = tree(group, {'a.tf': 'x = ["e\u0301\U0001f469\u200d\U0001f469\u200d\U0001f467", b.0]\n'.encode()})
    wanted = [issue('a.tf', 1, 13, 'list items should be accessed using square brackets', 'terraform_deprecated_index')]
    in_each_form(group, 'a column after clusters', cwd=here, wanted=wanted)


def policies(group):
    """By options of the line and of a project."""
    files = {'m/a.tf': UNTYPED, 'n/a.tf': UNTYPED, 'n/.tfrules': b'--rules terraform_documented_outputs\n--force\n'}
    here = tree(group, files)
    undescribed = issue('n/a.tf', 3, 1, 'output "o" has no description', 'terraform_documented_outputs', 'info')
    found = [('m/a.tf', *it) for it in FOUND if it[4] != 'terraform_documented_outputs']
    for words, wanted in (
        ([], found + [undescribed]),
        (['--force', 'n'], [undescribed]),
        (['--no-config', '--rules', TYPED, 'n'], [('n/a.tf', *it) for it in FOUND if it[4] == TYPED]),
        (['--minimum-failure-severity=error', 'm'], found),
    ):
        in_each_form(group, 'by %r' % words, *words, cwd=here, wanted=wanted)


def several(group):
    """Modules in the order of their folders; a folder may be called as the head of a report, and a file may be linked."""
    names = ['a/m.tf', 'b/1 issue(s) found:\n\nm.tf', 'c/d/m.tf', 'c/m.tf', 'd e/m.tofu']
    here = tree(group, dict({name: b'variable "n" {}\n' for name in names}, **{'none/m.tf': b''}))
    link(here, 'z/m.tf', 'a/m.tf', False)
    order = [names[0], names[1], names[3], names[2], names[4], 'z/m.tf']
    wanted = [it for name in sorted(order, key=lambda name: os.path.dirname(name) + '/') for it in untyped(name)]
    in_each_form(group, 'several modules', cwd=here, wanted=wanted, names=order, keep=True)
    here = tree(group, {'m.tf': b'variable "n" {}\n' * 3000})
    in_each_form(group, 'many issues of a module', cwd=here, count=6000)


def odd_names(group):
    """Names with the texts that come after a name, and with characters that are escaped."""
    here = tree(group, {name: UNTYPED for name in NAMES})
    order = sorted(NAMES, key=lambda name: (os.fsencode(os.path.dirname(name)), os.fsencode(name)))
    wanted = [(name, *it) for name in order for it in FOUND if it[4] != 'terraform_documented_outputs']
    in_each_form(group, 'odd names', cwd=here, wanted=wanted, names=NAMES, keep=True)
    run = json.loads(lint(group, '--format', 'sarif', cwd=here)[1].decode())['runs'][0]
    uris = [it['locations'][0]['physicalLocation']['artifactLocation']['uri'] for it in run['results']]
    based = [urllib.parse.unquote(urllib.parse.urlsplit(urllib.parse.urljoin('file:///r/', it)).path) for it in uris]
    group.check('URIs against that of the repository', apart(based, ['/r/' + it[0] for it in wanted]), '')


def paths(group):
    """Files are named as they are found: from the current folder if the operand is relative, otherwise from the root."""
    here, far = tree(group, {'in/m.tf': DECLARED, 'in/o d#?%:,\u00e9/m.tf': DECLARED}), group.fresh()
    within = ['m.tf', 'o d#?%:,\u00e9/m.tf']
    for words, folder, before in (
        (['in'], here, 'in/'),
        (['./in//'], here, 'in/'),
        (['.'], here / 'in', ''),
        (['m.tf', 'o d#?%:,\u00e9'], here / 'in', ''),
        (['in/../in'], here, 'in/../in/'),
        (['../%s/in' % here.name], far, '../%s/in/' % here.name),
        ([here / 'in'], far, '%s/in/' % here),
        ([here / 'in'], here, '%s/in/' % here),
    ):
        name = 'the operand %r' % words
        in_each_form(group, name, *words, cwd=folder, wanted=[unused(before + it) for it in within])
    run = json.loads(lint(group, '--format', 'sarif', here / 'in', cwd=far)[1].decode())['runs'][0]
    uri = run['results'][1]['locations'][0]['physicalLocation']['artifactLocation']['uri']
    group.check('a path from the root', uri, 'file://%s/in/o%%20d%%23%%3F%%25%%3A%%2C%%C3%%A9/m.tf' % here)


def refused(group):
    """A refused module is in each form, after the issues of those that are linted."""
    here = tree(group, {'a/a.tf': DECLARED, 'bad/b.tf': BAD, 'bad/in/a.tf': DECLARED, 'c/c.tf': b'variable "n" {}\n'})
    found = [unused('a/a.tf'), unused('bad/in/a.tf'), *untyped('c/c.tf')]
    wanted = [*found, refusal('bad/b.tf', 'unexpected token', 1, 3)]
    status = in_each_form(group, 'a refused module', cwd=here, wanted=wanted, keep=True)
    group.check('a refused module, the status', status, 1)
    in_each_form(group, 'it alone', 'bad/b.tf', cwd=here, wanted=wanted[-1:])
    in_each_form(group, 'issues don\'t fail beside it', '--force', cwd=here, wanted=wanted)

    def document(form):
        return lint(group, '--format', form, cwd=here)[1]

    errors = json.loads(document('json').decode())['errors']
    place = {'line': 1, 'column': 3}
    span = {'filename': 'bad/b.tf', 'start': place, 'end': place}
    group.check('json: errors', errors, [{'message': 'unexpected token', 'severity': 'error', 'range': span}])
    run = json.loads(document('sarif').decode())['runs'][0]
    group.check('sarif: the run', run['invocations'], [{'executionSuccessful': False, 'exitCode': 1}])
    last = run['results'][-1]
    region = {'startLine': 1}
    group.check(
        'sarif: the result',
        (last['ruleId'], last['ruleIndex'], last['level'], last['message'], last['locations']),
        (
            REFUSED,
            10,
            'error',
            {'text': 'unexpected token'},
            [{'physicalLocation': {'artifactLocation': {'uri': 'bad/b.tf'}, 'region': region}}],
        ),
    )
    (told,) = [it for it in document('checkstyle').split(b'\n') if b'bad/b.tf' in it]
    attributes = b'line="1" column="3" severity="error" message="unexpected token" source="refused_file"'
    group.check('checkstyle: the error', told, b'<file name="bad/b.tf"><error %s/></file>' % attributes)
    (told,) = [it for it in document('junit').split(b'\n') if b'bad/b.tf' in it]
    attributes = b'type="Error" message="bad/b.tf:1:3: unexpected token"'
    case = b'<testcase classname="refused_file" name="bad/b.tf:1:3"><error %s/></testcase>' % attributes
    group.check('junit: the case', told, case)
    entry = json.loads(document('gitlab').decode())[-1]
    group.check(
        'gitlab: the entry',
        (entry['check_name'], entry['severity'], entry['location']),
        (REFUSED, 'major', {'path': 'bad/b.tf', 'lines': {'begin': 1}}),
    )
    told = b'::error file=bad/b.tf,line=1,col=3,title=refused_file::unexpected token'
    group.check('github: the command', document('github').split(b'\n')[-2], told)


def many_files():
    return {'m/%d.tf' % number: b'' for number in range(257)}


# What can't be linted in a folder `m`: its files, and what is said of it.
NOT_LINTED = {
    'a wrong line of a .tfrules': (
        {'m/a.tf': DECLARED, 'm/.tfrules': b'--force\n--bogus\n'},
        [refusal('m/.tfrules', 'no option of a project: "--bogus"', 2)],
    ),
    'two wrong lines': (
        {'m/a.tf': DECLARED, 'm/.tfrules': b'--naming x\n\n--rules terraform_x # ours\n'},
        [refusal('m/.tfrules', 'unknown naming "x"', 1), refusal('m/.tfrules', 'unknown rule "terraform_x"', 3)],
    ),
    'a .tfrules that is no text': (
        {'m/a.tf': DECLARED, 'm/.tfrules': b'--force\n# \xc3\xa9\xff\n'},
        [refusal('m/.tfrules', 'invalid UTF-8', 2, 4)],
    ),
    'a .tfrules that leads nowhere': (
        {'m/a.tf': DECLARED, 'm/.tfrules': b'->nowhere'},
        [refusal('m/.tfrules', 'the link leads nowhere')],
    ),
    'a dead link': ({'m/a.tf': DECLARED, 'm/gone.tf': b'->nowhere'}, [refusal('m/gone.tf', 'the link leads nowhere')]),
    'a name that is not UTF-8': (
        {b'm/caf\xe9\xff.tf': DECLARED, 'm/a.tf': DECLARED},
        [refusal('m/caf\ufffd\ufffd.tf', 'the name isn\'t UTF-8')],
    ),
    'too many files': (many_files(), [refusal('m/', 'more than 256 files')]),
    'a file that ends early': ({'m/a.tf': DECLARED, 'm/b.tf': b'a = "\n'}, None),
}


def not_linted(group):
    """What can't be linted, each alone, is in each form after the issues of another module."""
    for name, (files, wanted) in NOT_LINTED.items():
        here = tree(group, dict(files, **{'z/z.tf': DECLARED}))
        wanted = wanted and [unused('z/z.tf'), *wanted]
        status = in_each_form(group, name, cwd=here, wanted=wanted, count=None if wanted else 2)
        group.check(name + ', the status', status, 1)
    here = tree(group, {'m/a.tf': DECLARED, 'm/b.tf': USED, 'shut/a.tf': DECLARED, 'z/z.tf': DECLARED})
    os.mkfifo(str(here / 'z' / 'pipe.tf'))
    (here / 'shut').chmod(0o000)
    (here / 'm' / 'b.tf').chmod(0o000)
    wanted = [refusal('m/b.tf', 'cannot be read'), refusal('shut/', 'the folder cannot be read')]
    wanted = [
        wanted[0],
        refusal('nowhere.txt', 'no such file or folder'),
        wanted[1],
        refusal('z/pipe.tf', 'not a file'),
    ]
    user = None if os.getuid() else NOBODY
    in_each_form(group, 'what can\'t be looked at', '.', 'nowhere.txt', cwd=here, user=user, wanted=wanted)
    (here / 'shut').chmod(0o755)


def all_at_once(group):
    """All of these together: the last messages are in their order."""
    files = {}
    for number, (_, (made, _)) in enumerate(NOT_LINTED.items()):
        for name, text in made.items():
            part = b'%d' % number
            files[part + (name if isinstance(name, bytes) else name.encode())[1:]] = text
    files.update({'a/a.tf': EACH, '3a/a.tf': DECLARED})
    here = tree(group, files)
    in_each_form(group, 'all that can\'t be linted', '--rules', 'all', '.', 'gone/', cwd=here, keep=True)
    told = of_text(*lint(group, cwd=here)[1:])
    group.check('of each kind', len({it[4] for it in told if it[5] == REFUSED}), 8)


def nothing(group):
    """Where nothing is said the document is whole and says nothing."""
    for name, files in (('no issue', {'m.tf': b'', 'n/n.tf': b'locals {}\n'}), ('no module', {'x.txt': b''})):
        here = tree(group, files)
        status = in_each_form(group, name, cwd=here, wanted=[], keep=True)
        group.check(name + ', the status', status, 0)
        written = {form: lint(group, '--format', form, cwd=here)[1] for form in FORMS}
        declared = b'<?xml version="1.0" encoding="UTF-8"?>\n'
        passed = (
            b'<testsuites>\n<testsuite name="tfrules" tests="1" failures="0" errors="0">\n'
            b'<testcase classname="tfrules" name="no issue"/>\n</testsuite>\n</testsuites>\n'
        )
        for form, wanted in (
            ('json', b'{"issues":[],"errors":[]}'),
            ('checkstyle', declared + b'<checkstyle version="4.3">\n</checkstyle>\n'),
            ('junit', declared + passed),
            ('gitlab', b'[]'),
            ('github', b''),
        ):
            group.check('%s, the %s' % (name, form), written[form], wanted)
        run = json.loads(written['sarif'].decode())['runs'][0]
        group.check('%s, the run of SARIF' % name, run['invocations'], [{'executionSuccessful': True, 'exitCode': 0}])


def statuses(group):
    """The status of the run is the same in each form, and SARIF has it."""
    here = tree(group, {'a/a.tf': DECLARED, 'b/b.tf': BAD, 'd/d.tf': b''})
    for words, wanted in (
        (['d'], 0),
        (['a'], 2),
        (['--force', 'a'], 0),
        (['--minimum-failure-severity', 'error', 'a'], 0),
        (['b'], 1),
        (['a', 'b'], 1),
        (['--force', 'b', 'd'], 1),
        (['gone'], 1),
    ):
        given = {form: lint(group, '--format', form, *words, cwd=here)[:2] for form in FORMS}
        group.check('the status of %r' % words, {it[0] for it in given.values()}, {wanted})
        run = json.loads(given['sarif'][1].decode())['runs'][0]
        told = [{'executionSuccessful': wanted != 1, 'exitCode': wanted}]
        group.check('that which SARIF tells of %r' % words, run['invocations'], told)


def suites(group):
    """JUnit has a suite for each module that has issues, and one for all that can't be linted."""
    files = {'a/a.tf': DECLARED, 'b/b.tf': BAD, 'c/c.tf': b'variable "n" {}\n', 'd/d.tf': b'', 'e/e.tf': BAD}
    here = tree(group, files)
    bad = [refusal('b/b.tf', 'unexpected token', 1, 3), refusal('e/e.tf', 'unexpected token', 1, 3)]
    for words, wanted in (
        ([], [[unused('a/a.tf')], untyped('c/c.tf'), bad]),
        (['a', 'c'], [[unused('a/a.tf')], untyped('c/c.tf')]),
        (['b', 'e', 'd'], [bad]),
        (['d'], [[]]),
    ):
        group.check('suites of %r' % words, suites_in(lint(group, '--format', 'junit', *words, cwd=here)[1]), wanted)


def rules(group):
    """SARIF describes the rules in the words of docs/RULES.md, with the version of the program."""
    page = (TOP / 'docs' / 'RULES.md').read_text(encoding='utf-8')
    rows = re.findall(r'^\| \[`(\w+)`\]\S+ \| (\w+) \| \w+ \| (.*) \|$', page, re.M)
    here = tree(group, {'m.tf': b''})
    driver = json.loads(lint(group, '--format', 'sarif', cwd=here)[1].decode())['runs'][0]['tool']['driver']
    version = (TOP / 'VERSION').read_text().strip()
    group.check('the tool', (driver['name'], driver['version']), ('tfrules', version))
    *described, refusals, comments = driver['rules']
    levels = {'Warning': 'warning', 'Notice': 'note'}
    group.check(
        'the rules',
        [(it['id'], it['defaultConfiguration']['level'], it['shortDescription']['text']) for it in described],
        [(name, levels[how], what) for name, how, what in rows],
    )
    named = {REFUSED: 'files that can\'t be linted', COMMENT: 'comments that are meant to silence a rule and don\'t'}
    for last, (name, what) in zip((refusals, comments), named.items()):
        told = {'id': name, 'shortDescription': {'text': what}, 'defaultConfiguration': {'level': 'error'}}
        group.check('after the rules, ' + name, last, told)
    for it in described:
        name, why = it['id'], it['help']['markdown']
        section = re.search(r'^## %s\n(.*?)(?=^## |\Z)' % name, page, re.M | re.S).group(1)
        group.holds('why, of ' + name, why in section.split('\n\n'), why)
        whole = 'Reports %s. %s' % (it['shortDescription']['text'], why)
        told = it['fullDescription'], it['help']['text'], it['helpUri']
        group.check('the whole of ' + name, told, ({'text': whole}, whole, PAGES + name + '.md'))


def comments(group):
    """With --check-comments, comments that silence nothing come after the issues of their module, as errors."""
    text = b'# tflint-ignore: "q", x\ny = [a.0] # tflint-ignore-file: all\n'
    here = tree(group, {'m/m.tf': text, 'm/n.tf': b'# tflint-ignore: <&>%\n', 'n/n.tf': DECLARED, 'bad/b.tf': BAD})
    wanted = [
        issue('m/m.tf', 2, 7, 'list items should be accessed using square brackets', 'terraform_deprecated_index'),
        issue('m/m.tf', 1, 1, 'no rule is called "\\"q\\"" or "x"', COMMENT, 'error'),
        issue('m/m.tf', 2, 11, 'tflint-ignore-file silences nothing here', COMMENT, 'error'),
        issue('m/n.tf', 1, 1, 'no rule is called "<&>%"', COMMENT, 'error'),
        unused('n/n.tf'),
        refusal('bad/b.tf', 'unexpected token', 1, 3),
    ]
    for words, status, said in (
        (['--check-comments'], 1, wanted),
        (['--check-comments', '--force', 'm'], 0, wanted[:4]),
    ):
        messages = lint(group, *words, cwd=here)[2]
        for form in FORMS:
            done = lint(group, *words, '--format', form, cwd=here)
            group.check('%s with %r, the status and the messages' % (form, words), done[::2], (status, messages))
            group.check('%s with %r' % (form, words), apart(read(form, done[1]), [shown(form, it) for it in said]), '')
    document = lint(group, '--check-comments', '--format', 'sarif', cwd=here)[1]
    given = [it['partialFingerprints']['tfrulesIssue/v1'] for it in json.loads(document.decode())['runs'][0]['results']]
    group.check('each has a fingerprint of its own', len(set(given)), len(wanted))


def marks(group, form, here):
    """The fingerprints, in order."""
    document = json.loads(lint(group, '--format', form, cwd=here)[1].decode())
    if form == 'gitlab':
        return [it['fingerprint'] for it in document]
    return [it['partialFingerprints']['primaryLocationLineHash'] for it in document['runs'][0]['results']]


def fingerprints(group):
    """Marks stay when lines move, and no two are alike."""
    text = b'variable "n" {}\nx = [a.0, b.0]\ny = a.1\n'
    here = tree(
        group, {'m/m.tf': text + b'y = a.1\n', 'm/n.tf': text, 'n/m.tf': text, 'bad/b.tf': BAD, 'bad/in/b.tf': BAD}
    )
    before = marks(group, 'sarif', here)
    group.check('how many', len(before), 18)
    group.check('those of GitLab', marks(group, 'gitlab', here), before)
    group.check('no two are the same', len(set(before)), len(before))
    put(
        here,
        {'m/m.tf': b'# moved\n\n' + text.replace(b'x = ', b'\n  x  =  ') + b'\n\ny = a.1\n', 'bad/b.tf': b'\n\n' + BAD},
    )
    group.check('moved lines', marks(group, 'sarif', here), before)
    put(here, {'m/m.tf': text})
    group.check('one of some alike is gone', sorted(set(before) ^ set(marks(group, 'sarif', here))), [before[5]])
    (here / 'm' / 'm.tf').rename(here / 'm' / 'a.tf')
    group.check('a file that was renamed', len(set(before) - set(marks(group, 'sarif', here))), 6)


def numbered(group):
    """A fingerprint is a SHA-256 of the rule, the file and the text, with a number among those that are alike."""
    files = {'m/\u00e9 "m".tf': UNTYPED, 'm/n.tf': b'y = [a.0, a.1]\n', b'\xff/\xff.tf': DECLARED, 'bad/b.tf': BAD}
    here = tree(group, files)
    told = read('json', lint(group, '--format', 'json', cwd=here)[1])
    wanted, seen = [], {}
    for file, _, _, _, text, rule in told:
        key = hashlib.sha256('\0'.join([rule, file, text]).encode()).hexdigest()
        seen[key] = seen.get(key, 0) + 1
        wanted.append('%s:%d' % (key, seen[key]))
    group.check('the fingerprints', apart(marks(group, 'sarif', here), wanted), '')
    group.check('two that are alike', sorted(seen.values())[-1], 2)


def command_line(group):
    here = tree(group, {'m.tf': DECLARED})
    said = 'tfrules-all: error: --format takes text, json, sarif, checkstyle, junit, gitlab or github, not "%s"'
    for given in ('JSON', 'xml', '', 'text,json', 'sarif ', 'compact', 'default'):
        group.check(
            'an unknown form: %r' % given, lint(group, '--format', given, cwd=here), (1, b'', lines(said % given))
        )
    group.check('an unknown form, after =', lint(group, '--format=tap', cwd=here), (1, b'', lines(said % 'tap')))
    usage = lint(group, '--help', cwd=here)[1].split(b'\n\n')[0] + b'\n'
    for words in (['--format'], ['m.tf', '--format'], ['--format', 'json', '--format', 'json']):
        group.check('a wrong line: %r' % words, lint(group, *words, cwd=here), (1, b'', usage))
    group.holds('the help has the forms', b'[--format FORM]' in usage, usage)
    for form in FORMS:
        done = lint(group, '--format', form, 'm.tf', cwd=here)
        group.check(form + ', after =', lint(group, '--format=' + form, '--', 'm.tf', cwd=here), done)
        group.check(form + ', after a name', lint(group, 'm.tf', '--format', form, cwd=here), done)
    group.check('text is what there is without', lint(group, '--format', 'text', cwd=here), lint(group, cwd=here))
    listed = lint(group, '--list-rules', cwd=here)
    group.check('the rules are no document', lint(group, '--format', 'json', '--list-rules', cwd=here), listed)
    put(here, {'.tfrules': b'--format json\n'})
    told = lines('tfrules-all: error: .tfrules:1: no option of a project: "--format"')
    group.check('no option of a project', lint(group, cwd=here), (1, b'', told))


def choices(group):
    """Messages about the run as a whole are on standard error, and not in the document."""
    here = tree(group, {'m/m.tf': DECLARED, 'bad/b.tf': BAD})
    told = lines('tfrules-all: error: bad/b.tf:1:3: unexpected token')
    for form in FORMS:
        status, out, err = group.call(group.linted, '--format', form, cwd=here)
        group.check(form + ', the count', (status, err), (1, told + lines('1 issue in 1 of 2 modules, 1 refused')))
        group.check(form + ' under --quiet', lint(group, '--format', form, cwd=here), (1, out, told))


def shards(group):
    """Each part is a whole document, and together they say what one run says."""
    every = {'%d/in/a.tf' % number: DECLARED for number in range(9)}
    here = tree(group, dict(every, **{'bad/b.tf': BAD, 'c/c.tf': b'variable "n" {}\n'}))
    folders = [os.path.dirname(name) + '/' for name in (*every, 'bad/b.tf', 'c/c.tf')]
    empty = next(it for it in range(1, 98) if it - 1 not in {shard_of(name, 97) for name in folders})
    for form in FORMS:
        whole = read(form, lint(group, '--format', form, cwd=here)[1])
        parts = [read(form, lint(group, '--format', form, '--shard', '%d/3' % it, cwd=here)[1]) for it in (1, 2, 3)]
        group.check(form + ', three parts', sorted(map(repr, sum(parts, []))), sorted(map(repr, whole)))
        group.holds(form + ', each has some', all(parts), parts)
        status, out, err = lint(group, '--format', form, '--shard', '%d/97' % empty, cwd=here)
        group.check(form + ', a part without a module', (status, read(form, out), err), (0, [], b''))


def names_from_input(group):
    here = tree(group, {'m/m.tf': DECLARED, 'bad/b.tf': BAD, 'n/n.tf': DECLARED})
    given = b'm/m.tf\0bad/b.tf\0gone.txt\0'
    for form in FORMS:
        wanted = lint(group, '--format', form, 'm', 'bad', 'gone.txt', cwd=here)
        group.check(form + ' with --null', lint(group, '--format', form, '--null', cwd=here, stdin=given), wanted)
        status, out, err = lint(group, '--format', form, '-0', cwd=here)
        group.check(form + ', no name', (status, read(form, out), err), (0, [], b''))


def failing_writes(group):
    """A document that isn't written whole is a status of 1 and a message."""
    here = tree(group, {'m/m.tf': DECLARED, 'n/n.tf': b'variable "n" {}\n' * 3000})
    failed = b'tfrules-all: error: write failed\n'
    for form in FORMS:
        words = ['sh', '-c', 'exec "$0" --format "$1" "$2" >/dev/full', group.linted, form]
        group.check(form + ', a full device', group.call(*words, 'm', cwd=here), (1, b'', failed))
        group.check(form + ', a longer one', group.call(*words, 'n', cwd=here), (1, b'', failed))
        words[2] = words[2].replace('>/dev/full', '>&-')
        group.check(form + ', a closed output', group.call(*words, 'm', cwd=here), (1, b'', failed))
        words[2] = words[2].replace('>&-', '>out')
        done = group.call(*words, 'n', cwd=here, limit=100000)
        size = (here / 'out').stat().st_size
        group.check(form + ', half of it', (done, size <= 100000), ((1, b'', failed), True))
        words[2] = 'exec "$0" --format "$1" "$2" 2>/dev/full'
        status, out, _ = group.call(*words, 'm', cwd=here)
        group.check(form + ', full standard error', (status, read(form, out)), (1, [shown(form, unused('m/m.tf'))]))
    here = tree(group, {'m.tf': b''})
    words = ['sh', '-c', 'exec "$0" --quiet --format "$1" >/dev/full', group.linted]
    for form in FORMS:
        wanted = (0, b'', b'') if form == 'github' else (1, b'', failed)
        group.check(form + ', nothing to say', group.call(*words, form, cwd=here), wanted)


def many_modules(group):
    """Very many modules; some of them have no issue and some are refused."""
    texts = (UNTYPED, DECLARED, b'', EACH, BAD, b'# x\n\nvariable "n" {}\n')
    files = {'tree/%02d/module%04d/main.tf' % (number % 40, number): texts[number % 7 % 6] for number in range(MODULES)}
    here = tree(group, files)
    in_each_form(
        group, 'very many modules', '--rules', 'all', cwd=here, count=sum(map(len, counted(group, texts, files)))
    )


def counted(group, texts, files):
    """The entries of each module, from those of one with its text."""
    one = group.fresh()
    known = {}
    for text in texts:
        put(one, {'main.tf': text})
        known[text] = of_text(*lint(group, '--rules', 'all', cwd=one)[1:])
    return [known[text] for text in files.values()]


def others(group):
    """The readers of others find everything in the SARIF of the runs above."""
    sarif_readers.check(group, DOCUMENTS)
