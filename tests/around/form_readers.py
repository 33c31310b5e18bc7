"""The forms of `tfrules-all --format`, each read back as strictly as it can be, by Python's own readers of JSON and XML.
A reader gives the entries of the document, in order, as (file, line, column, severity, text, rule): issues, comments that
are meant to silence a rule and don't under the rule COMMENT, and files and folders that couldn't be linted under REFUSED.
A column that a form lacks is None. A wrong document is a ValueError."""

import json
import re
import urllib.parse
import xml.etree.ElementTree

FORMS = ('json', 'sarif', 'checkstyle', 'junit', 'gitlab', 'github')
COMMENT, REFUSED = 'silencing_comment', 'refused_file'
DECLARATION = b'<?xml version="1.0" encoding="UTF-8"?>\n'
COMMAND = re.compile(
    r'::(notice|warning|error) file=([^:,\r\n]*),line=([1-9][0-9]*),col=([1-9][0-9]*),title=([a-z_]+)::([^\r\n]*)'
)
ISSUE = re.compile(r'(.*):([1-9][0-9]*):([1-9][0-9]*): (Error|Warning|Notice) - (.*) \((terraform_[a-z_]+)\)')
# `FILE:LINE:COLUMN`, `FILE:LINE` of a line of a .tfrules, or a name alone.
REFUSAL = re.compile(r'tfrules-all: error: (.*?)(?::([1-9][0-9]*)(?::([1-9][0-9]*))?)?: (.*)')

# What SARIF 2.1.0 requires of its objects, and the values that it allows, as far as they are written.
REQUIRED = {
    'sarifLog': ['version', 'runs'],
    'run': ['tool'],
    'tool': ['driver'],
    'toolComponent': ['name'],
    'reportingDescriptor': ['id'],
    'result': ['message'],
    'message': ['text'],
    'multiformatMessageString': ['text'],
    'invocation': ['executionSuccessful'],
}
MEMBERS = {
    'sarifLog': {'$schema': str, 'version': '2.1.0', 'runs': ['run']},
    'run': {'tool': 'tool', 'results': ['result'], 'invocations': ['invocation']},
    'tool': {'driver': 'toolComponent'},
    'toolComponent': {'name': str, 'version': str, 'rules': ['reportingDescriptor']},
    'reportingDescriptor': {
        'id': str,
        'name': str,
        'shortDescription': 'multiformatMessageString',
        'fullDescription': 'multiformatMessageString',
        'help': 'multiformatMessageString',
        'helpUri': str,
        'defaultConfiguration': 'reportingConfiguration',
    },
    'multiformatMessageString': {'text': str, 'markdown': str},
    'reportingConfiguration': {'level': ('none', 'note', 'warning', 'error')},
    'result': {
        'ruleId': str,
        'ruleIndex': int,
        'level': ('none', 'note', 'warning', 'error'),
        'message': 'message',
        'locations': ['location'],
        'partialFingerprints': dict,
    },
    'message': {'text': str},
    'location': {'physicalLocation': 'physicalLocation'},
    'physicalLocation': {'artifactLocation': 'artifactLocation', 'region': 'region'},
    'artifactLocation': {'uri': str},
    'region': {'startLine': int},
    'invocation': {'executionSuccessful': bool, 'exitCode': int},
}


def wrong(text, *given):
    raise ValueError(text % given)


def whole(number):
    """A line or a column."""
    if type(number) is not int or number < 1:
        wrong('%r is no number of a line or a column', number)
    return number


def in_words(told, words):
    return words[told] if told in words else wrong('%r is none of %r', told, sorted(words))


# --- JSON ------------------------------------------------------------------------------------------------------


def once(pairs):
    if len(dict(pairs)) != len(pairs):
        wrong('a member stands twice: %r', [name for name, _ in pairs])
    return dict(pairs)


def parsed(out):
    """One line of UTF-8 without its end: one value, without a duplicate member, NaN or Infinity."""
    text = out.decode()
    if '\n' in text or text != text.strip():
        wrong('the document is not one line without its end: %r', text[-20:])
    return json.loads(text, object_pairs_hook=once, parse_constant=lambda name: wrong('%s is no number of JSON', name))


def members(value, *names):
    """The values of an object with these members, in this order, and no others."""
    if not isinstance(value, dict) or tuple(value) != names:
        wrong('%.200r has not just the members %r', value, names)
    return value.values()


def from_json(out):
    """TFLint's own."""
    issues, errors = members(parsed(out), 'issues', 'errors')
    return [issue_in(it) for it in issues] + [error_in(it) for it in errors]


def issue_in(issue):
    rule, text, span, callers = members(issue, 'rule', 'message', 'range', 'callers')
    name, severity, link = members(rule, 'name', 'severity', 'link')
    if (link, callers) != ('', []):
        wrong('the link %r and the callers %r', link, callers)
    words = dict(error='error') if name == COMMENT else dict(info='info', warning='warning')
    return (*place_in(span), in_words(severity, words), text, name)


def error_in(error):
    text, severity, span = members(error, 'message', 'severity', 'range')
    return (*place_in(span), in_words(severity, dict(error='error')), text, REFUSED)


def place_in(span):
    file, start, end = members(span, 'filename', 'start', 'end')
    if start != end:
        wrong('the issue ends at %r and begins at %r', end, start)
    line, column = members(start, 'line', 'column')
    return file, whole(line), whole(column)


def from_gitlab(out):
    return [entry_in(it) for it in parsed(out)]


def entry_in(entry):
    text, rule, mark, severity, location = members(
        entry, 'description', 'check_name', 'fingerprint', 'severity', 'location'
    )
    path, spot = members(location, 'path', 'lines')
    (line,) = members(spot, 'begin')
    if not re.fullmatch('[0-9a-f]{64}:[1-9][0-9]*', mark):
        wrong('the fingerprint %r', mark)
    return path, whole(line), None, in_words(severity, dict(info='info', minor='warning', major='error')), text, rule


def misses(kind, value):
    """What of a SARIF object isn't as the schema has it."""
    if not isinstance(value, dict):
        return ['%s: %r' % (kind, value)]
    found = ['%s lacks %s' % (kind, name) for name in REQUIRED.get(kind, []) if name not in value]
    for name, given in value.items():
        wanted = MEMBERS[kind].get(name)
        if wanted is None:
            found.append('%s has %s' % (kind, name))
        elif isinstance(wanted, list):
            found += [miss for each in given for miss in misses(wanted[0], each)]
        elif isinstance(wanted, str) and wanted in MEMBERS:
            found += misses(wanted, given)
        elif not (
            isinstance(given, wanted)
            if isinstance(wanted, type)
            else given in wanted
            if isinstance(wanted, tuple)
            else given == wanted
        ):
            found.append('%s: %s is %r' % (kind, name, given))
    return found


def from_sarif(out):
    log = parsed(out)
    missed = misses('sarifLog', log)
    if missed:
        wrong('what the schema has not: %r', missed[:3])
    (run,) = log['runs']
    members(run, 'tool', 'results', 'invocations')  # and no `columnKind`, since no column is told
    rules = run['tool']['driver']['rules']
    return [result_in(it, rules) for it in run['results']]


def result_in(result, rules):
    name, number, level, message, locations, marks = members(
        result, 'ruleId', 'ruleIndex', 'level', 'message', 'locations', 'partialFingerprints'
    )
    rule = dict(enumerate(rules)).get(number) or wrong('no rule has the number %r', number)
    if (rule['id'], rule['defaultConfiguration']['level']) != (name, level):
        wrong('the rule %d is %r, and not %s of level %s', number, rule, name, level)
    first, second = members(marks, 'primaryLocationLineHash', 'tfrulesIssue/v1')
    if first != second or not re.fullmatch('[0-9a-f]{64}:[1-9][0-9]*', first):
        wrong('the fingerprints %r and %r', first, second)
    ((place,),) = (members(it, 'physicalLocation') for it in locations)
    artifact, region = members(place, 'artifactLocation', 'region')
    (uri,), (line,) = members(artifact, 'uri'), members(region, 'startLine')
    severity = in_words(level, dict(note='info', warning='warning', error='error'))
    return name_of(uri), whole(line), None, severity, message['text'], name


def name_of(uri):
    """The name of a file by its URI: one of the scheme `file`, or a relative reference."""
    if not re.fullmatch('[A-Za-z0-9._~/%-]*', uri[len('file://') :] if uri.startswith('file:///') else uri):
        wrong('%r has what is to be escaped', uri)
    parts = urllib.parse.urlsplit(uri)
    if parts.scheme not in ('', 'file') or parts.netloc or parts.query or parts.fragment:
        wrong('%r is read as %r', uri, parts)
    return urllib.parse.unquote(parts.path, errors='strict')


# --- XML -------------------------------------------------------------------------------------------------------


def tree_of(out):
    if not out.startswith(DECLARATION):
        wrong('the document begins with %r', out[: len(DECLARATION)])
    out.decode()
    return xml.etree.ElementTree.fromstring(out)


def element(given, tag, *names):
    """The attributes of an element with this tag and just these attributes, in this order, and with no text."""
    text = [given.text, *(it.tail for it in given)]
    if given.tag != tag or tuple(given.attrib) != names or ''.join(it or '' for it in text).strip():
        wrong('%s %r with the texts %r, where %s with %r is wanted', given.tag, given.attrib, text, tag, names)
    return given.attrib.values()


def from_checkstyle(out):
    root = tree_of(out)
    (version,) = element(root, 'checkstyle', 'version')
    if version != '4.3':
        wrong('the version %s', version)
    return [said for file in root for said in errors_in(file)]


def errors_in(file):
    (name,) = element(file, 'file', 'name')
    for error in file:
        line, column, severity, text, rule = element(error, 'error', 'line', 'column', 'severity', 'message', 'source')
        severity = in_words(severity, dict(info='info', warning='warning', error='error'))
        yield name, whole(int(line)), whole(int(column)), severity, text, rule


def suites_in(out):
    """The suites, each as what its cases say. A case that passed says nothing."""
    root = tree_of(out)
    element(root, 'testsuites')
    found = [suite_in(it) for it in root]
    if not found or [] in found and len(found) > 1:
        wrong('of %d suites %d have nothing', len(found), found.count([]))
    return found


def suite_in(suite):
    name, *counts = element(suite, 'testsuite', 'name', 'tests', 'failures', 'errors')
    said = [it for it in map(case_in, suite) if it]
    failures, errors = (sum(it[0] == tag for it in said) for tag in ('failure', 'error'))
    if (name, counts) != ('tfrules', [str(len(suite)), str(failures), str(errors)]) or len(suite) != (len(said) or 1):
        wrong('the suite %r of %d cases has %d failures and %d errors', suite.attrib, len(suite), failures, errors)
    return [it[1] for it in said]


def case_in(case):
    """The text of a case and its element, or nothing for one that passed."""
    rule, place = element(case, 'testcase', 'classname', 'name')
    if not len(case):
        return wrong('%s, %s passed', rule, place) if (rule, place) != ('tfrules', 'no issue') else None
    (outcome,) = case
    kind, text = element(outcome, 'error' if rule == REFUSED else 'failure', 'type', 'message')
    words = dict(Error='error') if rule in (COMMENT, REFUSED) else dict(Warning='warning', Notice='info')
    severity = in_words(kind, words)
    if not text.startswith(place + ': '):
        wrong('the message %r of the case %r', text, place)
    file, line, column = place.rsplit(':', 2)
    return outcome.tag, (file, whole(int(line)), whole(int(column)), severity, text[len(place) + 2 :], rule)


def from_junit(out):
    return [said for suite in suites_in(out) for said in suite]


# --- lines -----------------------------------------------------------------------------------------------------


def from_github(out):
    *commands, end = out.decode().split('\n')
    if end:
        wrong('the last line has no end: %r', end[-40:])
    return [command_in(it) for it in commands]


def command_in(line):
    found = COMMAND.fullmatch(line) or wrong('no command: %r', line)
    word, file, row, column, rule, text = found.groups()
    severity = in_words(word, dict(notice='info', warning='warning', error='error'))
    return unescaped(file, {'3A', '2C'}), int(row), int(column), severity, unescaped(text, set()), rule


def unescaped(text, more):
    """A value as a workflow reads it, which knows no other escapes."""
    first, *rest = text.split('%')
    for it in rest:
        if it[:2] not in {'25', '0D', '0A'} | more:
            wrong('an escape that nothing reads: %r', text)
    return first + ''.join(chr(int(it[:2], 16)) + it[2:] for it in rest)


# --- any of them -----------------------------------------------------------------------------------------------

READERS = {
    'json': from_json,
    'sarif': from_sarif,
    'checkstyle': from_checkstyle,
    'junit': from_junit,
    'gitlab': from_gitlab,
    'github': from_github,
}


def read(form, out):
    """The entries of a document; if it can't be read, why, and its end."""
    try:
        return READERS[form](out)
    except (ValueError, LookupError, TypeError, xml.etree.ElementTree.ParseError) as why:
        return ['unreadable: %s: %r .. %r' % (why, out[:80], out[-80:])]


def shown(form, said):
    """The part of an issue or a refusal that a form has, since not each can have all."""
    file, line, column, *rest = said
    if form in ('checkstyle', 'junit'):
        file = re.sub('[^\t\n\r\x20-\ud7ff\ue000-\ufffd\U00010000-\U0010ffff]', '\ufffd', file)
    return (file, line, None if form in ('sarif', 'gitlab') else column, *rest)


def apart(given, wanted):
    """The first difference from the expected entries, or nothing."""
    for at, (one, other) in enumerate(zip([*given, None], [*wanted, None])):
        if one != other:
            return 'number %d is %r and not %r; there are %d, and %d are wanted' % (
                at + 1,
                one,
                other,
                len(given),
                len(wanted),
            )
    return ''


def of_text(out, err, names=()):
    """The entries from the reports and the messages of a run without a form. `names` has names by how they are shown."""
    *reports, end = out.decode().split('\n')
    heads = [re.fullmatch(r'([1-9][0-9]*) issue\(s\) found:', it) for it in reports]
    issues = [ISSUE.fullmatch(it) or wrong('no issue: %r', it) for it, head in zip(reports, heads) if it and not head]
    if end or sum(int(head.group(1)) for head in heads if head) != len(issues):
        wrong('the reports have %d issues: %r', len(issues), out[-80:])
    refused = [REFUSAL.fullmatch(it) or wrong('no refusal: %r', it) for it in err.decode(errors='replace').splitlines()]
    names, severities = dict(names), dict(Notice='info', Warning='warning', Error='error')
    found = [it.groups() for it in issues]
    found = [(names.get(file, file), int(r), int(c), severities[s], text, rule) for file, r, c, s, text, rule in found]
    return found + [
        (names.get(file, file), int(row or 1), int(column or 1), 'error', text, REFUSED)
        for file, row, column, text in (it.groups() for it in refused)
    ]
