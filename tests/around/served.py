"""Modules on a disk that an editor works on, and what it must be told of them.

What the server tells is compared with tfrules-all on a copy of the module in which the texts of open documents stand in the
files, and with tffmt for refused files.
"""

import pathlib
import re
import subprocess
import urllib.parse

import protocol
from protocol import Fault

# TFLint's pages on the rules.
PAGES = 'https://github.com/terraform-linters/tflint-ruleset-terraform/blob/main/docs/rules/'
NAMES = ('main.tf', 'b c.tf', 'é.tf', 'x.tofu', '%41.tf', 'notes.txt', 'values.tfvars', 'n.tf.bak', '.a.tf')
BLOCKS = (
    'variable "N" {}\n',
    'variable "N" {\n  type = string\n}\n',
    'variable "N" { # \U0001F600\r\n  type = any\n  description = ""\n}\n',
    'output "N" {\n  value = var.N\n}\n',
    'output "N-x" {\n  value = "${local.N}"\n  description = "\U0001F600é e\u0301 ${local.N}"\n}\n',
    'locals {\n  N = a.b.0.c.1 /* e\u0301\r */ + a.0\n}\n',
    'locals {\n  Q = {\n    a = "\U0001F600${var.N}" , b = "${var.M}"\n  }\n}\n',
    'module "N" {\n  source = "git::https://example.com/x.git"\n}\n',
    'module "M" {\n  source = "a/b/c"\n}\n',
    'data "x" "N" {\n  y = data.x.M\n}\n',
    '// \U0001F600\n',
    '# a\rb\n',
    '# tflint-ignore: terraform_unused_declarations\n',
    'resource "a" "N" {\n  b = [a.x.0, a.y.1]\n}\n',
)
REFUSED = ('a = ]\n', 'b {\n', 'c = "\n', '\U0001F600 = 1\n', 'd = 1 2\n')
OPTIONS = (
    None,
    '--rules all\n',
    '--rules all,-terraform_typed_variables\n--naming mixed_snake_case\n',
    '# none\n',
    '--rules no_such_rule\n',
)
SEVERITIES = {'Error': 1, 'Warning': 2, 'Notice': 3}
ISSUE = re.compile(r'(.*?):(\d+):(\d+): (Error|Warning|Notice) - (.*) \((\w+)\)')


def text_of(chance):
    """A text of a few blocks, rarely a refused one."""
    blocks = [
        chance.choice(BLOCKS).replace('N', chance.choice('abC')).replace('M', chance.choice('abC'))
        for _ in range(chance.randrange(6))
    ]
    if chance.random() < 0.1:
        blocks.insert(chance.randrange(len(blocks) + 1), chance.choice(REFUSED))
    return ''.join(blocks)


def is_of_module(name):
    return name.endswith(('.tf', '.tofu')) and not name.startswith('.')


def plain_uri(path):
    """The URI of a file that isn't open."""
    return 'file://' + urllib.parse.quote(str(path), safe='/-._~')


def some_uri(path, chance):
    """The URI of a file's document as an editor writes it."""
    other = 'file://' + urllib.parse.quote(str(path), safe="/-._~$&+,:;=@!'()*")
    return chance.choice((plain_uri(path), other, plain_uri(path).replace('main', 'm%61in')))


def issues_in(linter, top, texts, options=None):
    """The linter's issues in these files, in a folder below `top`: for each name (line, column, severity, message, rule)."""
    copy = top / 'copy' / 'module'
    subprocess.run(['rm', '-rf', str(top / 'copy')], check=True)
    copy.mkdir(parents=True)
    (top / 'copy' / '.git').mkdir()
    for name, text in texts.items():
        (copy / name).write_bytes(text.encode())
    if options is not None:
        (copy / '.tfrules').write_text(options)
    words = [linter, '--quiet', str(copy)]
    done = subprocess.run(words, stdout=subprocess.PIPE, stderr=subprocess.PIPE, cwd=str(top / 'copy'))
    if done.returncode not in (0, 2) or done.stderr:
        raise Fault('tfrules-all ends with status %d, and says %r' % (done.returncode, done.stderr))
    found = {name: [] for name in texts}
    for line in done.stdout.decode().split('\n')[2:-1]:
        if not ISSUE.fullmatch(line):
            raise Fault('no issue: %r' % line)
        path, row, column, severity, message, rule = ISSUE.fullmatch(line).groups()
        found[pathlib.Path(path).name].append((int(row), int(column), severity, message, rule))
    return found


class Folder:
    """A module on the disk, and the texts of its documents that are open."""

    def __init__(self, top, linter, verdict, units, chance):
        self.top, self.linter, self.verdict, self.units, self.chance = top, linter, verdict, units, chance
        self.path = top / 'repository' / 'module'
        (self.path / 'inner').mkdir(parents=True)
        (top / 'repository' / '.git').mkdir()
        self.open, self.uris = {}, {}
        # the URIs for which the editor was last told something of the module
        self.shown = []
        for name in chance.sample(NAMES, 4):
            self.write(name)
        self.set_options()

    def write(self, name):
        (self.path / name).write_text(text_of(self.chance), encoding='utf-8', newline='')

    def set_options(self):
        """Another .tfrules, or none, in the folder or above it."""
        for folder in (self.path, self.path.parent):
            (folder / '.tfrules').unlink(missing_ok=True)
        self.options = self.chance.choice(OPTIONS)
        if self.options is not None:
            (self.chance.choice((self.path, self.path.parent)) / '.tfrules').write_text(self.options)

    def texts(self):
        """The text of each file of the module, by its name, in order."""
        found = {it.name: it.read_bytes().decode() for it in self.path.iterdir() if it.is_file()}
        found.update(self.open)
        return {name: found[name] for name in sorted(found, key=str.encode) if is_of_module(name)}

    def is_linted(self, name):
        return is_of_module(name) and self.options != '--rules no_such_rule\n'

    def module(self):
        """(URI, diagnostics) of each file of the module, in order."""
        texts = self.texts()
        faults = {name: self.verdict(text).fault for name, text in texts.items()}
        good = {name: text for name, text in texts.items() if faults[name] is None}
        issues, told = issues_in(self.linter, self.top, good, self.options), []
        for name, text in texts.items():
            each = protocol.diagnostics(text, faults[name], self.units)
            for row, column, severity, message, rule in issues.get(name, []):
                if rule != 'terraform_unused_declarations' or len(good) == len(texts):
                    [marked] = protocol.diagnostics(text, (row, column, message), self.units)
                    each.append(
                        {
                            'range': marked['range'],
                            'severity': SEVERITIES[severity],
                            'code': rule,
                            'codeDescription': {'href': PAGES + rule + '.md'},
                            'source': 'tfls',
                            'message': message,
                        }
                    )
            told.append((self.uris.get(name, plain_uri(self.path / name)), each))
        return told

    def changed(self, name, text):
        """The message that gives a document this text, and what must be told then."""
        # It stays the same as long as the document is open.
        uri = self.uris.setdefault(name, some_uri(self.path / name, self.chance))
        is_new = name not in self.open
        self.open[name] = text
        body = protocol.did_open(uri, text) if is_new else protocol.did_change(uri, text)
        return body, self.told(name, uri, [])

    def closed(self, name):
        """The message that closes a document, and what must be told then."""
        uri = self.uris.pop(name)
        del self.open[name]
        return protocol.did_close(uri), self.told(name, uri, [(uri, [])])

    def alone(self, uri):
        """What must be told of a document alone."""
        for name, text in self.open.items():
            if self.uris[name] == uri:
                return uri, protocol.diagnostics(text, self.verdict(text).fault, self.units)
        return uri, []

    def told(self, name, uri, first):
        """What must be told after a document has changed or was closed, with `first` before the files of its module."""
        if not is_of_module(name):
            return [self.alone(uri)]
        if not self.is_linted(name):
            others, self.shown = [it for it in self.shown if it != uri], []
            return [self.alone(it) for it in [uri, *others]]
        told = first + self.module()
        again = {it for it, _ in told}
        stale = [(it, []) for it in self.shown if it not in again]
        self.shown = [it for it, each in told if each]
        return stale + told

    def turn(self):
        """A message and what must be told then, perhaps after a change of the disk."""
        kind = self.chance.randrange(10)
        if kind == 0:
            self.write(self.chance.choice(NAMES))
        if kind == 1:
            (self.path / self.chance.choice(NAMES)).unlink(missing_ok=True)
        if kind == 2:
            self.set_options()
        if self.open and kind in (3, 4):
            return self.closed(self.chance.choice(list(self.open)))
        return self.changed(self.chance.choice(NAMES), text_of(self.chance))
