"""Modules that are made with their names, whose places a language server must tell and change.

A piece of a text has marks around its names: `«KIND|NAME»` is a declaration, and `‹KIND|FRONT|NAME›` a reference, which
begins with FRONT; the kind of a data source has its type after a blank. The marks alone say which names are where. In a
piece N and M are names, T is a type, and § an expression.
"""

import os
import re
import typing

import protocol
import served

MARK = re.compile('([«‹])([^|]*)[|]([^|»›]*[|])?([^|»›]*)[»›]')
WORDS = ('a', 'b', 'c-d', 'é', 'x_1', 'var', 'data', 'module', '日本', '_', '\U0001D4B4')
TYPES = ('t', 't', 't', 'x_y', 'data')
# New names, and what is none.
FRESH = ('\U0001D4B3', 'new', 'n-1', '_0', 'é2', 'local', '日本2', 'of_more_letters')
BAD = ('', '1a', 'a b', '-a', 'a.b', '"a"', 'a\n', '\U0001F600', '$', 'a/**/', ' a', None, 5, ['a'], {})
NAMES = ('main.tf', 'b c.tf', 'é.tf', 'x.tofu', '%41.tf')
# Documents that are in no module.
ALONE = ('values.tfvars', 'main.tf.bak', '.b.tf', 'untitled:Untitled-1')
VERSIONS = (0, 1, 7, 2147483647, -1, 1.5, '1', None)
# The largest number of a place.
LAST = 2**64 - 1

REFERENCES = (
    '‹var|var.|N›',
    '‹local|local.|N›',
    '‹data T|data.T.|N›',
    '‹module|module.|N›',
    '‹var|var.|N›.x',
    '‹module|module.|N›.x["a"]',
    '‹data T|data.T.|N›[0].x',
    '‹local|local.|N›[*].var.M',
    '‹var|var.|N›.*.data.T.M',
    '‹var|var.|N›.var.M',
    '‹module|module.|N›.module.M',
    '‹local|local.|N›[‹var|var.|M›]',
    '‹data T|data.T.|N›["${‹var|var.|M›}"]',
    '‹var|var . |N›',
    '‹module|module /* var.M */ .\t|N›',
    '‹data T|data\t.T/* \U0001F600 */. |N›',
    '/* \U0001F600 */‹var|var.|N›',
    '/* \U0001F600\r */‹local|local.|N›',
    '(‹local|local\n  .\n  # var.M\n  |N›)',
    '(‹data T|data\r\n.T // \U0001F600\n.|N›\n)',
    '[‹var|var\n\n.|N›]',
    '{ ‹var|var.|N› = 1 }',
    '[for var in a : ‹var|var.|N›]',
    'var[‹local|local.|N›]',
    'data.T["N"][‹data T|data.T.|M›.x]',
)
# Expressions that refer to nothing.
OTHERS = (
    'a.var.N',
    'a . var.N',
    'a./* c */var.N',
    'a[0].local.N',
    'a.*.var.N',
    'a[*].module.N.x',
    'a.0.data.T.N',
    'var["N"]',
    'var.*.N',
    'var.0.N',
    'local',
    'data.T',
    'data["T"].N',
    'data.T["N"]',
    'data.T[0].N',
    'data.T.*.N',
    'module[0].N',
    'vars.N',
    'my_var.N',
    'var-x.N',
    'Var.N',
    'path.module',
    'path.module.N',
    'self.data.T.N',
    '"var.N \\"local.N\\""',
    '"$${var.N} %%{ if var.N }"',
    '/* local.N */ 1',
    '{ var = 1, N = 2 }',
    '[for N in a : N]',
)
# Expressions that have others.
AROUND = (
    '(§)',
    '"${§}"',
    '"a${§}é${§}"',
    '"\U0001F600 ${~ § ~} \\u00e9"',
    '"%{ if § }x%{ else }${§}%{ endif }"',
    '"%{ for a in § ~}${a}%{~ endfor }"',
    '"${"${§}"}"',
    '"$${var.N}${§}$$${var.N} $$ ${§} %%{"',
    '[§, §]',
    '[\n    § # var.N\n    , §\n  ]',
    '(\n§\n\n)',
    'f(§, §...)',
    '{ a = § }',
    '{\n    (§) = §,\n    "${§}" : 1\n  }',
    '(§ ? § : §)',
    '[for a in § : § if §]',
    '{ for a, b in § : a => §... }',
    '!(§)',
    '(-§ + § * 2 == 0 || §)',
)
# Items of a file.
PIECES = (
    'variable "«var|N»" {}\n',
    'variable «var|N» {}\n',
    'variable\t"«var|N»" /* "M" */ { # \U0001F600\n  default = §\n}\n',
    'variable "«var|N»" {\n  validation {\n    condition = ‹var|var.|N› != "" && §\n    x = "${‹var|var.|N›}N"\n  }\n}\n',
    'variable "«var|»" {}\n',
    'variable "«var|a b»" {\n  default = ‹var|var.|a›\n}\n',
    'variable "«var|\U0001F600\\"»" {}\n',
    'variable {}\n',
    'variable "N" "M" {}\n',
    'variable "N" "M" N {\n  x = §\n}\n',
    'variables "N" {}\n',
    'locals {\n  «local|N» = §\n  «local|M»=§ # local.N\n}\n',
    'locals {\n  «local|N» = {\n    M = §\n  }\n  b {\n    N = §\n  }\n  /* \U0001F600\r */ «local|M» = 1\n}\n',
    'locals { «local|N» = § }\n',
    'locals {}\n',
    'locals "x" {\n  N = §\n}\n',
    'local {\n  N = §\n}\n',
    'data "T" "«data T|N»" {\n  x = §\n}\n',
    'data T «data T|N» {}\n',
    'data "T" /* \U0001F600 */ «data T|N» {}\n',
    'data "a b" "«data a b|N»" {}\n',
    'data "" "«data |»" {}\n',
    'data "T" {\n  x = §\n}\n',
    'data {}\n',
    'data "T" "N" "M" {}\n',
    'module "«module|N»" {\n  source = "./x"\n  a = §\n}\n',
    'module «module|N» {}\n',
    'module "«module|»" {}\n',
    'module {\n  x = §\n}\n',
    'module "N" "M" {}\n',
    'output "N" {\n  value = §\n}\n',
    'resource "T" "N" {\n  variable "N" {}\n  locals {\n    M = §\n  }\n  data T N {}\n  module M {\n    x = §\n  }\n}\n',
    'moved {\n  from = ‹module|module.|N›\n  to = ‹module|module.|M›[0]\n}\n',
    'var "N" {\n  x = §\n}\n',
    'var = §\n',
    'N = §\n',
    'x = §\n',
    'y = [§, "é \U0001F600", §] # \U0001F600 var.N\n',
    '/* \r\U0001F600 */ z = §\n',
    'x = <<E\n  ${§} $${var.N} var.N\n%{ if § ~}\n y\n%{ endif }\nE\n',
    'x = <<-E\n    "a" \U0001F600${§}\n\t%{ for a in § }${a}%{ endfor }\n    E\n',
    'b {\n  x = <<-var\n    ${§}\n    var\n}\n',
    '# var.N "${local.M}"\n',
    '// local.N\n',
    '/* module.N\n data.T.N */\n',
    '# variable "N" {}\rvariable "M" {}\n',
    '\n',
    '\r\n',
)
# Those that no newline ends.
LAST_PIECES = ('# var.N', 'x = ‹var|var.|N›', 'variable "«var|N»" {}', '// \U0001F600\r', ' ')


class Occurrence(typing.NamedTuple):
    """A name, by its kind and its last part, and its offsets. A reference begins at its front."""

    kind: str
    name: str
    is_declaration: bool
    front: int
    begin: int
    end: int


class Text:
    """A text with its occurrences in order, by its marks. With a closer too many it is refused, and has none."""

    def __init__(self, marked, closer=''):
        self.marked, self.is_refused = marked, bool(closer)
        self.text, self.occurrences, last = '', [], 0
        for mark in MARK.finditer(marked):
            self.text += marked[last : mark.start()]
            self.put(mark)
            last = mark.end()
        self.text += marked[last:] + closer
        if self.is_refused:
            self.occurrences = []

    def put(self, mark):
        opener, kind, front, name = mark.groups()
        at = len(self.text)
        begin = at + len(front or '|') - 1
        self.text += (front or '|')[:-1] + name
        self.occurrences.append(Occurrence(kind, name, opener == '«', at, begin, begin + len(name)))

    def in_order(self):
        """The declarations, and then the references."""
        return sorted(self.occurrences, key=lambda it: not it.is_declaration)

    def name_at(self, offset):
        """The occurrence at an offset, or None."""
        return next((it for it in self.in_order() if it.front <= offset <= it.end), None)

    def with_name(self, kind, name, new):
        """The text with a new name in place of this one."""

        def change(mark):
            is_it = (mark.group(2), mark.group(4)) == (kind, name)
            return mark.group()[: -1 - len(name)] + new + mark.group()[-1] if is_it else mark.group()

        return Text(MARK.sub(change, self.marked))


class Pieces:
    """Makes texts of pieces, with a few names."""

    def __init__(self, chance):
        self.chance, self.words = chance, chance.sample(WORDS, 4)

    def fill(self, piece, depth=0):
        """A piece with names, a type and expressions in it."""
        for letter, words in (('N', self.words), ('M', self.words), ('T', TYPES)):
            piece = piece.replace(letter, self.chance.choice(words))
        return re.sub('§', lambda _: self.expression(depth), piece)

    def expression(self, depth):
        kind = self.chance.random()
        if depth > 2 or kind < 0.5:
            return self.fill(self.chance.choice(REFERENCES))
        if kind < 0.65:
            return self.fill(self.chance.choice(OTHERS))
        return self.fill(self.chance.choice(AROUND), depth + 1)

    def text(self):
        """A text of some pieces, rarely a refused one."""
        each = [self.fill(self.chance.choice(PIECES)) for _ in range(self.chance.randrange(8))]
        if self.chance.random() < 0.2:
            each.append(self.fill(self.chance.choice(LAST_PIECES)))
        marked = ''.join(each)
        if self.chance.random() < 0.2:
            marked = re.sub('\r?\n', '\r\n', marked)
        return Text(marked, '\n}' if self.chance.random() < 0.04 else '')


def is_identifier(name):
    is_text = isinstance(name, str) and not name.startswith('-')
    return is_text and name.replace('-', '_').isidentifier()


def error(code, message):
    return {'error': {'code': code, 'message': message}}


class Document(typing.NamedTuple):
    """A text as an editor knows it. Without a version it is null."""

    uri: str
    version: typing.Optional[int]
    text: Text


class Scope:
    """The documents that share the names of one of them, in order, and the answers about its names, perhaps after the text
    of an open document was lost."""

    def __init__(self, text, documents, units, takes_versions=False, is_unread=False, has_lost=False):
        self.text, self.documents, self.units, self.takes_versions = text, documents, units, takes_versions
        self.is_unread = is_unread or any(it.text.is_refused for it in documents)
        self.has_lost = has_lost

    def range(self, text, it):
        places = protocol.Places(text.text, self.units)
        return {'start': places.place(it.begin), 'end': places.place(it.end)}

    def ranges(self, kind, name, which=(True, False)):
        """Each document with the ranges of its occurrences of a name, if it has any: the declarations, the references."""
        for document in self.documents:
            each = [it for it in document.text.in_order() if (it.kind, it.name) == (kind, name)]
            found = [self.range(document.text, it) for it in each if it.is_declaration in which]
            if found:
                yield document, found

    def locations(self, offset, *which):
        """The declarations at an offset's name if True is among `which`, and the references if False is."""
        it = self.text.name_at(offset)
        found = self.ranges(it.kind, it.name, which) if it else ()
        return {'result': [{'uri': document.uri, 'range': each} for document, ranges in found for each in ranges]}

    def preparation(self, offset):
        it = self.text.name_at(offset)
        return {'result': {'range': self.range(self.text, it), 'placeholder': it.name} if it else None}

    def is_declared(self, it):
        return any(self.ranges(it.kind, it.name, (True,)))

    def renaming(self, offset, new):
        it = self.text.name_at(offset)
        if not is_identifier(new):
            return error(-32602, 'the new name is not an identifier')
        if not it:
            return error(-32803, 'no name that can be changed is here')
        if self.has_lost:
            return error(-32803, 'the text of an open document was lost')
        if self.is_unread:
            return error(-32803, 'a file of the module is refused or cannot be read')
        if not self.is_declared(it):
            return error(-32803, 'no file of the module declares this name')
        if any(self.ranges(it.kind, new)):
            return error(-32803, 'the module has this name already')
        return {'result': self.change(it.kind, it.name, new)}

    def change(self, kind, name, new):
        """The change of the workspace that gives a name a new last part."""
        edits = [
            (document, [{'range': it, 'newText': new} for it in ranges]) for document, ranges in self.ranges(kind, name)
        ]
        if not self.takes_versions:
            return {'changes': {document.uri: each for document, each in edits}}
        return {
            'documentChanges': [
                {'textDocument': {'uri': document.uri, 'version': document.version}, 'edits': each}
                for document, each in edits
            ]
        }


class Module:
    """A module on a disk, with documents that are open, and others that are in no module."""

    def __init__(self, top, units, takes_versions, chance):
        self.path, self.units, self.takes_versions, self.chance = top / 'module', units, takes_versions, chance
        self.path.mkdir()
        self.disk, self.open, self.uris, self.versions, self.pieces = {}, {}, {}, {}, Pieces(chance)
        names = chance.sample(NAMES, chance.randint(1, 4))
        for name in (*names, 'values.tfvars'):
            self.write(name, self.pieces.text())
        self.messages = [self.open_message(names[0])]
        self.messages += [self.open_message(it) for it in names[1:] if chance.random() < 0.5]
        self.messages += [self.open_message(it) for it in (*NAMES, *ALONE) if it not in names and chance.random() < 0.2]
        self.is_unread = chance.random() < 0.05
        if self.is_unread:
            self.put_unreadable()

    def put_unreadable(self):
        """What is named like a file of the module and can't be read."""
        if self.chance.random() < 0.5:
            os.mkfifo(str(self.path / 'c.tf'))
        else:
            os.symlink('no-such-file', str(self.path / 'c.tf'))

    def abilities(self):
        """What this editor says of itself."""
        takes_none = self.chance.choice(({}, {'documentChanges': False}, {'documentChanges': 1}))
        changes = {'documentChanges': True} if self.takes_versions else takes_none
        return {'workspace': {'workspaceEdit': changes}, 'textDocument': {'rename': {'prepareSupport': True}}}

    def write(self, name, text):
        self.disk[name] = text
        (self.path / name).write_bytes(text.text.encode())

    def open_message(self, name):
        """The message that opens a document, as it is on the disk or with another text."""
        is_same = name in self.disk and self.chance.random() < 0.4
        is_file = not name.startswith('untitled:')
        self.uris[name] = served.some_uri(self.path / name, self.chance) if is_file else name
        self.open[name] = self.disk[name] if is_same else self.pieces.text()
        return protocol.did_open(self.uris[name], self.open[name].text, self.new_version(name))

    def new_version(self, name):
        """What is told as the version of a document, which may be none."""
        version = self.chance.choice(VERSIONS)
        self.versions[name] = version if isinstance(version, int) and version >= 0 else None
        return version

    def around(self, name):
        """The texts that share the names of a document, by their files, in order."""
        if not served.is_of_module(name):
            return {name: self.open[name]}
        found = {**self.disk, **self.open}
        return {it: found[it] for it in sorted(found, key=str.encode) if served.is_of_module(it)}

    def texts(self, name):
        return {it: text.text for it, text in self.around(name).items()}

    def uri(self, name):
        return self.uris.get(name, served.plain_uri(self.path / name))

    def scope(self, name):
        documents = [Document(self.uri(it), self.versions.get(it), text) for it, text in self.around(name).items()]
        is_unread = self.is_unread and served.is_of_module(name)
        return Scope(self.open[name], documents, self.units, self.takes_versions, is_unread)

    # --- places -------------------------------------------------------------------------------------------------------

    def offset(self, text):
        """An offset of a text, often at a name, never between CR and LF."""
        at = self.chance.randrange(len(text.text) + 1)
        if text.occurrences and self.chance.random() < 0.75:
            it = self.chance.choice(text.occurrences)
            at = self.chance.choice((it.front, it.begin, it.end, self.chance.randint(it.front, it.end)))
            at = min(max(0, at + self.chance.choice((0, 0, 0, 0, -1, 1))), len(text.text))
        return at - 1 if text.text[max(0, at - 1) : at + 1] == '\r\n' else at

    def place(self, text):
        """A place as an editor may tell it, and the offset that it stands for."""
        places, at, kind = protocol.Places(text.text, self.units), self.offset(text), self.chance.randrange(8)
        place = places.place(at)
        if kind == 0:
            at = places.ends[place['line']][0]
            far = self.chance.choice((1, 2, 1000, LAST))
            return {'line': place['line'], 'character': min(places.place(at)['character'] + far, LAST)}, at
        if kind == 1:
            line = self.chance.choice((len(places.ends), len(places.ends) + 9, LAST))
            return {'line': line, 'character': self.chance.choice((0, 5, LAST))}, len(text.text)
        encoding, size = protocol.ENCODINGS[self.units]
        if kind < 5 and len(text.text[at : at + 1].encode(encoding)) > size:
            place['character'] += 1
        return place, at

    def new_name(self):
        """A new name, mostly one that is nowhere yet."""
        kind = self.chance.random()
        return self.chance.choice(BAD if kind < 0.2 else self.pieces.words if kind < 0.5 else FRESH)

    def questions(self, name):
        """Requests about a place of a document: (what makes the request, the place, the answer) of each."""
        scope, new = self.scope(name), self.new_name()
        place, at = self.place(self.open[name])
        yield protocol.at_place('definition'), place, scope.locations(at, True)
        yield protocol.at_place('prepareRename'), place, scope.preparation(at)
        yield protocol.at_place('rename', newName=new), place, scope.renaming(at, new)
        for context in ({'includeDeclaration': False}, {'includeDeclaration': 1}, {}):
            yield protocol.at_place('references', context=context), place, scope.locations(at, False)
        context = {'includeDeclaration': True}
        yield protocol.at_place('references', context=context), place, scope.locations(at, True, False)

    # --- changes ------------------------------------------------------------------------------------------------------

    def texts_after(self, name, change):
        """The texts around a document after the change of a workspace, by their files."""
        texts, files = self.texts(name), {self.uri(it): it for it in self.around(name)}
        for uri, _, edits in protocol.documents_in(change):
            texts[files[uri]] = protocol.text_after(texts[files[uri]], edits, self.units)
        return texts

    def rename(self, name, it, new):
        """Takes in that a name of a document is a new one; the messages that tell it. Files that aren't open are written."""
        messages = []
        for file, text in self.around(name).items():
            renamed = text.with_name(it.kind, it.name, new)
            if renamed.text != text.text and file in self.open:
                self.open[file] = renamed
                version = self.new_version(file)
                messages.append(protocol.did_change(self.uris[file], renamed.text, version=version))
            elif renamed.text != text.text:
                self.write(file, renamed)
        return messages
