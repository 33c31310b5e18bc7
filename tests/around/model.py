"""The session of the language server worked out by other means, and random messages to it.

`Model` takes the bodies of messages, and says what must come back, byte for byte; what the fault of a text is it is told.
`Messages` makes bodies of JSON that are mostly what editors send, with members that are missing, that come twice or in
another order, with other spellings of the same string, and with values of a wrong kind.
"""

import json
import re

import exchanges
import naming
import protocol
from exchanges import edit

EITHER = ('utf-16', 'utf-8')
# Texts, and the edits that format them in each encoding. All others that occur have no format, or are their own.
TEXTS = {
    'a=1': dict.fromkeys(EITHER, [edit(0, 0, 0, 3, 'a = 1')]),
    ' ': dict.fromkeys(EITHER, [edit(0, 0, 0, 1, '')]),
    'a = 1\n': dict.fromkeys(EITHER, []),
    'a=': dict.fromkeys(EITHER, []),
    'x="\U0001F600é"': {
        'utf-16': [edit(0, 0, 0, 7, 'x = \\"\U0001F600é\\"')],
        'utf-8': [edit(0, 0, 0, 10, 'x = \\"\U0001F600é\\"')],
    },
}
# Texts with names, which are formatted.
NAMED = {
    it.text: it
    for it in map(
        naming.Text,
        (
            'variable "«var|a»" {}\nx = ‹var|var.|a›\n',
            'locals {\n  «local|b» = "\U0001F600${‹local|local.|b›}${‹var|var.|c›}"\n}\n',
            'module «module|é» {}\n/* \r */ x = "\U0001F600${‹data t|data.t.|a›}" + ‹module|module.|b›\n',
        ),
    )
}
# Lines and characters at names of these, in UTF-16.
SPOTS = [
    tuple(protocol.Places(it.text, 'utf-16').place(offset).values())
    for it in NAMED.values()
    for name in it.occurrences
    for offset in (name.front, name.begin, name.end)
]
MISSING = object()


class Number(str):
    """A number as it is spelled."""


def at(value, *names):
    """A member of members, or MISSING."""
    for name in names:
        value = value.get(name, MISSING) if isinstance(value, dict) else MISSING
    return value


def text_of(value):
    return value if isinstance(value, str) and not isinstance(value, Number) else None


def id_of(value):
    """An id as it comes back, or None if it is none."""
    if isinstance(value, Number):
        return None if set('.eE') & set(value) else str(value)
    return json.dumps(value, ensure_ascii=False) if isinstance(value, str) else None


def integer_of(value):
    """An integer of 64 bits, or None if it is none."""
    is_integer = isinstance(value, Number) and re.fullmatch('[0-9]+', value)
    return int(value) if is_integer and int(value) < 2**64 else None


class Model:
    """A session: what it has come to, what it knows, and its status once it has ended."""

    def __init__(self, fault_of):
        self.phase, self.units, self.texts, self.status = 'fresh', 'utf-16', {}, None
        self.takes_versions, self.versions, self.has_lost, self.fault_of = False, {}, False, fault_of

    def answers(self, body):
        """What comes back for a message: a list of one body or none."""
        if body in exchanges.BODIES_OF_NO_JSON:
            self.texts, self.has_lost = {}, True
            return [exchanges.not_json()]
        value = json.loads(body, parse_int=Number, parse_float=Number)
        method, number = text_of(at(value, 'method')), at(value, 'id')
        if method is None:
            is_response = at(value, 'result') is not MISSING or at(value, 'error') is not MISSING
            return [] if is_response else [exchanges.no_request(id_of(number) or 'null')]
        if number is MISSING:
            return self.hear(method, value)
        number = id_of(number)
        return [exchanges.no_request() if number is None else self.answer(method, number, value)]

    def hear(self, method, value):
        if method == 'exit':
            self.status = 0 if self.phase == 'down' else 1
        uri = text_of(at(value, 'params', 'textDocument', 'uri'))
        if self.phase != 'open' or uri is None:
            return []
        if method in ('textDocument/didOpen', 'textDocument/didChange'):
            self.versions[uri] = integer_of(at(value, 'params', 'textDocument', 'version'))
        if method == 'textDocument/didOpen':
            self.texts[uri] = text_of(at(value, 'params', 'textDocument', 'text'))
        elif method == 'textDocument/didChange':
            changes = at(value, 'params', 'contentChanges')
            last = changes[-1] if isinstance(changes, list) and changes else None
            self.texts[uri] = text_of(at(last, 'text')) if at(last, 'range') is MISSING else None
        elif method == 'textDocument/didClose':
            self.texts[uri] = None
        else:
            return []
        text = self.texts[uri]
        self.has_lost = self.has_lost or text is None and method != 'textDocument/didClose'
        fault = None if text is None else self.fault_of(text)
        return [exchanges.told(uri, *protocol.diagnostics(text, fault, self.units))]

    def answer(self, method, number, value):
        if self.phase == 'down':
            return exchanges.shut_down(number)
        if self.phase == 'fresh' and method != 'initialize':
            return exchanges.not_initialized(number)
        if method == 'initialize':
            return self.begin(number, at(value, 'params', 'capabilities'))
        if method == 'shutdown':
            self.phase = 'down'
            return exchanges.result(number, 'null')
        if method == 'textDocument/formatting':
            return self.format(number, text_of(at(value, 'params', 'textDocument', 'uri')))
        if method.startswith('textDocument/') and method.partition('/')[2] in exchanges.ABOUT_NAMES:
            return self.name(method.partition('/')[2], number, at(value, 'params'))
        return exchanges.unknown_method(number)

    def begin(self, number, abilities):
        if self.phase == 'open':
            return exchanges.error(number, -32600, 'initialized already')
        offered = at(abilities, 'general', 'positionEncodings')
        is_offered = isinstance(offered, list) and 'utf-8' in map(text_of, offered)
        self.phase, self.units = 'open', 'utf-8' if is_offered else 'utf-16'
        self.takes_versions = at(abilities, 'workspace', 'workspaceEdit', 'documentChanges') is True
        prepares = at(abilities, 'textDocument', 'rename', 'prepareSupport') is True
        return exchanges.initialized(number, self.units, exchanges.PREPARES if prepares else 'true')

    def name(self, method, number, params):
        """The answer about a name. No document is in a module here."""
        uri = text_of(at(params, 'textDocument', 'uri'))
        line, character = (integer_of(at(params, 'position', it)) for it in ('line', 'character'))
        if uri is None or line is None or character is None:
            return exchanges.unplaced(number)
        text = self.texts.get(uri)
        if text is None:
            return exchanges.unknown_text(number)
        document = naming.Document(uri, self.versions.get(uri), NAMED.get(text) or naming.Text(text))
        scope = naming.Scope(document.text, [document], self.units, self.takes_versions, has_lost=self.has_lost)
        offset = protocol.Places(text, self.units).near(line, character)
        return exchanges.reply(number, self.answer_in(scope, method, offset, params))

    def answer_in(self, scope, method, offset, params):
        if method == 'definition':
            return scope.locations(offset, True)
        if method == 'references':
            is_declared = at(params, 'context', 'includeDeclaration') is True
            return scope.locations(offset, *((True, False) if is_declared else (False,)))
        if method == 'prepareRename':
            return scope.preparation(offset)
        return scope.renaming(offset, text_of(at(params, 'newName')))

    def format(self, number, uri):
        if uri is None:
            return exchanges.unnamed(number)
        text = self.texts.get(uri)
        if text is None:
            return exchanges.unknown_text(number)
        return exchanges.edits(number, *TEXTS.get(text, dict.fromkeys(EITHER, []))[self.units])


METHODS = {
    'initialize': 3,
    'shutdown': 0.5,
    'exit': 0.3,
    'textDocument/formatting': 10,
    'textDocument/didOpen': 6,
    'textDocument/didChange': 6,
    'textDocument/didClose': 2,
    'textDocument/definition': 3,
    'textDocument/references': 4,
    'textDocument/prepareRename': 3,
    'textDocument/rename': 6,
    'foo': 2,
    'initialized': 1,
}
ABOUT_NAMES = tuple('textDocument/' + it for it in exchanges.ABOUT_NAMES)
REQUESTS = ('initialize', 'shutdown', 'textDocument/formatting', 'foo', *ABOUT_NAMES)
# Values for any place. Of the texts among them none has another format.
VALUES = r'null true 1 1.5 -0 1E2 12345678901234567890123 "" "x" "\u00e9" [] {} [1,"utf-8"] {"uri":"u"}'.split(' ')
NAMES = (
    'id method params result error text uri range textDocument contentChanges x version position line character newName'
).split(' ')
NEW_NAMES = ('a', 'b', 'c', 'é', 'new', 'new', '\U0001D4B3-1', '', '1a', 'a b')


class Messages:
    """Random messages."""

    def __init__(self, chance):
        self.chance = chance

    def rarely(self, part=0.06):
        return self.chance.random() < part

    def string(self, text):
        """A string in one of its spellings."""
        if text and self.rarely():
            return (
                '"\\u%04x%s' % (ord(text[0]), json.dumps(text[1:])[1:]) if text[0] < '\U00010000' else json.dumps(text)
            )
        return json.dumps(text, ensure_ascii=self.rarely(0.5))

    def value(self, usual):
        return self.chance.choice(VALUES) if self.rarely() else usual

    def object(self, **members):
        """An object of these members, but for those that are None."""
        pairs = [(name, it) for name, it in members.items() if it is not None]
        if self.rarely(0.3):
            self.chance.shuffle(pairs)
        if self.rarely(0.1):
            pairs.insert(self.chance.randrange(len(pairs) + 1), (self.chance.choice(NAMES), self.chance.choice(VALUES)))
        if self.rarely() and pairs:
            pairs.pop(self.chance.randrange(len(pairs)))
        blank = self.chance.choice(('', '', ' ', '\r\n\t'))
        return '{%s}' % (',' + blank).join('%s%s:%s' % (self.string(name), blank, it) for name, it in pairs)

    def text(self):
        return self.value(self.string(self.chance.choice(list(TEXTS) + 2 * list(NAMED))))

    def document(self, has_text):
        uri = self.string(self.chance.choice('uuv'))
        version = self.value(self.chance.choice(('0', '1', '7'))) if self.rarely(0.7) else None
        return self.object(uri=self.value(uri), version=version, text=self.text() if has_text else None)

    def position(self):
        line, character = self.chance.choice(SPOTS) if self.rarely(0.7) else (self.chance.randrange(4), 5)
        return self.object(line=self.value(str(line)), character=self.value(str(character)))

    def place(self):
        """The parameters of a request about a name, of which those that have no use are passed over."""
        return {
            'position': self.value(self.position()),
            'context': self.value(self.object(includeDeclaration=self.value('true'))),
            'newName': self.value(self.string(self.chance.choice(NEW_NAMES))),
        }

    def change(self):
        return self.object(text=self.text(), range=self.chance.choice(VALUES) if self.rarely(0.15) else None)

    def abilities(self, offered):
        general = self.object(positionEncodings=self.value(offered))
        is_ready = self.chance.choice(('true', 'true', 'false'))
        rename = self.object(rename=self.value(self.object(prepareSupport=self.value(is_ready))))
        edits = self.object(workspaceEdit=self.value(self.object(documentChanges=self.value(is_ready))))
        return self.object(general=self.value(general), textDocument=self.value(rename), workspace=self.value(edits))

    def params(self, method):
        if method == 'initialize':
            offered = self.chance.choice(('["utf-8"]', '["utf-16"]', '["utf-16","utf-8"]'))
            return self.object(capabilities=self.value(self.abilities(offered)))
        changes, more = None, self.place() if method in ABOUT_NAMES else {}
        if method == 'textDocument/didChange':
            each = [self.value(self.change()) for _ in range(self.chance.choice((0, 1, 1, 1, 2)))]
            changes = self.value('[%s]' % ','.join(each))
        document = self.value(self.document(method == 'textDocument/didOpen'))
        return self.object(textDocument=document, contentChanges=changes, **more)

    def message(self):
        method = self.chance.choices(list(METHODS), METHODS.values())[0]
        number = None
        if (method in REQUESTS) != self.rarely():
            number = self.value(self.chance.choice((str(self.chance.randrange(100)), '"a"', r'"\u0001\"\u20ac"')))
        members = {
            'jsonrpc': '"2.0"',
            'id': number,
            'method': self.value(self.string(method)),
            'params': self.value(self.params(method)),
            self.chance.choice(('result', 'error')): self.chance.choice(VALUES) if self.rarely() else None,
        }
        return self.value(self.object(**members)).encode()
