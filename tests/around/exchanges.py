"""Messages to the language server, bad ones among them, with the answers that they must get, byte for byte.

A row is a name, the bodies that are sent, and the answers that must come back: what is told of documents comes between them.
Those of `open_rows` are sent to a server that is initialized and knows the text of KNOWN, which it knows afterwards too;
those of FRESH before `initialize`, and those of DOWN after `shutdown`. After one of NO_JSON it knows no text. OFFERS has
parameters of `initialize`, HEADS heads of messages, with `%d` for the length and whether they are heads, and RUNS whole
streams, with the status and the message of the end.
"""

import json
import pathlib

from protocol import (
    FAREWELL,
    at_place,
    did_change,
    did_close,
    did_open,
    encoded,
    formatting,
    frame,
    initialize,
    notification,
    request,
)

TOP = pathlib.Path(__file__).resolve().parent.parent.parent
VERSION = (TOP / 'VERSION').read_text().strip()
KNOWN, TEXT, PRINTED = 'file:///no/folder/known.tf', 'a=1\n', 'a = 1\n'
OTHER = 'file:///no/folder/other.tf'
LARGEST = 4_194_304
MAX_HEAD, MAX_BODY = 4096, 67_108_864
# Requests about the name at a place, each after `textDocument/`.
ABOUT_NAMES = ('definition', 'references', 'prepareRename', 'rename')
PREPARES = '{"prepareProvider":true}'


def answer(number, member):
    """An answer with this text as its id."""
    return ('{"jsonrpc":"2.0","id":%s,%s}' % (number, member)).encode()


def result(number, text):
    return answer(number, '"result":' + text)


def error(number, code, message):
    return answer(number, '"error":{"code":%d,"message":"%s"}' % (code, message))


def not_json(number='null'):
    return error(number, -32700, 'not JSON')


def no_request(number='null'):
    return error(number, -32600, 'not a request')


def unknown_method(number):
    return error(number, -32601, 'unknown method')


def not_initialized(number):
    return error(number, -32002, 'not initialized')


def shut_down(number):
    return error(number, -32600, 'shut down')


def unnamed(number):
    return error(number, -32602, 'no document is named')


def unplaced(number):
    return error(number, -32602, 'no place in a document is named')


def no_identifier(number):
    return error(number, -32602, 'the new name is not an identifier')


def unknown_text(number):
    return error(number, -32801, 'the text of this document is not known')


def no_name(number):
    return error(number, -32803, 'no name that can be changed is here')


def no_declaration(number):
    return error(number, -32803, 'no file of the module declares this name')


def lost_text(number):
    return error(number, -32803, 'the text of an open document was lost')


def name_taken(number):
    return error(number, -32803, 'the module has this name already')


def initialized(number, units='utf-16', renames='true'):
    return result(
        number,
        '{"capabilities":{"positionEncoding":"%s","textDocumentSync":{"openClose":true,"change":1},'
        '"documentFormattingProvider":true,"documentSymbolProvider":true,"foldingRangeProvider":true,'
        '"definitionProvider":true,"referencesProvider":true,"renameProvider":%s},'
        '"serverInfo":{"name":"tfls","version":"%s"}}' % (units, renames, VERSION),
    )


def reply(number, member):
    """An answer with this result or error, a value."""
    return answer(number, spelled(member)[1:-1])


def edit(first, start, last, end, text):
    """An edit, whose text is as in JSON."""
    return '{"range":{"start":{"line":%d,"character":%d},"end":{"line":%d,"character":%d}},"newText":"%s"}' % (
        first,
        start,
        last,
        end,
        text,
    )


def edits(number, *each):
    return result(number, '[%s]' % ','.join(each))


def told(uri, *each):
    """What the server says of a document with these diagnostics."""
    text = '{"jsonrpc":"2.0","method":"textDocument/publishDiagnostics","params":{"uri":%s,"diagnostics":[%s]}}'
    return (text % (json.dumps(uri, ensure_ascii=False), ','.join(map(spelled, each)))).encode()


def spelled(value):
    return json.dumps(value, ensure_ascii=False, separators=(',', ':'))


def kind(body):
    """What an answer says, but for its id and the documents, places and texts in it."""
    said = body.partition(b',"error":')[2] or body.partition(b',"result":')[2]
    for word in (b'"documentChanges":[', b'"changes":{', b'"newText":', b'"placeholder":', b'"uri":'):
        if word in said:
            return word
    return said


def change(uri, changes, **more):
    return notification('textDocument/didChange', {'textDocument': {'uri': uri}, 'contentChanges': changes, **more})


def nested(depth):
    """A request whose JSON nests this deep."""
    return b'{"id":1,"method":"m","params":%s%s}' % (b'[' * (depth - 1), b']' * (depth - 1))


def with_id(text):
    return b'{"jsonrpc":"2.0","id":%s,"method":"m"}' % text.encode()


RANGE = {'start': {'line': 0, 'character': 0}, 'end': {'line': 0, 'character': 1}}
# How the known text is answered.
FORMATTED = edit(0, 0, 1, 0, 'a = 1\\n')

# --- JSON --------------------------------------------------------------------------------------------------------------

# Bodies that are no JSON, and make the server forget all texts.
NO_JSON = [
    ('an empty body', b''),
    ('blanks alone', b' \r\n\t'),
    ('the beginning of an object', b'{"jsonrpc":'),
    ('no closer', b'{"id":1,"method":"m"'),
    ('a closer too many', b'{"id":1,"method":"m"}}'),
    ('a text after the object', b'{"id":1,"method":"m"} x'),
    ('two objects', b'{"id":1,"method":"m"}{"id":2,"method":"m"}'),
    ('a comma at the end', b'{"id":1,"method":"m",}'),
    ('no comma', b'{"id":1 "method":"m"}'),
    ('single quotes', b"{'id':1,'method':'m'}"),
    ('a name without quotes', b'{id:1,"method":"m"}'),
    ('a comment', b'{"id":1,"method":"m"} // c'),
    ('a byte order mark', b'\xef\xbb\xbf{"id":1,"method":"m"}'),
    ('UTF-16', '{"id":1,"method":"m"}'.encode('utf-16-le')),
    ('a word', b'nil'),
    ('NaN', b'{"id":1,"method":"m","params":NaN}'),
    ('a number with a zero in front', with_id('01')),
    ('a number with a plus', with_id('+1')),
    ('a number that ends with a point', with_id('1.')),
    ('a number that begins with a point', with_id('.5')),
    ('a dash alone', with_id('-')),
    ('a control character in a string', b'{"id":1,"method":"m\n"}'),
    ('a NUL after the object', b'{"id":1,"method":"m"}\0'),
    ('an unknown escape', b'{"id":1,"method":"\\x"}'),
    ('a short escape', b'{"id":1,"method":"\\u12"}'),
    ('invalid UTF-8', b'{"id":1,"method":"\xff"}'),
    ('UTF-8 that is cut', b'{"id":1,"method":"\xc3"}'),
    ('UTF-8 that is too long', b'{"id":1,"method":"\xc0\xaf"}'),
    ('a surrogate in UTF-8', b'{"id":1,"method":"\xed\xa0\x80"}'),
    ('UTF-8 past the last character', b'{"id":1,"method":"\xf4\x90\x80\x80"}'),
    ('a lone surrogate', b'{"id":1,"method":"\\ud800"}'),
    ('a lone second surrogate', b'{"id":1,"method":"\\udc00"}'),
    ('two first surrogates', b'{"id":1,"method":"\\ud83d\\ud83d"}'),
    ('a lone surrogate in a name', b'{"id":1,"method":"m","\\ud800":1}'),
    ('nesting of 129', nested(129)),
    ('nesting of 200', nested(200)),
    ('brackets that are never closed', b'[' * 100_000),
    ('a changed text with a byte that is no UTF-8', did_change(KNOWN, 'X').replace(b'X', b'b=\xff\n')),
]

BODIES_OF_NO_JSON = {body for _, body in NO_JSON}

# --- messages to an initialized server ---------------------------------------------------------------------------------

IDS = [
    ('zero', '0', '0'),
    ('minus zero', '-0', '-0'),
    ('a negative number', '-7', '-7'),
    ('the largest of 64 bits', '18446744073709551615', '18446744073709551615'),
    ('one past it', '18446744073709551616', '18446744073709551616'),
    ('a number of 400 digits', '-' + '9' * 400, '-' + '9' * 400),
    ('a string', '"x"', '"x"'),
    ('an empty string', '""', '""'),
    ('a number as a string', '"1.50"', '"1.50"'),
    ('a string with escapes', r'"\u0041\/\"\\\n\u00e9"', '"A/\\"\\\\\\né"'),
    ('a pair of surrogates', r'"\ud83d\ude00"', '"\U0001F600"'),
    ('characters of each length', '"é日\U0001F600e\u0301"', '"é日\U0001F600e\u0301"'),
]
BAD_IDS = ['1.5', '1e3', '1E3', '1.0', '-0.0', '1e400', 'null', 'true', 'false', '[]', '[1]', '{}', '{"id":1}']


def open_rows():
    """Messages to an initialized server that leave the known text as it is."""
    yield from ((name, [with_id(sent)], [unknown_method(told)]) for name, sent, told in IDS)
    yield from (('the id ' + it, [with_id(it)], [no_request()]) for it in BAD_IDS)
    yield 'a bad id and no method', [b'{"id":null}'], [no_request()]
    yield 'a bad id of a request with a result', [b'{"id":null,"method":"m","result":1}'], [no_request()]
    yield 'a bad id of `exit`', [b'{"id":null,"method":"exit"}'], [no_request()]
    yield from not_requests()
    yield from requests()
    yield from passed_over()
    yield from documents()
    yield from names()


def not_requests():
    batch = b'[' + with_id('1') + b',' + with_id('2') + b']'
    for name, body in (
        ('an array', b'[]'),
        ('a batch', batch),
        ('a number', b'17'),
        ('a string', b'"exit"'),
        ('null', b'null'),
        ('true', b'true'),
        ('an empty object', b'{}'),
        ('no method', b'{"jsonrpc":"2.0"}'),
        ('parameters alone', b'{"params":{}}'),
        ('a method that is null', b'{"method":null}'),
        ('a method that is an array', b'{"method":["exit"]}'),
        ('a result within the parameters', b'{"params":{"result":1}}'),
        ('a result of another case', b'{"Result":1}'),
    ):
        yield name, [body], [no_request()]
    yield 'no method, with an id', [b'{"jsonrpc":"2.0","id":5}'], [no_request('5')]
    yield 'a method that is a number', [b'{"jsonrpc":"2.0","id":5,"method":3}'], [no_request('5')]
    yield 'the method of another case', [b'{"id":"s","Method":"m"}'], [no_request('"s"')]


def requests():
    yield 'an unknown request', [request('s', 'foo/bar')], [unknown_method('"s"')]
    yield 'no version of the protocol', [b'{"id":1,"method":"m"}'], [unknown_method('1')]
    yield 'another version of the protocol', [b'{"jsonrpc":"1.0","id":1,"method":"m"}'], [unknown_method('1')]
    yield 'a request of another server', [request(1, 'textDocument/hover')], [unknown_method('1')]
    yield 'an optional request', [request(1, '$/foo')], [unknown_method('1')]
    yield 'an empty method', [request(1, '')], [unknown_method('1')]
    yield 'a method of another case', [request(1, 'textdocument/formatting')], [unknown_method('1')]
    yield 'a method with an escape', [b'{"id":1,"method":"shut\\u0064ow\\u006e!"}'], [unknown_method('1')]
    yield 'notifications as requests', [
        request(1, 'exit'),
        request(2, 'initialized'),
        request(3, 'textDocument/didClose', {'textDocument': {'uri': KNOWN}}),
    ], [unknown_method('1'), unknown_method('2'), unknown_method('3')]
    yield 'initialize again', [initialize(7), initialize(8, 'utf-8')], [
        error(n, -32600, 'initialized already') for n in '78'
    ]
    yield 'nesting of 128', [nested(128)], [unknown_method('1')]
    yield 'a request with a result', [b'{"id":1,"method":"m","result":1,"error":2}'], [unknown_method('1')]
    yield 'blanks around', [b' \r\n\t{ "id" : 1 ,\n "method" : "m" }\n'], [unknown_method('1')]
    yield 'an id that comes twice', [b'{"id":1,"id":2,"method":"m"}'], [unknown_method('2')]
    yield 'the second with an escape', [b'{"id":1,"\\u0069d":2,"method":"m"}'], [unknown_method('2')]
    yield 'a bad id and then a good one', [b'{"id":1.5,"id":2,"method":"m"}'], [unknown_method('2')]
    yield 'a good id and then a bad one', [b'{"id":2,"id":1.5,"method":"m"}'], [no_request()]
    yield 'a method that comes twice', [b'{"id":1,"method":"shutdown","method":"m"}'], [unknown_method('1')]
    yield 'a method, and then none', [b'{"id":1,"method":"shutdown","method":1}'], [no_request('1')]
    yield 'an id after the method', [b'{"params":[1],"method":"m","id":3}'], [unknown_method('3')]
    yield 'many members', [b'{%s"id":4,"method":"m"}' % b''.join(b'"k%d":%d,' % (n, n) for n in range(50_000))], [
        unknown_method('4')
    ]


def passed_over():
    """Messages that get no answer and change nothing."""
    for name, body in (
        ('a response', b'{"jsonrpc":"2.0","id":9,"result":null}'),
        ('a response with an error', b'{"jsonrpc":"2.0","id":"x","error":{"code":1,"message":""}}'),
        ('a response with no id', b'{"result":1}'),
        ('a bad id of a response', b'{"id":null,"result":1}'),
        ('a bad id of a response with an error', b'{"id":[1.5],"error":{"code":1,"message":""}}'),
        ('a response with both', b'{"id":1,"result":null,"error":null}'),
        ('a method that is a number, with a result', b'{"method":3,"result":1}'),
        ('a method that is null, with an error', b'{"id":2,"method":null,"error":null}'),
        ('a response whose last method is no text', b'{"id":3,"method":"shutdown","method":{},"result":1}'),
        ('an unknown notification', notification('foo/bar')),
        ('initialized', notification('initialized')),
        ('initialize as a notification', notification('initialize', {'capabilities': {}})),
        ('shutdown as a notification', notification('shutdown')),
        ('formatting as a notification', notification('textDocument/formatting', {'textDocument': {'uri': KNOWN}})),
        ('rename as a notification', notification('textDocument/rename', {'textDocument': {'uri': KNOWN}})),
        ('$/cancelRequest', notification('$/cancelRequest', {'id': 1})),
        ('$/setTrace', notification('$/setTrace', {'value': 'off'})),
        ('new settings', notification('workspace/didChangeConfiguration', {'settings': {}})),
        ('didSave', notification('textDocument/didSave', {'textDocument': {'uri': KNOWN}, 'text': 'b=2\n'})),
        ('willSave', notification('textDocument/willSave', {'textDocument': {'uri': KNOWN}, 'reason': 1})),
        ('didChange without parameters', b'{"method":"textDocument/didChange"}'),
        ('didChange with an array', notification('textDocument/didChange', [1, 2])),
        ('didChange without a document', notification('textDocument/didChange', {'contentChanges': [{'text': 'b'}]})),
        ('didChange of a URI that is a number', change(5, [{'text': 'b=2\n'}])),
        ('didOpen without parameters', notification('textDocument/didOpen')),
        ('didOpen of a string', notification('textDocument/didOpen', {'textDocument': KNOWN})),
        ('didOpen without a URI', notification('textDocument/didOpen', {'textDocument': {'text': 'b=2\n'}})),
        ('didOpen of a URI that is null', did_open(None, 'b=2\n')),
        ('didClose without parameters', notification('textDocument/didClose')),
        ('didClose of a URI that is a number', did_close(5)),
        ('didClose of another document', did_close(OTHER)),
        ('didClose of a URI that is nearly the same', did_close(KNOWN + ' ')),
    ):
        yield name, [body], []


def documents():
    """Documents other than the known one, and the requests to format them."""
    ask, told = formatting(1, OTHER), edits('1', FORMATTED)
    unknown = [unknown_text('1')]
    yield 'formatting an unknown document', [ask], unknown
    yield 'formatting a URI that is nearly the known one', [formatting(1, 'file:///no/folder/known%2Etf')], unknown
    for params in (b'', b',"params":null', b',"params":[]', b',"params":{}', b',"params":{"textDocument":null}'):
        yield 'formatting with%s' % (params.decode() or 'out parameters'), [
            b'{"id":1,"method":"textDocument/formatting"%s}' % params
        ], [unnamed('1')]
    for uri in (7, None, True, [KNOWN], {'uri': KNOWN}):
        yield 'formatting the URI %r' % (uri,), [formatting(1, uri)], [unnamed('1')]
    yield 'formatting without options', [request(1, 'textDocument/formatting', {'textDocument': {'uri': KNOWN}})], [
        told
    ]
    yield 'a URI with escapes', [formatting('\u00e9', KNOWN).replace(b'/', b'\\u002f')], [edits('"é"', FORMATTED)]
    for uri in ('untitled:Untitled-1', '', 'a b', 'C:\\main.tf', 'file:///日\U0001F600'):
        yield 'the URI %r' % uri, [did_open(uri, TEXT), formatting(1, uri)], [told]
    yield 'a document that was closed', [did_open(OTHER, TEXT), did_close(OTHER), ask], unknown
    yield 'one that was closed and opened', [did_open(OTHER, 'b'), did_close(OTHER), did_open(OTHER, TEXT), ask], [told]
    yield 'one that was opened twice', [did_open(OTHER, 'b=2\n'), did_open(OTHER, TEXT), ask], [told]
    yield 'one that was opened twice and closed once', [
        did_open(OTHER, 'b'),
        did_open(OTHER, 'c'),
        did_close(OTHER),
        ask,
    ], [*unknown]
    yield 'one that was opened without a text', [
        did_open(OTHER, TEXT),
        notification('textDocument/didOpen', {'textDocument': {'uri': OTHER}}),
        ask,
    ], unknown
    yield 'one whose text is a number', [did_open(OTHER, 1), ask], unknown
    yield 'a change before it was opened', [did_change(OTHER, TEXT), ask], [told]
    yield 'a change after it was closed', [did_open(OTHER, 'b'), did_close(OTHER), did_change(OTHER, TEXT), ask], [told]
    yield 'a change without a version', [change(OTHER, [{'text': TEXT}]), ask], [told]
    yield 'several changes', [did_open(OTHER, 'b'), did_change(OTHER, 'c', 'd=', TEXT), ask], [told]
    yield 'members that come twice', [
        did_open(OTHER, 'X').replace(b'"text":"X"', b'"text":"b=2\\n","text":"a=1\\n"'),
        ask,
    ], [told]
    yield from unreadable_changes(ask)
    yield from texts()


def unreadable_changes(ask):
    for name, changes in (
        ('no changes', []),
        ('a change with a range', [{'range': RANGE, 'text': 'b'}]),
        ('a change with a range that is null', [{'range': None, 'text': 'b'}]),
        ('a full text, and then one with a range', [{'text': TEXT}, {'range': RANGE, 'rangeLength': 1, 'text': 'b'}]),
        ('a change without a text', [{}]),
        ('a change whose text is null', [{'text': None}]),
        ('changes that are an object', {'text': TEXT}),
        ('changes that are a string', TEXT),
        ('a change that is a string', [TEXT]),
        ('a change that is null', [{'text': TEXT}, None]),
    ):
        again = [did_change(OTHER, TEXT), ask]
        yield name, [did_open(OTHER, 'b=2\n'), change(OTHER, changes), ask] + again, [
            unknown_text('1'),
            edits('1', FORMATTED),
        ]
    document = notification('textDocument/didChange', {'textDocument': {'uri': OTHER, 'version': 2}})
    yield 'no list of changes', [did_open(OTHER, TEXT), document, ask], [unknown_text('1')]
    yield 'a change with a range, and then a full text', [
        change(OTHER, [{'range': RANGE, 'text': 'b'}, {'text': TEXT}]),
        ask,
    ], [edits('1', FORMATTED)]


def texts():
    """Texts, and the bytes of their edits."""
    for name, text, *changes in (
        ('an empty text', ''),
        ('a formatted text', PRINTED),
        ('a refused text', 'a=\n'),
        ('a text that is no HCL', '<xml/>'),
        ('no newline at the end', 'a=1', edit(0, 0, 0, 3, 'a = 1')),
        ('CR LF', 'a=1\r\nb = 1\r\n', edit(0, 0, 1, 0, 'a = 1\\r\\n')),
        ('a blank', ' ', edit(0, 0, 0, 1, '')),
        ('a last line of blanks', 'a = 1\n \t', edit(1, 0, 1, 2, '')),
        ('a last line of blanks after a change', 'a=1\n\t', edit(0, 0, 1, 1, 'a = 1\\n')),
        ('a last line of blanks apart from a change', 'a=1\n\n  ', edit(0, 0, 1, 0, 'a = 1\\n'), edit(2, 0, 2, 2, '')),
        ('a last line of blanks after CRs alone', '# a\rb\r\n ', edit(2, 0, 2, 1, '')),
        (
            'two runs of lines',
            'a=1\n\nb = 1\n\nc=1\nd=1',
            edit(0, 0, 1, 0, 'a = 1\\n'),
            edit(4, 0, 5, 3, 'c = 1\\nd = 1'),
        ),
        ('a CR alone in a comment', '# a\rb\nx=1\n', edit(2, 0, 3, 0, 'x = 1\\n')),
        ('lines that end in each way', '# a\rb\r\nx=1 # c\r\n#\n', edit(2, 0, 3, 0, 'x = 1 # c\\r\\n')),
        ('a CR alone in what changes', 'x  = 1 # a\rb', edit(0, 0, 1, 1, 'x = 1 # a\\rb')),
        (
            'characters that are escaped',
            'a="\\n" # \t\x7f\u2028"\n',
            edit(0, 0, 1, 0, 'a = \\"\\\\n\\" # \\t\x7f\u2028\\"\\n'),
        ),
        ('a control character', '#\x01\nb=1 #\x01\x1f\n', edit(1, 0, 2, 0, 'b = 1 #\\u0001\\u001f\\n')),
        ('characters of two units', 'a="\U0001F600é"', edit(0, 0, 0, 7, 'a = \\"\U0001F600é\\"')),
    ):
        yield name, [did_open(OTHER, text), formatting(1, OTHER)], [edits('1', *changes)]
    yield 'a text of 5 MB', [did_open(OTHER, 'a=1\n' * 1_250_000), formatting(1, OTHER)], [edits('1')]
    yield 'a text that is one byte too large', [
        did_open(OTHER, 'a=1\n' + '#' * (LARGEST - 4) + '\n'),
        formatting(1, OTHER),
    ], [edits('1')]
    yield 'a text whose format is the largest', [
        did_open(OTHER, 'a=1\n\n' + '#' * (LARGEST - 8) + '\n'),
        formatting(1, OTHER),
    ], [edits('1', FORMATTED)]
    yield 'a text whose format is too large', [
        did_open(OTHER, 'a=1\n' + '#' * (LARGEST - 5) + '\n'),
        formatting(1, OTHER),
    ], [edits('1')]


# --- names -------------------------------------------------------------------------------------------------------------

# A document that is in no module, with a variable of two letters that is used twice in a line.
ALONE = 'a'
USED = 'variable "xy" {}\n/* \U0001F600 */ z = [var.xy, local.w, var . xy]\n'
FRONT = {'line': 0, 'character': 0}
# In UTF-16: where the variable is declared, and where it is used.
DECLARED, FIRST, SECOND = (0, 10, 12), (1, 18, 20), (1, 37, 39)
# Parameters after the document's that name no place, as JSON.
NO_PLACES = [
    ('no position', ''),
    ('a position that is null', ',"position":null'),
    ('a position that is a number', ',"position":0'),
    ('a position that is a text', ',"position":"0:0"'),
    ('a position that is an array', ',"position":[0,0]'),
    ('an empty position', ',"position":{}'),
    ('a position in a list', ',"position":[{"line":0,"character":0}]'),
    ('a position of another case', ',"Position":{"line":0,"character":0}'),
    ('a range', ',"range":{"start":{"line":0,"character":0},"end":{"line":0,"character":0}}'),
    ('a line alone', ',"position":{"line":0}'),
    ('a character alone', ',"position":{"character":0}'),
    ('a line of another case', ',"position":{"Line":0,"character":0}'),
    ('a place, and then none', ',"position":{"line":0,"character":0},"position":null'),
    ('a character, and then none', ',"position":{"line":0,"character":0,"character":null}'),
    ('a position within another', ',"position":{"position":{"line":0,"character":0}}'),
    ('a position in the document', ',"x":{"position":{"line":0,"character":0}}'),
]
# Numbers that are no lines and no characters.
NO_COUNTS = [
    *('-1', '-0', '0.5', '0.0', '1e2', '1E2', '0e0', '1e-1', '-1.5', '18446744073709551616', '9' * 400, '1e400'),
    *('null', 'true', 'false', '"0"', '""', '[0]', '[]', '{}', '{"line":0}'),
]
NO_IDENTIFIERS = [
    *('', '1', '1a', '-', '-a', 'a b', ' a', 'a ', 'a.b', 'a\n', '"a"', 'a"', '${a}', 'a/**/', '*', '\0', 'a\0', '%'),
    *('\U0001F600', 'a\u2028', 'a\xa0', '\u0301', '\u0661', '\u200b', 'a\u2019', '\ufeffa', '日 本', 'a:b', 'a/b', 'é!'),
]
IDENTIFIERS = [
    *('a', 'é', 'a-b', 'a-', '_', '__', '_-1', 'a1', 'A', 'var', 'for', 'null', 'true', 'if', '日本', '\U0001D4B3', 'w'),
    *('z', 'e\u0301', 'a\u0661', 'ª', 'x' * 5000, 'variable'),
]


def about(method, params, number=1):
    """A request with these parameters, as JSON."""
    body = '{"jsonrpc":"2.0","id":%d,"method":"textDocument/%s","params":%s}'
    return (body % (number, method, params)).encode()


def requests_with(params):
    """A request of each kind about names with these parameters, as JSON. A new name is no identifier."""
    return [about(method, params, number) for number, method in enumerate(ABOUT_NAMES)]


def errors_of(make):
    """The answer to each of these."""
    return [make(str(number)) for number, _ in enumerate(ABOUT_NAMES)]


def of_document(uri, more):
    return '{"textDocument":{"uri":%s}%s}' % (spelled(uri), more)


def spot(line, character):
    return {'line': line, 'character': character}


def part(line, begin, end):
    """A range in a line, as JSON."""
    return spelled({'start': spot(line, begin), 'end': spot(line, end)})


def locations(number, uri, *parts):
    return result(number, '[%s]' % ','.join('{"uri":%s,"range":%s}' % (spelled(uri), part(*it)) for it in parts))


def preparation(number, name, *it):
    return result(number, '{"range":%s,"placeholder":%s}' % (part(*it), spelled(name)))


def new_texts(new, *parts):
    """Edits that put a new name into parts of a document."""
    return '[%s]' % ','.join('{"range":%s,"newText":%s}' % (part(*it), spelled(new)) for it in parts)


def changes(number, uri, new, *parts):
    return result(number, '{"changes":{%s:%s}}' % (spelled(uri), new_texts(new, *parts)))


def versioned_changes(number, uri, version, new, *parts):
    text = '{"documentChanges":[{"textDocument":{"uri":%s,"version":%s},"edits":%s}]}'
    return result(number, text % (spelled(uri), version, new_texts(new, *parts)))


def rename(number, uri, place, new):
    return at_place('rename', newName=new)(number, uri, place)


def names():
    yield from no_places()
    yield from unknown_names()
    yield from places_of_names()
    yield from new_names()
    yield from kinds_of_names()


def no_places():
    """Requests that name no place in a document."""
    for name, more in NO_PLACES:
        yield 'names at ' + name, requests_with(of_document(KNOWN, more)), errors_of(unplaced)
    for count in NO_COUNTS:
        for name in ('{"line":%s,"character":0}', '{"line":0,"character":%s}'):
            more = ',"position":' + name % count
            yield 'names at %s' % more[1:60], requests_with(of_document(KNOWN, more)), errors_of(unplaced)
    for uri in (7, None, True, [KNOWN], {'uri': KNOWN}):
        params = of_document(uri, ',"position":{"line":0,"character":0}')
        yield 'names in the URI %r' % (uri,), requests_with(params), errors_of(unplaced)
    for params in ('null', '[]', '{}', '"x"', '{"position":{"line":0,"character":0}}', '{"textDocument":null}'):
        yield 'names with the parameters ' + params, requests_with(params), errors_of(unplaced)
    without = [b'{"id":%d,"method":"textDocument/%s"}' % (n, it.encode()) for n, it in enumerate(ABOUT_NAMES)]
    yield 'names without parameters', without, errors_of(unplaced)


def unknown_names():
    """Documents that aren't known, and places without a name."""
    at_front = ',"position":{"line":0,"character":0}'
    yield 'names of an unknown document', requests_with(of_document('b', at_front)), errors_of(unknown_text)
    yield 'names of a URI that is nearly the known one', requests_with(of_document(KNOWN + '/', at_front)), errors_of(
        unknown_text
    )
    ask = requests_with(of_document(ALONE, at_front))
    yield 'names of a document that was closed', [did_open(ALONE, USED), did_close(ALONE)] + ask, errors_of(
        unknown_text
    )
    ranged = change(ALONE, [{'range': RANGE, 'text': 'b'}])
    yield 'names of a text that is lost', [did_open(ALONE, USED), ranged] + ask, errors_of(unknown_text)
    nothing = [result('0', '[]'), result('1', '[]'), result('2', 'null'), no_identifier('3')]
    yield 'no name at the front', [did_open(ALONE, USED)] + ask, nothing
    yield 'no name in a text without names', requests_with(of_document(KNOWN, at_front)), nothing
    yield 'no name in a refused text', [did_open(ALONE, USED + '}')] + requests_with(
        of_document(ALONE, ',"position":{"line":0,"character":11}')
    ), nothing
    yield 'a new name where no name is', [rename(1, KNOWN, FRONT, 'b')], [no_name('1')]
    yield 'a new name in a refused text', [did_open(ALONE, USED + '}'), rename(1, ALONE, spot(0, 11), 'b')], [
        no_name('1')
    ]


def places_of_names():
    """Each place of the lines with a variable, and places past their ends."""
    at_declaration = {(0, character) for character in range(10, 13)}
    at_use = {(1, character) for character in [*range(14, 21), *range(31, 40)]}
    for line, ends in ((0, 20), (1, 43), (2, 2)):
        for character in [*range(ends), 2**63, 2**64 - 1]:
            here = (line, character) in at_declaration | at_use
            found = SECOND if character > 30 else FIRST if line else DECLARED
            place = spot(line, character)
            yield 'a place at %d:%d' % (line, character), [
                did_open(ALONE, USED),
                at_place('definition')(1, ALONE, place),
                at_place('prepareRename')(2, ALONE, place),
            ], [
                locations('1', ALONE, *([DECLARED] if here else [])),
                preparation('2', 'xy', *found) if here else local_at('2', line, character),
            ]
    for line in (3, 1000, 2**64 - 1):
        place = spot(line, 0)
        yield 'the line %d' % line, [did_open(ALONE, 'x = var.a'), at_place('prepareRename')(1, ALONE, place)], [
            preparation('1', 'a', 0, 8, 9)
        ]
    yield 'a place that comes twice', [
        did_open(ALONE, USED),
        about('prepareRename', of_document(ALONE, ',"position":{"line":7,"line":0,"character":1,"character":12}')),
    ], [preparation('1', 'xy', *DECLARED)]
    yield 'a place with more members', [
        did_open(ALONE, USED),
        about('prepareRename', of_document(ALONE, ',"position":{"x":[],"character":10,"y":{},"line":0},"z":0')),
    ], [preparation('1', 'xy', *DECLARED)]


def local_at(number, line, character):
    """The answer at the places of the local value that is used in the second line."""
    is_there = line == 1 and 22 <= character <= 29
    return preparation(number, 'w', 1, 28, 29) if is_there else result(number, 'null')


def new_names():
    """New names, good and bad ones, in a document alone."""
    opened, all_three = did_open(ALONE, USED), (DECLARED, FIRST, SECOND)
    for new in NO_IDENTIFIERS:
        sent = [opened, rename(1, ALONE, spot(0, 10), new), rename(2, ALONE, FRONT, new)]
        yield 'the new name %r' % new, sent, [no_identifier('1'), no_identifier('2')]
    for new in (None, 1, 1.5, True, ['a'], {'newName': 'a'}):
        yield 'the new name %r' % (new,), [opened, rename(1, ALONE, spot(0, 10), new)], [no_identifier('1')]
    yield 'no new name', [opened, at_place('rename')(1, ALONE, spot(0, 10))], [no_identifier('1')]
    for new in IDENTIFIERS:
        sent = [opened, rename(1, ALONE, spot(1, 14), new)]
        yield 'the new name %r' % new[:20], sent, [changes('1', ALONE, new, *all_three)]
    yield 'a new name with escapes', [
        opened,
        about('rename', of_document(ALONE, ',"position":{"line":0,"character":12},"newName":"\\u0061\\ud835\\udcb3"')),
    ], [changes('1', ALONE, 'a\U0001D4B3', *all_three)]
    yield 'a new name that comes twice', [
        opened,
        about('rename', of_document(ALONE, ',"position":{"line":0,"character":12},"newName":"1","newName":"a"')),
    ], [changes('1', ALONE, 'a', *all_three)]
    for line, character in ((1, 22), (1, 29)):
        sent = [opened, rename(1, ALONE, spot(line, character), 'new')]
        yield 'a name without a declaration, at %d:%d' % (line, character), sent, [no_declaration('1')]
    other, asked = did_open(OTHER, 'b = 1'), rename(1, ALONE, spot(0, 10), 'new')
    for name, lost, said in (
        ('a change of a range', [other, change(OTHER, [{'range': RANGE, 'text': 'b'}])], []),
        ('a body that is no JSON', [NO_JSON[0][1], did_open(KNOWN, TEXT)], [not_json()]),
    ):
        for after, again in (('', []), (' and a new text', [other]), (' and a close', [did_close(OTHER)])):
            sent = [opened, *lost, *again, opened, asked]
            yield 'a new name after %s%s' % (name, after), sent, [*said, lost_text('1')]
    yield 'a new name after a close', [opened, other, did_close(OTHER), asked], [changes('1', ALONE, 'new', *all_three)]
    yield 'the name that it has', [opened, rename(1, ALONE, spot(0, 10), 'xy')], [name_taken('1')]
    yield 'a name that is declared', [did_open(ALONE, USED + 'variable t {}\n'), rename(1, ALONE, spot(0, 10), 't')], [
        name_taken('1')
    ]
    yield 'a name that is used', [did_open(ALONE, USED + 't = var.t\n'), rename(1, ALONE, spot(1, 37), 't')], [
        name_taken('1')
    ]
    yield 'a name of another kind', [
        did_open(ALONE, USED + 't = [local.t, module.t, data.t.t, a.var.t, "var.t"]\nmodule t {}\n'),
        rename(1, ALONE, spot(1, 37), 't'),
    ], [changes('1', ALONE, 't', *all_three)]
    for uri in ('untitled:1', '', 'a b', '"\\', 'C:\\main.tf', 'main.tf', 'file:///no/folder/x.tfvars', '日\U0001F600'):
        yield 'a new name in the URI %r' % uri, [did_open(uri, USED), rename(1, uri, spot(0, 10), 't')], [
            changes('1', uri, 't', *all_three)
        ]


def kinds_of_names():
    """Names of each kind, with and without their declarations."""
    for kind, name, text, declared, used in (
        ('a variable', 'xy', USED, [DECLARED], [FIRST, SECOND]),
        ('an empty name', '', 'variable "" {}', [(0, 10, 10)], []),
        ('a local value', 'b', 'locals {\n  b = local.b\n}\n', [(1, 2, 3)], [(1, 12, 13)]),
        ('a data source', 'b', 'data "a" "b" {\n  x = data.a.b\n  y = data.c.b\n}\n', [(0, 10, 11)], [(1, 13, 14)]),
        ('a call of a module', 'é', 'module é {}\nx = "${module . é}"\n', [(0, 7, 8)], [(1, 16, 17)]),
        (
            'two declarations',
            'b',
            'variable b {}\nx = var.b\nvariable "b" {}\n',
            [(0, 9, 10), (2, 10, 11)],
            [(1, 8, 9)],
        ),
        ('a late declaration', 'b', 'x = var.b\nvariable b {}\ny = var.b\n', [(1, 9, 10)], [(0, 8, 9), (2, 8, 9)]),
        ('a name with quotes', 'a\\"b', 'variable "a\\"b" {}\n', [(0, 10, 14)], []),
    ):
        place, opened = spot(*declared[0][:2]), did_open(ALONE, text)
        with_them = at_place('references', context={'includeDeclaration': True})
        yield kind, [
            opened,
            at_place('definition')(1, ALONE, place),
            with_them(2, ALONE, place),
            at_place('prepareRename')(3, ALONE, place),
            rename(4, ALONE, place, 'new'),
        ], [
            locations('1', ALONE, *declared),
            locations('2', ALONE, *declared, *used),
            preparation('3', name, *declared[0]),
            changes('4', ALONE, 'new', *declared, *used),
        ]
        for context in (
            {'includeDeclaration': False},
            {'includeDeclaration': 'true'},
            {'includeDeclaration': 1},
            {},
            None,
        ):
            ask = at_place('references', context=context)(1, ALONE, place)
            yield kind + ' with the context %r' % context, [opened, ask], [locations('1', ALONE, *used)]
        yield kind + ' without a context', [opened, at_place('references')(1, ALONE, place)], [
            locations('1', ALONE, *used)
        ]


# A server that isn't initialized, and one that was shut down.
FRESH = [
    ('a request before initialize', [request(1, 'shutdown')], [not_initialized('1')]),
    ('formatting before initialize', [formatting('f', KNOWN)], [not_initialized('"f"')]),
    ('names before initialize', requests_with('{}'), errors_of(not_initialized)),
    ('an unknown request', [with_id('18446744073709551616')], [not_initialized('18446744073709551616')]),
    ('an array', [b'[]'], [no_request()]),
    ('a bad id', [with_id('1.5')], [no_request()]),
    ('a bad id of initialize', [initialize(1.5), initialize(None)], [no_request(), no_request()]),
    ('no method', [b'{"id":1}'], [no_request('1')]),
    ('notifications', [did_open(KNOWN, TEXT), did_change(KNOWN, TEXT), notification('initialized')], []),
    ('a response', [b'{"id":1,"result":{}}'], []),
] + [(name, [body], [not_json()]) for name, body in NO_JSON]
DOWN = [
    ('a request', [with_id('1')], [shut_down('1')]),
    ('shutdown again', [request(1, 'shutdown')], [shut_down('1')]),
    ('initialize again', [initialize('i')], [shut_down('"i"')]),
    ('formatting', [formatting(1, KNOWN)], [shut_down('1')]),
    ('formatting without a document', [request(1, 'textDocument/formatting')], [shut_down('1')]),
    ('names', requests_with(of_document(KNOWN, ',"position":{"line":0,"character":0}')), errors_of(shut_down)),
    ('names without a document', requests_with('{}'), errors_of(shut_down)),
    ('exit as a request', [request(1, 'exit')], [shut_down('1')]),
    ('a number', [b'1'], [no_request()]),
    ('a bad id', [with_id('null')], [no_request()]),
    ('no method', [b'{"id":1}'], [no_request('1')]),
    ('a response', [b'{"id":1,"error":{}}'], []),
    ('notifications', [did_open(KNOWN, TEXT), did_close(KNOWN), notification('initialized')], []),
] + [(name, [body], [not_json()]) for name, body in NO_JSON]
# What a client offers, and the words of the answer: how places are counted then, and whether names are renamed.
OFFERS = [
    ('nothing', b'', ['utf-16']),
    ('no capabilities', b',"params":{}', ['utf-16']),
    ('parameters that are null', b',"params":null', ['utf-16']),
    ('parameters that are an array', b',"params":["utf-8"]', ['utf-16']),
] + [
    (str(offer), b',"params":{"capabilities":{"general":{"positionEncodings":%s}}}' % encoded(offer), [units])
    for offer, units in (
        (['utf-8'], 'utf-8'),
        (['utf-16', 'utf-8'], 'utf-8'),
        (['utf-32', 'utf-8', 'utf-8'], 'utf-8'),
        ([1, None, 'utf-8'], 'utf-8'),
        (['utf-16'], 'utf-16'),
        (['utf-32'], 'utf-16'),
        ([], 'utf-16'),
        ('utf-8', 'utf-16'),
        ({'utf-8': True}, 'utf-16'),
        ([['utf-8']], 'utf-16'),
        (['UTF-8'], 'utf-16'),
        (['utf8'], 'utf-16'),
        (['utf-8 '], 'utf-16'),
        (None, 'utf-16'),
    )
]
OFFERS += [
    ('of texts ' + offer, b',"params":{"capabilities":{"textDocument":%s}}' % offer.encode(), ['utf-16', renames])
    for offer, renames in (
        ('{"rename":{"prepareSupport":true}}', PREPARES),
        ('{"rename":{"dynamicRegistration":true,"prepareSupport":true,"x":1}}', PREPARES),
        ('{"rename":{"prepareSupport":false,"prepareSupport":true}}', PREPARES),
        ('{"rename":{"prepareSupport":true,"prepareSupport":false}}', 'true'),
        ('{"rename":{"prepareSupport":false}}', 'true'),
        ('{"rename":{"prepareSupport":"true"}}', 'true'),
        ('{"rename":{"prepareSupport":1}}', 'true'),
        ('{"rename":{"prepareSupport":null}}', 'true'),
        ('{"rename":{"PrepareSupport":true}}', 'true'),
        ('{"rename":{}}', 'true'),
        ('{"rename":true}', 'true'),
        ('{"rename":[{"prepareSupport":true}]}', 'true'),
        ('{"prepareSupport":true}', 'true'),
        ('null', 'true'),
    )
]

# --- heads and ends ----------------------------------------------------------------------------------------------------


def of_length(length):
    """A head that has this many bytes with its empty line, if the length of the body has three digits."""
    filled = b'Content-Length: %d\r\nX: '
    return filled + b'x' * (length - len(filled % 100) - len(b'\r\n\r\n')) + b'\r\n\r\n'


HEADS = [
    ('as usual', b'Content-Length: %d\r\n\r\n', True),
    ('small letters', b'content-length: %d\r\n\r\n', True),
    ('capitals', b'CONTENT-LENGTH: %d\r\n\r\n', True),
    ('odd case', b'cOnTeNt-LeNgTh: %d\r\n\r\n', True),
    ('no blank', b'Content-Length:%d\r\n\r\n', True),
    ('blanks around the number', b'Content-Length: \t  %d\t \t\r\n\r\n', True),
    ('zeros in front', b'Content-Length: 0000%d\r\n\r\n', True),
    ('300 zeros in front', b'Content-Length: %s%%d\r\n\r\n' % (b'0' * 300), True),
    ('a field before', b'Content-Type: application/vscode-jsonrpc; charset=utf-8\r\nContent-Length: %d\r\n\r\n', True),
    ('a field after', b'Content-Length: %d\r\nContent-Type: application/vscode-jsonrpc; charset=utf8\r\n\r\n', True),
    ('fields around', b'A: 1\r\nB: 2\r\nContent-Length: %d\r\nC: Content-Length: 1\r\nD:\r\n\r\n', True),
    ('bytes that are no UTF-8', b'X: \xff\xfe\r\nContent-Length: %d\r\n\r\n', True),
    ('a field without a colon', b'x\r\nContent-Length: %d\r\n\r\n', True),
    ('a field without a name', b': x\r\nContent-Length: %d\r\n\r\n', True),
    ('a CR in a field', b'X: \ra\r\nContent-Length: %d\r\n\r\n', True),
    ('an empty field in front', b'\r\nContent-Length: %d\r\n\r\n', True),
    ('an empty field in front, and no other', b'\r\n\r\nContent-Length: %d\r\n\r\n', False),
    ('a CR in front', b'\rContent-Length: %d\r\n\r\n', False),
    ('an LF in front', b'\nContent-Length: %d\r\n\r\n', False),
    ('an LF after an empty field', b'\r\n\nContent-Length: %d\r\n\r\n', False),
    ('names that only begin so', b'Content-Length-X: 1\r\nContent-Lengths: 2\r\nContent-Length: %d\r\n\r\n', True),
    ('a name that only ends so', b'X-Content-Length: 1\r\nContent-Length: %d\r\n\r\n', True),
    ('two lengths', b'Content-Length: %d\r\nContent-Length: 3\r\n\r\n', True),
    ('two lengths, one of another case', b'content-length: %d\r\nContent-Length: 3\r\n\r\n', True),
    ('two lengths, the second no number', b'Content-Length: %d\r\nContent-Length: x\r\n\r\n', True),
    ('a head of %d bytes' % MAX_HEAD, of_length(MAX_HEAD), True),
    ('a head of %d bytes' % (MAX_HEAD + 1), of_length(MAX_HEAD + 1), False),
    ('a head of 100,000 bytes', of_length(100_000), False),
    ('a head without an end', b'X: 1\r\n' * 2000, False),
    ('no field', b'\r\n\r\n', False),
    ('no length', b'Foo: 1\r\n\r\n', False),
    ('a length that is empty', b'Content-Length: \r\n\r\n', False),
    ('a length that is no number', b'Content-Length: x\r\n\r\n', False),
    ('a length that is a text', b'Content-Length: "%d"\r\n\r\n', False),
    ('a dash', b'Content-Length: -%d\r\n\r\n', False),
    ('a plus', b'Content-Length: +%d\r\n\r\n', False),
    ('hexadecimal digits', b'Content-Length: 0x%d\r\n\r\n', False),
    ('a point', b'Content-Length: %d.0\r\n\r\n', False),
    ('two numbers', b'Content-Length: 1 %d\r\n\r\n', False),
    ('a text after the number', b'Content-Length: %d;x\r\n\r\n', False),
    ('a form feed before the number', b'Content-Length: \f%d\r\n\r\n', False),
    ('digits that are not ASCII', 'Content-Length: \u0664\u0662\r\n\r\n'.encode(), False),
    ('a length past the largest', b'Content-Length: %s\r\n\r\n' % str(MAX_BODY + 1).encode(), False),
    ('a length of 64 bits', b'Content-Length: 18446744073709551616\r\n\r\n', False),
    ('a huge length', b'Content-Length: %s\r\n\r\n' % (b'9' * 1000), False),
    ('a first length that is wrong', b'Content-Length: x\r\nContent-Length: %d\r\n\r\n', False),
    ('a first length without a colon', b'Content-Length\r\nContent-Length: %d\r\n\r\n', False),
    ('a name that is cut', b'Content-Lengt: %d\r\n\r\n', False),
    ('a blank before the colon', b'Content-Length : %d\r\n\r\n', False),
    ('a blank before the name', b' Content-Length: %d\r\n\r\n', False),
    ('no colon', b'Content-Length %d\r\n\r\n', False),
    ('LF alone', b'Content-Length: %d\n\n', False),
    ('LF alone after a field', b'X: 1\nContent-Length: %d\r\n\r\n', False),
    ('CR alone', b'Content-Length: %d\r\r', False),
]

BEGIN, BEGUN = [initialize(0), did_open(KNOWN, TEXT)], [initialized('0'), told(KNOWN)]
EXIT = FAREWELL[1]
ENDED = b'tfls: error: input ended without exit\n'
MALFORMED = b'tfls: error: malformed message\n'
USAGE = b'usage: tfls [--stdio] [--help]\n'


def stream(*each):
    return b''.join(map(frame, each))


def versions():
    """What editors do that take versions, or say so in a wrong way, and the version that they are told, as JSON."""
    for told_version, version in (
        ('0', '0'),
        ('7', '7'),
        ('18446744073709551615', '18446744073709551615'),
        *((it, 'null') for it in NO_COUNTS),
    ):
        opened = did_open(ALONE, USED, 4321).replace(b'4321', told_version.encode())
        yield 'the version %s' % told_version[:30], True, [opened], version
    changed = did_change(ALONE, USED, version=9)
    yield 'a version of a change', True, [did_open(ALONE, 'a=1', 8), changed], '9'
    yield 'a version that falls', True, [did_open(ALONE, 'a=1', 10), changed], '9'
    yield 'a change without a document open', True, [changed], '9'
    yield 'a change without a version', True, [did_open(ALONE, 'a=1', 8), change(ALONE, [{'text': USED}])], 'null'
    yield 'a version after it was closed', True, [
        did_open(ALONE, 'a=1', 8),
        did_close(ALONE),
        did_open(ALONE, USED, 3),
    ], '3'
    yield 'a version of another document', True, [did_open(ALONE, USED, 2), did_open('b', USED, 8)], '2'
    for takes in (False, None, 1, 'true', [True], {}):
        yield 'versions that are taken as %r' % (takes,), takes, [did_open(ALONE, USED, 5)], None


def version_runs():
    """These as whole streams."""
    place, parts = spot(0, 11), (DECLARED, FIRST, SECOND)
    for name, takes, sent, version in versions():
        begin = initialize(0, workspace={'workspaceEdit': {'documentChanges': takes}})
        heard = [told(json.loads(it)['params']['textDocument']['uri']) for it in sent]
        given = (
            changes('1', ALONE, 'q', *parts) if version is None else versioned_changes('1', ALONE, version, 'q', *parts)
        )
        whole = stream(begin, *sent, rename(1, ALONE, place, 'q'), EXIT)
        yield name, whole, [initialized('0'), *heard, given], 1, b''


# Whole streams: a name, the stream, the bodies that come back, the status, and standard error.
RUNS = [
    ('no input', b'', [], 1, ENDED),
    ('exit alone', stream(EXIT), [], 1, b''),
    ('exit without shutdown', stream(*BEGIN, EXIT), BEGUN, 1, b''),
    ('exit after shutdown', stream(*BEGIN, *FAREWELL), BEGUN + [result('"end"', 'null')], 0, b''),
    ('shutdown before initialize', stream(*FAREWELL), [not_initialized('"end"')], 1, b''),
    (
        'exit with parameters',
        stream(*BEGIN, FAREWELL[0], b'{"method":"exit","params":[{}]}'),
        BEGUN + [result('"end"', 'null')],
        0,
        b'',
    ),
    ('messages after exit', stream(EXIT, *BEGIN, with_id('1')), [], 1, b''),
    ('bytes after exit', stream(*BEGIN, *FAREWELL) + b'x\r\n\r\n', BEGUN + [result('"end"', 'null')], 0, b''),
    ('the end after initialize', stream(*BEGIN), BEGUN, 1, ENDED),
    ('the end after shutdown', stream(*BEGIN, FAREWELL[0]), BEGUN + [result('"end"', 'null')], 1, ENDED),
    ('a head that is cut', stream(*BEGIN) + b'Content-Length: 2\r\n', BEGUN, 1, ENDED),
    ('a head without its last byte', stream(*BEGIN) + b'Content-Length: 2\r\n\r', BEGUN, 1, ENDED),
    ('no byte of the body', stream(*BEGIN) + b'Content-Length: 2\r\n\r\n', BEGUN, 1, ENDED),
    ('a body that is cut', stream(*BEGIN) + frame(EXIT)[:-1], BEGUN, 1, ENDED),
    ('the largest length', stream(*BEGIN) + b'Content-Length: %d\r\n\r\n{}' % MAX_BODY, BEGUN, 1, ENDED),
    ('a bad head first', b'x\r\n\r\n' + stream(*BEGIN), [], 1, MALFORMED),
    ('CR LF first', b'\r\n' + stream(*BEGIN, EXIT), BEGUN, 1, b''),
    ('CR LF alone', b'\r\n', [], 1, ENDED),
    ('CR LF twice first', b'\r\n\r\n' + stream(*BEGIN), [], 1, MALFORMED),
    ('CR LF after each message', b''.join(frame(it) + b'\r\n' for it in (*BEGIN, EXIT)), BEGUN, 1, b''),
    ('CR LF in the end', stream(*BEGIN) + b'\r\n', BEGUN, 1, ENDED),
    (
        'a body longer than its length',
        stream(*BEGIN) + b'Content-Length: 2\r\n\r\n{}}' + stream(EXIT),
        [
            *BEGUN,
            no_request(),
        ],
        1,
        MALFORMED,
    ),
    *version_runs(),
]
