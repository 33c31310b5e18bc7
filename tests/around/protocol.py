"""A client of the Language Server Protocol over pipes, which shares nothing with the server.

It frames messages, and applies edits by the protocol's rules: a line ends with LF, CR LF or a CR alone, and a character is
a unit of UTF-16, or a byte if both sides agreed on UTF-8. It is strict where editors are lenient: a place that isn't in
the text, or in the middle of a character, is a fault.
"""

import itertools
import json
import os
import re
import select
import subprocess
import tempfile
import time
import unicodedata

# How long the server may take for one step, in seconds, however busy the machine is.
LIMIT = 120
CHUNK = 65536
HEAD = re.compile(rb'Content-Length: (0|[1-9][0-9]*)\r\n\r\n')
ENCODINGS = {'utf-16': ('utf-16-le', 2), 'utf-8': ('utf-8', 1)}
# The faults of texts that aren't read.
AT_FRONT = ('source too large', 'byte order mark')


class Fault(Exception):
    """What a server did that it must not do."""


# --- messages ----------------------------------------------------------------------------------------------------------


def frame(body, head=b'Content-Length: %d\r\n\r\n'):
    """A message of this body. A head with no `%d` is taken as it is."""
    return (head % len(body) if b'%d' in head else head) + body


def encoded(value):
    """A value as JSON in UTF-8, without blanks."""
    return json.dumps(value, ensure_ascii=False, separators=(',', ':')).encode()


def notification(method, params=None):
    return encoded({'jsonrpc': '2.0', 'method': method, 'params': params or {}})


def request(number, method, params=None):
    return encoded({'jsonrpc': '2.0', 'id': number, 'method': method, 'params': params or {}})


def initialize(number, units='utf-16', **more):
    """What an editor begins with, with more capabilities."""
    general = {'positionEncodings': ['utf-8', 'utf-16']} if units == 'utf-8' else {}
    params = {'processId': None, 'rootUri': None, 'capabilities': {'general': general, **more}}
    return request(number, 'initialize', params)


def did_open(uri, text, version=0):
    document = {'uri': uri, 'languageId': 'terraform', 'version': version, 'text': text}
    return notification('textDocument/didOpen', {'textDocument': document})


def did_change(uri, *texts, version=1):
    """A change by full texts, of which the last counts."""
    changes = [{'text': text} for text in texts]
    return notification(
        'textDocument/didChange', {'textDocument': {'uri': uri, 'version': version}, 'contentChanges': changes}
    )


def did_close(uri):
    return notification('textDocument/didClose', {'textDocument': {'uri': uri}})


def formatting(number, uri):
    options = {'tabSize': 2, 'insertSpaces': True}
    return request(number, 'textDocument/formatting', {'textDocument': {'uri': uri}, 'options': options})


def about(method):
    """What makes a request about a document."""
    return lambda number, uri: request(number, method, {'textDocument': {'uri': uri}})


def at_place(method, **more):
    """What makes a request about a place in a document."""

    def make(number, uri, place):
        return request(number, 'textDocument/' + method, {'textDocument': {'uri': uri}, 'position': place, **more})

    return make


# What an editor says in the end.
FAREWELL = (request('end', 'shutdown'), encoded({'jsonrpc': '2.0', 'method': 'exit'}))


def bodies(stream):
    """The bodies of the messages that a stream is made of; each head must be just as servers write it."""
    found, at = [], 0
    while at < len(stream):
        head = HEAD.match(stream, at)
        if not head or len(stream) - head.end() < int(head.group(1)):
            raise Fault('no message: %r' % stream[at : at + 80])
        at = head.end() + int(head.group(1))
        found.append(stream[head.end() : at])
    return found


def is_told(body):
    """Whether a body tells the diagnostics of a document."""
    return body.startswith(b'{"jsonrpc":"2.0","method":"textDocument/publishDiagnostics",')


# --- a run of the server -----------------------------------------------------------------------------------------------


class Client:
    """A server that is running. Nothing that it does or fails to do leaves a caller waiting for longer than LIMIT."""

    def __init__(self, program, units='utf-16'):
        self.said = tempfile.TemporaryFile()
        self.process = subprocess.Popen(
            [program], stdin=subprocess.PIPE, stdout=subprocess.PIPE, stderr=self.said, bufsize=0
        )
        self.into, self.out = self.process.stdin.fileno(), self.process.stdout.fileno()
        os.set_blocking(self.into, False)
        self.units, self.waiting, self.unsent, self.ended, self.number = units, bytearray(), b'', False, 0
        # The diagnostics that were told last, by the URIs of their documents.
        self.told = {}

    def __enter__(self):
        return self

    def __exit__(self, *_):
        if self.process.poll() is None:
            self.process.kill()
        self.process.wait()
        for file in (self.process.stdin, self.process.stdout, self.said):
            file.close()

    def turn(self, seconds):
        """Writes or reads once. The server's answers are read while it is written to, so that neither waits for ever."""
        readable, writable, _ = select.select([self.out], [self.into] if self.unsent else [], [], max(0, seconds))
        if not readable and not writable:
            raise Fault('nothing for %d seconds' % LIMIT)
        if writable:
            try:
                self.unsent = self.unsent[os.write(self.into, self.unsent[:CHUNK]) :]
            except BrokenPipeError:
                self.unsent = b''
        if readable:
            read = os.read(self.out, CHUNK)
            self.waiting += read
            self.ended = not read

    def send_raw(self, stream):
        self.unsent, end = memoryview(stream), time.monotonic() + LIMIT
        while self.unsent and not self.ended:
            self.turn(end - time.monotonic())

    def send(self, *each):
        self.send_raw(b''.join(map(frame, each)))

    def receive(self):
        """The body of the next message, or None if the output ended."""
        end = time.monotonic() + LIMIT
        while True:
            head = HEAD.match(self.waiting)
            if head and len(self.waiting) >= head.end() + int(head.group(1)):
                break
            if self.ended:
                if self.waiting:
                    raise Fault('the output ends within a message: %r' % bytes(self.waiting[:80]))
                return None
            self.turn(end - time.monotonic())
        last = head.end() + int(head.group(1))
        body = bytes(self.waiting[head.end() : last])
        del self.waiting[:last]
        return body

    def answer(self):
        """The next body that answers a request. What is told of documents before it is kept."""
        while True:
            body = self.receive()
            if body is None or not is_told(body):
                return body
            params = json.loads(body)['params']
            self.told[params['uri']] = params['diagnostics']

    def heard_by_now(self):
        """(URI, diagnostics) of each message that was told since the last answer."""
        self.number += 1
        self.send(request(self.number, 'no/such/method'))
        found = []
        while True:
            body = self.receive()
            if body is None or not is_told(body):
                break
            params = json.loads(body)['params']
            found.append((params['uri'], params['diagnostics']))
        if body is None or json.loads(body).get('id') != self.number:
            raise Fault('answered by %r' % (body if body is None else body[:200]))
        return found

    def reply(self, make, *words):
        """The result or the error of a request, which `make` makes of its number and these words, as a member."""
        self.number += 1
        self.send(make(self.number, *words))
        body = self.answer()
        answer = json.loads(body) if body is not None else None
        if not answer or (answer.pop('jsonrpc'), answer.pop('id', None)) != ('2.0', self.number):
            raise Fault('answered by %r' % (body if body is None else body[:200]))
        return answer

    def ask(self, make, *words):
        """The result of such a request."""
        answer = self.reply(make, *words)
        if 'result' not in answer:
            raise Fault('answered by %r' % answer)
        return answer['result']

    def begin(self, **more):
        """Initializes, and checks what the server says of places."""
        told = self.ask(lambda number: initialize(number, self.units, **more))['capabilities']['positionEncoding']
        if told != self.units:
            raise Fault('places are counted in %s' % told)
        self.send(notification('initialized'))
        return self

    def end(self):
        """The status after `shutdown` and `exit`."""
        self.ask(request, 'shutdown')
        self.send(FAREWELL[1])
        return self.status()

    def status(self):
        """The status once the input is closed, and the end of the output is awaited."""
        self.process.stdin.close()
        if self.receive() is not None:
            raise Fault('a message that was not asked for')
        return self.process.wait(LIMIT)


# --- edits -------------------------------------------------------------------------------------------------------------


class Places:
    """The lines of a text, as the protocol counts them."""

    def __init__(self, text, units):
        self.text, self.units = text, units
        self.ends = [it.span() for it in re.finditer('\r\n|\r|\n', text)] + [(len(text), len(text))]

    def offset(self, place):
        """The offset of a place."""
        line, character = place['line'], place['character']
        if not (type(line) is type(character) is int and 0 <= line < len(self.ends) and character >= 0):
            raise Fault('no such line: %r' % place)
        encoding, size = ENCODINGS[self.units]
        begin = self.ends[line - 1][1] if line else 0
        in_line = self.text[begin : self.ends[line][0]].encode(encoding)
        if character * size > len(in_line):
            raise Fault('past the end of its line: %r' % place)
        try:
            return begin + len(in_line[: character * size].decode(encoding))
        except UnicodeDecodeError:
            raise Fault('within a character: %r' % place) from None

    def near(self, line, character):
        """The offset of a place as servers take it: past the end it is the end, and within a character its front."""
        if line >= len(self.ends):
            return len(self.text)
        encoding, size = ENCODINGS[self.units]
        begin = self.ends[line - 1][1] if line else 0
        in_line = self.text[begin : self.ends[line][0]].encode(encoding)
        return begin + len(in_line[: character * size].decode(encoding, 'ignore'))

    def place(self, offset):
        """The place of an offset."""
        # A CR ends a line, so between it and its LF the next line begins.
        line = sum(start < offset for start, _ in self.ends)
        begin = min(self.ends[line - 1][1], offset) if line else 0
        encoding, size = ENCODINGS[self.units]
        return {'line': line, 'character': len(self.text[begin:offset].encode(encoding)) // size}


def extends(text, before):
    """Whether a character is of the cluster of the one before it. This is all of the rules that the tests need."""
    joins = unicodedata.category(text) in ('Mn', 'Me', 'Mc') or text == '\u200d'
    return joins and unicodedata.category(before) not in ('Cc', 'Zl', 'Zp')


def clusters(line):
    """The extended grapheme clusters of a line."""
    found = []
    for before, character in zip(' ' + line, line):
        if found and extends(character, before):
            found[-1] += character
        else:
            found.append(character)
    return found


def diagnostics(text, fault, units):
    """The diagnostics of a text with this fault: its line, its column and its message. At the text's front nothing is marked
    if no token stands there."""
    if fault is None:
        return []
    line, column, message = fault
    before = text.split('\n')[: line - 1]
    front = sum(map(len, before)) + len(before)
    each = clusters(text.split('\n')[line - 1])
    begin = front + len(''.join(each[: column - 1]))
    end = begin if message in AT_FRONT else front + len(''.join(each[:column]))
    places = Places(text, units)
    marked = {'start': places.place(begin), 'end': places.place(end)}
    return [{'range': marked, 'severity': 1, 'source': 'tfls', 'message': message}]


def replaced(text, edits, units):
    """Each edit as the two offsets between which it replaces, and the new text. They are in order and disjoint, and each
    changes something."""
    places, found, last = Places(text, units), [], 0
    for edit in edits:
        begin, end = places.offset(edit['range']['start']), places.offset(edit['range']['end'])
        if not last <= begin <= end:
            raise Fault('an edit of %d to %d, after one that ends at %d' % (begin, end, last))
        if text[begin:end] == edit['newText']:
            raise Fault('an edit that changes nothing: %r' % edit)
        found.append((begin, end, edit['newText']))
        last = end
    return found


def applied(text, changes):
    """The text after changes."""
    made, last = [], 0
    for begin, end, new in changes:
        made += [text[last:begin], new]
        last = end
    return ''.join(made + [text[last:]])


def text_after(text, edits, units):
    """The text after edits in any order."""
    in_order = sorted(edits, key=lambda it: (it['range']['start']['line'], it['range']['start']['character']))
    return applied(text, replaced(text, in_order, units))


def documents_in(change):
    """(URI, version, edits) of each document in the change of a workspace. Without versions all are null."""
    if 'documentChanges' in change:
        each = change['documentChanges']
        return [(it['textDocument']['uri'], it['textDocument']['version'], it['edits']) for it in each]
    return [(uri, None, edits) for uri, edits in change['changes'].items()]


def by_runs(text, printed):
    """The changes that make a text its format: one for each run of lines, ended by LF, that differ. The lines that one of
    them has more than the other are the end of the last run."""
    old, new = re.findall('[^\n]*\n|[^\n]+', text), re.findall('[^\n]*\n|[^\n]+', printed)
    found, at, is_open = [], 0, False
    for before, after in itertools.zip_longest(old, new, fillvalue=''):
        end = at + len(before)
        if before != after and is_open:
            found[-1] = found[-1][0], end, found[-1][2] + after
        elif before != after:
            found.append((at, end, after))
        at, is_open = end, before != after
    return found


def wrong_in(text, printed, edits, units):
    """What is wrong with the edits that a text is answered by, or None. `printed` is what tffmt prints, or None if it
    refuses the text."""
    try:
        changes = replaced(text, edits, units)
        if applied(text, changes) != (text if printed is None else printed):
            return 'the edits make another text than tffmt prints'
        if changes != ([] if printed is None else by_runs(text, printed)):
            return 'the edits are not those of the runs of lines that differ: %r' % changes[:3]
    except (Fault, KeyError, TypeError) as fault:
        return str(fault) if isinstance(fault, Fault) else 'no edits: %r' % edits[:3]
    return None
