"""Cuts HCL text into tokens, for tests that compare the tokens of two texts.

It follows docs/DEFINITIONS.md and shares nothing with the programs. Each token is a pair (kind, text); blanks between
tokens of expressions are left out, except inside heredocs, where they are tokens of kind `blank`.
"""

import re

MARKS = sorted('... => :: && || == != <= >= ( [ { ) ] . , ? : = ! - + * / % < >'.split(), key=len, reverse=True)
NUMBER = re.compile(r'[0-9]+(\.[0-9]+)?([eE][+-]?[0-9]+)?')
DIGITS = re.compile(r'[0-9]+')
ESCAPE = re.compile(r'\\([nrt"\\]|u[0-9a-fA-F]{4}|U[0-9a-fA-F]{8})')
OPENERS = {'(': 'paren', '[': 'bracket', '{': 'brace'}
CLOSERS = {')': 'paren', ']': 'bracket'}


class Refused(Exception):
    """The text has no tokens."""


def identifier(text, at):
    """The end of the identifier that begins at a place, or the place."""
    end = at
    while end < len(text) and (
        text[end].isidentifier() if end == at else text[end] == '-' or ('a' + text[end]).isidentifier()
    ):
        end += 1
    return end


def newline(text, at):
    """The end of the newline at a place, or the place itself."""
    return at + 1 if text.startswith('\n', at) else at + 2 if text.startswith('\r\n', at) else at


def lines(text, at):
    """(begin, end) of each line from a place on, ended by LF or CR LF; the last has no newline."""
    while True:
        lf = text.find('\n', at)
        if lf < 0:
            yield at, len(text)
            return
        yield at, lf - 1 if text[at:lf].endswith('\r') else lf
        at = lf + 1


class Scanner:
    def __init__(self, text):
        self.text, self.at, self.found = text, 0, []
        self.open = []  # what is open, the innermost last
        self.hidden = []  # for each open heredoc the offset of its marker line, and its marker

    def seen(self):
        return self.hidden[-1][0] if self.hidden else len(self.text)

    def take(self, kind, end):
        if end > self.seen():
            raise Refused('%s past what is seen' % kind)
        self.found.append((kind, self.text[self.at : end]))
        self.at = end

    def all(self):
        while self.at < self.seen() or self.hidden:
            if self.at == self.seen():
                self.close_heredoc()
            elif self.open and self.open[-1] in ('quote', 'heredoc'):
                self.template(self.open[-1] == 'quote')
            else:
                self.expression()
        if any(it in ('quote', 'sequence') for it in self.open):
            raise Refused('the text ends too early')
        return self.found

    def close_heredoc(self):
        if self.open[-1] != 'heredoc':
            raise Refused('a heredoc ends inside what it opened')
        at, marker = self.hidden.pop()
        self.open.pop()
        end = self.text.index(marker, at) + len(marker)
        self.take('heredoc close', end)

    # ---- templates

    def template(self, quoted):
        text, at = self.text, self.at
        if text[at : at + 2] in ('${', '%{') and self.seen() > at + 1:
            self.open.append('sequence')
            self.take('sequence open', at + (3 if text.startswith('~', at + 2) and self.seen() > at + 2 else 2))
        elif quoted and text[at] == '"':
            self.open.pop()
            self.take('quote close', at + 1)
        else:
            self.literal(quoted)

    def literal(self, quoted):
        text, at, seen = self.text[: self.seen()], self.at, self.seen()
        while at < seen:
            if text[at : at + 3] in ('$${', '%%{'):
                at += 3
            elif text[at] in '$%':
                if text[at + 1 : at + 2] == '{':
                    break
                at += 1
            elif quoted and text[at] == '\\':
                escape = ESCAPE.match(text, at)
                if not escape:
                    break
                at = escape.end()
            elif quoted and (text[at] in '"\n' or text[at : at + 2] == '\r\n'):
                break
            else:
                at += 1
        if at == self.at:
            raise Refused('no literal text')
        self.take('literal', at)

    # ---- expressions

    def expression(self):
        text, at = self.text[: self.seen()], self.at
        blanks = at
        while blanks < len(text) and text[blanks] in ' \t':
            blanks += 1
        if blanks > at:
            if self.hidden:
                self.take('blank', blanks)
            else:
                self.at = blanks
            return
        end = newline(text, at)
        if end > at:
            return self.take('newline', end)
        if text[at] == '#' or text.startswith('//', at):
            lf = text.find('\n', at)
            return self.take('line comment', len(text) if lf < 0 else lf)
        if text.startswith('/*', at):
            star = text.find('*/', at + 2)
            if star < 0:
                raise Refused('a comment without its end')
            return self.take('comment', star + 2)
        end = identifier(text, at)
        if end > at:
            return self.take('identifier', end)
        number = (DIGITS if self.found and self.found[-1][1] == '.' else NUMBER).match(text, at)
        if number and text[at] in '0123456789':
            return self.take('number', number.end())
        if text.startswith('<<', at) and self.heredoc(text):
            return None
        if text[at] == '"':
            self.open.append('quote')
            return self.take('quote open', at + 1)
        if text[at] == '}' or text.startswith('~}', at):
            return self.closing_brace(text)
        for mark in MARKS:
            if text.startswith(mark, at):
                return self.mark(mark)
        raise Refused('no token begins with %r' % text[at])

    def heredoc(self, text):
        """Takes the opener of a heredoc, if there is one here."""
        begin = self.at + (3 if text.startswith('-', self.at + 2) else 2)
        end = identifier(text, begin)
        after = newline(text, end)
        if end == begin or after == end:
            return False
        marker = text[begin:end]
        for first, last in lines(text, after):
            if text[first:last].strip(' \t') == marker:
                self.take('heredoc open', after)
                self.open.append('heredoc')
                self.hidden.append((first, marker))
                return True
        raise Refused('a heredoc without its marker line')

    def closing_brace(self, text):
        groups = len(self.open)
        while groups and self.open[groups - 1] in ('paren', 'bracket'):
            groups -= 1
        if groups and self.open[groups - 1] == 'sequence':
            del self.open[groups - 1 :]
            return self.take('sequence close', self.at + (1 if text[self.at] == '}' else 2))
        if text[self.at] == '~':
            raise Refused('no sequence is open')
        del self.open[groups:]
        if self.open and self.open[-1] == 'brace':
            self.open.pop()
        return self.take('mark', self.at + 1)

    def mark(self, mark):
        if mark in OPENERS:
            self.open.append(OPENERS[mark])
        elif mark in CLOSERS and self.open and self.open[-1] == CLOSERS[mark]:
            self.open.pop()
        return self.take('mark', self.at + len(mark))


def tokens(text):
    """The tokens of a text; Refused if it has none."""
    return Scanner(text).all()
