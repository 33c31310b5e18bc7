"""Makes random files of ordinary Terraform, on which tffmt and `terraform fmt` must agree, and spoils their blanks.

A file has none of the cases in docs/TERRAFORM-FMT.md: no comment spans several lines, no sign follows `=>` or opens a
sequence, no index follows a quote or a number, a heredoc has sequences of one line.
"""

from maker import BINARY, ESCAPES, JOINING, WORD, Maker
from tokens import tokens

NAMES = 'a b count x-y _z in2 for2 tags name machine_type subnetwork environment'.split()
NUMBERS = '0 1 42 1.5 1000'.split()
LITERALS = ('x', ' , ', '-', ' . ', '$$${a} ', '%%{b}', ' $ x ', 'é', '= !')


class Ordinary(Maker):
    """Makes one file of ordinary Terraform."""

    def __init__(self, chance):
        super().__init__(chance)
        self.newlines = (chance.choice(('\n', '\n', '\n', '\r\n')),)
        self.attributes = 0

    def trivia(self, newlines):
        """Comments, and newlines where they don't count."""
        if newlines and self.rarely():
            if self.rarely():
                self.put(self.chance.choice(('# c', '// c')))
            self.join(self.newline())

    # ---- expressions

    def expression(self, newlines=False):
        self.depth += 1
        self.operand(newlines)
        for _ in range(self.chance.choice((0, 0, 0, 1, 1, 2)) if self.depth < 4 else 0):
            if self.rarely():
                self.put('?')
                self.expression(newlines)
                self.put(':')
                self.expression(newlines)
            else:
                self.put(self.chance.choice(BINARY))
                self.operand(newlines)
        self.depth -= 1

    def operand(self, newlines):
        kinds = [self.name, self.name, self.reference, self.number]
        if self.depth < 4:
            kinds += [self.call, self.paren, self.signed, self.tuple, self.object, self.quote]
        self.chance.choice(kinds)()

    def name(self):
        self.put(self.chance.choice(NAMES))

    def number(self):
        self.put(self.chance.choice(NUMBERS))

    def reference(self):
        """A name with steps from it; at most one of them is a splat or a number after a dot."""
        self.name()
        may_splat = True
        for _ in range(self.chance.choice((1, 1, 2, 3))):
            kind = self.chance.choice(('name', 'name', 'index', 'splat' if may_splat else 'name'))
            if kind == 'index':
                self.put('[')
                self.chance.choice((self.number, self.name, self.quote))()
                self.put(']')
            else:
                self.put('.')
                self.put('*' if kind == 'splat' else self.chance.choice(NAMES))
            may_splat = may_splat and kind != 'splat'

    def signed(self):
        self.put('(')
        self.put(self.chance.choice('-!'))
        self.name()
        self.put(')')

    def call(self):
        self.name()
        self.group('(', ')', lambda: self.expression(True), self.chance.choice(('', '', ',', '...')))

    def object(self):
        if self.rarely():
            self.loop('{', True)
            self.put('=>')
            self.reference()
            self.put('}')
            return
        self.put('{')
        count = self.chance.choice((0, 1, 1, 2, 3))
        is_long = count and self.chance.random() < 0.7
        if is_long:
            self.join(self.newline())
        for number in range(count):
            self.chance.choice((self.name, self.name, self.quote, self.paren))()
            self.put(self.chance.choice('==:'))
            self.expression()
            if is_long:
                self.put(',') if self.rarely() else None
                self.put('# c') if self.rarely() else None
                self.join(self.newline())
            elif number + 1 < count:
                self.put(',')
        self.put('}')

    # ---- templates

    def quote(self):
        self.put('"')
        self.parts(lambda: self.join(self.chance.choice(LITERALS + ESCAPES)))
        self.join('"')

    def sequence(self, sign, inner):
        """A sequence whose expression has no newline."""
        self.depth += 2
        self.join(sign + '{' + self.chance.choice(('', '', '~')))
        self.touching = True
        inner()
        self.put(self.chance.choice(('}', '}', '~}')))
        self.depth -= 2

    def parts(self, literal):
        for _ in range(self.chance.choice((0, 1, 1, 2, 3)) if self.depth < 4 else 1):
            if self.chance.random() < 0.6 or self.depth >= 4:
                literal()
                if self.text[-1:] in '$%':
                    self.join(' ')
            elif self.rarely():
                self.sequence('%', lambda: (self.put('if'), self.name()))
                literal()
                self.join(' ')
                self.sequence('%', lambda: self.put('endif'))
            else:
                self.sequence('$', self.reference)

    def heredoc(self):
        marker = 'EOT%d' % self.text.count('<<')
        self.put('<<' + self.chance.choice(('', '-')) + marker)
        self.join(self.newline())
        for _ in range(self.chance.choice((0, 1, 2, 3))):
            self.parts(lambda: self.join(self.chance.choice(LITERALS + ('"', '\t  ', '  # x'))))
            self.join(self.newline())
        self.join(self.chance.choice(('', '  ')) + marker + self.newline())

    # ---- bodies

    def line_end(self):
        if self.rarely():
            self.put(self.chance.choice(('# c', '// c', '#', '/* c */')))
        self.join(self.newline())
        self.touching = False

    def attribute(self):
        self.attributes += 1
        self.put('%s%d' % (self.chance.choice(NAMES), self.attributes))
        self.put('=')
        if self.chance.random() < 0.1:
            self.heredoc()
            return
        self.expression()
        self.line_end()

    def file(self):
        self.body(0)
        self.body(0)
        return self.text


def spoiled(text, chance):
    """These tokens with other blanks between them, as far as blanks may change."""
    made, at, last, heredocs, is_first = [], 0, '', 0, True
    for kind, piece in tokens(text):
        begin = text.index(piece, at) if piece else at
        kept = heredocs or kind in ('literal', 'quote close', 'newline', 'heredoc close') or last in CLOSED
        kept = kept or kind == 'sequence open'
        made.append(text[at:begin] if kept else gap(made, piece, is_first, chance))
        made.append(piece)
        at, last, is_first = begin + len(piece), kind, kind == 'newline' or kind == 'heredoc close'
        heredocs += (kind == 'heredoc open') - (kind == 'heredoc close')
    return ''.join(made) + text[at:]


# After these no blank may come, or it would be a part of the text.
CLOSED = ('literal', 'quote open', 'sequence close', 'heredoc open', 'heredoc close')


def gap(made, piece, is_first, chance):
    """Some blanks before a piece, and at least one if it would be read as one with the piece before it."""
    last = next((it[-1] for it in reversed(made) if it), '')
    parted = (
        (last in WORD or last > '\x7f')
        and (piece[0] in WORD or piece[0] > '\x7f')
        or last in JOINING
        and piece[0] in JOINING
        or last.isdigit()
        and piece[0] == '.'
        or last in '{~'
        and piece[0] == '~'
    )
    least = 1 if last and parted and not is_first else 0
    return ' ' * max(least, chance.choice((0, 0, 1, 1, 2, 5))) if chance.random() < 0.9 else '\t' * max(least, 1)
