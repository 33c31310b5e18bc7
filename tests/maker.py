"""Makes random files of HCL, for tests that run the programs on many of them.

A file has all constructs of the language, with random blanks: blocks, groups, templates with directives, heredocs in
templates in heredocs, comments, LF and CR LF. It is accepted.
"""

WORD = 'abcdefghijklmnopqrstuvwxyzABCDEFGHIJKLMNOPQRSTUVWXYZ0123456789_-'
# Marks that a blank separates here, so that two of them are not read as one.
JOINING = '.<>=!&|/*~-'
NAMES = 'a b count x-y _z é Ω4 日本 in for2 tags name e5 E'.split()
NUMBERS = '0 1 42 1.5 1e5 2E-3 3.25e+10'.split()
BINARY = '+ - * / % && || == != < > <= >='.split()
LITERALS = ('x', ' , ', '-', ' . ', '$$${a} ', '%%{b}', '$', '%', ' $ x ', 'é\u0301', '= !')
ESCAPES = (r'\n', r'\t', r'\"', '\\\\', r'\u00e9', r'\U0001F600')


class Maker:
    """Makes one file, piece by piece; `put` chooses the blanks."""

    def __init__(self, chance):
        self.chance, self.text, self.touching, self.heredocs = chance, '', True, 0
        self.newlines = chance.choice((('\n',), ('\r\n',), ('\n', '\r\n')))
        self.depth = 0

    def newline(self):
        return self.chance.choice(self.newlines)

    def blanks(self, least):
        return ''.join(self.chance.choice('  \t') for _ in range(max(least, self.chance.choice((0, 0, 1, 1, 2, 5)))))

    def put(self, piece):
        """A token of an expression, with some blanks before it."""
        last = self.text[-1:]
        parted = (
            (last in WORD or last > '\x7f')
            and (piece[0] in WORD or piece[0] > '\x7f')
            or last in JOINING
            and piece[0] in JOINING
            or last.isdigit()
            and piece[0] == '.'
            or last == '{'
            and piece[0] == '~'
        )
        self.text += ('' if self.touching else self.blanks(1 if last and parted else 0)) + piece
        self.touching = False

    def join(self, piece):
        """A piece that goes on the text without a blank."""
        self.text += piece

    def rarely(self):
        return self.chance.random() < 0.15

    def trivia(self, newlines):
        """Comments, and newlines where they don't count."""
        if self.rarely():
            self.put(self.chance.choice(('/* c */', '/**/', '/* c' + self.newline() + ' d */')))
        if newlines and self.rarely():
            if self.rarely():
                self.put(self.chance.choice(('# c', '//c ')))
            self.join(self.newline())

    # ---- expressions

    def expression(self, newlines=False):
        self.depth += 1
        while self.rarely():
            self.put(self.chance.choice('-!'))
        self.operand(newlines)
        for _ in range(self.chance.choice((0, 0, 0, 1, 1, 2)) if self.depth < 5 else 0):
            self.trivia(newlines)
            if self.rarely():
                self.put('?')
                self.expression(newlines)
                self.put(':')
                self.expression(newlines)
            else:
                self.put(self.chance.choice(BINARY))
                while self.rarely():
                    self.put(self.chance.choice('-!'))
                self.operand(newlines)
        self.depth -= 1

    def operand(self, newlines):
        kinds = [self.name, self.number] + (
            [self.call, self.paren, self.tuple, self.object, self.quote, self.heredoc] if self.depth < 5 else []
        )
        kind = self.chance.choice(kinds)
        if kind == self.heredoc and not newlines:
            kind = self.quote
        kind()
        if kind != self.heredoc:
            self.steps()

    def name(self):
        self.put(self.chance.choice(NAMES))

    def number(self):
        self.put(self.chance.choice(NUMBERS))

    def steps(self):
        while self.rarely():
            step = self.chance.choice(('name', 'number', 'splat', 'index', 'full splat'))
            if step in ('name', 'number', 'splat'):
                self.put('.')
                self.touching = self.heredocs > 0
                self.put(
                    {'name': self.chance.choice(NAMES), 'number': self.chance.choice('0 1 25'.split()), 'splat': '*'}[
                        step
                    ]
                )
                self.touching = False
            else:
                self.put('[')
                if step == 'full splat':
                    self.put('*')
                else:
                    self.expression(True)
                self.put(']')

    def call(self):
        self.name()
        while self.rarely():
            self.put('::')
            self.name()
        self.group('(', ')', lambda: self.expression(True), self.chance.choice(('', '', ',', '...')))

    def paren(self):
        self.put('(')
        self.expression(True)
        self.put(')')

    def tuple(self):
        if self.rarely():
            self.loop('[', True)
            if self.rarely():
                self.put('if')
                self.expression(True)
            self.put(']')
        else:
            self.group('[', ']', lambda: self.expression(True), self.chance.choice(('', ',')))

    def loop(self, opener, newlines):
        self.put(opener)
        self.put('for')
        self.put(self.chance.choice(('k', 'v')))
        if self.rarely():
            self.put(',')
            self.put('v')
        self.put('in')
        self.expression(newlines)
        self.put(':')
        self.expression(newlines)

    def group(self, opener, closer, item, last):
        self.put(opener)
        items = self.chance.choice((0, 1, 1, 2, 3))
        for number in range(items):
            self.trivia(True)
            item()
            self.trivia(True)
            if number + 1 < items:
                self.put(',')
        if items and last:
            self.put(last)
        self.trivia(True)
        self.put(closer)

    def object(self):
        if self.rarely():
            self.loop('{', True)
            self.put('=>')
            self.expression(True)
            if self.rarely():
                self.put('...')
            self.put('}')
            return
        self.put('{')
        for _ in range(self.chance.choice((0, 1, 1, 2, 3))):
            if self.rarely():
                self.join(self.newline())
            self.chance.choice((self.name, self.number, self.quote, self.paren))()
            self.put(self.chance.choice('=:'))
            self.expression()
            if self.rarely():
                self.put('# c')
                self.join(self.newline())
            elif self.rarely():
                self.put(',')
                self.join(self.newline())
            else:
                self.chance.choice((lambda: self.put(','), lambda: self.join(self.newline())))()
        self.put('}')

    # ---- templates

    def quote(self):
        self.put('"')
        self.parts(lambda: self.join(self.chance.choice(LITERALS + ESCAPES)))
        self.join('"')

    def heredoc(self):
        """A heredoc with a marker of its own; the newline after it means nothing to the callers."""
        marker = 'E%d' % self.text.count('<<')
        self.put('<<' + self.chance.choice(('', '-')) + marker + self.newline())
        self.heredocs += 1
        for _ in range(self.chance.choice((0, 1, 2, 3))):
            self.parts(lambda: self.join(self.chance.choice(LITERALS + ('"', '\\q', '\t  ', '  # x', self.newline()))))
            self.join(self.newline())
        self.heredocs -= 1
        self.join(self.chance.choice(('', '  ', '\t')) + marker + self.chance.choice(('', ' ', '\t ')) + self.newline())

    def parts(self, literal):
        for _ in range(self.chance.choice((0, 1, 1, 2, 3)) if self.depth < 5 else 1):
            part = self.chance.choice(('literal', 'literal', 'interpolation', 'if', 'for'))
            if part == 'literal' or self.depth >= 5:
                # A sign before `{` is an escape of it, so none may end here.
                literal()
                if self.text[-1:] in '$%':
                    self.join(' ')
            elif part == 'interpolation':
                self.sequence('$', lambda: self.expression(True))
            else:
                self.directive(part, literal)

    def sequence(self, sign, inner):
        self.depth += 1
        self.join(sign + '{' + self.chance.choice(('', '', '~')))
        inner()
        if self.text[-1:] == '~':
            self.join(' ')
        self.put(self.chance.choice(('}', '}', '~}')))
        self.depth -= 1

    def directive(self, word, literal):
        def begin():
            self.put(word)
            if word == 'for':
                self.put('k')
                self.put('in')
            self.expression(True)

        self.sequence('%', begin)
        self.parts(literal)
        if word == 'if' and self.rarely():
            self.sequence('%', lambda: self.put('else'))
            self.parts(literal)
        self.sequence('%', lambda: self.put('end' + word))

    # ---- bodies

    def line_end(self):
        if self.rarely():
            self.put('/* c */')
        if self.rarely():
            self.put(self.chance.choice(('# c', '// c  ', '#')))
        self.join(self.newline())
        self.touching = False

    def attribute(self):
        self.name()
        self.put('=')
        self.trivia(False)
        if self.chance.random() < 0.1:
            self.heredoc()
            return
        self.expression()
        self.line_end()

    def block(self, depth):
        self.name()
        for _ in range(self.chance.choice((0, 1, 2))):
            if self.rarely():
                self.name()
            else:
                self.put('"')
                self.join(self.chance.choice(('', 'l', 'a-b')) + '"')
        self.put('{')
        if self.chance.random() < 0.2:
            if self.rarely():
                self.name()
                self.put('=')
                self.expression()
            self.put('}')
        else:
            self.line_end()
            self.body(depth + 1)
            self.put('}')
        self.line_end()

    def body(self, depth):
        for _ in range(self.chance.choice((1, 2, 3, 4, 6))):
            choice = self.chance.random()
            if choice < 0.1:
                self.join(self.blanks(0) + self.newline())
            elif choice < 0.2:
                self.put(self.chance.choice(('# c', '//', '/* c */')))
                self.join(self.newline())
            elif choice < 0.35 and depth < 3:
                self.block(depth)
            else:
                self.attribute()

    def file(self):
        self.body(0)
        self.body(0)
        return self.text.rstrip('\r\n') if self.rarely() and '<<' not in self.text else self.text
