"""Texts that are made with their symbols and folds, which a language server must tell."""

import protocol

WORDS = ('a', 'count', 'é', 'x-y', 'resource', 'b2', '日本')
LABELS = ('web', '"aws_instance"', '"a b"', '""', '"\U0001F600 é"', 'x')
# Values, each with how many bytes its last token has.
VALUES = (
    ('1', 1),
    ('"\U0001F600 x"', 1),
    ('[\n 1,\n 2\n]', 1),
    ('{\n}', 1),
    ('f(a)', 1),
    ('{ a = 1 }', 1),
    ('(\n\n\n 2)', 1),
)
TRIVIA = ('', '', '', '\n', '# \U0001F600\n', '// x\r\n', '/* a\r\n b */\n', '\r\n', '# a\rb\n')
BLOCK, ATTRIBUTE = 5, 7


class Outline:
    """A text with its symbols, as (name, kind, first offset, last offset, end of the first word, offset at which the last
    token begins, children)."""

    def __init__(self, chance):
        self.chance, self.text = chance, ''
        self.symbols = self.body(0)

    def put(self, text):
        begin = len(self.text)
        self.text += text
        return begin

    def body(self, depth):
        found = []
        for _ in range(self.chance.randrange(5)):
            self.put(self.chance.choice(TRIVIA) + ' ' * self.chance.randrange(3))
            is_block = depth < 6 and self.chance.random() < 0.5
            found.append(self.block(depth) if is_block else self.attribute())
            self.put(self.chance.choice((' # c\n', '\n', '\r\n', ' /* x */\n')))
        return found

    def attribute(self):
        name = self.chance.choice(WORDS)
        begin = self.put(name)
        self.put(self.chance.choice((' = ', '=', '  =\t')))
        value, last = self.chance.choice(VALUES)
        self.put(value)
        return name, ATTRIBUTE, begin, len(self.text), begin + len(name), len(self.text) - last, []

    def block(self, depth):
        kind = self.chance.choice(WORDS)
        begin, name = self.put(kind), kind
        for _ in range(self.chance.randrange(4)):
            label = self.chance.choice(LABELS)
            self.put(' ' + label)
            name += ' "%s"' % label.strip('"')
        self.put(' {' + self.chance.choice(('\n', ' # x\n', '\r\n')))
        children = self.body(depth + 1)
        last = self.put('}')
        return name, BLOCK, begin, len(self.text), begin + len(kind), last, children

    def symbols_in(self, units):
        """The value of the symbols."""
        places = protocol.Places(self.text, units)

        def value(symbol):
            name, kind, begin, end, word, _, children = symbol
            start = places.place(begin)
            return {
                'name': name,
                'kind': kind,
                'range': {'start': start, 'end': places.place(end)},
                'selectionRange': {'start': start, 'end': places.place(word)},
                'children': [value(it) for it in children],
            }

        return [value(it) for it in self.symbols]

    def folds(self):
        """The value of the folds."""
        places = protocol.Places(self.text, 'utf-8')

        def values(symbols):
            for _, _, begin, _, _, last, children in symbols:
                first, line = places.place(begin)['line'], places.place(last)['line']
                if first + 1 < line:
                    yield {'startLine': first, 'endLine': line - 1}
                yield from values(children)

        return list(values(self.symbols))
