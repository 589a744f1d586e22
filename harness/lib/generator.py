"""Random collections of documents, made from a seed: text and cards are written side by side, so that the cards need no reader."""
import os
import sys

from lib import folders
from lib.cards import CARD, Card, cards_of, in_bytes, words_of
from lib.sizes import CARDS, DOCUMENTS, NONE, TEXT
from loader import INTROSPECTION

MODES = ('small', 'large', 'turns', 'damaged', 'mixed')
WORD = set(b'ABCDEFGHIJKLMNOPQRSTUVWXYZabcdefghijklmnopqrstuvwxyz_0123456789')
KEYWORD = {5: 'scalar', 6: 'type', 7: 'interface', 8: 'union', 9: 'enum', 10: 'input'}
ROOT = {26: 'query', 27: 'mutation', 28: 'subscription'}
MAIN = {6: 22, 7: 22, 8: 23, 9: 24, 10: 25}
ROOT_NAMES = ['Query', 'Mutation', 'Subscription']
META = ['__typename', '__schema', '__type']


class Draws:
    """Draws from a number: splitmix64, so that a seed means the same everywhere."""

    def __init__(self, *seeds):
        self.state = 0
        for seed in seeds:
            self.state = (self.state ^ seed) & (2 ** 64 - 1)
            self.state = self.next()

    def next(self):
        self.state = (self.state + 0x9E3779B97F4A7C15) & (2 ** 64 - 1)
        z = self.state
        z = ((z ^ (z >> 30)) * 0xBF58476D1CE4E5B9) & (2 ** 64 - 1)
        z = ((z ^ (z >> 27)) * 0x94D049BB133111EB) & (2 ** 64 - 1)
        return z ^ (z >> 31)

    def below(self, count):
        return self.next() % count

    def between(self, least, most):
        return least + self.below(most - least + 1)

    def one_in(self, count):
        return self.below(count) == 0

    def pick(self, items):
        return items[self.below(len(items))]


class Writer:
    """A document being written: its text, and its cards as the tokens go by."""

    def __init__(self, draws, is_plain):
        self.draws, self.is_plain = draws, is_plain
        self.text, self.cards = bytearray(), []

    def token(self, word):
        word = word.encode()
        if not self.is_plain and self.draws.one_in(3):
            self.text += self.draws.pick([b' ', b'\n', b', ', b'\t', b'  ', b'\r\n', b' # note {"\n', b' ,,\n', b'#\xc3\xa9\n'])
        elif self.text and self.text[-1] in WORD and word[0] in WORD:
            self.text += b' '
        elif self.text and self.text[-1:] == b'"' and word[:1] == b'"':
            self.text += b' '
        start = len(self.text)
        self.text += word
        return start, len(self.text)

    def tokens(self, *words):
        spans = [self.token(word) for word in words]
        return spans[0][0], spans[-1][1]

    def card(self, kind, start, name, place=None):
        span = (name[0], name[1] - name[0]) if name else (0, 0)
        card = Card(kind, start, len(self.text) - start, *span)
        self.cards.insert(len(self.cards) if place is None else place, card)

    def sometimes(self, count):
        return not self.is_plain and self.draws.one_in(count)

    # Pieces that no card tells about

    def description(self):
        """Where the item begins, or None."""
        if not self.sometimes(5):
            return None
        return self.token(self.draws.pick(['"a"', '""', '"""b "c" \\""" {"""', '"\\" }"', '"\\u00e9 é"']))[0]

    def type(self):
        depth = self.draws.below(3) if self.sometimes(3) else 0
        for _ in range(depth):
            self.token('[')
        self.token(self.draws.pick(['Int', 'A', 'T1']))
        for _ in range(depth):
            if self.sometimes(2):
                self.token('!')
            self.token(']')
        if self.sometimes(3):
            self.token('!')

    def value(self, depth=0):
        simple = ['1', '-2.5e+3', 'true', 'null', 'RED', '"x)"', '"""y"""']
        shape = self.draws.below(5 if depth < 3 else 3)
        if shape < 3:
            self.token(self.draws.pick(simple))
        elif shape == 3:
            self.token('[')
            for _ in range(self.draws.below(3)):
                self.value(depth + 1)
            self.token(']')
        else:
            self.token('{')
            for _ in range(self.draws.below(3)):
                self.tokens('k', ':')
                self.value(depth + 1)
            self.token('}')

    def values(self):
        if self.sometimes(4):
            self.token('(')
            for _ in range(self.draws.between(1, 2)):
                self.tokens('k', ':')
                self.value()
            self.token(')')

    def inner_directives(self):
        while self.sometimes(5):
            self.tokens('@', 'd')
            self.values()

    def input_value(self, name):
        span = self.token(name)
        self.token(':')
        self.type()
        if self.sometimes(4):
            self.token('=')
            self.value()
        self.inner_directives()
        return span

    def arguments(self):
        if self.sometimes(4):
            self.token('(')
            for name in ['k', 'l'][:self.draws.between(1, 2)]:
                self.description()
                self.input_value(name)
            self.token(')')

    # Definitions

    def heading(self, kind, name, parts):
        place = len(self.cards)
        described = self.description() if 3 <= kind <= 10 else None
        if kind <= 2:
            return self.executable(kind, name)
        if kind == 3:
            return self.directive(name, described)
        begin, _ = self.token('extend') if kind >= 11 else (None, None)
        base = kind - 7 if kind >= 11 else kind
        word, _ = self.token('schema' if base == 4 else KEYWORD[base])
        span = None if base == 4 else self.token(name)
        start = next(at for at in (described, begin, word) if at is not None)
        self.parts(base, parts)
        self.card(kind, start, span, place)

    def parts(self, base, parts):
        of = lambda *kinds: [part for part in parts if part[0] in kinds]
        if of(21):
            self.token('implements')
            self.joined('&', of(21))
        for _, name in of(20):
            start, _ = self.token('@')
            span = self.token(name)
            self.values()
            self.card(20, start, span)
        if of(23):
            self.token('=')
            self.joined('|', of(23))
        listed = of(22, 24, 25, 26, 27, 28)
        if listed:
            self.token('{')
            for kind, name in listed:
                self.part(kind, name)
            self.token('}')

    def joined(self, mark, parts):
        for number, (kind, name) in enumerate(parts):
            if number or self.sometimes(3):
                self.token(mark)
            start, end = self.token(name)
            self.card(kind, start, (start, end))

    def part(self, kind, name):
        if kind in ROOT:
            start, _ = self.tokens(ROOT[kind], ':')
            span = self.token(name)
            return self.card(kind, start, span)
        described = self.description()
        if kind == 25:
            span = self.input_value(name)
        else:
            span = self.token(name)
            if kind == 22:
                self.arguments()
                self.token(':')
                self.type()
            self.inner_directives()
        self.card(kind, span[0] if described is None else described, span)

    def directive(self, name, described):
        start, _ = self.tokens('directive', '@')
        span = self.token(name)
        self.arguments()
        if self.sometimes(4):
            self.token('repeatable')
        self.token('on')
        if self.sometimes(4):
            self.token('|')
        self.token('FIELD')
        if self.sometimes(3):
            self.tokens('|', 'ENUM_VALUE')
        self.card(3, start if described is None else described, span)

    def executable(self, kind, name):
        start, span = None, None
        if kind == 2:
            start, _ = self.token('fragment')
            span = self.token(name)
            self.tokens('on', 'A')
        elif name or not self.text.endswith(b'}'):
            # Braces alone would belong to a heading before them that has none.
            start, _ = self.token(self.draws.pick(list(ROOT.values())))
            span = self.token(name) if name else None
            if self.sometimes(3):
                self.tokens('(', '$', 'k', ':', 'A', '=', '{', 'k', ':', '"}"', '}', ')')
        first, _ = self.tokens('{', 'a')
        if self.sometimes(3):
            self.tokens('(', 'k', ':', '{', '}', ')', '{', 'b', '}')
        self.token('}')
        self.card(kind, first if start is None else start, span)


class Collection:
    """What a case is made of: names to draw from, and the documents."""

    def __init__(self, draws, is_large):
        self.draws, self.is_large = draws, is_large
        self.is_grammatical = not draws.one_in(4)
        # Without schema definitions there may be default roots, and schema extensions that meet none.
        self.schema_kinds = draws.pick([[], [11], [11], [4, 11], [4, 11], [4]])
        self.documents = []
        self.listed = []
        if is_large:
            self.types = [f'T{number}' for number in range(draws.pick([20, 100, 400]))] + ROOT_NAMES
            self.fields = [f'f{number}' for number in range(draws.pick([10, 60]))] + META
            self.directives = [f'd{number}' for number in range(20)]
        else:
            names = ['A', 'B', 'C', 'D'] + ROOT_NAMES + ['Query', 'Int', 'String', 'AB']
            self.types = [draws.pick(names) for _ in range(draws.between(1, 6))]
            self.fields = ['a', 'b', 'c', 'aa', draws.pick(META)][:draws.between(1, 5)]
            self.directives = ['d', 'e', 'dd'][:draws.between(1, 3)]
        self.kinds = {name: draws.between(5, 10) for name in self.types}
        for name in ROOT_NAMES:
            if not draws.one_in(3):
                self.kinds[name] = 6

    def cards(self):
        return sum(len(document.cards) for document in self.documents)

    def text(self):
        return sum(len(document.text) for document in self.documents)

    # Document 0

    def built_in(self):
        writer = Writer(self.draws, self.is_large or self.draws.one_in(2))
        self.documents.append(writer)
        style = self.draws.below(6)
        if style == 0:
            writer.text += folders.read(INTROSPECTION)
            writer.cards += cards_of(bytes(writer.text))
        elif style == 1:
            writer.heading(5, 'Int', [])
        elif style > 2 or self.draws.one_in(4):
            self.built_in_definitions(writer)

    def built_in_definitions(self, writer):
        allowed = self.draws.one_in(12)
        names = []
        for _ in range(self.draws.below(40 if self.is_large else 6)):
            if self.draws.one_in(4):
                writer.heading(3, self.draws.pick(self.directives), [])
                continue
            name = self.draws.pick(self.types + ['Int', 'String'])
            if name in names and not allowed:
                continue
            names.append(name)
            kind = self.kind_of(name)
            parts = self.parts(kind)
            writer.heading(kind, name, parts if allowed else list(dict.fromkeys(parts)))

    # Further documents

    def kind_of(self, name):
        if name in self.kinds and not self.draws.one_in(4):
            return self.kinds[name]
        return self.draws.between(5, 10)

    def parts(self, base):
        """The parts under a heading, in order."""
        count = lambda: self.draws.pick([0, 0, 1, 1, 2, 3, 4] if not self.is_large else [0, 1, 2, 4, 8, 12])
        parts = []
        if base in (6, 7) and not self.draws.one_in(3):
            parts += [(21, self.draws.pick(self.types)) for _ in range(count())]
        if self.draws.one_in(3):
            parts += [(20, self.draws.pick(self.directives)) for _ in range(self.draws.between(1, 2))]
        if base == 4:
            parts += [(self.draws.between(26, 28), self.draws.pick(self.types + ['Q'])) for _ in range(count())]
        elif base in MAIN:
            names = self.types if base == 8 else self.fields
            parts += [(MAIN[base], self.draws.pick(names)) for _ in range(count())]
        return parts

    def heading(self, writer):
        shape = self.draws.below(40)
        if shape == 0:
            return writer.heading(self.draws.between(1, 2), self.draws.pick(self.types), [])
        if shape == 1:
            return writer.heading(1, None, [])
        if shape < 6:
            return writer.heading(3, self.draws.pick(self.directives), [])
        if shape < 8 and 4 in self.schema_kinds:
            return writer.heading(4, None, self.filled(4, lambda part: part[0] >= 26))
        if shape < 11 and 11 in self.schema_kinds:
            return writer.heading(11, None, self.filled(4, lambda part: True))
        name = self.draws.pick(self.types)
        kind = self.kind_of(name)
        is_extension = self.draws.one_in(2)
        parts = self.filled(kind, lambda part: True) if is_extension else self.parts(kind)
        self.listed += [(name, part) for part in parts]
        writer.heading(kind + 7 if is_extension else kind, name, parts)

    def filled(self, base, is_wanted):
        """Parts of which the grammar wants at least one of a sort."""
        parts = self.parts(base)
        while self.is_grammatical and not any(map(is_wanted, parts)):
            parts = self.parts(base)
        return parts

    def document(self, most):
        """Up to so many headings, as long as the store has room for them."""
        writer = Writer(self.draws, self.is_large or self.draws.one_in(2))
        cards, text = CARDS - self.cards(), TEXT - self.text()
        for _ in range(most):
            before = bytes(writer.text), list(writer.cards)
            self.heading(writer)
            if len(writer.cards) > cards or len(writer.text) > text:
                writer.text, writer.cards = bytearray(before[0]), before[1]
                break
        self.documents.append(writer)

    def fill(self):
        self.built_in()
        if self.is_large:
            for _ in range(self.draws.pick([1, 3, 10, DOCUMENTS - 1])):
                self.document(self.draws.pick([5, 40, 400]))
        else:
            for _ in range(self.draws.below(7)):
                self.document(self.draws.pick([0, 1, 2, 3, 5, 8]))

    # Questions

    def questions(self):
        """Half of them about names that are written under each other, the others about any, also absent ones."""
        names = sorted(set(self.types)) + self.draws.pick([['Int', '__Type'], ['Q', 'Absent'], ['', 'a-b']])
        fields = self.fields + META + ['absent', self.draws.pick(['', '1'])]
        lines = ['root 26', 'root 27', 'root 28', 'origins', 'extensions', 'implementers']
        for _ in range(60 if self.is_large else 20):
            name, (kind, part) = self.draws.pick(self.listed or [('A', (22, 'a'))])
            shape = self.draws.below(4)
            if shape == 0:
                lines.append(f'field {self.draws.pick(names)} {self.draws.pick(fields)}')
            elif shape == 1:
                lines.append(f'subtype {self.draws.pick(names)} {self.draws.pick(names)}')
            elif kind == 21:
                lines.append(f'subtype {part} {name}')
            elif kind == 23:
                lines.append(f'subtype {name} {part}')
            else:
                lines.append(f'field {name} {part}')
        return lines


def damage(draws, collection, folder):
    """One document's files are spoilt: a word, a card, the length of a file, or the store's room."""
    number = draws.below(len(collection.documents))
    writer = collection.documents[number]
    cards = [list(card) for card in writer.cards]
    text, spoilt = bytes(writer.text), draws.below(12)
    odd = [0, 1, 2, 3, 4, 11, 18, 19, 20, 21, 22, 23, 26, 29, TEXT - 1, TEXT, NONE]
    if spoilt < 7 and cards:
        for _ in range(draws.between(1, 2)):
            card, word = draws.pick(cards), draws.below(CARD)
            near = card[word] + draws.pick([-2, -1, 1, 2])
            card[word] = draws.pick(odd) if draws.one_in(2) else near % 2 ** 32
    elif spoilt == 7 and cards:
        card = draws.pick(cards)
        card[3:5] = draws.pick([[0, 0], card[1:3], [card[1], 0], [0, card[4]]])
    elif spoilt == 8 and cards:
        at, to = draws.below(len(cards)), draws.below(len(cards))
        cards.insert(to, cards.pop(at) if draws.one_in(2) else cards[at])
    elif spoilt == 9:
        text = text[:draws.below(len(text) + 1)]
    data = in_bytes(words_of(cards))
    if spoilt == 10:
        data = data[:draws.below(len(data) + 1)]
    folders.write_document(folder, number, text, data)
    if spoilt == 11:
        overfill(draws, collection, folder)


def overfill(draws, collection, folder):
    """Documents behind the last that reach a limit, or pass it by one."""
    last, shape, extra = len(collection.documents), draws.below(3), draws.below(2)
    if shape == 0:
        for number in range(last, DOCUMENTS + extra):
            folders.write_document(folder, number, b'', b'')
    elif shape == 1:
        folders.write_document(folder, last, b'x' * (TEXT - collection.text() + extra), b'')
    else:
        text, cards = b'', []
        for number in range(CARDS - collection.cards() + extra):
            name = b'X%d' % number
            cards.append(Card(5, len(text), 7 + len(name), 7 + len(text), len(name)))
            text += b'scalar ' + name + b' '
        folders.write_document(folder, last, text, in_bytes(words_of(cards)))


def make(seed, number, folder, mode='mixed', is_checked=False):
    """Writes one case folder."""
    draws = Draws(seed, number)
    is_large = mode == 'large' or (mode == 'mixed' and number % 8 == 7)
    collection = Collection(draws, is_large)
    collection.fill()
    os.makedirs(folder, exist_ok=True)
    for index, writer in enumerate(collection.documents):
        folders.write_document(folder, index, bytes(writer.text), in_bytes(words_of(writer.cards)))
        if is_checked and collection.is_grammatical and cards_of(bytes(writer.text)) != writer.cards:
            sys.exit(f'{folder}: tools/cards reads document {index} otherwise')
    with open(os.path.join(folder, 'switches'), 'w') as target:
        target.write(draws.pick(['00', '01', '10', '11']) + draws.pick(['', '\n']))
    folders.write_lines(folder, 'questions', collection.questions())
    if mode == 'turns':
        switches = draws.pick([['adopt'], ['ignore'], ['adopt', 'ignore']])
        folders.write_lines(folder, 'turns', [f'{switch} {draws.between(1, len(collection.documents))}' for switch in switches])
    if mode == 'damaged':
        damage(draws, collection, folder)
