"""Random texts of the type language and damaged copies of them, from a seed: derived from the specification's productions as lib/reader/grammar.py has
them, so that each production comes, and spelled with whatever the lexical grammar lets through. What such a text is worth, a reader has to say."""
from lib.damage import damaged_bytes, damaged_tokens
from lib.generator import Draws
from lib.reader.grammar import NAMES, base
from lib.reader.reading import OCTOBER
from lib.sizes import CARD, CARDS, CARDS_LENT, LEVELS, TEXT
from lib.spellings import FLOATS, INTEGERS, KEYWORDS, PLAIN_NAMES, ignored, string

MODES = ('mixed', 'sound', 'damaged', 'cuts', 'limits')
# Behind this depth the shortest alternative is taken.
MOST_DEPTH = 24
# Types have most of the productions below them.
OFTENER = {'TypeSystemDefinition': [0, 1, 1, 1, 1, 2], 'TypeSystemExtension': [0, 1, 1, 1]}

# The document is a list of these.
FIRST = 'TypeSystemDefinitionOrExtension'


class Derived:
    """One text while it is derived: its tokens, and the alternatives that were taken."""

    def __init__(self, draws, taken=None, is_odd=False):
        self.draws, self.taken, self.is_odd = draws, taken, is_odd
        self.tokens = []

    def document(self):
        for _ in range(self.draws.pick([1, 1, 2, 2, 3, 5])):
            self.derive(FIRST, 0)
        return self.tokens

    def derive(self, symbol, depth):
        alternatives = OCTOBER.grammar.alternatives.get(symbol)
        if alternatives is None:
            self.tokens.append(self.spelled(symbol))
        elif base(symbol) in ('Value', 'Type') and self.draws.one_in(90):
            self.nest(symbol)
        else:
            at = shortest(symbol) if depth > MOST_DEPTH else self.draws.pick(OFTENER.get(symbol, range(len(alternatives))))
            if self.taken is not None:
                self.taken.add((symbol, at))
            for each in alternatives[at][0]:
                self.derive(each, depth + 1)

    def nest(self, symbol):
        """Lists, objects among them in a value, of about as many levels as may be."""
        closers = []
        for _ in range(self.draws.between(LEVELS - 1, LEVELS + 2)):
            is_object = base(symbol) == 'Value' and self.draws.one_in(3)
            self.tokens += ['{', self.spelled('Name'), ':'] if is_object else ['[']
            closers.append('}' if is_object else ']')
        if base(symbol) == 'Type' or not self.draws.one_in(3) or closers[-1] == '}':
            self.derive(symbol, MOST_DEPTH - 2)
        self.tokens += closers[::-1]

    def spelled(self, terminal):
        draws = self.draws
        if terminal in NAMES:
            name = draws.pick(KEYWORDS if draws.one_in(3) else PLAIN_NAMES)
            return 'nothing' if f'`{name}`' in NAMES[terminal] and not self.is_odd else name
        if terminal == 'StringValue':
            return string(draws)
        return draws.pick(INTEGERS) if terminal == 'IntValue' else draws.pick(FLOATS) if terminal == 'FloatValue' else terminal[1:-1]


def productions():
    """The alternatives that a text can be derived by."""
    found, waiting = set(), [FIRST]
    while waiting:
        symbol = waiting.pop()
        for at, (symbols, _) in enumerate(OCTOBER.grammar.alternatives.get(symbol, ())):
            if (symbol, at) not in found:
                found.add((symbol, at))
                waiting += symbols
    return found


def shortest(symbol):
    """The alternative that ends soonest: the first without heads, or else the first."""
    alternatives = OCTOBER.grammar.alternatives[symbol]
    return next((at for at, (symbols, _) in enumerate(alternatives) if not any(each in OCTOBER.grammar.alternatives for each in symbols)), 0)


def sticks(before, after):
    """Whether two tokens would run into each other."""
    if before.endswith('"') and after.startswith('"'):
        return True
    return (before[-1].isalnum() or before[-1] == '_') and (after[0].isalnum() or after[0] in '_.')


def joined(tokens, draws):
    """A text of the tokens, with ignored matter here and there and wherever it is needed."""
    is_loose = draws.one_in(2)
    pieces = [ignored(draws, False)] if draws.one_in(8) else []
    for at, token in enumerate(tokens):
        pieces.append(token)
        is_last = at == len(tokens) - 1
        if not is_last and sticks(token, tokens[at + 1]):
            pieces.append(ignored(draws, False))
        elif draws.one_in(2 if is_loose else 9):
            pieces.append(ignored(draws, is_last))
    return ''.join(pieces).encode()


def sound(draws, taken=None):
    return joined(Derived(draws, taken).document(), draws)


def damaged(draws, taken=None):
    tokens = Derived(draws, taken, is_odd=draws.one_in(4)).document()
    is_in_tokens = draws.one_in(2)
    for _ in range(draws.pick([0, 1, 1, 2]) if is_in_tokens else 0):
        tokens = damaged_tokens(tokens, draws)
    text = joined(tokens, draws)
    for _ in range(0 if is_in_tokens else draws.pick([1, 1, 1, 2, 3])):
        text = damaged_bytes(text, draws)
    return text


def at_limit(draws):
    """A text of about as many cards or bytes as may be, or both; some are refused for another reason, behind their last card or elsewhere."""
    kind, text = draws.below(3), b''
    if kind != 0:
        parts = draws.between(CARDS - 2, CARDS + 1) + draws.pick([0, 0, 500])
        text = draws.pick([
            lambda: b'enum E{' + b'a ' * parts + b'}', lambda: b'union U=' + b'|a' * parts, lambda: b'scalar a ' * (parts + 1),
            lambda: b'type A{' + b'a:B ' * parts + b'}', lambda: b'input A{' + b'"d"a:B=1 ' * parts + b'}',
            lambda: b'schema' + b'@a' * (parts - 1) + b'{query:A}'])()
        text += draws.pick([b'', b'', b' typ', b'"', b' 01', b' extend scalar A', b' scalar A@d(x:' + b'[' * (LEVELS + 1),
                            b' scalar A@d(x:' + b'[' * LEVELS])
    if kind != 1:
        room = draws.between(TEXT - 1, TEXT + 1) - len(text)
        text += draws.pick([lambda: b' ' * (room - 8) + b'scalar A', lambda: b'#' * room, lambda: b'\nscalar A@d(x:"' + b'a' * (room - 17) + b'")'])()
    return damaged_bytes(text, draws) if draws.one_in(5) else text


def lengths(draws):
    """How long a slice is lent: as long as it must be, longer, and now and then too short."""
    if draws.one_in(20):
        return draws.pick([CARDS_LENT - 1, 0, CARD])
    return draws.pick([CARDS_LENT] * 8 + [CARDS_LENT + 3, CARDS_LENT + CARD, CARDS_LENT + 1000])


def made(seed, number, mode, taken=None):
    """Text so and so of a seed, and the length of its slice; it depends on these alone."""
    draws = Draws(seed, number, MODES.index(mode))
    lent = lengths(draws)
    if mode == 'limits' or (mode == 'mixed' and draws.one_in(500)):
        return at_limit(draws), lent
    is_sound = mode == 'sound' or (mode == 'mixed' and draws.below(5) < 2)
    return (sound if is_sound else damaged)(draws, taken), lent


def series(seed, count, mode, taken=None):
    """So many texts with their slices' lengths; `cuts` are all beginnings of one sound text after another."""
    if mode != 'cuts':
        for number in range(count):
            yield made(seed, number, mode, taken)
        return
    number = 0
    while count > 0:
        text, _ = made(seed, number, 'sound', taken)
        for end in range(min(len(text) + 1, count)):
            yield text[:end], CARDS_LENT
        count, number = count - len(text) - 1, number + 1
