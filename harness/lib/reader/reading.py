"""What `parse` must answer for a text, told without a reader: by which token lists begin a sentence of the grammar (readings, 2.9b)."""
from lib.cards import CARD, Card
from lib.reader import lexer
from lib.reader.earley import Machine, Tree
from lib.reader.grammar import EXECUTABLE, TYPE_SYSTEM, Grammar, base
from lib.sizes import CARDS, CARDS_LENT, LEVELS, TEXT, Refusal

HEADINGS = {'DirectiveDefinition': 3, 'SchemaDefinition': 4, 'ScalarTypeDefinition': 5, 'ObjectTypeDefinition': 6, 'InterfaceTypeDefinition': 7,
            'UnionTypeDefinition': 8, 'EnumTypeDefinition': 9, 'InputObjectTypeDefinition': 10, 'SchemaExtension': 11, 'ScalarTypeExtension': 12,
            'ObjectTypeExtension': 13, 'InterfaceTypeExtension': 14, 'UnionTypeExtension': 15, 'EnumTypeExtension': 16, 'InputObjectTypeExtension': 17}
# Which pieces of a heading hold parts, and what they are there.
PARTS = {'Directives': ('Directive', 20), 'ImplementsInterfaces': ('NamedType', 21), 'FieldsDefinition': ('FieldDefinition', 22),
         'UnionMemberTypes': ('NamedType', 23), 'EnumValuesDefinition': ('EnumValueDefinition', 24), 'InputFieldsDefinition': ('InputValueDefinition', 25),
         'RootOperationTypeDefinition+': ('RootOperationTypeDefinition', None)}
ROOTS = {'`query`': 26, '`mutation`': 27, '`subscription`': 28}
# What stands between a heading and its parts' lists.
NAMING = ('Name', 'NamedType', 'EnumValue')
OPENERS = ('`[`', '`{`')


class Edition:
    """A grammar with its lexer. Levels are counted if there are most of them."""

    def __init__(self, productions, start, most_levels=None, **lexical):
        self.grammar = Grammar(productions, start)
        self.lexer = lexer.Lexer(self.grammar.keywords(), **lexical)
        self.machine = Machine(self.grammar)
        self.most_levels = most_levels
        self.counted = None if most_levels is None else Machine(Grammar(productions, start, most_levels))

    def judged(self, text):
        """None for a text of the grammar, or the refusal and its place; then the tokens and what was completed where."""
        tokens, stop, is_end = self.lexer.lexed(text)
        terminals = [terminal for terminal, _, _ in tokens]
        read, ended, _ = self.machine.read(terminals)
        # With fewer openers than that no level is too deep.
        if self.counted and sum(terminal in OPENERS for terminal in terminals) > self.most_levels:
            shallow, _, _ = self.counted.read(terminals)
            if shallow < read:
                return (Refusal.NESTED_TOO_DEEP, tokens[shallow][1]), tokens, ended
        if read < len(tokens):
            return (Refusal.NOT_IN_GRAMMAR, tokens[read][1]), tokens, ended
        if not is_end or 0 not in ended[-1].get(self.grammar.start, ()):
            return (Refusal.NOT_IN_GRAMMAR, stop), tokens, ended
        return None, tokens, ended

    def cards(self, tokens, ended):
        """The cards of a text of the grammar."""
        tree = Tree(self.grammar, [terminal for terminal, _, _ in tokens], ended)
        made = []
        waiting = [(self.grammar.start, 0, len(tokens))]
        while waiting:
            head, start, end = waiting.pop()
            if head in HEADINGS:
                made += heading(tree, tokens, head, start, end)
            elif head.endswith('+'):
                waiting += tree.listed(head, start, end)[::-1]
            elif head != 'ExecutableDefinition':
                waiting += tree.inside(head, start, end)[::-1]
        return made


def spanned(tokens, start, end):
    offset = tokens[start][1]
    return offset, tokens[end - 1][2] - offset


def card(tokens, kind, start, end, name, type_name=None):
    """A card, by the places of its tokens; it has as many words as a card has, the innermost type's name being the last."""
    words = (kind, *spanned(tokens, start, end), *(spanned(tokens, *name) if name else (0, 0)), *(spanned(tokens, *type_name) if type_name else (0, 0)))
    return Card(*words[:CARD])


def heading(tree, tokens, head, start, end):
    pieces = tree.inside(head, start, end)
    name = next((piece[1:] for piece in pieces if piece[0] == 'Name'), None)
    made = [card(tokens, HEADINGS[head], start, end, name)]
    for symbol, first, last in pieces:
        wanted, kind = PARTS.get(base_of_list(symbol), (None, None))
        if wanted:
            made += [part(tree, tokens, kind, *found) for found in below(tree, symbol, first, last, wanted)]
    return made


def base_of_list(symbol):
    return base(symbol) + '+' * symbol.endswith('+')


def below(tree, symbol, start, end, wanted):
    """The stretches of one symbol in a list of them, in order."""
    if base(symbol) == wanted and not symbol.endswith('+'):
        return [(symbol, start, end)]
    if symbol.endswith('+'):
        return tree.listed(symbol, start, end)
    if symbol not in tree.grammar.alternatives:
        return []
    found, ends = [], [(symbol, start, end)]
    # A list whose head is left-recursive is unrolled from its end.
    while ends:
        pieces = tree.inside(*ends.pop())
        first = pieces[0]
        rest = pieces[1:] if first[0] == symbol else pieces
        found = [each for piece in rest for each in below(tree, *piece, wanted)] + found
        if first[0] == symbol:
            ends.append(first)
    return found


def part(tree, tokens, kind, symbol, start, end):
    pieces = tree.inside(symbol, start, end)
    # A name or, in a root, the type behind the colon.
    name = next(piece[1:] for piece in pieces if piece[0] in NAMING)
    if kind is None:
        kind = ROOTS[tokens[start][0]]
    type_name = next((innermost(tree, *piece) for piece in pieces if piece[0] == 'Type'), None) if kind in (22, 25) else None
    return card(tokens, kind, start, end, name, type_name)


def innermost(tree, symbol, start, end):
    """The name inside all brackets of a type."""
    while symbol != 'Name':
        symbol, start, end = next(piece for piece in tree.inside(symbol, start, end) if not piece[0].startswith('`'))
    return start, end


OCTOBER = Edition(TYPE_SYSTEM, 'TypeSystemExtensionDocument', LEVELS)


def parsed(text, lent=CARDS_LENT):
    """The answer for a text and a slice of so many words: number, second number, and the cards (none where it is refused)."""
    if lent < CARDS_LENT:
        return Refusal.READ_CARDS_SHORT, 0, []
    if len(text) > TEXT:
        return Refusal.TEXT_FULL, 0, []
    refused, tokens, ended = OCTOBER.judged(text)
    if refused:
        return *refused, []
    made = OCTOBER.cards(tokens, ended)
    if len(made) > CARDS:
        return Refusal.CARDS_FULL, 0, []
    return 0, len(made), made
