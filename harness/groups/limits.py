"""64 documents, 65,536 bytes, 2,300 cards, and one more of each; the fullest rows, errors, groups and lists; long names. Refusals are by hand."""
from groups.examples import INT, listed
from lib.sizes import CARDS, DOCUMENTS, GROUPS_LENT, HELD, NONE, ORIGINS_LENT, ROWS, TEXT, tallies_of

ONE = [5, 0, 1, 0, 1]
LETTERS = 'ABCDEFGHIJKLMNOPQRSTUVWXYZabcdefghijklmnopqrstuvwxyz'


def one_letter(amount, kind=5, name='A'):
    """So many headings of one letter each."""
    return name * amount, [word for at in range(amount) for word in ([kind, at, 1] + ([0, 0] if kind == 1 else [at, 1]))]


def names(amount):
    """So many different names of three letters."""
    return [LETTERS[at // 2704 % 52] + LETTERS[at // 52 % 52] + LETTERS[at % 52] for at in range(amount)]


def headings(kind, listed_names):
    """Headings without parts, whose items are their names."""
    text, words = '', []
    for name in listed_names:
        words += [kind, len(text), len(name), len(text), len(name)]
        text += name
    return text, words


def under(heading, part, listed_names):
    """One heading with parts whose items are their names; the heading's name is the text's first letter."""
    text, words = 'T', []
    for name in listed_names:
        words += [part, len(text), len(name), len(text), len(name)]
        text += name
    return text, [heading, 0, len(text)] + ([0, 0] if heading in (4, 11) else [0, 1]) + words


def documents(new):
    case = new('64 documents, and one more is 23')
    case.open(case.doc(INT))
    empty, faulty = case.doc('', []), case.doc('A', [22, 0, 1, 0, 1])
    for _ in range(DOCUMENTS - 1):
        case.add(empty)
    case.build(listing=listed('4 - -, 5 0 -'))
    case.add(empty, (23, 0))
    case.add(faulty, (5, 0))
    case.add(case.doc('A', [5, 0, 1, 0]), (1, 0))
    case.add(case.doc('A', ONE), (23, 0))
    case.adopt()
    case.ignore()
    case.build(listing=listed('4 - -, 5 0 -'))
    case.put(HELD, DOCUMENTS + 1)
    case.one_refuses(22)
    case.put(HELD, DOCUMENTS - 1)
    case.add(empty)
    case.add(empty, (23, 0))
    case.open(empty)
    case.add(case.doc(INT))
    case.build(listing=listed('4 - -, 5 0 -'))
    case = new('64 documents that all say something')
    case.open(case.doc('interface I directive@d on FIELD'))
    extending = [case.doc(f'extend type A implements I{{f{number}:Int}}extend schema@d') for number in range(4)]
    for number in range(DOCUMENTS - 2):
        if number == 30:
            case.ignore()
        case.add(extending[number % 4])
    case.build()
    case.add(case.doc('type A{n:Int}type Query{n:A}'))
    case.build()
    case.tallies()
    case.look()
    case.add(extending[0], (23, 0))
    case.adopt()
    case.build()
    case.look()


def text(new):
    case = new('65,536 bytes, and one more is 24; names in the last bytes')
    # A document of all but ten bytes, whose type ends the text.
    end = TEXT - 10
    one, rest = case.doc('x', []), case.doc(' ' * (end - 6) + 'A{n:I}', [6, end - 6, 6, end - 6, 1, 22, end - 4, 3, end - 4, 1])
    case.open(case.doc('scalar Long'))
    case.add(rest, (24, 0))
    case.open(case.doc(INT))
    case.add(rest)
    case.build(listing=listed('4 - -, 5 0 -, 6 1 -, 22 2 -'))
    case.field('A', 'n', (0, 1, 0, 2))
    case.add(one, (24, 0))
    case.add(case.doc('', []))
    case.add(case.doc('A', ONE), (24, 0))
    case.build(listing=listed('4 - -, 5 0 -, 6 1 -, 22 2 -'))
    case.put_byte(TEXT - 6, ord('1'))
    case.one_refuses(22)
    case.open(rest)
    for _ in range(10):
        case.add(one)
    case.add(one, (24, 0))
    case.build(listing=listed('4 - -, 6 0 -, 22 1 -'))
    case = new('65,536 bytes in document 0, and one more is 24')
    whole = ' ' * (TEXT - 10) + INT
    case.open(case.doc(whole + ' ', [5, TEXT - 10, 10, TEXT - 3, 3]), (24, 0))
    case.lend_rows(0)
    case.one_refuses(22)
    case.open(case.doc(whole, [5, 0, TEXT, TEXT - 3, 3]))
    case.build(listing=listed('4 - -, 5 0 -'))
    case.field('Int', 'n', (0, 3, NONE, 0))
    case.add(one_byte := case.doc('x', []), (24, 0))
    case.open(one_byte)
    case.add(case.doc(whole, [5, 0, TEXT, TEXT - 3, 3]), (24, 0))
    case.build(listing=listed('4 - -'))


def cards(new):
    case = new('2,300 cards, and one more is 25')
    case.open(case.doc('scalar Int scalar Float'))
    rest = case.doc(*one_letter(CARDS - 1))
    case.add(rest, (25, 0))
    case.open(case.doc(INT))
    case.add(rest)
    case.build()
    case.tallies()
    case.add(case.doc('A', ONE), (25, 0))
    case.add(case.doc('', []))
    case.look()
    case.open(case.doc(*one_letter(CARDS, 3)))
    case.build()
    case.add(case.doc('A', ONE), (25, 0))
    case = new('2,301 cards in document 0 are 25, with an error 6')
    case.open(case.doc(*one_letter(CARDS + 1)), (6, 1))
    case.open(case.doc(*one_letter(CARDS + 1, 3)), (25, 0))
    case.lend_rows(0)
    case.one_refuses(22)
    case.open(case.doc('A', ONE))
    case.add(case.doc(*one_letter(CARDS + 1)), (25, 0))
    case.build(listing=listed('4 - -, 5 0 -'))


def fullest(new):
    case = new('2,304 rows: every card is a row, and three default roots')
    roots = ['Query', 'Mutation', 'Subscription']
    case.open(case.doc('', []))
    case.add(case.doc(*headings(6, names(CARDS - 3) + roots)))
    drawn = case.build()
    assert len(drawn['rows']) == ROWS
    case.tallies(tallies_of({}))
    case.look(8)
    case.roots(*roots)
    case.field(names(CARDS - 3)[-1], 'n', (0, 3, NONE, CARDS - 4))
    case = new('2,300 errors: every card is one')
    case.open(case.doc('', []))
    case.add(case.doc(*one_letter(CARDS, 1)))
    drawn = case.build()
    assert len(drawn['errors']) == CARDS
    case.tallies(tallies_of({1: CARDS}))
    case.look(4)
    case = new('2,299 errors while drawing, on one side of the switch')
    case.open(case.doc(INT))
    case.add(case.doc(*one_letter(CARDS - 1, 13)))
    case.build()
    case.tallies(tallies_of({7: CARDS - 1}))
    case.adopt()
    case.build(listing=listed('4 - -, 5 0 -, 6 1 1'))
    case = new('2,299 groups: the fullest map of implementers')
    case.open(case.doc('', []))
    case.add(case.doc(*under(6, 21, names(CARDS - 1))))
    case.build()
    case.implementers(GROUPS_LENT - 1, (7, 0))
    case.implementers()
    case.subtype('AAA', 'T')
    case = new('one group of 1,149 objects and interfaces')
    case.open(case.doc('', []))
    given, words, at = '', [], 0
    for number, name in enumerate(names((CARDS - 2) // 2)):
        words += [6 + number % 2, at, 4, at, 3, 21, at + 3, 1, at + 3, 1]
        given, at = given + name + 'I', at + 4
    case.add(case.doc(given, words))
    case.build()
    case.implementers()
    case.subtype('I', 'AAA', (0, 0))
    case.add(case.doc('I', [7, 0, 1, 0, 1]))
    case.build()
    case.subtype('I', 'AAA', (0, 1))
    case = new('2,299 origins: every card but one is a directive use')
    case.open(case.doc('', []))
    case.add(case.doc(*under(4, 20, names(CARDS - 1))))
    case.build()
    case.origins(ORIGINS_LENT - 1, (7, 0))
    case.origins()
    case.extensions(want=[0, 0])
    case.implementers(want=[0, 0])
    case = new('many extensions of the schema, each with a use')
    case.open(case.doc('type Query type Mutation type Subscription'))
    given, words = '', []
    for name in names((CARDS - 3) // 2):
        words += [11, len(given), 3, 0, 0, 20, len(given), 3, len(given), 3]
        given += name
    case.add(case.doc(given, words))
    case.build()
    case.lists()
    case.roots('Query', 'Mutation', 'Subscription')


def long_names(new):
    case = new('long names that differ in their last byte or in length alone')
    stem = 'N' * 9000
    alike = [stem + 'A', stem + 'B', stem, stem + 'AA']
    case.open(case.doc(*headings(5, alike[:1])))
    case.add(case.doc(*headings(6, alike[1:])))
    case.add(case.doc(*headings(13, alike[1:2] + alike[:1])))
    case.build(listing=listed('4 - -, 5 0 -, 6 1 -, 6 2 -, 6 3 -', '1 0', '8 5 0'))
    for number, name in enumerate(alike):
        case.field(name, 'n', (0, 3, NONE, number))
    case.field(stem[1:], '__typename', (0, 2, NONE, NONE))
    case.field(stem[1:] + 'A', '__typename', (0, 2, NONE, NONE))


def make(new):
    documents(new)
    text(new)
    cards(new)
    fullest(new)
    long_names(new)
