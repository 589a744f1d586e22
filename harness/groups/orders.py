"""The order of refusals, where two or more hold: 21, 22, 26, 7, 1, the first faulty card, 6, 23, 24, 25. All by hand."""
from groups.examples import INT, listed
from groups.limits import ONE, one_letter
from lib.sizes import ADOPT, CARDS, DOCUMENTS, ERRORS_LENT, GROUPS_LENT, HELD, NONE, ORIGINS_LENT, ROWS_LENT, TEXT, TEXT_USED, WORDS

SHORT_ROWS, SHORT_LIST, SHORT_GROUPS = ROWS_LENT - 1, ORIGINS_LENT - 1, GROUPS_LENT - 1
CATALOGUE = listed('4 - -, 26 - -, 5 0 -, 6 1 -, 22 2 -')


def sound(case):
    case.file(INT, 'type Query{n:Int}')
    case.build(listing=CATALOGUE)


def store_first(new):
    for number in (21, 22):
        case = new(f'{number} before 26 and 7')
        sound(case)
        case.lend_rows(14)
        if number == 21:
            case.lend_store(TEXT - 1, WORDS)
        else:
            case.put(TEXT_USED, 0)
        case.all_refuse(number)
        for lent in (SHORT_LIST, 0):
            case.origins(lent, (number, 0))
            case.extensions(lent, (number, 0))
            case.implementers(lent, (number, 0))
        for rows, errors in ((SHORT_ROWS, ERRORS_LENT), (ROWS_LENT, ERRORS_LENT - 1), (0, 0)):
            case.build(rows, errors, number)
    case = new('21 before 22')
    sound(case)
    case.put(HELD, 0)
    for text, words in ((TEXT - 1, WORDS), (TEXT, WORDS - 1), (0, 0)):
        case.lend_store(text, words)
        case.all_refuse(21)
    case.lend_store()
    case.all_refuse(22)


def rows_first(new):
    case = new('26 before 7')
    sound(case)
    for rows in ([(5, 0, NONE)], [(4, NONE, NONE), (5, 1, NONE)], []):
        case.put_rows(rows)
        for lent in (0, 1, SHORT_LIST, ORIGINS_LENT, SHORT_GROUPS, GROUPS_LENT):
            case.origins(lent, (26, 0))
            case.extensions(lent, (26, 0))
            case.implementers(lent, (26, 0))
    case.put_rows([(4, NONE, NONE)])
    case.origins(SHORT_LIST, (7, 0))
    case.extensions(SHORT_LIST, (7, 0))
    case.implementers(SHORT_GROUPS, (7, 0))
    case.build(SHORT_ROWS, ERRORS_LENT, 7)
    case.lend_rows(3)
    case.origins(want=[0, 0])


def lent_first(new):
    case = new('1 before the first faulty card, at opening before 6')
    case.open(case.doc(INT))
    for words in ([99, 0, 1, 0, 1, 5], [5, 0, 0, 0, 1, 5, 0], [5, 0, 1, 0, 0, 5, 0, 1], [22, 0, 1, 0, 1, 5, 0, 1, 0], [4, 0, 1, 0, 0, 5],
                  [5, 0, 1, 0, 1, 5, 1, 1, 1, 1, 5]):
        case.open(case.doc('AA', words), (1, 0))
        case.add(case.doc('AA', words), (1, 0))
    full_store(new)
    # Opening: one text passes the limit with every set of cards.
    case = new('at opening 1 to 5, then 6, then 24, then 25')
    case.open(case.doc(INT))
    letters, words = one_letter(CARDS + 1, 3)
    long = letters + ' ' * (TEXT + 1 - len(letters))
    for cards, want in ((words, (24, 0)), ([5, 0, 1, 0, 0], (27, 0)), ([5, 0, 1, 0, 1, 5, 1, 1, 1, 1], (6, 1))):
        case.open(case.doc(long, cards), want)
    case.build(listing=listed('4 - -, 5 0 -'))


FAULTY = [([5], (1, 0)), ([0, 0, 1, 0, 1], (2, 0)), ([5, 0, 3, 0, 1], (3, 0)), (ONE + [5, 1, 1, 0, 1], (4, 1)),
          (ONE + [5, 1, 1, 0, 0], (27, 1)), (ONE + [5, 1, 1, 1, 0], (28, 1)), (ONE + [22, 0, 1, 0, 1], (5, 1))]


def full_store(new):
    """64 documents, 65,536 bytes, 2,300 cards: 23, 24 and 25 all hold for one card more."""
    case = new('21, 22, 1 to 5, then 23, then 24, then 25 in a store that is full')
    letters, words = one_letter(CARDS, 3)
    empty, full = case.doc('', []), case.doc(letters + ' ' * (TEXT - len(letters)), words)
    case.open(empty)
    case.add(full)
    for _ in range(DOCUMENTS - 2):
        case.add(empty)
    lent = [(case.doc('AA', cards), want) for cards, want in FAULTY]
    one = case.doc('A', ONE)
    for held, last, want in ((DOCUMENTS, one, (23, 0)), (DOCUMENTS, empty, (23, 0)), (DOCUMENTS - 1, one, (24, 0)),
                             (DOCUMENTS - 1, case.doc('x', []), (24, 0))):
        case.put(HELD, held)
        for document, refusal in lent:
            case.add(document, refusal)
        case.add(last, want)
    case.keep()
    case.put(ADOPT, 2)
    for document in [document for document, _ in lent] + [one, empty]:
        case.add(document, (22, 0))
    case.restore()
    case.lend_store(TEXT, WORDS - 1)
    for document in [document for document, _ in lent] + [one, empty]:
        case.add(document, (21, 0))
        case.open(document, (21, 0))
    case.lend_store()
    case.add(empty)
    case.build()
    case = new('1 to 5, then 25 where cards alone are full')
    case.open(empty := case.doc('', []))
    case.add(case.doc(letters, words))
    for cards, want in FAULTY + [(ONE, (25, 0))]:
        case.add(case.doc('AA', cards), want)
    case.add(empty)


def make(new):
    store_first(new)
    rows_first(new)
    lent_first(new)
