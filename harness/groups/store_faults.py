"""Refusal 22: stores that filing can't leave. A small store is damaged word by word and byte by byte; which values pass is said by hand."""
from groups.examples import INT, TABLE, listed
from lib.cards import in_full
from lib.sizes import ADOPT, CARDS, IGNORE, NONE, TEXT, WORDS, card_at, document_at

HIGH = 2 ** 31
TEXTS = (INT, 'type A{n:Int}', '', 'schema{query:A}')
# The small store, as 01 lays it out: five words, a row for each document (ignore is turned on before the third), the words of each card.
COUNTS = [4, 0, 1, 38, 5]
ROWS = [[0, 10, 1, 0], [10, 13, 2, 0], [23, 0, 0, 1], [23, 15, 2, 1]]
STORED = [[5, 0, 10, 7, 3], [6, 10, 13, 15, 1], [22, 17, 5, 17, 1], [4, 23, 15, 0, 0], [26, 30, 7, 36, 1]]
LISTING = listed('4 3 -, 26 4 -, 5 0 -, 6 1 -, 22 2 -')

# Which other values each word may have, alone; all else is 22.
PASSING_COUNTS = [(), (1,), (), (), ()]
PASSING_ROWS = [[(), (), (), ()], [(), (), (), (1,)], [(), (), (), (0,)], [(), (), (), ()]]
PASSING_CARDS = [
    # A heading without parts may be of any kind but the barred ones; the name `Int` may be another part of `scalar Int`.
    [(3, 6, 7, 8, 9, 10), (), (), (0, 1, 2, 3), (1, 2)],
    # It has a field under it. The item may end before the brace; letters of `type A{n:Int}` are names.
    [(7, 13, 14), (), (12,), (10, 11, 12, 13, 17, 19, 20, 21), ()],
    # A field's item may reach from the name to its heading's end, or back.
    [(20,), (13, 14, 15, 16), (1, 2, 3, 4, 6), (19, 20, 21), ()],
    # An absent name is stored unmoved.
    [(11,), (), (14,), (), ()],
    [(20, 27, 28), (31,), (8,), (30, 31, 32, 33, 34), ()]]


def small(case, is_built=True):
    case.file(*TEXTS[:2])
    case.ignore()
    case.add(case.doc(TEXTS[2]))
    case.add(case.doc(TEXTS[3]))
    if is_built:
        case.build(listing=LISTING)
    case.keep()
    case.doc(TEXTS[1])


def values(own, is_kind):
    near = [own + step for step in (-5, -4, -3, -2, -1, 1, 2, 3, 4, 5)]
    far = [0, 1, 2, 10, 23, 38, own + 256, own + 2 ** 16, own + HIGH, NONE, 2 ** 32 - 2]
    kinds = list(range(0, 31)) if is_kind else []
    return [value for value in dict.fromkeys(near + far + kinds) if 0 <= value <= NONE and value != own]


def damage(case, at, own, passing, is_kind=False):
    """Puts each value into a word of the small store. Where it passes, the store is drawn as it then is."""
    missed = [value for value in passing if value not in values(own, is_kind)]
    for value in values(own, is_kind) + missed:
        case.put(at, value)
        if value in passing:
            case.build()
        else:
            case.one_refuses(22, 1)
        case.restore()
    case.put(at, own)
    case.build(listing=LISTING)


def small_store(new):
    names = ('the count of documents', 'the adopt switch', 'the ignore switch', 'the text used', 'the cards used')
    for at, own in enumerate(COUNTS):
        case = new(f'22: {names[at]} damaged')
        small(case)
        damage(case, at, own, PASSING_COUNTS[at])
    for document, row in enumerate(ROWS):
        case = new(f'22: the row of document {document} damaged')
        small(case)
        for at, own in enumerate(row):
            damage(case, document_at(document, at), own, PASSING_ROWS[document][at])
    for number, card in enumerate(STORED):
        case = new(f'22: the stored card {number} damaged')
        small(case)
        for at, own in enumerate(card):
            damage(case, card_at(number, at), own, PASSING_CARDS[number][at], at == 0)


def stored_bytes(new):
    case = new('22: bytes of names damaged')
    small(case)
    for at in (7, 8, 9, 15, 17, 36):
        for byte in (0, 32, 45, 48, 57, 64, 65, 91, 95, 96, 97, 122, 123, 128, 255):
            case.put_byte(at, byte)
            is_letter = byte in b'Aaz_'
            if is_letter or (at in (8, 9) and byte in b'09'):
                case.build()
            else:
                case.one_refuses(22, 1)
            case.restore()
    case = new('22: bytes outside names may be anything')
    small(case)
    for at in (0, 6, 10, 14, 16, 18, 22, 23, 29, 37, 38, TEXT - 1):
        case.put_byte(at, 255)
    case.build(listing=LISTING)
    case.root(0, 'A')
    case.field('A', 'n', (0, 1, 0, 2))
    for texts, at, byte, want in ((('scalar A scalar B',), 16, b'A', 22), (('type A{n:Int m:Int}',), 13, b'n', 22),
                                  (('directive@a on FIELD directive@b on FIELD',), 31, b'a', 0), ((INT, 'scalar A scalar B'), 26, b'A', 0)):
        case = new(f'22: a byte of document 0 that makes an error, and one that does not: {texts[-1]}')
        case.file(*texts)
        case.build()
        case.put_byte(at, byte[0])
        if want:
            case.all_refuse(want)
        else:
            case.build()
            case.tallies()


def whole_stores(new):
    case = new('22: an untouched store')
    case.lend_rows(0)
    case.all_refuse(22, case.doc(INT))
    case.put_rows([(4, NONE, NONE)])
    case.all_refuse(22)
    case.open(0)
    case.check_rows(0)
    case = new('a store written by hand, word by word')
    text = INT + TABLE[0][1][1]
    for at, byte in enumerate(text.encode()):
        case.put_byte(at, byte)
    words = {0: 2, 3: len(text), 4: 6, 6: 10, 7: 1, 9: 10, 10: len(text) - 10, 11: 5}
    cards = [5, 0, 10, 7, 3, 6, 10, 19, 15, 1, 22, 17, 5, 17, 1, 22, 23, 5, 23, 1, 13, 29, 20, 41, 1, 22, 43, 5, 43, 1]
    words.update({card_at(0, at): word for at, word in enumerate(in_full(cards))})
    case.lend_rows(0)
    for number, (at, word) in enumerate(words.items()):
        if word and number % 6 == 0:
            case.one_refuses(22, case.doc(INT))
        case.put(at, word)
    case.build(listing=TABLE[0][2]['00'])
    case.add(case.doc('extend type A{o:Int}'))
    case.build(listing=listed('4 - -, 5 0 -, 6 1 -, 22 2 -, 22 5 4, 22 7 6', '1 0', '12 3 2'))
    case = new('what lies in the unused part does not matter')
    for at in list(range(0, 30)) + list(range(card_at(0), card_at(8))) + [WORDS - 1]:
        case.put(at, NONE - at)
    for at in list(range(0, 40)) + [TEXT - 1]:
        case.put_byte(at, 200)
    case.lend_rows(0)
    case.all_refuse(22, case.doc(INT))
    small(case, False)
    case.build(listing=LISTING)
    case.add(case.doc('extend type A{m:Int}'))
    case.build(listing=listed('4 3 -, 26 4 -, 5 0 -, 6 1 -, 22 2 -, 22 6 5'))
    case.put(document_at(5), 7)
    case.put(card_at(7), 99)
    case.put_byte(60, 0)
    case.build(listing=listed('4 3 -, 26 4 -, 5 0 -, 6 1 -, 22 2 -, 22 6 5'))
    case.look()


def switches(new):
    case = new('22: every row of ignore switches')
    case.file(INT, *['scalar A', 'scalar B', 'scalar C'])
    case.keep()
    for bits in range(32):
        switch, flags = bits & 1, [bits >> shift & 1 for shift in (1, 2, 3, 4)]
        case.put(IGNORE, switch)
        for document, flag in enumerate(flags):
            case.put(document_at(document, 3), flag)
        if flags[0] == 0 and flags == sorted(flags) and flags[-1] <= switch:
            case.build()
        else:
            case.one_refuses(22)
        case.restore()
    for document in range(4):
        case.put(IGNORE, 1)
        case.put(document_at(document, 3), 2)
        case.one_refuses(22)
        case.restore()
    case = new('22: a switch of 2 or more')
    small(case)
    for at in (ADOPT, IGNORE):
        for value in (2, 3, 256, 257, 65537, HIGH, HIGH + 1, NONE):
            case.put(at, value)
            case.one_refuses(22, 1)
            case.restore()


def changed(case, want, *changes):
    """Several words at once, then back."""
    for at, value in changes:
        case.put(at, value)
    if want:
        case.one_refuses(want, 1)
        case.one_refuses(want, 1)
    else:
        case.build()
    case.restore()


def sums(new):
    row = document_at
    case = new('22: sums that agree only when wrapped at 32 bits')
    small(case)
    changed(case, 22, (row(1, 1), NONE), (row(2, 0), 9), (row(3, 0), 9), (3, 24))
    changed(case, 22, (row(1, 1), 13 + HIGH), (row(2, 1), HIGH))
    changed(case, 22, (row(3, 1), NONE), (3, 22))
    changed(case, 22, (row(3, 2), NONE), (4, 2))
    changed(case, 22, (row(1, 2), HIGH), (row(2, 2), HIGH), (4, 3))
    changed(case, 22, (row(0, 2), NONE), (row(1, 2), 2), (4, 3))
    changed(case, 22, (row(0, 1), NONE), (row(1, 0), NONE))
    case = new('22: counts that agree, but not with the cards')
    small(case)
    # A card given to its neighbour, a text cut elsewhere, a document too many or too few.
    changed(case, 22, (row(0, 2), 2), (row(1, 2), 1))
    changed(case, 22, (row(1, 2), 3), (row(3, 2), 1))
    changed(case, 22, (row(2, 2), 1), (row(3, 2), 1))
    changed(case, 22, (row(0, 1), 9), (row(1, 0), 9), (row(1, 1), 14))
    changed(case, 0, (row(0, 1), 11), (row(1, 0), 11), (row(1, 1), 12), (card_at(1, 1), 11), (card_at(1, 2), 12))
    changed(case, 22, (row(0, 1), 11), (row(1, 0), 11), (row(1, 1), 12))
    changed(case, 0, (row(3, 1), 20), (3, 43))
    changed(case, 0, (0, 5), (row(4, 0), 38), (row(4, 3), 1))
    changed(case, 22, (0, 5), (row(4, 0), 38))
    changed(case, 0, (0, 3), (3, 23), (4, 3))
    changed(case, 22, (0, 3), (3, 23))
    changed(case, 22, (0, 3), (4, 3))
    changed(case, 0, (0, 1), (3, 10), (4, 1))
    changed(case, 22, (0, 0), (3, 0), (4, 0))
    changed(case, 22, (4, 6), (row(3, 2), 3))
    case = new('22: more text than there is room for, and just as much')
    small(case)
    changed(case, 0, (row(3, 1), TEXT - 23), (3, TEXT))
    changed(case, 22, (row(3, 1), TEXT - 22), (3, TEXT + 1))
    changed(case, 22, (row(3, 1), NONE - 23), (3, NONE))
    case = new('22: more cards than there is room for')
    small(case)
    for count in (CARDS + 1, CARDS + 2, NONE):
        changed(case, 22, (row(3, 2), count - 3), (4, count))
        changed(case, 22, (4, count))


def spans(new):
    card = card_at
    case = new('22: stored cards against their own document\'s text')
    small(case)
    # Items and names that lie in the store's text but in another document's.
    changed(case, 22, (card(1, 1), 9), (card(1, 2), 14))
    changed(case, 22, (card(1, 2), 14))
    changed(case, 22, (card(1, 3), 7))
    changed(case, 22, (card(0, 2), 13))
    changed(case, 22, (card(3, 1), 10), (card(3, 2), 28))
    changed(case, 22, (card(4, 3), 15))
    changed(case, 22, (card(2, 1), 0), (card(2, 3), 7))
    case = new('22: absent names are stored unmoved')
    case.file(INT, 'schema{query:A}query{a}')
    case.build()
    case.keep()
    for number, at, size, want in ((1, 10, 0, 22), (1, 0, 1, 22), (1, 11, 1, 22), (1, 16, 0, 22), (3, 10, 0, 22), (3, 0, 1, 22), (3, 25, 0, 22),
                                   (3, 25, 5, 0),
                                   (3, 31, 1, 0), (3, 30, 1, 22), (2, 0, 0, 22), (2, 10, 0, 22), (0, 0, 0, 22)):
        changed(case, want, (card(number, 3), at), (card(number, 4), size))
    case = new('22: document 0 with a barred kind or an error')
    case.file('scalar A type B{n:Int m:Int}', 'scalar C')
    case.build()
    case.keep()
    for kind in (1, 2, 4, 11, 12, 13, 14, 15, 16, 17):
        changed(case, 22, (card(0, 0), kind), *([(card(0, 3), 0), (card(0, 4), 0)] if kind in (4, 11) else []))
    for kind in (3, 5, 6, 7, 8, 9, 10):
        changed(case, 0, (card(0, 0), kind))
    changed(case, 22, (card(2, 3), 17), (card(3, 3), 17))
    changed(case, 22, (card(3, 3), 16), (card(3, 4), 1), (card(3, 1), 15), (card(3, 2), 12))
    for kind in (3, 12):
        changed(case, 0, (card(4, 0), kind))


def make(new):
    whole_stores(new)
    small_store(new)
    stored_bytes(new)
    switches(new)
    sums(new)
    spans(new)
