"""Refusals 1 to 5, 27 and 28 of lent cards, clause by clause, at opening and at filing. All expected answers are by hand from the papers; None means that
the cards pass."""
from lib.cards import BY_HAND
from lib.sizes import NONE

INT = 'scalar Int'
PASSES = (0, 0)
HIGH = 2 ** 31


def lent(case, text, words, want, opening=None):
    """Lends a document to filing and to opening. Where it passes it is filed, and opening may refuse it with 6; the store is then opened anew."""
    document = case.doc(text, words)
    want = PASSES if want is None else want
    case.add(document, want)
    opening = want if opening is None else opening
    case.open(document, opening)
    if opening == PASSES:
        case.open(case.doc(INT))


def table(new, title, *rows):
    """One case: rows of text, card words, the answer, and the answer of opening where it differs."""
    case = new(title)
    case.open(case.doc(INT))
    for row in rows:
        lent(case, *row)
    case.build()
    return case


def whole_cards(new):
    good = [5, 0, 10, 7, 3]
    table(new, '1: card words that are no whole cards', *[(INT, (good * 3)[:length], (1, 0)) for length in (1, 2, 3, 4, 6, 9, 11, 14)],
          (INT, good, None), (INT, [], None))
    table(new, '1: a faulty card before the odd words is not looked at', (INT, [99, 0, 10, 7, 3, 5], (1, 0)), (INT, [5, 0, 0, 7, 3, 5, 0], (1, 0)),
          (INT, [22, 0, 10, 7, 3, 5, 0, 10], (1, 0)), ('', [99], (1, 0)))


def kinds(new):
    table(new, '2: kinds that are none', *[(INT, [kind, 0, 10, 7, 3], (2, 0)) for kind in (0, 18, 19, 29, 30, 127, 255, HIGH, NONE)])
    table(new, '2: a kind is a whole word', *[(INT, [kind, 0, 10, 7, 3], (2, 0)) for kind in (256 + 5, 2 ** 16 + 5, 2 ** 24 + 5, HIGH + 5, 256 + 20)])
    heading, field = [6, 0, 4, 0, 1], [22, 1, 1, 1, 1]
    table(new, '2: at a later card', ('ABCD', heading + [18, 1, 1, 1, 1], (2, 1)), ('ABCD', heading + field + [0, 2, 1, 2, 1], (2, 2)),
          ('ABCD', heading + field + [22, 2, 1, 2, 1, 29, 3, 1, 3, 1], (2, 3)), ('ABCDE', heading + [19, 4, 1, 4, 1], (2, 1)))


def items(new):
    table(new, '3: an item of length 0', (INT, [5, 0, 0, 7, 3], (3, 0)), (INT, [5, 7, 0, 7, 3], (3, 0)), (INT, [4, 0, 0, 0, 0], (3, 0)),
          (INT, [1, 0, 0, 0, 0], (3, 0)), ('AB', [6, 0, 2, 0, 1, 22, 1, 0, 1, 1], (3, 1)), ('AB', [22, 0, 0, 0, 0], (3, 0)), ('', [5, 0, 0, 0, 0], (3, 0)))
    table(new, '3: an item past its text', (INT, [5, 0, 11, 7, 3], (3, 0)), (INT, [5, 1, 10, 7, 3], (3, 0)), (INT, [5, 10, 1, 7, 3], (3, 0)),
          (INT, [5, 11, 1, 7, 3], (3, 0)), ('', [5, 0, 1, 0, 1], (3, 0)), (INT, [5, NONE, 1, 7, 3], (3, 0)), (INT, [5, 0, NONE, 7, 3], (3, 0)),
          ('AB', [6, 0, 2, 0, 1, 22, 1, 2, 1, 1], (3, 1)), (INT, [5, 0, 10, 7, 3], None), ('A', [5, 0, 1, 0, 1], None))
    table(new, '3: sums are of whole numbers, not wrapped at 32 bits', ('A', [5, NONE, 2, 0, 1], (3, 0)), (INT, [5, 1, NONE, 7, 3], (3, 0)),
          (INT, [5, HIGH, HIGH, 7, 3], (3, 0)), (INT, [5, HIGH, HIGH + 10, 7, 3], (3, 0)), (INT, [5, 2, NONE, 7, 3], (3, 0)),
          ('ABCD', [6, 0, 4, 0, 1, 22, 2, NONE, 2, 1], (3, 1)), ('ABCD', [6, 0, 2, 0, 1, 6, 3, NONE, 2, 1], (3, 1)))
    table(new, '3: a heading before its sibling\'s end', ('ABCD', [6, 0, 4, 0, 1, 6, 2, 1, 2, 1], (3, 1)),
          ('ABCD', [6, 0, 3, 0, 1, 22, 1, 1, 1, 1, 6, 2, 2, 2, 1], (3, 2)), ('ABCD', [6, 0, 3, 0, 1, 6, 2, 2, 2, 1], (3, 1)),
          ('ABCD', [6, 0, 3, 0, 1, 6, 3, 1, 3, 1], None), ('ABCD', [6, 2, 2, 2, 1, 6, 0, 1, 0, 1], (3, 1)),
          ('ABCD', [6, 0, 1, 0, 1, 6, 0, 1, 0, 1], (3, 1)), ('ABCD', [6, 1, 1, 1, 1, 6, 3, 1, 3, 1], None),
          ('ABCD', [6, 0, 2, 0, 1, 3, 2, 2, 2, 1, 5, 3, 1, 3, 1], (3, 2)))
    table(new, '3: a part before its sibling\'s end', ('ABCDEF', [6, 0, 6, 0, 1, 22, 1, 2, 1, 1, 22, 2, 1, 2, 1], (3, 2)),
          ('ABCDEF', [6, 0, 6, 0, 1, 22, 1, 2, 1, 1, 22, 3, 1, 3, 1], None), ('ABCDEF', [6, 0, 6, 0, 1, 21, 1, 2, 1, 2, 22, 2, 2, 3, 1], (3, 2)),
          ('ABCDEF', [6, 0, 6, 0, 1, 22, 3, 2, 3, 1, 22, 1, 1, 1, 1], (3, 2)), ('ABCDEF', [6, 0, 6, 0, 1, 22, 1, 1, 1, 1, 22, 1, 1, 1, 1], (3, 2)),
          ('ABCDEF', [6, 0, 6, 0, 1, 21, 1, 1, 1, 1, 20, 2, 1, 2, 1, 22, 3, 3, 3, 1], None),
          ('ABCDEF', [6, 0, 6, 0, 1, 20, 2, 2, 2, 1, 22, 3, 3, 3, 1], (3, 2)))
    table(new, '3: the first part has no sibling, nor has a part under the next heading', ('AB', [6, 0, 2, 0, 1, 22, 0, 1, 0, 1], None),
          ('AB', [6, 0, 2, 0, 1, 22, 0, 2, 0, 1], None), ('ABCD', [6, 0, 2, 0, 1, 22, 0, 2, 0, 1, 6, 2, 2, 2, 1, 22, 2, 1, 2, 1], None),
          ('ABCD', [6, 1, 3, 1, 1, 22, 1, 1, 1, 1], None))
    table(new, '3: a part outside its heading', ('ABCDEF', [6, 2, 2, 2, 1, 22, 1, 2, 2, 1], (3, 1)), ('ABCDEF', [6, 2, 2, 2, 1, 22, 3, 2, 3, 1], (3, 1)),
          ('ABCDEF', [6, 2, 2, 2, 1, 22, 4, 1, 4, 1], (3, 1)), ('ABCDEF', [6, 2, 2, 2, 1, 22, 0, 1, 0, 1], (3, 1)),
          ('ABCDEF', [6, 2, 2, 2, 1, 22, 1, 4, 2, 1], (3, 1)), ('ABCDEF', [6, 0, 2, 0, 1, 6, 2, 2, 2, 1, 22, 1, 1, 1, 1], (3, 2)),
          ('ABCDEF', [6, 2, 2, 2, 1, 22, 2, 2, 2, 1], None), ('ABCDEF', [6, 0, 2, 0, 1, 22, 2, 1, 2, 1, 6, 2, 2, 2, 1], (3, 1)))
    table(new, '3: outside a heading that has no parts', *[('ABC', [kind, 0, 2, 0, 1, 22, 2, 1, 2, 1], (3, 1)) for kind in (1, 2, 3)])


def names(new):
    table(new, '27: a name wrongly present', *[('schema', [kind, 0, 6, at, size], (27, 0)) for kind in (4, 11) for at, size in
          ((0, 1), (1, 0), (0, 6), (5, 0), (6, 0), (1, 5))], ('schema', [4, 0, 6, 0, 0], None, (6, 0)))
    table(new, '27: a name wrongly present and no Name', *[('sch-ma', [kind, 0, 6, at, size], (27, 0)) for kind in (4, 11) for at, size in
          ((0, 6), (3, 1), (2, 0))])
    table(new, '4 before 27: a name wrongly present, outside its item', *[('schema', [kind, 0, 6, at, size], (4, 0)) for kind in (4, 11) for at, size in
          ((7, 1), (7, 0), (6, 1), (NONE, 0), (0, NONE))], *[('schema', [kind, 2, 4, at, size], (4, 0)) for kind in (4, 11) for at, size in
          ((0, 1), (1, 0), (1, 5), (0, 6))])
    table(new, '27: a heading\'s name wrongly absent', *[('AB', [kind, 0, 2, 0, 0], (27, 0)) for kind in (2, 3, 5, 6, 7, 8, 9, 10, 12, 13, 14, 15, 16, 17)])
    headings = {20: 5, 21: 6, 22: 7, 23: 8, 24: 9, 25: 10, 26: 4, 27: 4, 28: 4}
    table(new, '27: a part\'s name wrongly absent', *[
        ('AB', [heading, 0, 2] + ([0, 0] if heading == 4 else [0, 1]) + [part, 1, 1, 0, 0], (27, 1)) for part, heading in headings.items()])
    table(new, '4 and 28: kind 1 may have a name, a Name in its item', ('aa}', [1, 0, 3, 0, 0], None, (6, 0)), ('aa}', [1, 0, 3, 0, 1], None, (6, 0)),
          ('aa}', [1, 0, 3, 1, 0], (28, 0)), ('aa}', [1, 0, 3, 1, 2], (28, 0)), ('aa}', [1, 0, 2, 1, 2], (4, 0)), ('aa}', [1, 1, 1, 0, 1], (4, 0)),
          ('aa}', [1, 1, 1, 0, 0], None, (6, 0)))
    table(new, '4: a name outside its item', ('ABCDEF', [5, 2, 2, 1, 1], (4, 0)), ('ABCDEF', [5, 2, 2, 1, 2], (4, 0)), ('ABCDEF', [5, 2, 2, 3, 2], (4, 0)),
          ('ABCDEF', [5, 2, 2, 4, 1], (4, 0)), ('ABCDEF', [5, 2, 2, 1, 4], (4, 0)), ('ABCDEF', [5, 2, 2, 2, 2], None), ('ABCDEF', [5, 2, 2, 0, 1], (4, 0)),
          ('ABCDEF', [6, 0, 6, 0, 1, 22, 2, 2, 0, 1], (4, 1)), ('ABCDEF', [6, 0, 6, 0, 1, 22, 2, 2, 3, 2], (4, 1)), ('ABCDEF', [5, 4, 2, 5, 2], (4, 0)))
    table(new, '4: a name past every text, not wrapped', ('A', [5, 0, 1, NONE, 2], (4, 0)), ('AB', [5, 0, 2, 1, NONE], (4, 0)),
          ('AB', [5, 0, 2, 0, NONE], (4, 0)), ('AB', [5, 1, 1, HIGH, HIGH + 2], (4, 0)), ('AB', [5, 1, 1, NONE, NONE], (4, 0)),
          ('AB', [5, 0, 2, 2 ** 32 - 2, 3], (4, 0)))
    # The bytes beside each range of letters and digits.
    letters, digits, others = b'AZaz_', b'09', b'/:@[`{ -\n\x00\x7f\x80\xc1\xe9\xff'
    table(new, '28: how a Name begins', *[(bytes([byte]) + b'a', [5, 0, 2, 0, 2],
                                           None if byte in letters else (28, 0)) for byte in letters + digits + others])
    table(new, '28: how a Name goes on', *[
        (b'a' + bytes([byte]), [5, 0, 2, 0, 2], None if byte in letters + digits else (28, 0)) for byte in letters + digits + others])
    table(new, '28: a Name to its last byte', (b'abcdefg-', [5, 0, 8, 0, 8], (28, 0)), (b'abcdefg-', [5, 0, 8, 0, 7], None),
          (b'abc-efgh', [5, 0, 8, 0, 8], (28, 0)),
          (b'1bcdefgh', [5, 0, 8, 0, 8], (28, 0)), (b'1bcdefgh', [5, 0, 8, 1, 7], None), (b'_', [5, 0, 1, 0, 1], None), (b'__', [5, 0, 2, 0, 2], None),
          (b'abcdefgh', [5, 0, 8, 3, 0], (28, 0)), (b'abcdefgh', [5, 3, 5, 3, 0], (28, 0)), (b'ab', [5, 0, 2, 1, 0], (28, 0)))
    kinds = (2, 3, 5, 6, 7, 8, 9, 10, 12, 13, 14, 15, 16, 17)
    table(new, '28: of each heading, a name of no bytes and one with a mark', *[
        ('A-', [kind, 0, 2] + span, (28, 0)) for kind in kinds for span in ([1, 0], [1, 1], [0, 2])])
    table(new, '28: of each part', *[
        ('A-BC', [heading, 0, 4] + ([0, 0] if heading == 4 else [0, 1]) + [part, 1, 2, 1, 2], (28, 1)) for part, heading in headings.items()])
    table(new, '4 before 28: outside its item and no Name', ('A-B-', [5, 0, 2, 3, 1], (4, 0)), ('A-B-', [5, 2, 2, 1, 1], (4, 0)),
          ('A-B-', [5, 0, 2, 3, 0], (4, 0)), ('A-B-', [6, 0, 4, 0, 1, 22, 2, 1, 3, 1], (4, 1)), ('A-B-', [6, 0, 4, 0, 1, 22, 2, 1, 1, 0], (4, 1)))
    for kind, heading in ((21, 6), (23, 8)):
        table(new, f'4: unequal to the item in {kind}', *[
            ('BBBB', [heading, 0, 4, 0, 1, kind] + span, want) for span, want in (
                ([1, 2, 1, 1], (4, 1)), ([1, 2, 2, 1], (4, 1)), ([1, 1, 2, 1], (4, 1)), ([1, 1, 1, 2], (4, 1)), ([1, 2, 1, 2], None), ([1, 3, 1, 3], None),
                ([0, 4, 0, 4], None), ([1, 2, 1, 0], (4, 1)), ([1, 2, 2, 0], (4, 1)), ([1, 2, 0, 0], (27, 1)))])
        table(new, f'28: the item of {kind} is no Name', *[
            ('B-BB', [heading, 0, 4, 0, 1, kind] + span, want) for span, want in (
                ([1, 2, 1, 2], (28, 1)), ([1, 1, 1, 1], (28, 1)), ([1, 2, 2, 1], (4, 1)), ([2, 2, 2, 2], None))])
    table(new, '4: an interface\'s empty name is unequal to its item', ('A BB', [6, 0, 4, 0, 1, 21, 2, 2, 2, 0], (4, 1)),
          ('A BB', [6, 0, 4, 0, 1, 21, 2, 2, 0, 0], (27, 1)), ('A BB', [6, 0, 4, 0, 1, 21, 2, 2, 2, 2], None))
    table(new, '4: text outside names is never looked at', (b'\xff\x00', [], None), (b'\xff\x00A\xfe', [5, 0, 4, 2, 1], None),
          (b'}{"A', [6, 0, 4, 3, 1], None))


# 01: "Order under a heading". Kinds of one place mix.
ORDER = {'scalar': ([20],), 'object': ([21], [20], [22]), 'union': ([20], [23]), 'enum': ([20], [24]), 'input': ([20], [25]),
         'schema': ([20], [26, 27, 28])}
OF_KIND = {4: 'schema', 5: 'scalar', 6: 'object', 7: 'object', 8: 'union', 9: 'enum', 10: 'input'}


def taken_by(heading):
    """The places of a heading's parts."""
    return ORDER[OF_KIND[heading - 7 if heading >= 11 else heading]] if heading > 3 else ()


def heading_card(heading):
    return [heading, 0, 6] + ([0, 0] if heading in (4, 11) else [0, 1])


def places(new):
    table(new, '5: a part without heading', *[('AB', [part, 0, 1, 0, 1], (5, 0)) for part in range(20, 29)],
          ('AB', [22, 0, 1, 0, 1, 99, 0, 1, 0, 1], (5, 0)), ('AB', [23, 0, 2, 0, 1], (4, 0)), ('AB', [22, 0, 1, 0, 1, 6, 0, 2, 0, 1], (5, 0)))
    for heading in range(1, 18):
        order = taken_by(heading)
        place = {kind: at for at, kinds in enumerate(order) for kind in kinds}
        case = new(f'5: the parts of heading {heading} and their order')
        case.open(case.doc(INT))
        for part in range(20, 29):
            case.add(case.doc('ABCDEF', heading_card(heading) + [part, 1, 2, 1, 2]), PASSES if part in place else (5, 1))
        for first in place:
            for second in place:
                words = heading_card(heading) + [first, 1, 2, 1, 2, second, 3, 2, 3, 2]
                case.add(case.doc('ABCDEF', words), PASSES if place[first] <= place[second] else (5, 2))
        case.add(case.doc('ABCDEF', heading_card(heading)))
        case.build()
        case.tallies()
    table(new, '5: the place of the last part counts, of this heading alone',
          ('ABCDEF', [6, 0, 6, 0, 1, 21, 1, 1, 1, 1, 22, 2, 1, 2, 1, 20, 3, 1, 3, 1], (5, 3)),
          ('ABCDEF', [6, 0, 6, 0, 1, 21, 1, 1, 1, 1, 22, 2, 1, 2, 1, 21, 3, 1, 3, 1], (5, 3)),
          ('ABCDEF', [6, 0, 3, 0, 1, 22, 1, 1, 1, 1, 6, 3, 3, 3, 1, 21, 4, 1, 4, 1], None),
          ('ABCDEF', [6, 0, 3, 0, 1, 22, 1, 1, 1, 1, 3, 3, 3, 3, 1, 22, 4, 1, 4, 1], (5, 3)),
          ('ABCDEF', [6, 0, 3, 0, 1, 22, 1, 1, 1, 1, 8, 3, 3, 3, 1, 22, 4, 1, 4, 1], (5, 3)))


def which(new):
    """The first faulty card, then the first that holds for it: 2, 3, 4, 27, 28, 5."""
    table(new, '27 and 28 stand between 4 and 5', ('9', [22, 0, 1, 0, 1], (28, 0)), ('a', [22, 0, 1, 0, 1], (5, 0)), ('a', [22, 0, 1, 0, 0], (27, 0)),
          ('9a', [22, 0, 1, 1, 1], (4, 0)), ('AB9', [8, 0, 3, 0, 1, 22, 2, 1, 2, 1], (28, 1)), ('ABC', [8, 0, 3, 0, 1, 22, 2, 1, 0, 0], (27, 1)),
          ('ABC', [8, 0, 3, 0, 1, 22, 1, 1, 2, 1], (4, 1)), ('ABC', [8, 0, 3, 0, 1, 22, 2, 1, 2, 1], (5, 1)),
          ('ABC', [5, 0, 4, 0, 0], (3, 0)), ('9BC', [5, 0, 0, 0, 1], (3, 0)), ('ABC', [18, 0, 1, 0, 0], (2, 0)), ('9BC', [19, 0, 1, 0, 1], (2, 0)),
          ('ABC', [22, 0, 1, 0, 1, 5, 1, 1, 0, 0], (5, 0)), ('A9C', [22, 0, 1, 0, 1, 5, 1, 1, 1, 1], (5, 0)))
    table(new, '2 to 5: the lowest number of one card', (INT, [0, 0, 0, 0, 0], (2, 0)), (INT, [29, 11, 1, 11, 1], (2, 0)), (INT, [22, 0, 0, 0, 0], (3, 0)),
          (INT, [22, 0, 11, 0, 0], (3, 0)), (INT, [22, 0, 2, 0, 0], (27, 0)), (INT, [23, 0, 2, 0, 1], (4, 0)), (INT, [5, 0, 11, 0, 0], (3, 0)),
          ('ABC', [2, 0, 2, 0, 1, 22, 2, 1, 0, 0], (3, 1)), ('ABC', [2, 0, 2, 0, 1, 22, 1, 1, 0, 0], (27, 1)),
          ('ABC', [2, 0, 2, 0, 1, 22, 1, 1, 1, 1], (5, 1)),
          ('ABC', [5, 0, 3, 0, 1, 22, 1, 1, 2, 1], (4, 1)), ('ABC', [6, 0, 3, 0, 1, 22, 0, 2, 0, 1, 21, 1, 1, 1, 1], (3, 2)))
    table(new, '2 to 5: the first faulty card, not the lowest number', ('AB', [22, 0, 1, 0, 1, 99, 0, 1, 0, 1], (5, 0)),
          ('ABC', [5, 0, 1, 0, 0, 99, 1, 1, 1, 1], (27, 0)), ('ABC', [5, 0, 0, 0, 1, 99, 1, 1, 1, 1], (3, 0)),
          ('ABC', [6, 0, 3, 0, 1, 22, 1, 1, 0, 0, 22, 1, 0, 1, 1], (27, 1)),
          ('ABC', [6, 0, 3, 0, 1, 22, 1, 1, 1, 1, 21, 2, 1, 2, 1, 99, 0, 0, 0, 0], (5, 2)))
    good = [5, 0, 1, 0, 1, 5, 1, 1, 1, 1, 5, 2, 1, 2, 1]
    case = new('2 to 5: the card\'s number is that in its own document')
    case.file(INT, 'type A{n:Int}')
    for number, faulty in ((2, [29, 3, 1, 3, 1]), (3, [5, 3, 2, 3, 1]), (4, [5, 3, 1, 2, 1]), (27, [5, 3, 1, 0, 0]), (28, [5, 3, 1, 3, 0])):
        for before in range(4):
            case.add(case.doc('ABCD', good[:BY_HAND * before] + faulty), (number, before))
    for before in range(4):
        inside = max(before - 1, 0)
        case.add(case.doc('ABCD', good[:BY_HAND * before] + [24, inside, 1, inside, 1]), (5, before))
    case.build()


def make(new):
    for group in (whole_cards, kinds, items, names, places, which):
        group(new)
