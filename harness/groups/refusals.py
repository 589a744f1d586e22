"""Refusals 6, 7 and 21 in each entry that can answer them, by hand from 01."""
from groups.examples import INT, listed
from lib.sizes import CARDS, ERRORS_LENT, FIRST_CARD, GROUPS_LENT, NONE, ORIGINS_LENT, ROWS_LENT, TEXT, WORDS, card_at, tallies_of

KEYWORD = {1: 'query{a}', 2: 'fragment f on A{a}', 4: 'schema{query:A}', 11: 'extend schema{query:A}', 12: 'extend scalar A@d', 13: 'extend type A{n:Int}',
           14: 'extend interface A{n:Int}', 15: 'extend union A=B', 16: 'extend enum A{a}', 17: 'extend input A{n:Int}'}


def opened(new, title, *rows):
    """Texts lent to opening, each with the answer; filing takes what only 6 refuses."""
    case = new(title)
    for text, want in rows:
        case.open(case.doc(text), want)
    case.open(case.doc(INT))
    for text, _ in rows:
        case.add(case.doc(text))
    case.build()
    case.tallies()


def built_in(new):
    opened(new, '6: each barred kind alone', *[(text, (6, 0)) for text in KEYWORD.values()])
    opened(new, '6: each barred kind behind others', *[('type A{n:Int}scalar B ' + text, (6, 3)) for text in KEYWORD.values()])
    opened(new, '6: the first heading of a barred kind', ('scalar A extend scalar A@d query{a}', (6, 1)), ('scalar A query{a}extend scalar A@d', (6, 1)),
           ('schema{query:A}schema{query:A}', (6, 0)))
    opened(new, '6: a type defined twice, a scalar or another', ('scalar Int scalar Int', (6, 1)), ('scalar A type A{n:Int}', (6, 1)),
           ('type A{n:Int m:Int}scalar A', (6, 3)), ('enum A{a}enum A{a}', (6, 2)))
    opened(new, '6: a part that comes again', ('type A implements B&B', (6, 2)), ('interface A implements B&B', (6, 2)), ('type A{n:Int n:Int}', (6, 2)),
           ('interface A{n:Int m:Int n:Int}', (6, 3)), ('enum A{a b b}', (6, 3)), ('union A=B|B', (6, 2)), ('input A{n:Int n:Int}', (6, 2)))
    opened(new, '6: the first error\'s card', ('type A{n:Int n:Int n:Int}', (6, 2)), ('type A{n:Int n:Int}scalar A', (6, 2)),
           ('scalar A scalar A type B{n:Int n:Int}', (6, 1)),
           ('type A implements B&B{n:Int n:Int}', (6, 2)))
    opened(new, '6: a barred kind comes before an error', ('scalar Int scalar Int schema{query:Q}', (6, 2)), ('type A{n:Int n:Int}query{a}', (6, 3)))
    opened(new, '6: what is no error', ('directive@d on FIELD directive@d on QUERY', (0, 0)), ('type A@d@d', (0, 0)),
           ('type A implements A{a:Int}', (0, 0)),
           ('scalar A scalar B type C{a:A a1:A}', (0, 0)), ('', (0, 0)), ('# nothing', (0, 0)))
    case = new('6: 2 to 5 come first, at any card')
    case.open(case.doc('query{a}', [1, 0, 8, 0, 0, 5, 8, 0, 0, 0]), (3, 1))
    case.open(case.doc('AA', [5, 0, 1, 0, 1, 5, 1, 1, 1, 1]), (6, 1))
    case.open(case.doc('AAA', [5, 0, 1, 0, 1, 5, 1, 1, 1, 1, 22, 1, 1, 1, 1]), (5, 2))
    case.open(case.doc('AAA', [4, 0, 1, 0, 0, 18, 1, 1, 1, 1]), (2, 1))
    case.open(case.doc('AAA', [11, 0, 1, 1, 1]), (4, 0))
    case.lend_rows(0)
    case.all_refuse(22, case.doc(INT))
    case = new('6: a refused opening leaves the store that was there')
    case.file(INT, 'type A{n:Int}')
    for text in ('scalar A scalar A', 'query{a}'):
        case.open(case.doc(text), (6, 0 if text[0] == 'q' else 1))
        case.build(listing=listed('4 - -, 5 0 -, 6 1 -, 22 2 -'))
    case.add(case.doc('extend type A{m:Int}'))
    case.build(listing=listed('4 - -, 5 0 -, 6 1 -, 22 2 -, 22 4 3'))


def too_short_to_write(new):
    case = new('7: rows and errors one word short, and exact')
    case.file(INT, 'type Query{n:Int}')
    for rows, errors in ((ROWS_LENT - 1, ERRORS_LENT), (ROWS_LENT, ERRORS_LENT - 1), (ROWS_LENT - 1, ERRORS_LENT - 1), (0, 0), (0, ERRORS_LENT),
                         (ROWS_LENT, 0), (15, 0), (1, 1), (ROWS_LENT - 3, ERRORS_LENT), (ROWS_LENT, ERRORS_LENT - 3), (ERRORS_LENT, ROWS_LENT - 12)):
        case.build(rows, errors, 7)
        case.tallies(tallies_of({}))
    case.build(listing=listed('4 - -, 26 - -, 5 0 -, 6 1 -, 22 2 -'))
    case.tallies(tallies_of({}))
    case.build(ROWS_LENT - 1, ERRORS_LENT, 7)
    case.lend_rows(15)
    case.check_rows(0)
    for entry, least, want in ((lambda *a: case.origins(*a), ORIGINS_LENT, [0, 1, NONE]), (lambda *a: case.extensions(*a), ORIGINS_LENT, [0, 0]),
                               (lambda *a: case.implementers(*a), GROUPS_LENT, [0, 0])):
        case = new('7: a list one word short, and exact')
        case.file(INT, 'type Query{n:Int}')
        case.build(listing=listed('4 - -, 26 - -, 5 0 -, 6 1 -, 22 2 -'))
        for lent in (least - 1, 0, 1, least // 2):
            entry(lent, (7, 0))
        for lent in (least, least + 1):
            entry(lent, want)
        case.build(ROWS_LENT, ERRORS_LENT - 1, 7)
    case = new('7: one list\'s length is not the other\'s')
    case.file(INT, 'interface I type A implements I{n:Int}type Query implements I{n:Int}')
    case.build(listing=listed('4 - -, 26 - -, 5 0 -, 7 1 -, 6 2 -, 21 3 -, 22 4 -, 6 5 -, 21 6 -, 22 7 -'))
    case.implementers(ORIGINS_LENT, (7, 0))
    case.implementers(GROUPS_LENT, [0, 1, 3, 2, 0, 2, 5])
    case.origins(ORIGINS_LENT, [0, 1, NONE])
    case.origins(GROUPS_LENT, [0, 1, NONE])
    case.extensions(GROUPS_LENT, [0, 0])


def store_too_short(new):
    for title, text, words in (('one byte', TEXT - 1, WORDS), ('one word', TEXT, WORDS - 1), ('both', TEXT - 1, WORDS - 1), ('no text', 0, WORDS),
                               ('no words', TEXT, 0),
                               ('no store', 0, 0)):
        case = new(f'21: a store that lacks {title}' if title != 'no store' else '21: no store at all')
        case.lend_store(text, words)
        case.lend_rows(0)
        case.open(case.doc(INT), (21, 0))
        case.all_refuse(21)
        case.lend_store()
        case.file(INT, 'type A{n:Int}')
        case.build(listing=listed('4 - -, 5 0 -, 6 1 -, 22 2 -'))
        case.lend_store(text, words)
        case.open(case.doc(INT), (21, 0))
        case.all_refuse(21)
        case.lend_store()
        case.build(listing=listed('4 - -, 5 0 -, 6 1 -, 22 2 -'))
        case.field('A', 'n', (0, 1, 0, 2))
    case = new('21: lengths that other things have')
    case.file(INT)
    case.build()
    for text, words in ((WORDS, WORDS), (TEXT, TEXT // 8), (TEXT, CARDS), (TEXT, FIRST_CARD), (TEXT, WORDS - FIRST_CARD), (WORDS, WORDS), (10, card_at(1)),
                        (TEXT - 1, WORDS)):
        case.lend_store(text, words)
        for _ in range(3):
            case.one_refuses(21)
        case.open(0, (21, 0))


def make(new):
    built_in(new)
    too_short_to_write(new)
    store_too_short(new)
