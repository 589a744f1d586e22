"""Each error number, while reading documents and, those that can, while drawing. Error rows are by hand and by the oracle."""
from collections import Counter

from groups.examples import INT
from lib.sizes import NONE, tallies_of

CALLED = {1: 'an executable definition', 2: 'a second schema definition', 3: 'a second directive definition', 4: 'a second type definition',
          5: 'a built-in scalar defined again', 6: 'a schema extension without schema', 7: 'an extension without type', 8: 'an extension of another kind',
          9: 'a root that comes again', 10: 'an object\'s interface that comes again', 11: 'an interface\'s interface that comes again',
          12: 'an object\'s field that comes again', 13: 'an interface\'s field that comes again', 14: 'an enum value that comes again',
          15: 'a union member that comes again', 16: 'an input field that comes again'}


def errors_in(case, texts, switches, counts, errors):
    """Opens anew, draws, and holds the errors against those by hand: counts of both sides, then rows."""
    case.file(*texts, switches=switches)
    drawn = case.build()
    told = [[NONE if word == '-' else int(word) for word in row.split(' ')] for row in errors]
    assert [list(error) for error in drawn['errors']] == told, (texts, drawn['errors'], told)
    assert (drawn['reading'], len(told) - drawn['reading']) == counts, (texts, drawn['reading'])
    case.tallies(tallies_of(Counter(number for number, _, _ in told)))


def single(new, number, *rows):
    """One case for a number: texts after `scalar Int`, switches, counts, error rows."""
    case = new(f'error {number}: {CALLED[number]}')
    for texts, switches, counts, *errors in rows:
        errors_in(case, (INT,) + texts, switches, counts, errors)
    case.look(12)
    return case


def reading(new):
    single(new, 1, (('query{a}',), '00', (1, 0), '1 1 -'), (('query Q{a}mutation{a}subscription S{a}',), '00', (3, 0), '1 1 -', '1 2 -', '1 3 -'),
           (('{a}',), '00', (1, 0), '1 1 -'), (('fragment f on A{a}',), '11', (1, 0), '1 1 -'),
           (('query Q{a}', 'query Q{a}fragment Q on Q{a}'), '00', (3, 0), '1 1 -', '1 2 -', '1 3 -'))
    single(new, 2, (('schema{query:A}schema{query:B}',), '00', (1, 0), '2 3 1'),
           (('schema{query:A}', 'schema{mutation:B}schema@d{subscription:C}'), '00', (2, 0), '2 3 1', '2 5 1'),
           (('extend schema@d', 'schema{query:A}', 'schema{query:B}'), '11', (1, 0), '2 5 3'))
    single(new, 3, (('directive@d on FIELD directive@d on FIELD',), '00', (1, 0), '3 2 1'),
           (('directive@d on FIELD', 'directive@e on FIELD', 'directive@d on FIELD'), '01', (1, 0), '3 3 1'),
           (('directive@d on FIELD directive@d on FIELD directive@d on FIELD',), '10', (2, 0), '3 2 1', '3 3 1'))
    single(new, 4, (('type A{n:Int}type A{n:Int}',), '00', (1, 0), '4 3 1'), (('type A{n:Int}scalar A',), '01', (1, 0), '4 3 1'),
           (('scalar A', 'scalar A', 'enum A{a}'), '00', (2, 0), '4 2 1', '4 3 1'),
           (('type Int{n:Int}',), '00', (1, 0), '4 1 0'), (('enum Int{a}union Int=A',), '10', (2, 0), '4 1 0', '4 3 0'))
    single(new, 5, (('scalar Int',), '00', (1, 0), '5 1 -'), (('scalar Int scalar Int',), '10', (2, 0), '5 1 -', '5 2 -'),
           (('scalar Int@d',), '00', (1, 0), '5 1 -'))
    case = new('error 5: whatever the built-in type is')
    errors_in(case, ('type A{n:Int}enum B{b}', 'scalar A scalar B scalar C scalar C'), '00', (3, 0), ['5 4 -', '5 5 -', '4 7 6'])
    errors_in(case, ('type A{n:Int}enum B{b}', 'scalar A', 'type B{n:Int}'), '00', (2, 0), ['5 4 -', '4 5 2'])
    errors_in(case, ('type A{n:Int}enum B{b}', 'scalar A', 'type B{n:Int}'), '01', (0, 0), [])


def drawing(new):
    single(new, 6, (('extend schema{query:A}',), '00', (0, 1), '6 1 -'),
           (('extend schema@d', 'extend schema{query:A}extend schema@e'), '01', (0, 3), '6 1 -', '6 3 -', '6 5 -'),
           (('extend schema@d', 'interface Query{a:Int}'), '00', (0, 1), '6 1 -'), (('extend schema@d',), '10', (0, 0)))
    single(new, 7, (('extend type A{n:Int}',), '00', (0, 1), '7 1 -'),
           (('extend type A{n:Int}extend union B=C', 'extend enum A{a}'), '01', (0, 3), '7 1 -', '7 5 -', '7 3 -'),
           (('extend scalar A@d extend scalar A@d',), '00', (0, 2), '7 1 -', '7 3 -'),
           (('extend type A{n:Int}extend schema@d',), '00', (0, 2), '7 1 -', '6 3 -'))
    single(new, 8, (('type U{n:Int}extend union U=B',), '00', (1, 0), '8 3 1'), (('extend union U=B type U{n:Int}',), '00', (0, 0)),
           (('extend type Int{n:Int}',), '11', (1, 0), '8 1 0'),
           (('extend type A{n:Int}extend union A=B extend enum A{a}',), '10', (0, 2), '8 3 1', '8 5 1'),
           (('extend type A{n:Int}extend union A=B',), '00', (0, 2), '7 1 -', '7 3 -'),
           (('scalar A extend type A@d extend interface A@d extend union A=B extend enum A{a}extend input A@d extend scalar A@d',), '00', (5, 0), '8 2 1',
            '8 4 1', '8 6 1', '8 8 1', '8 10 1'))
    single(new, 9, (('schema{query:A query:B}',), '00', (1, 0), '9 3 2'),
           (('schema{query:A}extend schema{query:B mutation:C}extend schema{mutation:D}',), '00', (2, 0), '9 4 2', '9 7 5'),
           (('extend schema{query:B}schema{query:A}',), '00', (1, 0), '9 2 4'), (('type Query{n:Int}extend schema{query:Q}',), '00', (0, 1), '9 4 -'),
           (('extend schema{query:A query:B}extend schema{query:C}',), '10', (0, 2), '9 3 2', '9 5 2'),
           (('type Query type Mutation type Subscription extend schema{query:A mutation:B subscription:C}',), '00', (0, 3), '9 5 -', '9 6 -', '9 7 -'),
           (('extend schema{query:B}', 'schema{query:A}extend schema{query:C}'), '11', (2, 0), '9 2 4', '9 6 4'))


# Number, keyword, how one part is written, how several parts are joined under a heading.
LISTS = [(10, 'type', ' implements {}', '&'), (11, 'interface', ' implements {}', '&'), (12, 'type', '{{{}}}', ' '), (13, 'interface', '{{{}}}', ' '),
         (14, 'enum', '{{{}}}', ' '),
         (15, 'union', '={}', '|'), (16, 'input', '{{{}}}', ' ')]


def parts(new):
    for number, keyword, form, mark in LISTS:
        def text(*names, extends=False, name='A'):
            written = [each + ':Int' if number in (12, 13, 16) else each for each in names]
            return f'{"extend " if extends else ""}{keyword} {name}' + form.format(mark.join(written)) + ' '
        again = lambda *rows: [f'{number} {row}' for row in rows]
        case = new(f'error {number}: {CALLED[number]}')
        # In the definition, the third naming the first; by an extension; early; of another name no error.
        errors_in(case, (INT, text('a', 'b', 'a', 'a')), '00', (2, 0), again('4 2', '5 2'))
        errors_in(case, (INT, text('a', 'b') + text('b', 'c', 'c', extends=True)), '00', (2, 0), again('5 3', '7 6'))
        errors_in(case, (INT, text('a', 'b', extends=True), text('b', 'a', 'b')), '11', (3, 0), again('7 5', '2 6', '3 5'))
        errors_in(case, (INT, text('a'), text('a', name='B')), '00', (0, 0), [])
        # Adopted, while drawing; not adopted, 7.
        errors_in(case, (INT, text('a', 'a', extends=True) + text('b', 'a', extends=True)), '10', (0, 2), again('3 2', '6 2'))
        errors_in(case, (INT, text('a', 'a', extends=True) + text('b', 'a', extends=True)), '00', (0, 2), ['7 1 -', '7 4 -'])
        # A built-in type that is extended.
        errors_in(case, (text('a', 'b'), text('b', 'c', extends=True)), '00', (1, 0), again('4 2'))
        case.look(16)


def mixed(new):
    case = new('errors of many numbers in pushing order')
    texts = (INT, 'extend type A{a:Int a:Int}type B{b:Int b:Int}type A{a:Int c:Int c:Int}',
             'query{a}schema{query:A query:B}schema{query:C}scalar Int scalar B',
             'extend union A=B extend enum Z{a a}extend schema{query:A}directive@d on FIELD directive@d on FIELD',
             'enum E{a b a}union U=A|A input I{a:Int a:Int}')
    for switches in ('00', '10', '01', '11'):
        case.file(*texts, switches=switches)
        case.build()
        case.tallies()
    case = new('all sixteen numbers in two drawings')
    texts = (INT,
             'query{a}type T implements I&I{a:Int a:Int}interface I implements I&I{a:Int a:Int}enum E{a a}union U=T|T input N{a:Int a:Int}scalar T scalar Int',
             'directive@d on FIELD directive@d on FIELD extend enum T{a}extend type Z{a:Int}', 'extend schema{query:Q}')
    errors = ['1 1 -', '10 4 3', '12 6 5', '11 9 8', '13 11 10', '14 14 13', '15 17 16', '16 20 19', '4 21 2', '5 22 -', '3 24 23', '8 25 2', '7 27 -',
              '6 29 -']
    errors_in(case, texts, '00', (12, 2), errors)
    texts += ('schema{query:T query:T}schema{query:T}',)
    errors_in(case, texts, '00', (15, 1), errors[:12] + ['9 33 32', '9 30 32', '2 34 31', '7 27 -'])
    case.look(30)


def make(new):
    reading(new)
    drawing(new)
    parts(new)
    mixed(new)
