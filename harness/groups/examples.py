"""P1 to P10 as 01 prints them, by hand, each also under the other switches; then the examples of the readings."""
from collections import Counter

from lib.sizes import NONE, tallies_of

INT = 'scalar Int'
FIRST = '4 - -, 5 0 -'
OBJECT = 'type Query{n:Int}'


def listed(rows, counts='0 0', errors=''):
    """A listing from rows and error rows that are written one behind another."""
    lines = [line.strip() for line in rows.split(',')]
    told = [line.strip() for line in errors.split(',') if line.strip()]
    return '\n'.join([f'rows {len(lines)}'] + lines + [f'errors {counts}'] + told) + '\n'


# Title, texts, and by switches the listing that 01 tells.
TABLE = [
    ('P1', [INT, 'type A{n:Int n:Int}extend type A{m:Int}'], {'00': listed(FIRST + ', 6 1 -, 22 2 -, 22 5 4', '1 0', '12 3 2')}),
    ('P2', [INT], {'00': listed(FIRST)}),
    ('P3', [INT, 'extend type B{m:Int}'], {'00': listed(FIRST, '0 1', '7 1 -'), '10': listed(FIRST + ', 6 1 1, 22 2 1')}),
    ('P4', [INT, 'extend union U=B type U{n:Int}'], {'00': listed(FIRST + ', 6 3 -, 22 4 -')}),
    ('P5', [INT, 'type U{n:Int}extend union U=B'], {'00': listed(FIRST + ', 6 1 -, 22 2 -', '1 0', '8 3 1')}),
    ('P6', [INT, INT], {'00': listed(FIRST, '1 0', '5 1 -'), '01': listed(FIRST)}),
    ('P7', [INT, 'type Int{n:Int}'], {'00': listed(FIRST, '1 0', '4 1 0')}),
    ('P8', [INT, OBJECT], {'00': listed('4 - -, 26 - -, 5 0 -, 6 1 -, 22 2 -')}),
    ('P9', [INT, OBJECT + 'extend schema{query:Q}'],
     {'00': listed('4 - -, 26 - -, 5 0 -, 6 1 -, 22 2 -', '0 1', '9 4 -'), '10': listed('4 - -, 26 4 3, 5 0 -, 6 1 -, 22 2 -')}),
    ('P10', ['directive @d on FIELD'] * 3, {'00': listed('4 - -, 3 1 -', '1 0', '3 2 1')}),
]
NAMES = {'00': '', '10': ', adopting', '01': ', ignored', '11': ', adopting and ignored'}
# P1's cards as 01 prints them.
P1_CARDS = [6, 0, 19, 5, 1, 22, 7, 5, 7, 1, 22, 13, 5, 13, 1, 13, 19, 20, 31, 1, 22, 33, 5, 33, 1]

# The readings' examples: their number, texts, switches, listing.
READINGS = [
    ('3.2', ['directive@d on FIELD directive@d on QUERY', 'directive@d on FIELD'], '00', listed('4 - -, 3 2 -')),
    ('7.2', [INT, 'extend type A{a:Int}extend type B{a:Int}extend type A{a:Int}'], '00', listed(FIRST, '0 3', '7 1 -, 7 5 -, 7 3 -')),
    ('7.3', [INT, 'extend type A{a:Int a:Int}type B{b:Int b:Int}type A{a:Int c:Int c:Int}'], '00',
     listed(FIRST + ', 6 4 -, 22 5 -, 6 7 -, 22 8 -, 22 9 -', '4 0', '12 6 5, 12 10 9, 12 2 8, 12 3 8')),
    ('7.5', [INT, 'extend union A=B extend type A{a:Int}extend type A{b:Int}'], '10', listed(FIRST + ', 8 1 1, 23 2 1', '0 2', '8 3 1, 8 5 1')),
    ('7.7', ['type A{a:Int}', 'scalar A enum A{a}'], '00', listed('4 - -, 6 0 -, 22 1 -', '2 0', '5 2 -, 4 3 0')),
    ('7.13', [INT, 'type Query{a:Int}type Mutation{a:Int}extend schema{mutation:B}'], '10', listed('4 - -, 27 6 5, 5 0 -, 6 1 -, 22 2 -, 6 3 -, 22 4 -')),
    ('7.14', [INT, 'interface Query{a:Int}extend schema@d'], '00', listed(FIRST + ', 7 1 -, 22 2 -', '0 1', '6 3 -')),
]


def tallied(listing):
    """The tallies and the total, counted in a listing."""
    lines = listing.split('\nerrors ')[1].split('\n')[1:-1]
    return tallies_of(Counter(int(line.split(' ')[0]) for line in lines))


def drawn(case, texts, switches, listing):
    case.file(*texts, switches=switches)
    case.build(listing=listing)
    case.tallies(tallied(listing) if listing else None)
    case.look()


def make(new):
    for title, texts, listings in TABLE:
        for switches in ('00', '10', '01', '11'):
            drawn(new(title + NAMES[switches]), texts, switches, listings.get(switches))
    case = new('P1 by the words that 01 prints')
    case.open(case.doc(INT, [5, 0, 10, 7, 3]))
    case.add(case.doc(TABLE[0][1][1], P1_CARDS))
    case.build(listing=TABLE[0][2]['00'])
    case.tallies(tallies_of({12: 1}))
    case.field('A', 'n', (0, 1, 0, 2))
    case.field('A', 'm', (0, 1, 0, 5))
    case.field('A', '__typename', (0, 1, 1, NONE))
    case.field('A', '__type', (0, 3, NONE, 1))
    case.field('B', 'n', (0, 2, NONE, NONE))
    for title, texts, switches, listing in READINGS:
        drawn(new(f'reading {title}'), texts, switches, listing)
