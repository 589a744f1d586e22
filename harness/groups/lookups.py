"""Each lookup by hand, over drawn rows and over rows that no drawing made."""
from groups.examples import INT, listed
from lib.sizes import NONE

FOUND, NO_TYPE = 1, (0, 2, NONE, NONE)


def found(card):
    return 0, FOUND, 0, card


def meta(number):
    return 0, FOUND, number, NONE


def no_field(card):
    return 0, 3, NONE, card


def drawn(case, *texts, switches='00', rows=None):
    case.file(*texts, switches=switches)
    case.build(listing=rows)


def type_field(new):
    case = new('type_field: each kind of type')
    drawn(case, INT, 'type T{a:Int}interface I{a:Int}union U=a enum E{a}input N{a:Int}', 'extend type T{b:Int}')
    for name, card, is_composite, field in (('Int', 0, False, None), ('T', 1, True, 2), ('I', 3, True, 4), ('U', 5, True, None), ('E', 7, False, None),
                                            ('N', 9, False, None)):
        case.field(name, 'a', no_field(card) if field is None else found(field))
        case.field(name, '__typename', meta(1) if is_composite else no_field(card))
        case.field(name, '__schema', no_field(card))
        case.field(name, '__type', no_field(card))
        case.field(name, 'x', no_field(card))
    case.field('T', 'b', found(12))
    case.field('I', 'b', no_field(3))
    case = new('type_field: names that are not there, and odd bytes')
    drawn(case, INT, 'type A{n:Int nn:Int}type AA{n:Int}')
    for name in ('', 'a', 'B', 'AAA', 'n', 'type', 'A{', '1', '-', b'\xff', b'A\xff', b'A\x00', '__typename', 'Query'):
        case.field(name, 'n', NO_TYPE)
        case.field(name, '', NO_TYPE)
        case.field(name, '__typename', NO_TYPE)
    for field in ('', 'N', 'nnn', 'A', '-', '1', b'\xc3\xa9', b'n\x00', '__typenam', '__typename_', '__Type', '__schem'):
        case.field('A', field, no_field(1))
    case.field('A', 'n', found(2))
    case.field('A', 'nn', found(3))
    case.field('AA', 'n', found(5))
    case.field('AA', 'nn', no_field(4))
    case = new('type_field: the query root has __schema and __type')
    drawn(case, INT, 'type Query{a:Int}type Mutation{a:Int}type Subscription{a:Int}')
    for field, number in (('__typename', 1), ('__schema', 2), ('__type', 3)):
        case.field('Query', field, meta(number))
    for name, card in (('Mutation', 3), ('Subscription', 5)):
        case.field(name, '__schema', no_field(card))
        case.field(name, '__type', no_field(card))
        case.field(name, '__typename', meta(1))
    case = new('type_field: a query root of another name and kind')
    for kind, body, names in (('enum', '{a}', False), ('type', '{a:Int}', True), ('union', '=A', True), ('input', '{a:Int}', False),
                              ('scalar', '@d', False), ('interface', '{a:Int}', True)):
        drawn(case, INT, f'schema{{query:R mutation:M}}type Query{{a:Int}}{kind} R{body} type M')
        case.field('R', '__schema', meta(2))
        case.field('R', '__type', meta(3))
        case.field('R', '__typename', meta(1) if names else no_field(6))
        case.field('Query', '__schema', no_field(4))
        case.field('M', '__type', no_field(8))
    case = new('type_field: a query root that names no type')
    drawn(case, INT, 'schema{query:R}type Query{a:Int}')
    case.field('R', '__schema', NO_TYPE)
    case.field('R', '__typename', NO_TYPE)
    case.field('Query', '__schema', no_field(3))
    case.root(0, 'R')
    case = new('type_field: explicit fields come before meta fields')
    drawn(case, INT, 'type Query{__typename:Int __schema:Int __type:Int}type A{__typename:Int __type:Int}')
    for at, field in enumerate(('__typename', '__schema', '__type')):
        case.field('Query', field, found(2 + at))
    case.field('A', '__typename', found(6))
    case.field('A', '__type', found(7))
    case.field('A', '__schema', no_field(5))
    case = new('type_field: of a name twice in a list the first, of an adopted type the first extension')
    drawn(case, INT, 'extend type A{n:Int n:Int}extend type A{n:Int m:Int}', switches='10',
          rows=listed('4 - -, 5 0 -, 6 1 1, 22 2 1, 22 6 4', '0 2', '12 3 2, 12 5 2'))
    case.field('A', 'n', found(2))
    case.field('A', 'm', found(6))
    case.field('A', 'x', no_field(1))
    case.field('A', '__typename', meta(1))


def is_subtype(new):
    case = new('is_subtype: interfaces')
    drawn(case, INT, 'interface I interface J implements I type A implements I&J type B implements J type C implements X enum E{v}',
          'extend type C implements I')
    yes = {('I', 'J'), ('I', 'A'), ('I', 'C'), ('J', 'A'), ('J', 'B')}
    names = ('I', 'J', 'A', 'B', 'C', 'E', 'X', 'Int', '', 'Absent')
    for general in names:
        for other in names:
            case.subtype(general, other, (0, int((general, other) in yes)))
    case = new('is_subtype: unions')
    drawn(case, INT, 'union U=A|B|Absent union V=U|V type A implements U type B enum E{v}', 'extend union U=E|A')
    yes = {('U', 'A'), ('U', 'B'), ('U', 'Absent'), ('U', 'E'), ('V', 'U'), ('V', 'V')}
    names = ('U', 'V', 'A', 'B', 'E', 'Absent', 'Int', '')
    for general in names:
        for other in names:
            case.subtype(general, other, (0, int((general, other) in yes)))
    case = new('is_subtype: a type that lists itself, and names that are near')
    drawn(case, INT, 'interface I implements I union U=U|AA type AA implements I type A type O implements O')
    for general, other, is_yes in (('I', 'I', 1), ('U', 'U', 1), ('I', 'AA', 1), ('I', 'A', 0), ('U', 'AA', 1), ('U', 'A', 0), ('U', 'AAA', 0),
                                   ('O', 'O', 0), ('I', 'aa', 0), ('i', 'AA', 0),
                                   ('I', b'AA\x00', 0), (b'\xff', 'AA', 0), ('I', '-', 0)):
        case.subtype(general, other, (0, is_yes))
    case = new('is_subtype: adopted types')
    drawn(case, INT, 'extend interface I{a:Int}extend type A implements I extend union U=A extend type B implements X', switches='10')
    for general, other, is_yes in (('I', 'A', 1), ('U', 'A', 1), ('X', 'B', 0), ('I', 'B', 0), ('A', 'I', 0)):
        case.subtype(general, other, (0, is_yes))


def schema_lookups(new):
    case = new('root_operation: explicit, by extension, by default, none')
    drawn(case, INT, 'schema{query:A}', 'extend schema{subscription:Long_name_1}')
    case.roots('A', '', 'Long_name_1')
    drawn(case, INT, 'type Mutation type Query')
    case.roots('Query', 'Mutation', '')
    drawn(case, 'type Subscription', 'extend schema{query:Q}')
    case.roots('Q', '', 'Subscription')
    drawn(case, INT)
    case.roots('', '', '')
    case = new('iter_origins and extensions: definition, extensions, default roots')
    drawn(case, INT, 'schema@a{query:A}', 'extend schema@b@c', 'extend schema{mutation:M}extend schema{query:Q}')
    case.origins(want=[0, 5, NONE, 4, 4, NONE, 7])
    case.extensions(want=[0, 2, 4, 7])
    drawn(case, INT, 'type Query type Subscription extend schema@d{mutation:M}')
    case.origins(want=[0, 4, 3, NONE, 3, NONE])
    case.extensions(want=[0, 1, 3])
    drawn(case, INT, 'extend schema@a', 'schema@b{query:Q}extend schema@c')
    case.origins(want=[0, 4, NONE, 1, 6, NONE])
    case.extensions(want=[0, 2, 1, 6])
    drawn(case, INT)
    case.origins(want=[0, 0])
    case.extensions(want=[0, 0])
    case = new('extensions: once each, in order of first occurrence')
    drawn(case, INT, 'extend schema{subscription:S}extend schema@a{mutation:M}extend schema@b extend schema{query:Q}', switches='10')
    case.origins(want=[0, 5, 3, 6, 8, 3, 1])
    case.extensions(want=[0, 4, 3, 6, 8, 1])


def implementers(new):
    case = new('implementers_map: groups in the order of their naming cards\' rows')
    drawn(case, INT, 'interface I interface J implements I type A implements J&I type B implements X&I')
    case.implementers(want=[0, 3, 3, 2, 1, 2, 4, 7, 5, 1, 0, 4, 8, 1, 0, 7])
    drawn(case, INT, 'extend type A implements I', 'type B implements I', 'type A implements J')
    case.implementers(want=[0, 2, 4, 2, 0, 3, 5, 6, 1, 0, 5])
    drawn(case, INT, 'type A enum E{v}union U=A')
    case.implementers(want=[0, 0])
    case = new('implementers_map: an early extension names, a name twice counts once')
    drawn(case, INT, 'extend interface K implements I&I', 'interface K implements J', 'type A implements I&I', rows=None)
    case.implementers(want=[0, 2, 5, 0, 1, 4, 2, 1, 1, 4, 6])
    case = new('implementers_map: adopted types')
    drawn(case, INT, 'extend type A implements I extend interface B implements I&A', 'type C implements A', switches='10')
    case.implementers(want=[0, 2, 7, 1, 1, 6, 3, 2, 1, 1, 1, 3])


def other_rows(new):
    """Rows that no drawing made: the first type row of a name counts, the first part of a name, and nothing under a later row of that name."""
    texts = (INT, 'type A implements I{n:Int m:Int}interface A implements J{n:Int o:Int}interface I interface J union U=A',
             'extend type A implements J{n:Int}extend union A=A|I extend schema{query:A}')
    case = new('rows that no drawing made: two type rows of a name')
    drawn(case, *texts)
    cards = dict(a=1, a_i=2, n=3, m=4, b=5, b_j=6, b_n=7, b_o=8, i=9, j=10, u=11, u_a=12, x=13, x_j=14, x_n=15, y=16, y_a=17, y_i=18, s=19, q=20)
    row = lambda kind, card, origin=None: (kind, cards[card], NONE if origin is None else cards[origin])
    first = [row(6, 'a'), row(21, 'a_i'), row(22, 'n'), row(22, 'm')]
    second = [row(7, 'b'), row(21, 'b_j'), row(22, 'b_n'), row(22, 'b_o')]
    rest = [row(7, 'i'), row(7, 'j'), row(8, 'u'), row(23, 'u_a')]
    schema = [(4, NONE, NONE)]
    case.put_rows(schema + first + second + rest)
    case.check_rows(0)
    for field, want in (('n', found(3)), ('m', found(4)), ('o', no_field(1)), ('__typename', meta(1))):
        case.field('A', field, want)
    for general, other, is_yes in (('I', 'A', 1), ('J', 'A', 0), ('A', 'A', 0), ('U', 'A', 1)):
        case.subtype(general, other, (0, is_yes))
    case.implementers(want=[0, 1, 2, 1, 0, 1])
    case.put_rows(schema + second + first + rest)
    for field, want in (('n', found(7)), ('m', no_field(5)), ('o', found(8))):
        case.field('A', field, want)
    for general, other, is_yes in (('I', 'A', 0), ('J', 'A', 1), ('A', 'A', 0)):
        case.subtype(general, other, (0, is_yes))
    case.implementers(want=[0, 1, 6, 0, 1, 5])
    case.put_rows(schema + rest + [row(8, 'y', 'y'), row(23, 'y_a', 'y'), row(23, 'y_i', 'x')] + first)
    case.field('A', 'n', no_field(16))
    case.field('A', '__typename', meta(1))
    for general, other, is_yes in (('A', 'A', 1), ('A', 'I', 1), ('I', 'A', 0)):
        case.subtype(general, other, (0, is_yes))
    case.implementers(want=[0, 0])
    case = new('rows that no drawing made: parts under other types, twice in a list')
    drawn(case, *texts)
    case.put_rows(schema + [row(7, 'i'), row(21, 'x_j', 's'), row(21, 'b_j'), row(22, 'x_n', 'y'), row(22, 'b_n'), row(6, 'a'), row(21, 'a_i'),
                            row(22, 'b_o'), row(7, 'j')])
    case.check_rows(0)
    case.field('I', 'n', found(15))
    case.field('A', 'o', found(8))
    case.field('A', 'n', no_field(1))
    case.subtype('J', 'I', (0, 1))
    case.subtype('I', 'A', (0, 1))
    case.implementers(want=[0, 2, 14, 0, 1, 9, 2, 1, 0, 1])
    case.put_rows([(4, NONE, NONE), (26, 20, 16), row(6, 'x', 's'), row(22, 'x_n')])
    case.roots('A', '', '')
    case.origins(want=[0, 1, 16])
    case.extensions(want=[0, 1, 16])
    case.field('A', '__schema', meta(2))
    case.field('A', 'm', no_field(13))
    case.field('A', 'n', found(15))
    case = new('rows that no drawing made: origins that repeat or are no schema\'s')
    drawn(case, INT, 'schema@a@b@c{query:A mutation:B}', 'extend schema@d extend type A{n:Int}')
    case.put_rows([(4, 1, 7), (20, 2, 9), (20, 3, NONE), (20, 4, 7), (20, 8, 9), (26, 5, 7), (27, 6, NONE), (5, 0, NONE)])
    case.origins(want=[0, 6, 9, NONE, 7, 9, 7, NONE])
    case.extensions(want=[0, 2, 9, 7])
    case.roots('A', 'B', '')
    case.put_rows([(4, NONE, 7), (5, 0, NONE), (20, 2, 7)])
    case.origins(want=[0, 0])
    case.extensions(want=[0, 0])
    case.check_rows(0)
    case = new('rows that no drawing made: a default root\'s name is its object row\'s')
    drawn(case, 'type Query{a:Int}', 'type Query{b:Int}extend type Query{c:Int}')
    for rows, answer in (([(6, 0, NONE)], no_field(0)), ([(6, 2, NONE)], no_field(2)), ([(6, 4, 4), (6, 0, NONE)], no_field(4))):
        case.put_rows([(4, NONE, NONE), (26, NONE, NONE)] + rows)
        case.roots('Query', '', '')
        case.field('Query', '__schema', meta(2))
        case.field('Query', 'zz', answer)
    case.put_rows([(4, NONE, NONE), (6, 2, NONE), (22, 3, NONE)])
    case.roots('', '', '')
    case.field('Query', '__schema', no_field(2))
    case.field('Query', 'b', found(3))


def older_rows(new):
    case = new('rows of an earlier drawing, over a store that has grown')
    drawn(case, INT, 'type A{n:Int}', rows=listed('4 - -, 5 0 -, 6 1 -, 22 2 -'))
    case.add(case.doc('extend type A implements I{m:Int}type Query interface I'))
    case.check_rows(0)
    case.field('A', 'n', found(2))
    case.field('A', 'm', no_field(1))
    case.field('Query', '__schema', NO_TYPE)
    case.roots('', '', '')
    case.implementers(want=[0, 0])
    case.adopt()
    case.ignore()
    case.field('A', 'm', no_field(1))
    case.build(listing=listed('4 - -, 26 - -, 5 0 -, 6 1 -, 21 4 3, 22 2 -, 22 5 3, 6 6 -, 7 7 -'))
    case.field('A', 'm', found(5))
    case.subtype('I', 'A', (0, 1))
    case.implementers(want=[0, 1, 4, 1, 0, 1])
    case = new('rows of another store')
    drawn(case, INT, 'type A{n:Int}', rows=listed('4 - -, 5 0 -, 6 1 -, 22 2 -'))
    case.open(case.doc('scalar B'))
    case.check_rows(26)
    case.one_refuses(26)
    case.add(case.doc('type C{x:Int}'))
    case.check_rows(0)
    case.field('C', 'x', found(2))
    case.field('A', 'n', NO_TYPE)
    case.field('B', 'n', no_field(0))
    case.open(case.doc('type C{x:Int}'))
    case.add(case.doc('scalar B'))
    case.all_refuse(26)


def make(new):
    for group in (type_field, is_subtype, schema_lookups, implementers, other_rows, older_rows):
        group(new)
