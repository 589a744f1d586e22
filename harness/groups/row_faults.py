"""Refusal 26: rows that a drawing does not make. Clause by clause by hand, in every lookup; then drawn rows damaged word by word, where 26 is told twice."""
from groups.examples import INT, listed
from lib.model import DEFAULT_ROOTS
from lib.sizes import CARDS, CARDS_USED, NONE, ROW, ROWS_LENT

# Cards are called by these names in the rows below.
TEXTS = (INT, 'type A{n:Int}', 'extend schema{query:A}extend type A{m:Int}extend type A{o:Int}', 'type Query{a:Int}interface Query{a:Int}',
         'directive@d on FIELD union U=A enum E{v}input N{i:Int}type C implements Query@d', 'schema@d{query:A mutation:B subscription:C}',
         'extend union W=A extend interface J{n:Int}')
NUMBERS = dict(int=0, a=1, n=2, schema_extension=3, query=4, extension=5, m=6, second=7, o=8, object=9, object_field=10, interface=11, interface_field=12,
               directive=13, union=14, member=15, enum=16, value=17, input=18, input_field=19, c=20, listed=21, use=22, schema=23, schema_use=24,
               schema_query=25,
               mutation=26, subscription=27, orphan_union=28, orphan_member=29, orphan_interface=30, orphan_field=31)


def words_of(line):
    """A row: its kind, a card by its name above or as a number, an origin."""
    return tuple(NONE if word == '-' else NUMBERS.get(word, None) if word in NUMBERS else int(word) for word in line.split(' '))


def base(case):
    case.file(*TEXTS)
    case.build()
    return case


def table(new, title, *rows):
    """One case of rows by hand, each with 26 or 0; every entry has its turn."""
    case = base(new(title))
    for want, *lines in rows:
        case.put_rows([words_of(line) for line in lines])
        case.check_rows(want)
        if want:
            case.one_refuses(want)
            case.one_refuses(want)
        else:
            case.roots()
            case.field('A', 'n')
            case.lists()
    return case


def clauses(new):
    case = table(new, '26: words that are no whole rows', (0, '4 - -'))
    case.put_rows([words_of(line) for line in ('4 - -', '5 int -', '6 a -', '22 n -')])
    for length in range(13):
        case.lend_rows(length)
        if length % 3 or not length:
            case.check_rows(26)
            case.one_refuses(26)
        else:
            case.check_rows(0)
    case = table(new, '26: no rows at all', (26,))
    case.all_refuse(26)
    case = new('26: the whole slice after a drawing, zeros and all')
    case.file(INT, 'type A{n:Int}')
    case.build(listing=listed('4 - -, 5 0 -, 6 1 -, 22 2 -'))
    for length in (ROWS_LENT, 15, 13, 14):
        case.lend_rows(length)
        case.all_refuse(26)
    case.lend_rows(12)
    case.check_rows(0)
    table(new, '26: rows that do not begin with a row 4', (26, '5 int -'), (26, '6 a -', '22 n -'), (26, '26 query schema_extension'),
          (26, '3 directive -'),
          (26, '0 - -'), (26, '11 schema_extension -'), (26, '5 int -', '4 - -'), (26, '20 use -'), (0, '4 - -'), (0, '4 schema -'))
    table(new, '26: one row 4', (26, '4 - -', '4 - -'), (26, '4 schema -', '4 - -'), (26, '4 - -', '5 int -', '4 - -'),
          (26, '4 - -', '6 a -', '4 schema -'),
          (0, '4 schema -', '5 int -'))
    table(new, '26: each root at most once, in order', (0, '4 - -', '26 query schema_extension', '5 int -'),
          (26, '4 - -', '26 query -', '26 schema_query -'),
          (0, '4 - -', '26 query -', '27 mutation -', '28 subscription -'), (26, '4 - -', '27 mutation -', '26 query -'),
          (26, '4 - -', '28 subscription -', '27 mutation -'),
          (26, '4 - -', '28 subscription -', '26 query -'), (26, '4 - -', '26 query -', '27 mutation -', '26 schema_query -'),
          (0, '4 - -', '28 subscription -'),
          (0, '4 - -', '26 query -', '28 subscription -'), (26, '4 - -', '26 - -', '26 - -', '6 object -'))
    table(new, '26: the order under row 4', (0, '4 - -', '20 use -', '20 schema_use -', '26 query -', '3 directive -', '5 int -'),
          (26, '4 - -', '26 query -', '20 use -'),
          (26, '4 - -', '3 directive -', '26 query -'), (26, '4 - -', '3 directive -', '20 use -'), (26, '4 - -', '21 listed -'), (26, '4 - -', '22 n -'),
          (26, '4 - -', '23 member -'), (26, '4 - -', '24 value -'), (26, '4 - -', '25 input_field -'), (26, '4 - -', '5 int -', '3 directive -'),
          (26, '4 - -', '5 int -', '26 query -'), (26, '4 - -', '11 schema_extension -'), (26, '4 - -', '3 directive -', '22 n -'))
    table(new, '26: unknown kinds and headings that are no rows',
          *[(26, '4 - -', f'{kind} int -') for kind in (0, 1, 2, 11, 12, 13, 17, 18, 19, 29, 256 + 5, 65541)],
          *[(26, '4 - -', f'{kind} {card} -') for kind, card in ((13, 'extension'), (11, 'schema_extension'), (15, 'orphan_union'))])
    heads = {'5 int -': (20,), '6 a -': (21, 20, 22), '7 interface -': (21, 20, 22), '8 union -': (20, 23), '9 enum -': (20, 24), '10 input -': (20, 25)}
    part_cards = {20: 'use', 21: 'listed', 22: 'n', 23: 'member', 24: 'value', 25: 'input_field', 26: 'query', 27: 'mutation', 28: 'subscription',
                  3: 'directive'}
    for head, taken in heads.items():
        table(new, f'26: the parts under a row {head.split(" ")[0]}, by its kind, and their order',
              *[(0 if part in taken else 26, '4 - -', head, f'{part} {card} -') for part, card in part_cards.items()],
              *[(0 if taken.index(first) < taken.index(second) else 26, '4 - -', head, f'{first} {part_cards[first]} -',
                 f'{second} {part_cards[second]} -')
                for first in taken for second in taken if first != second])
    table(new, '26: many of a kind, and types without parts', (0, '4 - -', '6 a -', '22 n -', '22 m extension', '22 o second', '22 object_field -'),
          (0, '4 - -', '6 a -', '6 object -', '6 c -', '7 interface -', '5 int -'), (0, '4 - -', '5 int -', '20 use -', '20 schema_use -'),
          (26, '4 - -', '6 a -', '22 n -', '20 use -', '22 m -'), (0, '4 - -', '9 enum -', '24 value -', '8 union -', '23 member -'))


def cards(new):
    table(new, '26: a stored card in two rows', (26, '4 - -', '6 a -', '22 n -', '22 n -'), (26, '4 - -', '6 a -', '6 a -'),
          (26, '4 - -', '5 int -', '6 a -', '5 int -'),
          (26, '4 - -', '6 extension extension', '6 extension second'), (26, '4 - -', '20 use -', '6 a -', '20 use -'),
          (26, '4 - -', '3 directive -', '3 directive -'),
          (0, '4 - -', '6 extension second', '6 second extension'), (0, '4 - -', '6 extension extension', '22 m extension', '22 o extension'),
          (26, '4 schema -', '6 a -', '22 n -', '6 object -', '22 n extension'))
    table(new, '26: a card that is not stored', (26, '4 - -', '5 32 -'), (26, '4 - -', '6 32 -'), (26, '4 - -', '5 4294967294 -'), (26, '4 32 -'),
          (26, '4 - -', '26 32 -'),
          (26, '4 - -', f'3 {CARDS} -'), (26, '4 - -', '6 a -', f'22 {CARDS - 1} -'), (0, '4 - -', '6 a -', '22 orphan_field orphan_interface'),
          (26, '4 - -', '6 65537 -'))
    table(new, '26: - only in row 4 and a default root', (26, '4 - -', '5 - -'), (26, '4 - -', '6 - -'), (26, '4 - -', '6 - extension'),
          (26, '4 - -', '3 - -'),
          (26, '4 - -', '20 - -'), (26, '4 - -', '6 a -', '22 - -'), (26, '4 - -', '6 a -', '21 - -'), (26, '4 - -', '8 union -', '23 - -'),
          (0, '4 - -', '26 - -', '6 object -'), (26, '4 - -', '9 enum -', '24 - -'), (26, '4 - -', '10 input -', '25 - extension'))
    table(new, '26: a card of another kind than its row', (26, '4 - -', '5 a -'), (26, '4 - -', '6 int -'), (26, '4 a -'), (26, '4 schema_extension -'),
          (26, '4 - -', '3 int -'),
          (26, '4 - -', '26 mutation -'), (26, '4 - -', '27 query -'), (26, '4 - -', '20 n -'), (26, '4 - -', '6 a -', '22 a -'),
          (26, '4 - -', '6 a -', '22 input_field -'),
          (26, '4 - -', '7 object -'), (26, '4 - -', '6 interface -'), (26, '4 - -', '8 union -', '23 value -'), (26, '4 - -', '6 c -', '21 use -'))
    table(new, '26: an adopted type\'s card is the matching extension', (0, '4 - -', '6 a -'), (0, '4 - -', '6 extension extension'),
          (0, '4 - -', '6 extension second'),
          (26, '4 - -', '6 extension -'), (26, '4 - -', '6 a extension'), (0, '4 - -', '8 orphan_union orphan_union'),
          (26, '4 - -', '6 orphan_union orphan_union'),
          (26, '4 - -', '7 extension extension'), (0, '4 - -', '7 orphan_interface schema_extension'), (26, '4 - -', '8 orphan_union -'),
          (26, '4 - -', '5 schema_extension schema_extension'), (26, '4 - -', '8 union orphan_union'), (26, '4 schema_extension schema_extension'))


def origins(new):
    table(new, '26: an origin is - or a stored extension', (0, '4 - -', '6 a -', '22 n extension'), (26, '4 - -', '6 a -', '22 n a'),
          (26, '4 - -', '6 a -', '22 n n'),
          (26, '4 - -', '6 a -', '22 n 32'), (26, '4 - -', '6 a -', '22 n int'), (26, '4 - int'), (0, '4 - schema_extension'), (0, '4 schema extension'),
          (0, '4 - -', '3 directive second'), (26, '4 - -', '3 directive directive'), (26, '4 - -', '5 int int'), (26, '4 - -', '26 query query'),
          (0, '4 - -', '26 query orphan_union'), (26, '4 - -', '20 use 4294967294'), (26, '4 - -', '20 use schema'),
          (0, '4 - -', '20 use schema_extension'))
    table(new, '26: what is not asked of origins and places', (0, '4 - schema_extension', '6 a -', '22 o schema_extension'),
          (0, '4 - -', '5 int -', '20 schema_use -'),
          (0, '4 schema -', '26 query schema_extension'), (0, '4 - -', '6 c -', '22 interface_field -'),
          (0, '4 - -', '6 object -', '22 interface_field -', '7 interface -', '22 object_field -'),
          (0, '4 - -', '8 union -', '23 orphan_member extension'), (0, '4 - -', '6 a -', '6 extension extension', '6 second second'))


def default_roots(new):
    table(new, '26: a default root\'s name\'s first type row is an object', (0, '4 - -', '26 - -', '6 object -', '7 interface -'),
          (26, '4 - -', '26 - -', '7 interface -', '6 object -'),
          (26, '4 - -', '26 - -'), (26, '4 - -', '26 - -', '6 a -'), (0, '4 - -', '26 - -', '6 a -', '6 object -'), (26, '4 - -', '27 - -', '6 object -'),
          (26, '4 - -', '28 - -', '6 object -'), (26, '4 - -', '26 - -', '27 - -', '6 object -'), (0, '4 - -', '26 - -', '27 mutation -', '6 object -'),
          (26, '4 - -', '26 - schema_extension', '6 object -'), (26, '4 - -', '26 - 32', '6 object -'), (0, '4 schema -', '26 - -', '6 object -'))
    case = new('26: default roots of each operation, defined and adopted')
    case.file(INT, 'type Query type Mutation type Subscription interface Query interface Mutation interface Subscription',
              'extend type Query@d extend type Mutation@d extend type Subscription@d extend interface Query@d')
    case.build()
    for operation, (kind, name) in enumerate(DEFAULT_ROOTS.items()):
        plain, interface, extension = operation + 1, operation + 4, 2 * operation + 7
        for want, *rows in ((0, (6, plain, NONE)), (26, (7, interface, NONE)), (0, (6, extension, extension)), (0, (6, plain, NONE), (7, interface, NONE)),
                            (26, (7, interface, NONE), (6, plain, NONE)), (0, (6, extension, extension), (7, interface, NONE)),
                            (26, (7, interface, NONE), (6, extension, extension)),
                            (26, (5, 0, NONE)), (26,), (0, (5, 0, NONE), (6, plain, NONE))):
            case.put_rows([(4, NONE, NONE), (kind, NONE, NONE)] + rows)
            case.check_rows(want)
            case.root(operation, name if want == 0 else '')
            case.subtype('Query', 'Int', (want, 0))
        case.put_rows([(4, NONE, NONE), (kind, NONE, NONE), (6, 1 if operation else 2, NONE)])
        case.check_rows(26)
    case.put_rows([(4, NONE, NONE), (26, NONE, NONE), (7, 13, 13)])
    case.check_rows(26)


def damaged(new):
    texts = [(INT, 'type Query{n:Int}extend type Query implements I@d{m:Int}', 'interface I', 'extend schema{mutation:M}'),
             ('directive@d on FIELD', 'schema@d{query:U}union U=A|B', 'extend enum E{v w}extend schema@d{mutation:U}')]
    for number, documents in enumerate(texts):
        drawn = None
        for row in range(100):
            if drawn is not None and row >= len(drawn):
                break
            case = new(f'26: row {row} of a drawing damaged, word by word ({number + 1})')
            case.file(*documents, switches='10' if number else '00')
            drawn = case.build()['rows']
            held = case.held.words[CARDS_USED]
            for at, own in enumerate(drawn[row]):
                kinds = [0, 1, 2, 3, 4, 5, 6, 7, 8, 9, 10, 11, 20, 21, 22, 23, 24, 25, 26, 27, 28, 29, own + 256, NONE]
                for value in dict.fromkeys(kinds if at == 0 else list(range(held + 1)) + [NONE - 1, NONE]):
                    if value == own:
                        continue
                    case.put_row(ROW * row + at, value)
                    refused = case.rows_refusal()
                    if refused:
                        case.look_up_one()
                    else:
                        case.check_rows()
                        case.lists()
                    case.put_row(ROW * row + at, own)
            case.check_rows(0)


def make(new):
    for group in (clauses, cards, origins, default_roots, damaged):
        group(new)
