"""How documents merge: listings by the oracle, with the places that 01 names as misfilings by hand."""
from groups.examples import INT, listed

FOUR = ('00', '10', '01', '11')
D0 = 'scalar Int directive@d on FIELD directive@e on FIELD type B{n:Int}enum C{v}'


def merged(new, title, *texts, switches=FOUR, hand=None, looks=10):
    """One case: the texts drawn under each of the switches, with lookups while nothing is ignored; `hand` has listings by switches."""
    case = new(title)
    for each in switches:
        case.file(*texts, switches=each)
        case.build(listing=(hand or {}).get(each))
        case.tallies()
        if each in ('00', '10'):
            case.look(looks)
    return case


def late(new, title, first, then, after=(), switch='ignore', hand=None):
    """A switch that is turned on between documents, with a drawing before and after."""
    case = new(title)
    case.file(*first)
    case.build()
    getattr(case, switch)()
    case.build()
    for text in then:
        case.add(case.doc(text))
        case.build()
    for text in after:
        case.add(case.doc(text))
    case.build(listing=hand)
    case.tallies()
    case.look(10)


def duplicates(new):
    merged(new, 'the first part of a name stays, in every list', INT,
           'type T implements I&J&I{a:Int b:A a:B}interface I implements I&I{a:Int a:A}union U=A|B|A enum E{v w v}input N{a:Int b:Int a:A}',
           switches=('00',))
    merged(new, 'directive uses all stay', INT, 'scalar S@d@e@d type T@d@d interface I@d@d{a:Int}union U@d@d=A enum E@e@d@e{v}input N@d@d',
           'extend scalar S@d@d extend type T@d extend enum E@d',
           'schema@d@d{query:T}extend schema@d', switches=('00', '10'))
    merged(new, 'a second type definition adds nothing, its extensions do', INT, 'type A{a:Int}type A{b:Int}extend type A{c:Int}',
           'union A=B extend type A{b:Int}extend union A=C',
           hand={'00': listed('4 - -, 5 0 -, 6 1 -, 22 2 -, 22 6 5, 22 10 9', '3 0', '4 3 1, 4 7 1, 8 11 1')})
    merged(new, 'names differ by case, by length, by one byte', INT, 'type A type a type AA type Aa type A_ type _A type A1{a:Int A:Int aa:Int a_:Int}',
           'extend type AA{a:Int}extend type A2{a:Int}')
    merged(new, 'types, directives, fields and roots do not collide with each other', 'type d directive@d on FIELD',
           'type A{A:A d:A}enum E{A E d}directive@A on FIELD directive@E on FIELD schema@A{query:A mutation:A subscription:A}')


def extensions(new):
    kinds = [('scalar', '@d'), ('type', '{x:Int}'), ('interface', '{x:Int}'), ('union', '=X'), ('enum', '{x}'), ('input', '{x:Int}')]
    for keyword, part in kinds:
        own = f'{keyword} A{part.replace("x", "a").replace("X", "Y")}'
        others = ' '.join(f'extend {other} A{given}' for other, given in kinds)
        merged(new, f'every extension before and after a definition: {keyword}', INT, others, own, others, switches=('00', '10'), looks=8)
        merged(new, f'every extension without definition, {keyword} first', INT, f'extend {keyword} A{part}', others, switches=('00', '10'), looks=8)
    merged(new, 'extensions are merged in filing order behind the definition', INT, 'extend type A{c:Int}',
           'extend type A{b:Int}type A{a:Int}extend type A{d:Int}', 'extend type A{e:Int}',
           hand={'00': listed('4 - -, 5 0 -, 6 5 -, 22 6 -, 22 2 1, 22 4 3, 22 8 7, 22 10 9')})
    merged(new, 'early extensions of a wrong kind are dropped, those of the right kind are merged', INT,
           'extend union A=B extend type A{b:Int}extend enum A{v}', 'type A{a:Int}',
           hand={'00': listed('4 - -, 5 0 -, 6 7 -, 22 8 -, 22 4 3')})
    merged(new, 'an early extension collides with the definition and with another', INT, 'extend type A{a:Int b:Int}extend type A{b:Int c:Int}',
           'type A{c:Int}type B{b:Int b:Int}')
    merged(new, 'interfaces, uses and fields of one extension', INT,
           'type A implements I@d{a:Int}extend type A implements J@e{b:Int}extend type A@d extend type A implements I&K{a:Int}')
    merged(new, 'built-in types are extended', D0, 'extend type B{n:Int m:Int}extend enum C{w v}extend scalar Int@d extend union B=A',
           'type B{o:Int}extend type B{p:Int}')
    case = new('extensions without parts, by cards alone')
    for switches in FOUR:
        case.open(case.doc(INT))
        if switches[0] == '1':
            case.adopt()
        case.add(case.doc('ABSB', [13, 0, 1, 0, 1, 16, 1, 1, 1, 1, 11, 2, 1, 0, 0, 12, 3, 1, 3, 1]))
        case.build()
        case.add(case.doc('AS', [6, 0, 1, 0, 1, 4, 1, 1, 0, 0]))
        case.build()
        case.look(8)


def adopted(new):
    merged(new, 'adopted types come last, in order of first orphan', INT, 'extend type Z{a:Int}extend union Y=A extend type Z{b:Int}',
           'type A{a:Int}extend enum X{v}type B',
           hand={'10': listed('4 - -, 5 0 -, 6 7 -, 22 8 -, 6 11 -, 6 1 1, 22 2 1, 22 6 5, 8 3 3, 23 4 3, 9 9 9, 24 10 9')})
    merged(new, 'an orphan whose definition comes is no orphan', INT, 'extend type A{a:Int}extend type B{b:Int}', 'type B{c:Int}', 'extend type A{c:Int}')
    merged(new, 'the first orphan decides the kind', INT, 'extend interface A{a:Int}extend type A{b:Int}extend interface A{c:Int a:Int}',
           'extend input A{d:Int}')
    merged(new, 'an adopted type of each kind', INT,
           'extend scalar S@d extend type T implements I{a:Int}extend interface I{a:Int}extend union U=T extend enum E{v}extend input N{a:Int}')
    merged(new, 'adopted Query, Mutation and Subscription', INT, 'extend type Query{a:Int}extend type Mutation{a:Int}extend interface Subscription{a:Int}',
           hand={'10': listed('4 - -, 26 - -, 27 - -, 5 0 -, 6 1 1, 22 2 1, 6 3 3, 22 4 3, 7 5 5, 22 6 5'),
                 '00': listed('4 - -, 5 0 -', '0 3', '7 1 -, 7 3 -, 7 5 -')})
    late(new, 'adopting turned on behind the last document', (INT, 'extend type A{a:Int}', 'extend schema{query:A}'), (), switch='adopt')
    late(new, 'adopting turned on, then a definition comes', (INT, 'extend type A{a:Int}extend enum B{v}'), ('type A{b:Int a:Int}', 'union B=A'),
         switch='adopt')


def ignored(new):
    merged(new, 'built-in types defined again, as each kind', D0, 'scalar B type B interface B union B=A enum B{v}input B',
           'scalar C type C{v:Int}enum C{w}', 'scalar Int type Int')
    merged(new, 'ignore does nothing for directives, extensions and own types', D0,
           'directive@d on FIELD directive@d on FIELD extend type Int{a:Int}type A type A', 'scalar A directive@e on FIELD')
    merged(new, 'a type passed over brings no parts and takes no extension', D0, 'type B{x:Int}extend type B{y:Int}', 'enum B{v}extend enum B{w}')
    late(new, 'ignore turned on late does not reach back', (INT, INT, 'type Int{a:Int}'), ('scalar Int type Int', 'enum Int{v}'),
         hand=listed('4 - -, 5 0 -', '2 0', '5 1 -, 4 2 0'))
    late(new, 'ignore turned on behind the last document', (INT, INT), (), hand=listed('4 - -, 5 0 -', '1 0', '5 1 -'))
    late(new, 'ignore turned on, own types collide still', ('scalar Int', 'type A{a:Int}'), ('type A{b:Int}type Int{a:Int}',), ('scalar A scalar Int',))
    case = new('ignore turned on twice, and adopting between')
    case.file(D0, 'scalar Int')
    case.ignore()
    case.add(case.doc('scalar Int'))
    case.ignore()
    case.adopt()
    case.adopt()
    case.add(case.doc('scalar Int extend type X{a:Int}'))
    case.build()
    case.look(8)


def directives(new):
    merged(new, 'a replaced directive keeps its place', D0 + 'directive@f on FIELD',
           'directive@x on FIELD directive@e on FIELD directive@f on FIELD directive@d on FIELD', 'directive@e on QUERY directive@x on QUERY')
    merged(new, 'a built-in directive is replaced once', 'directive@d on FIELD', 'directive@d on FIELD', 'directive@d on FIELD', 'directive@d on FIELD',
           hand={'00': listed('4 - -, 3 1 -', '2 0', '3 2 1, 3 3 1')})
    merged(new, 'directives defined twice in document 0', 'directive@d on FIELD directive@e on FIELD directive@d on QUERY', 'directive@e on FIELD',
           'directive@d on FIELD directive@d on FIELD',
           hand={'00': listed('4 - -, 3 4 -, 3 3 -', '1 0', '3 5 4')})


def schemas(new):
    merged(new, 'a schema definition alone', INT, 'schema{query:Q mutation:M subscription:S}', hand={'00': listed('4 1 -, 26 2 -, 27 3 -, 28 4 -, 5 0 -')})
    merged(new, 'roots are listed in the order 26, 27, 28', INT, 'schema{subscription:S mutation:M query:Q}',
           hand={'00': listed('4 1 -, 26 4 -, 27 3 -, 28 2 -, 5 0 -')})
    merged(new, 'schema extensions before and after the definition', INT, 'extend schema@a{query:A mutation:A}', 'schema@b{query:B}',
           'extend schema@c{mutation:C subscription:C}',
           hand={'00': listed('4 5 -, 20 6 -, 20 2 1, 20 9 8, 26 7 -, 27 4 1, 28 11 8, 5 0 -', '2 0', '9 3 7, 9 10 4')})
    merged(new, 'a second schema definition adds nothing', INT, 'schema{query:A}schema@d{query:B mutation:B}extend schema{mutation:C}',
           hand={'00': listed('4 1 -, 26 2 -, 27 8 7, 5 0 -', '1 0', '2 3 1')})
    merged(new, 'with a schema definition there are no default roots', INT, 'type Query type Mutation type Subscription schema{mutation:M}')
    case = new('a schema definition without roots, by cards alone')
    case.open(case.doc(INT))
    case.add(case.doc('SQuery', [4, 0, 1, 0, 0, 6, 1, 5, 1, 5]))
    case.build(listing=listed('4 1 -, 5 0 -, 6 2 -'))
    case.add(case.doc('extend schema{mutation:M}'))
    case.build(listing=listed('4 1 -, 27 4 3, 5 0 -, 6 2 -'))
    case.look(8)
    merged(new, 'schema extensions without schema and without roots', INT, 'extend schema@d{query:A}extend schema@e',
           hand={'00': listed('4 - -, 5 0 -', '0 2', '6 1 -, 6 4 -'),
           '10': listed('4 - -, 20 2 1, 20 5 4, 26 3 1, 5 0 -')})
    merged(new, 'schema extensions follow default roots, not adopting', INT, 'type Query extend schema@d{query:A mutation:B}',
           hand={'00': listed('4 - -, 20 3 2, 26 - -, 27 5 2, 5 0 -, 6 1 -', '0 1', '9 4 -'), '10': listed('4 - -, 20 3 2, 26 4 2, 27 5 2, 5 0 -, 6 1 -')})


def default_roots(new):
    merged(new, 'all three default roots', INT, 'type Subscription type Mutation type Query',
           hand={'00': listed('4 - -, 26 - -, 27 - -, 28 - -, 5 0 -, 6 1 -, 6 2 -, 6 3 -')})
    for name in ('Query', 'Mutation', 'Subscription'):
        merged(new, f'only {name}, as an object, then as others', INT, f'type {name}', f'extend schema@d{{query:A}}', switches=('00', '10'), looks=8)
    merged(new, 'default roots are objects', INT, 'interface Query{a:Int}union Mutation=A enum Subscription{v}extend schema@d')
    merged(new, 'a default root of document 0', 'type Query{a:Int}', 'extend schema@d', 'type Query{b:Int}')
    merged(new, 'the first definition of Query is no object', INT, 'interface Query type Query extend schema@d')
    merged(new, 'adopting: default roots only if no root is set', INT, 'type Query type Mutation extend schema{mutation:B}',
           hand={'10': listed('4 - -, 27 4 3, 5 0 -, 6 1 -, 6 2 -')})
    merged(new, 'adopting: an extension without roots leaves the default ones', INT, 'type Query extend schema@d',
           hand={'10': listed('4 - -, 20 3 2, 26 - -, 5 0 -, 6 1 -')})


def texts(new):
    merged(new, 'documents without cards between others', '', '# nothing', 'type A{a:Int}', ',,, \n', 'extend type A{b:Int}', '', switches=('00', '11'))
    merged(new, 'descriptions, arguments, values and comments', INT,
           '"d" type A implements & I & J @d(a:{b:[1 "}"]}) { "x" f(a:Int=1 b:[A!]!):A! @e """y""" g:[Int] } # end',
           '"""s""" schema @d(x:"schema{") { query : A }', switches=('00',))
    merged(new, 'no cards in document 0, nothing else', '', hand={'00': listed('4 - -')})


# Names whose fingerprints (docs/DECISIONS.md, 24) are equal, so that only their bytes tell them apart.
ALIKE = {'A': ('afcVxIN', 'afLjsQn'), 'n': ('ayHnQdC', 'aBykcJT'), 'd': ('afcVxIq', 'ahpxdGr'), 'Int': ('ahPBZRX', 'ajFxAXy'),
         'Query': ('amgdHXq', 'atmnoIf')}


def fingerprint(name):
    print_of = 0
    for byte in name.encode():
        print_of = (print_of * 16777619 + byte) % 2 ** 32
    return print_of


def alike(new):
    assert all(fingerprint(name) == fingerprint(other) for name, others in ALIKE.items() for other in others)
    b, c = ALIKE['A']
    m, o = ALIKE['n']
    merged(new, 'types of equal fingerprints', INT, f'type A type {b} extend type {c}{{a:Int}}type {b}',
           f'type {c} extend type {b}{{b:Int}}extend type A{{a:Int}}',
           hand={'00': listed('4 - -, 5 0 -, 6 1 -, 22 10 9, 6 2 -, 22 8 7, 6 6 -, 22 4 3', '1 0', '4 5 2')})
    merged(new, 'parts of equal fingerprints in every list', INT,
           f'type T implements A&{b}&A&{c}{{n:Int {m}:Int {o}:Int {m}:Int}}interface I implements {b}&A{{{m}:Int n:Int}}',
           f'union U=A|{b}|{c}|{b} enum E{{n {m} {o} n}}input N{{{o}:Int n:Int {o}:Int}}')
    merged(new, 'orphans of equal fingerprints', INT, f'extend type A{{n:Int}}extend union {b}=A extend type {c}{{n:Int}}extend type A{{{m}:Int}}',
           hand={'10': listed('4 - -, 5 0 -, 6 1 1, 22 2 1, 22 8 7, 8 3 3, 23 4 3, 6 5 5, 22 6 5'),
                 '00': listed('4 - -, 5 0 -', '0 4', '7 1 -, 7 7 -, 7 3 -, 7 5 -')})
    merged(new, 'directives and built-in types of equal fingerprints',
           f'scalar Int directive@d on FIELD directive@{ALIKE["d"][0]} on FIELD scalar {ALIKE["Int"][0]}',
           f'scalar {ALIKE["Int"][1]} directive@{ALIKE["d"][1]} on FIELD directive@{ALIKE["d"][0]} on FIELD',
           f'scalar {ALIKE["Int"][0]} directive@{ALIKE["d"][1]} on FIELD')
    merged(new, 'no default root by a fingerprint', INT, f'type {ALIKE["Query"][0]} extend schema@d', f'interface {ALIKE["Query"][1]}',
           hand={'00': listed('4 - -, 5 0 -, 6 1 -, 7 4 -', '0 1', '6 2 -')})
    merged(new, 'a default root among names of its fingerprint', INT, f'interface {ALIKE["Query"][0]} type Query type {ALIKE["Query"][1]}',
           hand={'00': listed('4 - -, 26 - -, 5 0 -, 7 1 -, 6 2 -, 6 3 -')})


def make(new):
    for group in (duplicates, extensions, adopted, ignored, directives, schemas, default_roots, texts, alike):
        group(new)
