"""`parse` by hand: where a text is refused, what a card spans, and the limits. Each entry of the readings of request 2.2 stands under its number."""
from lib.sizes import CARD, CARDS, CARDS_LENT, LEVELS, TEXT

BOM = '\ufeff'
USE = 'scalar A@d(x:'
# Where what stands behind USE begins.
AT = len(USE)

# What is read: the texts of an entry, each with its answer.
PLACES = {
    '1.1 definitions and extensions': [
        ('scalar A', 0, 1), ('extend scalar A@d', 0, 2), ('scalar A extend scalar A@d scalar B', 0, 4), ('extend type A{b:C}type A', 0, 3)],
    '1.2 an empty text': [('', 29, 0), (' #x', 29, 3), (',', 29, 1), ('\n', 29, 1), (BOM, 29, 3), ('#', 29, 1), ('\r\n,\t ', 29, 5)],
    '1.3 which characters': [
        ('#\U0001F600', 29, 1), ('"\U0001F600"scalar A', 29, 0), ('"""\U0001F600"""scalar A', 29, 0), ('scalar A#\U00010000\nscalar B', 29, 9),
        ('\U0001F600', 29, 0), ('#\x07\nscalar A', 29, 1), ('"\x07"scalar A', 29, 0), ('#\x7f\x80\x9f\ufffe\uffff\nscalar A', 0, 1),
        ('"\x7f\x80\x9f\ufffe\uffff"scalar A', 0, 1), ('"""\x7f\x80\x9f\ufffe\uffff\t\r\n"""scalar A', 0, 1), ('"\t"scalar A', 0, 1), ('é', 29, 0),
        ('scalar é', 29, 7), ('scalar Aé', 29, 8)],
    '1.4 surrogates': [(b'#\xed\xa0\x80', 29, 1), (b'#\xed\x9f\xbf', 29, 4), (b'"\xed\xa0\x80"scalar A', 29, 0), ('"\\uD800"scalar A', 0, 1),
                       ('"\\uD83D\\uDE00\\uDC00"scalar A', 0, 1), (b'#\xed\xa0\xbd\xed\xb8\x80', 29, 1)],
    '1.5 overlong, cut off, stray': [
        (b'#\xc0\x80', 29, 1), (b'#\xe2\x82', 29, 1), (b'#\xc3a', 29, 1), (b'#\xe2\x82a', 29, 1), (b'#\xe0\x80\xaf', 29, 1), (b'#\xf0\x80\x80\xaf', 29, 1),
        (b'#\x80', 29, 1), (b'#\xff', 29, 1), (b'#\xfe', 29, 1), (b'#a\xc3\xa9\xc3', 29, 4), (b'\xc3\xa9', 29, 0), (b'scalar A \xe2\x82', 29, 9)],
    '1.6 byte order mark': [
        (f'ty{BOM}pe A', 29, 0), (f'{BOM}scalar{BOM}A{BOM}', 0, 1), (f'type A{BOM}{BOM}{{{BOM}b{BOM}:{BOM}C{BOM}}}', 0, 2),
        (f'"{BOM}"scalar A#{BOM}', 0, 1), (b'\xef\xbbscalar A', 29, 0), (b'\xef\xbb\xbe scalar A', 29, 0), (f'{BOM}typ', 29, 3)],
    '1.7 values have no meaning': [(USE + '1e999999)', 0, 2), (USE + '"\\uDC00")', 0, 2), (USE + '99999999999999999999999999)', 0, 2),
                                   (USE + '-0 y:-0.0e-0)', 0, 2), (USE + '"""\n  a\n b""")', 0, 2), (USE + '1 x:2)', 0, 2), (USE + '{a:1 a:2})', 0, 2)],
    '1.8 what October 2021 has': [
        ('"d"schema{query:Q}', 0, 2), ('directive@d repeatable on FIELD', 0, 1), ('directive@d on VARIABLE_DEFINITION', 0, 1),
        ('interface A implements B', 0, 2), ('extend interface A implements B', 0, 2), ('scalar A@specifiedBy(url:"u")', 0, 2),
        ('input A@oneOf{b:C}', 0, 3)],
    '1.8 what it lacks': [
        ('"\\u{41}"scalar A', 29, 0), ('extend directive@d on FIELD', 29, 7), ('extend schema', 29, 13), ('extend schema scalar A', 29, 14),
        ('type A{}', 29, 7), ('schema{"d"query:Q}', 29, 7), ('"d"extend scalar A@d', 29, 3), ('type A implements B C', 29, 20),
        ('type A implements B, C', 29, 21), ('type A implements B&', 29, 20), ('union A=B|', 29, 10), ('type A=B', 29, 6), ('schema', 29, 6),
        ('scalar A{b}', 29, 8), ('directive@d', 29, 11)],
    '1.9 nothing of validation': [
        ('schema{query:A query:B}', 0, 3), ('type __A{__b:__C __b:__C}', 0, 3), ('enum A{b b}', 0, 3), ('type A{b(c:D c:D):E}', 0, 2),
        ('union A=A|A', 0, 3), ('scalar Int scalar Int', 0, 2), ('type A implements A', 0, 2), ('directive@d on FIELD|FIELD', 0, 1)],
    '1.19 executable definitions': [
        ('type A{a:B}{c}', 29, 11), ('"d" query', 29, 4), ('query{a}', 29, 0), ('mutation{a}', 29, 0), ('subscription{a}', 29, 0),
        ('fragment a on B{c}', 29, 0), ('{a}', 29, 0), ('scalar A query{a}', 29, 9), ('scalar A fragment a on B{c}', 29, 9), ('"d"{a}', 29, 3),
        ('extend query', 29, 7)],
    '1.21 tokens, not bytes': [('typ', 29, 0), ('"a', 29, 0), ('scalar A @d(x:-', 29, 14), ('types A', 29, 0), ('Type A', 29, 0), ('type', 29, 4),
                               ('extendscalar A@d', 29, 0), ('scalarA', 29, 0), ('type A implementsB', 29, 7)],
    '1.22 a token\'s own bytes': [
        ('enum E{true}', 29, 7), ('enum E{false}', 29, 7), ('enum E{null}', 29, 7), ('enum E{a null}', 29, 9), ('enum E{"d"true}', 29, 10),
        ('enum E{True nulls on type}', 0, 5), ('directive @d on FEILD', 29, 16), ('directive@d on FIELD|field', 29, 21), ('directive@d on type', 29, 15),
        ('schema{quary:Q}', 29, 7), ('schema{Query:Q}', 29, 7), ('schema{query:Q queries:R}', 29, 15), ('type type{type:type}', 0, 2),
        ('type on implements implements', 0, 2), ('enum enum', 0, 1), ('scalar true', 0, 1), ('directive@on on FIELD', 0, 1),
        ('directive@repeatable repeatable on FIELD', 0, 1), ('directive@d repeatable repeatable on FIELD', 29, 23), ('directive@d On FIELD', 29, 12),
        ('extend extend', 29, 7), ('type implements', 0, 1), ('type implements implements', 29, 26)],
    '1.23 the earliest place': [
        ('extend type A type B', 29, 14), ('"d" extend type A{a:B}', 29, 4), ('extend scalar A', 29, 15), ('extend union A', 29, 14),
        ('extend enum A', 29, 13), ('extend input A', 29, 14), ('extend interface A', 29, 18), ('extend enum A scalar B', 29, 14), ('"d""e"type A', 29, 3),
        ('type A{b}', 29, 8), ('type A{b:}', 29, 9), ('input A{b(c:D):E}', 29, 9), ('type A{b:C=1}', 29, 10), ('enum A{b:C}', 29, 8),
        ('type A@d implements B', 29, 9), ('union A=B@d', 29, 9), ('type A{b:C!!}', 29, 11)],
    '1.24 the end of text': [('type \n ', 29, 7), ('type #a', 29, 7), ('type A{', 29, 7), ('type A{a:B', 29, 10), ('type A{a:B #x\n,', 29, 15),
                             ('extend', 29, 6), ('"d"', 29, 3), ('"d" \n', 29, 5), (USE + '[1', 29, AT + 2), ('type A{a:[B', 29, 11)],
    '1.25 broken numbers': [(USE + number + ')', 29, AT) for number in (
        '01', '1a', '0x1', '1.', '1.x', '1e', '1e+', '1.2.3', '1_', '-', '-a', '1...', '00', '-01', '1.e1', '1e1.0', '1e1e1', '1.0a', '1e1_', '--1', '-.5',
        '1E-', '0b1')]
        + [(USE + other + ')', 29, AT) for other in ('+1', '.5')]
        + [(USE + number + ')', 0, 2) for number in ('0', '-0', '10', '0.0', '0e0', '-1.5E+3', '1e-05', '0.10')]
        + [(USE + '[1-2])', 0, 2), (USE + '[1"a"])', 0, 2), (USE + '[1,2])', 0, 2), (USE + '1#\n)', 0, 2), (USE + '[0-0.5-1e1])', 0, 2),
           (USE + '1-)', 29, AT + 1)],
    '1.26 a number before something unreadable': [
        (USE.encode() + b'1\xff)', 29, AT + 1), (USE + '1é)', 29, AT + 1), (USE.encode() + b'1.\xff)', 29, AT), (USE.encode() + b'1e\xff)', 29, AT),
        (USE.encode() + b'-\xff)', 29, AT), (USE.encode() + b'1.5\xff)', 29, AT + 3), (USE + '1%)', 29, AT + 1), (USE.encode() + b'1', 29, AT + 1)],
    '1.27 broken strings': [
        ('type A{"abc', 29, 7), ('type A{"a\nb"c:D}', 29, 7), ('type A{"a\rb"c:D}', 29, 7), ('type A{"\\x"c:D}', 29, 7), ('type A{"\\u12g4"c:D}', 29, 7),
        ('type A{"\\u123"c:D}', 29, 7), ('type A{"\\"c:D}', 29, 7), (b'type A{"\xff"c:D}', 29, 7), ('type A{"""a', 29, 7), ('type A{"""a""', 29, 7),
        ('type A{"', 29, 7), ('type A{"\\', 29, 7), ('type A{"\\u', 29, 7), ('type A{"\\u123', 29, 7), ('type A{"""\\', 29, 7), (b'type A{"""\xc3', 29, 7),
        ('"\\U0041"scalar A', 29, 0), ('"\\\'"scalar A', 29, 0), ('"\\u004G"scalar A', 29, 0), ('"\\\n"scalar A', 29, 0), ('"""\x0b"""scalar A', 29, 0)],
    '1.28 an unreadable byte in a comment': [(b'scalar A#a\x00b', 29, 10), (b'#\xc3\xa9\x1f', 29, 3), (b'scalar A#\n#\xff', 29, 11), (b'typ#\xff', 29, 0),
                                             (b'scalar#\x08', 29, 7)],
    '1.29 a broken token where none could stand': [('type "abc', 29, 5), ('type 1a', 29, 5), ('type A 01', 29, 7), ('scalar A"abc', 29, 8),
                                                   ('type "abc"', 29, 5), ('type 1', 29, 5)],
    '1.30 dots and dollars': [('type A{..', 29, 7), ('type A{.', 29, 7), ('type A{...', 29, 7), ('type A{....', 29, 7), (USE + '$a)', 29, AT),
                              ('$', 29, 0), ('...', 29, 0), ('type A{. ..', 29, 7), ('%', 29, 0), ('~', 29, 0), ("'", 29, 0), ('\\', 29, 0), (';', 29, 0),
                              ('<', 29, 0), ('?', 29, 0), ('`', 29, 0)],
    '1.31 strings in a row': [
        ('"a""b"type A', 29, 3), (USE + '["a""b"])', 0, 2), (USE + '["""a""""b"])', 0, 2), (USE + '["" ""])', 0, 2), (USE + '[""""])', 29, AT + 1),
        (USE + '["""""])', 29, AT + 1), (USE + '[""""""])', 0, 2), (USE + '["""""""])', 29, AT + 7), (USE + '["""""" ""])', 0, 2),
        ('"""\\"""type A', 29, 0), ('"""\\\\"""type A', 29, 0), ('"""a\\""""""type A', 0, 1), ('"""\\""""""type A', 0, 1), ('"""\\"\\""" """type A', 0, 1),
        ('"""" """type A', 0, 1), ('""type A', 0, 1), ('"""a"" """type A', 0, 1), ('"\\\\"type A', 0, 1), ('"\\""type A', 0, 1)],
    '1.32 braces and parentheses without entries': [
        ('schema{}', 29, 7), ('extend schema{}', 29, 14), ('type A{}', 29, 7), ('interface A{}', 29, 12), ('enum A{}', 29, 7), ('input A{}', 29, 8),
        ('type A{b():C}', 29, 9), ('scalar A@d()', 29, 11), ('directive@d()on FIELD', 29, 12), (USE + '[])', 0, 2), (USE + '{})', 0, 2),
        (USE + '[[]{}[{}]])', 0, 2), ('type A{b:[]}', 29, 10), ('input A{b:C={}}', 0, 2), ('input A{b:C=[]}', 0, 2)],
}

# Texts and their cards in five words.
CARDS_OF = {
    '1.10 which directive uses': [
        ('type A{a:B@d}', [6, 0, 13, 5, 1, 22, 7, 5, 7, 1]), ('type A@d{a(b:C@e):B@f}', [6, 0, 22, 5, 1, 20, 6, 2, 7, 1, 22, 9, 12, 9, 1]),
        ('enum A@d{b@e}', [9, 0, 13, 5, 1, 20, 6, 2, 7, 1, 24, 9, 3, 9, 1]), ('input A@d{b:C@e}', [10, 0, 16, 6, 1, 20, 7, 2, 8, 1, 25, 10, 5, 10, 1]),
        ('directive@d(a:B@e)on FIELD', [3, 0, 26, 10, 1])],
    '1.11 input fields': [('input A{b:C}', [10, 0, 12, 6, 1, 25, 8, 3, 8, 1]), ('type A{b(c:C d:D):E}', [6, 0, 20, 5, 1, 22, 7, 12, 7, 1])],
    '1.12 order': [('type A implements B&C@d{e:F}', [6, 0, 28, 5, 1, 21, 18, 1, 18, 1, 21, 20, 1, 20, 1, 20, 21, 2, 22, 1, 22, 24, 3, 24, 1])],
    '1.13 roots': [('schema{query : Q}', [4, 0, 17, 0, 0, 26, 7, 9, 15, 1]),
                   ('extend schema@d{subscription:S mutation:M}', [11, 0, 42, 0, 0, 20, 13, 2, 14, 1, 28, 16, 14, 29, 1, 27, 31, 10, 40, 1])],
    '1.15 descriptions': [
        ('"d" type A', [6, 0, 10, 9, 1]), (' """d"""schema{query:Q}', [4, 1, 22, 0, 0, 26, 15, 7, 21, 1]),
        ('type A{"d"b:C}', [6, 0, 14, 5, 1, 22, 7, 6, 10, 1]), ('enum A{"d" b}', [9, 0, 13, 5, 1, 24, 7, 5, 11, 1]),
        ('input A{"""d"""b:C}', [10, 0, 19, 6, 1, 25, 8, 10, 15, 1]), ('"d"directive@d on FIELD', [3, 0, 23, 13, 1]), ('"d"scalar A', [5, 0, 11, 10, 1]),
        ('"d"interface A', [7, 0, 14, 13, 1]), ('"d"union A', [8, 0, 10, 9, 1]), ('"d"enum A', [9, 0, 9, 8, 1]), ('"d"input A', [10, 0, 10, 9, 1])],
    '1.16 joining marks': [
        ('union A=|B|C', [8, 0, 12, 6, 1, 23, 9, 1, 9, 1, 23, 11, 1, 11, 1]), ('union A = B | C', [8, 0, 15, 6, 1, 23, 10, 1, 10, 1, 23, 14, 1, 14, 1]),
        ('type A implements&B&C', [6, 0, 21, 5, 1, 21, 18, 1, 18, 1, 21, 20, 1, 20, 1]), ('directive@d on|FIELD|QUERY', [3, 0, 26, 10, 1])],
    '1.17 the last token': [
        ('type A @d #x\n', [6, 0, 9, 5, 1, 20, 7, 2, 8, 1]), ('input A{a:S="x"}', [10, 0, 16, 6, 1, 25, 8, 7, 8, 1]),
        ('type A{a:[B!]! #x\n}', [6, 0, 19, 5, 1, 22, 7, 7, 7, 1]), ('type A @d(x:1) ,', [6, 0, 14, 5, 1, 20, 7, 7, 8, 1]),
        ('union A=B ,', [8, 0, 9, 6, 1, 23, 8, 1, 8, 1]), ('type A implements B\n', [6, 0, 19, 5, 1, 21, 18, 1, 18, 1]),
        ('type A{a:B @d(x:{y:1}) }', [6, 0, 24, 5, 1, 22, 7, 15, 7, 1]), ('scalar A ', [5, 0, 8, 7, 1]), ('directive@d on FIELD ,', [3, 0, 20, 10, 1])],
    '1.18 ignored tokens': [('enum E{A,B}', [9, 0, 11, 5, 1, 24, 7, 1, 7, 1, 24, 9, 1, 9, 1]), (',scalar A,', [5, 1, 8, 8, 1]),
                            ('#a\nscalar A#b', [5, 3, 8, 10, 1])],
    'every extension': [
        ('extend scalar A@d', [12, 0, 17, 14, 1, 20, 15, 2, 16, 1]), ('extend type A{b:C}', [13, 0, 18, 12, 1, 22, 14, 3, 14, 1]),
        ('extend interface A{b:C}', [14, 0, 23, 17, 1, 22, 19, 3, 19, 1]), ('extend union A=B', [15, 0, 16, 13, 1, 23, 15, 1, 15, 1]),
        ('extend enum A{b}', [16, 0, 16, 12, 1, 24, 14, 1, 14, 1]), ('extend input A{b:C}', [17, 0, 19, 13, 1, 25, 15, 3, 15, 1]),
        ('extend schema@d', [11, 0, 15, 0, 0, 20, 13, 2, 14, 1])],
    'characters of more bytes': [('"\u00e9\u20ac"type A#\u00e9\n{b:C}', [6, 0, 22, 12, 1, 22, 18, 3, 18, 1]),
                                 (f'{BOM}"{BOM}"scalar{BOM}A', [5, 3, 15, 17, 1])],
}


def spread(opener, closer, count, inside):
    return opener * count + inside + closer * count


def places(new):
    for title, texts in PLACES.items():
        case = new(f'parse: {title}')
        for text, number, second in texts:
            case.parse(text, (number, second))


def spans(new):
    for title, texts in CARDS_OF.items():
        case = new(f'parse: {title}')
        for text, words in texts:
            case.parse(text, (0, len(words) // 5), words)


def levels(new):
    most = LEVELS
    case = new('parse: 1.34 and 1.35, 32 levels pass and the opener of one more is 30')
    for opener, closer in (('[', ']'), ('{a:', '}'), ('[{a:', '}]'), ('{a:[', ']}')):
        marks = opener.count('[') + opener.count('{')
        for text in ('1', '"s"', 'a', '[]' if marks == 1 else 'b'):
            count = most // marks - (text == '[]')
            case.parse(USE + spread(opener, closer, count, text) + ')', (0, 2))
        for count in (most - 1, most, most + 1, most + 2):
            if marks == 1:
                case.parse(USE + spread(opener, closer, count, '1') + ')', (0, 2) if count <= most else (30, AT + most * len(opener)))
    case.parse(USE + '[' * most + '[', (30, AT + most))
    case.parse(USE + '[' * most + '[]', (30, AT + most))
    case.parse(USE + '[' * most + '{}', (30, AT + most))
    case.parse(USE + '[' * 16 + '{a:' * 16 + '[', (30, AT + 16 + 48))
    case.parse(USE + '[' * 16 + '{a:' * 16 + '{', (30, AT + 16 + 48))
    case.parse(USE + '[' * most + ']' * most + ' y:' + '[' * most + ']' * most + ')', (0, 2))
    case.parse('input A{a:B=' + '[' * most + ']' * most + ' b:B=' + '{c:' * most + '{', (30, 12 + 2 * most + 5 + 3 * most))
    case.parse('type A{a:' + '[' * most + 'B' + ']' * most + ' b:' + '[' * most + '[', (30, 9 + 2 * most + 1 + 3 + most))
    case.parse('type A{a(b:' + '[' * most + 'B' + ']!' * most + '=' + '[' * most + ']' * most + '):' + '[' * most + 'C' + ']' * most + '}', (0, 2))
    case.parse('directive@d(a:' + '[' * (most + 1), (30, 14 + most))
    case.parse('type A{a:B@d(x:' + '[' * (most + 1), (30, 15 + most))
    case.parse('schema@d(x:' + '{a:' * most + '{', (30, 11 + 3 * most))
    for count in (most - 1, most, most + 1, most + 2):
        case.parse('type A{a:' + spread('[', ']', count, 'B') + '}', (0, 2) if count <= most else (30, 9 + most))
    case = new('parse: 1.36 to 1.39, what is no level, and 29 beside 30')
    case.parse(USE + '[' + '[]' * 200 + '])', (0, 2))
    case.parse('type A{a(b:C@d(x:' + spread('[', ']', most, '') + ')):B}', (0, 2))
    case.parse(USE + '{a:' * most + '{{', (30, AT + 3 * most))
    case.parse(USE + '{a:' * (most - 1) + '{{', (29, AT + 3 * (most - 1) + 1))
    case.parse('type A{a:' + '[' * most + '{', (29, 9 + most))
    case.parse(USE + '[' * most + '(', (29, AT + most))
    case.parse(USE + '[' * most + '"', (29, AT + most))
    case.parse(USE + '[' * most, (29, AT + most))
    case.parse(USE + '[' * most + '[%', (30, AT + most))
    case.parse(USE + '[' * most + '["', (30, AT + most))
    case.parse(USE + '% ' + '[' * (most + 1), (29, AT))
    case.parse('typ ' + USE + '[' * (most + 1), (29, 0))
    case.parse(USE + '[' * (most + 1) + ' typ', (30, AT + most))
    case.parse('type A{a:' + '[' * (most + 1) + '}', (30, 9 + most))
    case.parse('[' * (most + 1), (29, 0))
    case.parse('type A' + '{' * (most + 1), (29, 7))


def limits(new):
    case = new('parse: 1.40 to 1.44, lengths of the slice and the order of refusals')
    for lent in (0, 1, CARD, CARDS_LENT - CARD, CARDS_LENT - 1):
        case.parse('scalar A', (31, 0), lent=lent)
        case.parse('typ', (31, 0), lent=lent)
        case.parse('', (31, 0), lent=lent)
    for lent in (CARDS_LENT, CARDS_LENT + 1, CARDS_LENT + 3, CARDS_LENT + CARD, CARDS_LENT + 16):
        case.parse('scalar A@d', (0, 2), lent=lent)
        case.parse('typ', (29, 0), lent=lent)
        case.parse(USE + '[' * (LEVELS + 1), (30, AT + LEVELS), lent=lent)
    case = new('parse: 1.40 and 1.42, one byte more is 24, behind 31 and before all else')
    case.parse('%' * (TEXT + 1), (24, 0))
    case.parse('%' * (TEXT + 1), (31, 0), lent=CARDS_LENT - 1)
    case.parse('%' * TEXT, (29, 0))
    case.parse('%' * TEXT, (31, 0), lent=0)
    for last in ('scalar A', 'typ', ''):
        case = new(f'parse: 1.42, 65,536 bytes that end with {last!r}')
        for size, start in ((TEXT + 1, 0), (TEXT, 1)):
            text = (' ' * (TEXT + 1 - len(last)) + last)[start:]
            case.parse(text, (24, 0) if size > TEXT else (0, 1) if last == 'scalar A' else (29, TEXT - len(last)))
    case = new('parse: 65,536 bytes in one token')
    case.parse('scalar ' + 'A' * (TEXT - 7), (0, 1))
    case.parse('scalar ' + 'A' * (TEXT - 8), (0, 1))
    case = new('parse: 65,536 bytes in one broken string')
    case.parse('"' + 'a' * (TEXT - 1), (29, 0))
    case.parse('#' + 'a' * (TEXT - 1), (29, TEXT))
    for title, before, part, behind in (
            ('enum values', 'enum E{', 'a ', '}'), ('members', 'union E=', '|a', ''), ('interfaces', 'type E implements', '&a', ''),
            ('fields', 'type E{', 'a:B ', '}'),
            ('input fields', 'input E{', 'a:B ', '}'), ('uses', 'scalar E', '@a', ''), ('roots', 'schema{', 'query:A ', '}')):
        case = new(f'parse: 1.43 and 1.46, 2,300 cards of {title}, and one more is 25')
        case.parse(before + part * (CARDS - 1) + behind, (0, CARDS))
        for lent in (CARDS_LENT, CARDS_LENT + 16):
            case.parse(before + part * CARDS + behind, (25, 0), lent=lent)
        case.parse(before + part * CARDS + behind, (31, 0), lent=CARDS_LENT - 1)
    case = new('parse: 1.33 and 1.43, headings, and 29 or 30 behind card 2,301')
    many = 'scalar A ' * CARDS
    case.parse(many, (0, CARDS))
    case.parse(many + 'scalar A', (25, 0))
    case.parse(many + 'typ', (29, len(many)))
    case.parse(many * 2 + '"', (29, 2 * len(many)))
    case = new('parse: 1.33, 30 behind card 2,301')
    case.parse(many + USE + '[' * (LEVELS + 1), (30, len(many) + AT + LEVELS))
    case = new('parse: 32,765 cards are 25')
    case.parse('enum E{' + 'a ' * 32764 + '}', (25, 0))


def filed(new):
    """What was read is filed and drawn; a parse may stand anywhere between calls on a store."""
    case = new('parse: what is read is filed with no refusal')
    texts = ['scalar Int', 'type A implements I@d{n:Int "d"m(a:B=[{c:1}]):[Int!]!}interface I{n:Int}', '"d"schema@d{query:A}extend schema{mutation:A}',
             'directive@d(a:Int)repeatable on FIELD|QUERY enum E{a b}input N{a:Int=1}union U=A|E extend union U=N']
    for number, text in enumerate(texts):
        cards = case.parse(text)
        document = case.lent_doc(text.encode(), cards)
        case.open(document) if number == 0 else case.add(document)
        case.parse('typ', (29, 0))
        case.build()
        case.tallies()
    case.look(8)


def make(new):
    places(new)
    spans(new)
    levels(new)
    limits(new)
    filed(new)
