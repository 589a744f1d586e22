"""`parse` and bytes: behind each beginning in which the lexical grammar stands in another state, each byte of ASCII and those beside which UTF-8 makes a
difference; then sequences of UTF-8, with the text going on and ending there. What comes is the reader's word."""
# Beginnings, each with what makes a text of the grammar of it again.
CONTEXTS = {
    'between tokens': (b'scalar A ', b' scalar B'), 'behind a name': (b'scalar A', b' scalar B'), 'in a comment': (b'scalar A#', b'\nscalar B'),
    'in a string': (b'"a', b'"scalar A'), 'right behind a quote': (b'"', b'"scalar A'), 'behind two quotes': (b'""', b'scalar A'),
    'in a block string': (b'"""a', b'"""scalar A'),
    'behind a quote in a block string': (b'"""a"', b'"""scalar A'), 'behind two quotes in a block string': (b'"""a""', b'"scalar A'),
    'behind a backslash': (b'"\\', b'"scalar A'), 'behind a backslash in a block string': (b'"""\\', b'"""scalar A'),
    'in an escape': (b'"\\u00', b'0"scalar A'),
    'at the end of an escape': (b'"\\u000', b'"scalar A'), 'behind a minus': (b'scalar A@d(x:-', b')'), 'behind a zero': (b'scalar A@d(x:0', b')'),
    'behind a digit': (b'scalar A@d(x:1', b')'), 'behind a point': (b'scalar A@d(x:1.', b')'), 'behind a fraction': (b'scalar A@d(x:1.5', b')'),
    'behind an e': (b'scalar A@d(x:1e', b')'), 'behind a sign': (b'scalar A@d(x:1e+', b')'), 'behind an exponent': (b'scalar A@d(x:1e5', b')'),
    'behind a dot': (b'type A{.', b'b:C}'), 'behind two dots': (b'type A{..', b'b:C}'),
    'behind two bytes of a byte order mark': (b'scalar A\xef\xbb', b' scalar B'),
    'in place of a value': (b'scalar A@d(x:', b')')}
# Where all bytes are tried.
WHOLE = ('between tokens', 'in a comment', 'in a string', 'in a block string')
BEYOND_ASCII = [0x80, 0x81, 0xbf, 0xc0, 0xc1, 0xc2, 0xdf, 0xe0, 0xe1, 0xec, 0xed, 0xee, 0xef, 0xf0, 0xf4, 0xf5, 0xff]
# What is and what is just not a sequence of a character that a text may have.
SEQUENCES = [
    b'\xc2\x80', b'\xc2\x7f', b'\xc2\xc0', b'\xc2', b'\xdf\xbf', b'\xdf\xc0', b'\xc0\x80', b'\xc1\xbf', b'\xe0\xa0\x80', b'\xe0\x9f\xbf', b'\xe0\xa0',
    b'\xe0\xa0\x7f', b'\xe0\xa0\xc0',
    b'\xe0\xc0\x80', b'\xe1\x80\x80', b'\xe1\x7f\x80', b'\xec\xbf\xbf', b'\xed\x9f\xbf', b'\xed\xa0\x80', b'\xed\xbf\xbf', b'\xed\x80', b'\xee\x80\x80',
    b'\xef\xbb\xbf', b'\xef\xbb',
    b'\xef\xbb\xbe', b'\xef\xbf\xbd', b'\xef\xbf\xbe', b'\xef\xbf\xbf', b'\xef', b'\xf0\x90\x80\x80', b'\xf0\x8f\xbf\xbf', b'\xf0\x9f\x98\x80',
    b'\xf0\x9f\x98', b'\xf1\x80\x80\x80',
    b'\xf4\x8f\xbf\xbf', b'\xf4\x90\x80\x80', b'\xf5\x80\x80\x80', b'\xf8\x88\x80\x80\x80', b'\x80\x80', b'\xc3\xa9\xc3', b'\xc3\xa9\xff', b'\xfe\xff',
    b'\xff\xfe']


# A text with everything that tokens and ignored matter can be.
ALL = (
    b'\xef\xbb\xbf"d\\"\\u00e9\xc3\xa9" schema @d(x: [1, -2.5e+3, "s", {a: null}]) {query: Q}\r\n# c\xe2\x82\xac\n"""b\\"""\n\\""" extend"""'
    b' type A implements & I & J {\n "f" a(b: [C!]! = {d: [E]} @e): F @g(h: """""")\r}\nextend union U @d = | A | B extend input N {a: B = ""}\t,'
    b'enum E{"v"a@d b}directive @d(a: B) repeatable on | FIELD | ENUM_VALUE extend schema@a scalar S extend interface I{a:B}#')


def make(new):
    case = new('parse: every beginning of a text')
    for end in range(len(ALL), -1, -1):
        case.parse(ALL[:end])
    case = new('parse: every end of a text')
    for start in range(len(ALL)):
        case.parse(ALL[start:])
    for title, (before, behind) in CONTEXTS.items():
        case = new(f'parse: each byte {title}')
        for byte in range(256) if title in WHOLE else [*range(128), *BEYOND_ASCII]:
            case.parse(before + bytes([byte]) + behind)
        case = new(f'parse: sequences of UTF-8 {title}, and the end of text')
        case.parse(before)
        for sequence in SEQUENCES + [b'"', b'\\', b'\n', b'\r', b'.', b'#', b'\x00']:
            case.parse(before + sequence)
        for sequence in SEQUENCES:
            case.parse(before + sequence + behind)
