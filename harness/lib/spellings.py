"""How the tokens of random texts are spelled, and what is ignored between them: odd, but all of it allowed."""
from lib.reader.reading import OCTOBER

BOM = '\ufeff'
KEYWORDS = sorted(OCTOBER.grammar.keywords() | {'fragment', 'on'})
PLAIN_NAMES = ['a', 'b', 'C', 'Query', '_', '__a', 'a1', 'A_9', 'typed', 'On', 'TRUE', 'nul', 'x' * 40]
INTEGERS = ['0', '-0', '1', '-1', '42', '1234567890123456789012', '-9']
FLOATS = ['0.0', '-0.0', '1.5', '1e5', '1E5', '0e0', '-1.50e+10', '1.0E-9', '9e999999', '12.345e0']
STRING_PIECES = ['a', 'B c', 'é', '€', '\uffff', '\ufffe', BOM, '\x7f', '\x80', '\u2028', '#', ',', '{', '\t', '\\"', '\\\\', '\\/', '\\b', '\\f', '\\n',
                 '\\r', '\\t', '\\u0041', '\\uFFFF', '\\uD83D\\uDE00', "'"]
# Escapes that the later edition lacks, which is what most parsers follow: not too many.
UNPAIRED = ['\\udc00', '\\ud800', '\\uDE00\\uD83D']
BLOCK_PIECES = ['a', 'B c', 'é', '\uffff', BOM, '#', '"', '""', '\\"""', '\\', '\\\\', '\\u00', '\n', '\r', '\r\n', '\t', '{', '\x7f', '\\"']
COMMENT_PIECES = ['a', ' ', 'é', '€', '\uffff', BOM, '"', '"""', '{', '#', '\\', '\t', ',', '\x7f', '\x85', 'type A']
BLANKS = [' ', ' ', ' ', '\n', '\t', ',', '\r\n', '\r', '  ', ', ', '\n\n', BOM]


def string(draws):
    if draws.one_in(3):
        inside = ''.join(draws.pick(BLOCK_PIECES) for _ in range(draws.below(6)))
        while '"""' in inside.replace('\\"""', ''):
            inside = inside.replace('"""', '"', 1)
        return '"""' + inside + (' ' if inside.endswith(('"', '\\')) and not inside.endswith('\\"""') else '') + '"""'
    return '"' + ''.join(draws.pick(UNPAIRED if draws.one_in(60) else STRING_PIECES) for _ in range(draws.below(4))) + '"'


def ignored(draws, is_last):
    if draws.one_in(5):
        comment = '#' + ''.join(draws.pick(COMMENT_PIECES) for _ in range(draws.below(4)))
        return comment + ('' if is_last else draws.pick(['\n', '\r', '\r\n'])) + (draws.pick(BLANKS) if draws.one_in(4) and not is_last else '')
    return draws.pick(BLANKS)
