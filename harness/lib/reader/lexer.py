"""The lexical grammar over the code points of a text (specification, 2.1 and 2.9).

Python's own decoder tells what UTF-8 is: a byte of no well-formed sequence comes out as a code point of its own among U+DC80 to U+DCFF, which no
well-formed text has, and which is then no SourceCharacter."""
import re

# What may stand in a text: the range of October 2021, and that of the later edition, which some parsers follow.
OCTOBER, LATER = r'\t\n\r\x20-\ud7ff\ue000-\uffff', r'\x00-\ud7ff\ue000-\U0010ffff'
HEX = '[0-9A-Fa-f]'
ESCAPED = rf'u{HEX}{{4}}'
# The later edition's: braces, and surrogates in pairs alone. The parsers that follow it read at most eight digits between braces.
ESCAPED_IN_BRACES = rf'u\{{(?={HEX}{{1,8}}\}})0*(?:10{HEX}{{4}}|{HEX}{{5}}|(?![Dd][89A-Fa-f]{HEX}{{2}}\}}){HEX}{{1,4}})\}}'
ESCAPED_PAIRED = rf'u(?![Dd][89A-Fa-f]){HEX}{{4}}|u[Dd][89ABab]{HEX}{{2}}\\u[Dd][C-Fc-f]{HEX}{{2}}'

NAME = r'[A-Za-z_][A-Za-z_0-9]*'
INTEGER = r'-?(?:0|[1-9][0-9]*)'
FRACTION, EXPONENT = r'\.[0-9]+', r'[eE][+-]?[0-9]+'
NO_MORE = r'(?![0-9.A-Za-z_])'
PUNCTUATOR = r'[!$&():=@\[\]{|}]|\.\.\.'


class Lexer:
    """One lexical grammar: October 2021's, or with the later edition's characters or escapes."""

    def __init__(self, keywords, characters=OCTOBER, escapes=ESCAPED):
        self.keywords = keywords
        self.ignored = re.compile(rf'(?:[\ufeff\t \n\r,]|\#(?:(?![\n\r])[{characters}])*)*')
        string = rf'""(?!")|"(?:(?!["\\\n\r])[{characters}]|\\(?:{escapes})|\\["\\/bfnrt])+"'
        block = rf'"""(?:(?!"""|\\""")[{characters}]|\\""")*"""'
        number = f'{INTEGER}{FRACTION}{EXPONENT}{NO_MORE}|{INTEGER}{FRACTION}{NO_MORE}|{INTEGER}{EXPONENT}{NO_MORE}'
        self.token = re.compile(
            f'(?P<Name>{NAME})|(?P<Punctuator>{PUNCTUATOR})|(?P<StringValue>{block}|{string})|(?P<FloatValue>{number})|(?P<IntValue>{INTEGER}{NO_MORE})')

    def lexed(self, text):
        """The longest list of tokens that can be read, each its terminal, start and end; where it stops; and whether that is the end of text."""
        points = text.decode('utf-8', 'surrogateescape')
        tokens, at, last = [], self.ignored.match(points).end(), len(points)
        take, ignore = self.token.match, self.ignored.match
        while at < last:
            found = take(points, at)
            if not found:
                break
            end = found.end()
            tokens.append((self.terminal(found.lastgroup, found.group()), at, end))
            at = ignore(points, end).end()
        is_end = at == last
        if len(points) == len(text):
            return tokens, at, is_end
        places = byte_places(points)
        return [(terminal, places[start], places[end]) for terminal, start, end in tokens], places[at], is_end

    def terminal(self, group, spelling):
        """What the grammar sees of a token: a mark or keyword by its spelling, all else by its class."""
        if group == 'Punctuator' or (group == 'Name' and spelling in self.keywords):
            return f'`{spelling}`'
        return group


def byte_places(points):
    """The offset in bytes of each code point, and of the end."""
    places, at = [], 0
    for point in points:
        places.append(at)
        at += len(point.encode('utf-8', 'surrogateescape'))
    places.append(at)
    return places
