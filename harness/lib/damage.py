"""Texts damaged at random, token by token or byte by byte."""
from lib.spellings import INTEGERS, KEYWORDS, PLAIN_NAMES

MARKS = list('!$&():=@[]{|}') + ['...']
# Bytes that begin, go on or stand in no sequence of UTF-8, and control bytes.
ODD_BYTES = [0x00, 0x01, 0x08, 0x0b, 0x0c, 0x1f, 0x7f, 0x80, 0xbf, 0xc0, 0xc1, 0xc2, 0xc3, 0xdf, 0xe0, 0xe2, 0xed, 0xef, 0xf0, 0xf4, 0xf5, 0xfe, 0xff]
ODD_UTF8 = [
    b'\xc0\x80', b'\xc1\xbf', b'\xe0\x80\x80', b'\xe0\x9f\xbf', b'\xe0\xa0\x80', b'\xed\x9f\xbf', b'\xed\xa0\x80', b'\xed\xbf\xbf', b'\xee\x80\x80',
    b'\xef\xbf\xbf', b'\xf0\x80\x80\x80', b'\xf0\x8f\xbf\xbf', b'\xf0\x90\x80\x80', b'\xf0\x9f\x98\x80', b'\xf4\x8f\xbf\xbf', b'\xf4\x90\x80\x80',
    b'\xe2\x82', b'\xc3', b'\xef\xbb', b'\xef\xbb\xbf', b'\x07', b'\x7f', b'\xc2\x80']
ODD_ESCAPES = [b'\\u{41}', b'\\u{1F600}', b'\\u{D800}', b'\\u{}', b'\\u12', b'\\u12g4', b'\\x', b'\\', b'\\uD800', b'\\uDE00\\uD83D', b'"""', b'""', b'"',
               b'\\"""', b'\\n', b'\n', b'\r']
ODD_NUMBERS = [b'1.', b'-', b'.', b'01', b'1a', b'0x1', b'1e', b'1e+', b'.5', b'+1', b'1_', b'1.2.3', b'-a', b'1.5e3.', b'00', b'-01', b'1...', b'0-0 ',
               b'1"s"', b'1\xc3\xa9', b'1\xff']
ODD_OTHERS = [b'.', b'..', b'...', b'#', b'%', b"'", b'?', b';', b'query{a}', b'{a}', b'extend ', b'"d"', b'fragment f on A{b}', b'$a', b'&', b'|', b'=',
              b'mutation M($a:A=1@d){b:c(d:$a)@e{f ...g ...on H{i}...@j{k}}}']
# Stretches, each sort with the bytes behind which it is put.
ODD_STRETCHES = [(ODD_UTF8, b'"#'), (ODD_ESCAPES, b'"'), (ODD_NUMBERS, b':='), (ODD_OTHERS, b'}) ')]
CLOSERS = {'(': ')', '[': ']', '{': '}'}


def damaged_tokens(tokens, draws):
    """One token dropped, doubled, exchanged, put in or put in place of another, a description put in or what is in brackets left out."""
    tokens, way = list(tokens), draws.below(7)
    at = draws.below(len(tokens))
    other = draws.pick([draws.pick(MARKS), draws.pick(KEYWORDS), draws.pick(PLAIN_NAMES), draws.pick(INTEGERS), '"s"', draws.pick(tokens)])
    if way == 0:
        del tokens[at]
    elif way == 1:
        tokens.insert(at, tokens[at])
    elif way == 2:
        to = draws.below(len(tokens))
        tokens[at], tokens[to] = tokens[to], tokens[at]
    elif way == 3:
        tokens.insert(at, other)
    elif way == 4:
        tokens[at] = other
    elif way == 5:
        tokens.insert(draws.pick([place for place, token in enumerate(tokens) if token in KEYWORDS] or [at]), '"s"')
    else:
        leave_out(tokens, draws)
    return tokens or [other]


def leave_out(tokens, draws):
    """Takes away what stands between a bracket and the next one that would close it."""
    openers = [place for place, token in enumerate(tokens) if token in CLOSERS]
    if openers:
        start = draws.pick(openers)
        end = next((place for place in range(start, len(tokens)) if tokens[place] == CLOSERS[tokens[start]]), len(tokens))
        del tokens[start + 1:end]


def damaged_bytes(text, draws):
    """One byte or stretch dropped, doubled, exchanged, put in or put in place of another, or an end cut off."""
    text, way = bytearray(text), draws.below(10)
    at = draws.below(len(text) + 1)
    if way == 0:
        del text[at:at + draws.between(1, 3)]
    elif way == 1:
        text[at:at] = text[at:at + draws.between(1, 3)]
    elif way == 2:
        text[at:at + 2] = text[at:at + 2][::-1]
    elif way == 3:
        text[at:at + 1] = bytes([draws.pick(ODD_BYTES) if draws.one_in(2) else draws.below(256)])
    elif way == 4:
        text.insert(at, draws.pick(ODD_BYTES))
    elif way == 5:
        del text[at:]
    elif way == 6:
        del text[:at]
    else:
        stretches, behind = draws.pick(ODD_STRETCHES)
        at = draws.pick([place + 1 for place, byte in enumerate(text) if byte in behind] or [at])
        text[at:at] = draws.pick(stretches)
    return bytes(text)
