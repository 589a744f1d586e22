"""Texts held against several readers at once: the answer of lib/reader decides, and each known difference of another parser is an exact exception.

graphql-js and graphql-core follow the edition after October 2021 and read executable definitions too. So lib/reader reads each text a second time by that
edition's rules: in acceptance and cards they must agree with that reading, and in the place of a refusal but for three ways of telling it. Where the two
readings differ it is told which rule makes the difference."""
import re
from collections import Counter

from lib.parsers import Crashed, Refused
from lib.reader import lexer
from lib.reader.grammar import EXECUTABLE, TYPE_SYSTEM
from lib.reader.reading import OCTOBER, Edition, parsed
from lib.sizes import LEVELS, Refusal

START = OCTOBER.grammar.start
LATER = Edition(TYPE_SYSTEM + EXECUTABLE, 'Document', characters=lexer.LATER, escapes=f'{lexer.ESCAPED_PAIRED}|{lexer.ESCAPED_IN_BRACES}')
# October 2021 with one of the later rules.
SINGLE = {
    'executable definitions': Edition(TYPE_SYSTEM + EXECUTABLE, 'Document', LEVELS),
    'more than 32 levels': Edition(TYPE_SYSTEM, START),
    'control characters in comments or strings': Edition(TYPE_SYSTEM, START, LEVELS, characters=r'\x00-\ud7ff\ue000-\uffff'),
    'characters above U+FFFF in comments or strings': Edition(TYPE_SYSTEM, START, LEVELS, characters=r'\t\n\r\x20-\ud7ff\ue000-\U0010ffff'),
    'escapes with braces': Edition(TYPE_SYSTEM, START, LEVELS, escapes=f'{lexer.ESCAPED}|{lexer.ESCAPED_IN_BRACES}'),
    'escapes of unpaired surrogates': Edition(TYPE_SYSTEM, START, LEVELS, escapes=lexer.ESCAPED_PAIRED)}
# Limits of ours that other parsers lack.
LIMITS = {Refusal.TEXT_FULL: 'more than 65,536 bytes', Refusal.CARDS_FULL: 'more than 2,300 cards'}
# A string that the text's end cuts off inside an escape.
CUT_ESCAPE = re.compile(rb'"(?!"")(?:[^"\\\r\n]|\\.)*\\(?:u[0-9A-Fa-f]{0,3}|u[0-9A-Fa-f]{4}\\u[0-9A-Fa-f]{0,3}|u\{[0-9A-Fa-f]{0,8})?\Z', re.S)
BROKEN = b'"-0123456789'


class Later:
    """What the later rules make of a text, and why that is something else."""

    def __init__(self, text):
        self.text = text
        strict, tokens, ended = OCTOBER.judged(text)
        self.tokens, self.stop, self.is_end = LATER.lexer.lexed(text)
        if strict is None and self.tokens == tokens and self.is_end:
            # What the one grammar has, the other has too.
            self.refused, self.cards, self.reasons = None, OCTOBER.cards(tokens, ended), ()
            return
        self.refused, self.tokens, ended = LATER.judged(text)
        self.cards = None if self.refused else LATER.cards(self.tokens, ended)
        self.reasons = () if strict == self.refused else tuple(title for title, edition in SINGLE.items() if edition.judged(text)[0] != strict)

    def place_told(self, offset):
        """How a parser tells the refusal at an offset: 'same', one of the known other ways, or None."""
        place = self.refused[1]
        if offset == place:
            return 'same'
        starts = [start for _, start, _ in self.tokens]
        is_broken = not self.is_end and place == self.stop
        if is_broken and self.text[place] in BROKEN and offset > place:
            return 'inside a broken string or number'
        if place not in starts:
            return None
        at = starts.index(place)
        if at and self.tokens[at - 1][0] == 'StringValue' and offset == starts[at - 1] and is_name(self.tokens[at][0]) and self.is_document(at - 1):
            return 'at the description before it'
        if at == len(starts) - 1 and not self.is_end and offset >= self.stop:
            return 'at a broken token right behind it'
        return None

    def is_document(self, count):
        """Whether so many tokens are a document, or none."""
        read, ended, _ = LATER.machine.read([terminal for terminal, _, _ in self.tokens[:count]])
        return count == 0 or (read == count and 0 in ended[-1].get(LATER.grammar.start, ()))


def is_name(terminal):
    return terminal == 'Name' or terminal[1:2].isalpha() and terminal.startswith('`')


class Held:
    """Counts of what was compared, by title, and the differences that are on no list."""

    def __init__(self, library, others, tell):
        self.library, self.others, self.tell = library, others, tell
        self.answers, self.reasons = Counter(), Counter()
        self.told = {other.title: Counter() for other in others}
        self.differences = 0

    def hold(self, lent):
        """Texts with their slices' lengths."""
        ours = [parsed(text, length) for text, length in lent]
        self.answers.update(number for number, _, _ in ours)
        if self.library:
            for (text, length), wanted, (number, second, cards, changed) in zip(lent, ours, self.library.answers(lent)):
                if (number, second, cards) != wanted or changed:
                    self.differ('library', text, (length, wanted), (number, second, cards, f'changed {changed}'))
        if not self.others:
            return
        texts = [text for text, _ in lent]
        later = [None if is_no_text(text) else Later(text) for text in texts]
        for each, (number, _, _) in zip(later, ours):
            if each is not None:
                self.reasons.update([' and '.join(each.reasons)] if each.reasons else [])
                self.reasons.update([LIMITS[number]] if number in LIMITS else [])
        for other in self.others:
            for text, wanted, outcome in zip(texts, later, other.outcomes(texts)):
                title = self.judge(wanted, outcome)
                self.told[other.title][title or 'DIFFERENCE'] += 1
                if title is None:
                    self.differ(other.title, text, (wanted.refused, wanted.cards) if wanted else None, outcome)

    def judge(self, wanted, outcome):
        """What another parser's outcome is to the later rules' reading, or None where it is nothing known."""
        if wanted is None or outcome is None:
            return 'no UTF-8' if wanted is outcome else None
        if isinstance(outcome, Crashed):
            is_cut = wanted.refused and wanted.refused[1] == wanted.stop and CUT_ESCAPE.match(wanted.text, wanted.stop)
            return 'crashes at a text that ends in an escape' if is_cut else None
        if isinstance(outcome, Refused):
            told = wanted.refused and wanted.place_told(outcome.offset)
            return told and (f'refused, {told}' if told != 'same' else 'refused at the same place')
        return 'the same cards' if wanted.cards == outcome else None

    def differ(self, title, text, wanted, got):
        self.differences += 1
        self.tell(self.differences, title, text, wanted, got)


def is_no_text(text):
    try:
        text.decode('utf-8')
        return False
    except UnicodeDecodeError:
        return True
