"""The numbers of 01 that more than one file needs: each is stated here alone and called by its name elsewhere. run/check.py holds them against the header.

What is expected by hand (groups/, run/check.py) still says refusals, errors and kinds in numbers, as 01 does: by these the names here are judged."""
from lib.cards import CARD

# The word that is shown as `-`.
NONE = 2 ** 32 - 1

# What a store holds at most.
TEXT, DOCUMENTS, CARDS = 65536, 64, 2300

# A store's words: the counts, a row for each document, the cards. 11,761 with cards of five words, which begin at 261.
COUNTS, DOCUMENT = 5, 4
HELD, ADOPT, IGNORE, TEXT_USED, CARDS_USED = range(COUNTS)
FIRST_CARD = COUNTS + DOCUMENT * DOCUMENTS
WORDS = FIRST_CARD + CARD * CARDS

# The least lengths of slices to be written: 6,912, 6,900, 2,304 and 9,200. A drawing has at most a row for each card, row 4 and three default roots.
ROW = 3
ROWS = CARDS + 4
ROWS_LENT, ERRORS_LENT, ORIGINS_LENT, GROUPS_LENT = ROW * ROWS, ROW * CARDS, ROWS, 4 * CARDS
# That of the cards which reading a text writes: 11,500.
CARDS_LENT = CARD * CARDS
# How many levels of lists and objects a value may have, and of lists a type.
LEVELS = 32


def document_at(index, word=0):
    """The place of a word of a document's row in the store."""
    return COUNTS + DOCUMENT * index + word


def card_at(number, word=0):
    """The place of a word of a stored card."""
    return FIRST_CARD + CARD * number + word


def in_rows(words):
    return [tuple(words[at:at + ROW]) for at in range(0, len(words), ROW)]


class Refusal:
    """Why a call is refused, by the header's names."""
    CARDS_BROKEN = 1
    CARD_KIND = 2
    CARD_SPAN = 3
    CARD_NAME = 4
    CARD_ORDER = 5
    NOT_BUILT_IN = 6
    SLICE_SHORT = 7
    STORE_SHORT = 21
    STORE_DAMAGED = 22
    DOCUMENTS_FULL = 23
    TEXT_FULL = 24
    CARDS_FULL = 25
    ROWS_REFUSED = 26
    CARD_NAME_PRESENCE = 27
    CARD_NAME_BYTES = 28
    NOT_IN_GRAMMAR = 29
    NESTED_TOO_DEEP = 30
    READ_CARDS_SHORT = 31


class Error:
    """What an error row says, by its first word. Each number has a tally of its own."""
    EXECUTABLE = 1
    SECOND_SCHEMA = 2
    SECOND_DIRECTIVE = 3
    SECOND_TYPE = 4
    BUILT_IN_SCALAR = 5
    ORPHAN_SCHEMA_EXTENSION = 6
    ORPHAN_TYPE_EXTENSION = 7
    OTHER_KIND = 8
    SECOND_ROOT = 9
    OBJECT_INTERFACE = 10
    INTERFACE_INTERFACE = 11
    OBJECT_FIELD = 12
    INTERFACE_FIELD = 13
    ENUM_VALUE = 14
    UNION_MEMBER = 15
    INPUT_FIELD = 16


ERRORS = [number for name, number in vars(Error).items() if name.isupper()]


def tallies_of(counts):
    """A drawing's tallies and their total, from how often each number comes that does."""
    return [counts.get(number, 0) for number in ERRORS] + [sum(counts.values())]
