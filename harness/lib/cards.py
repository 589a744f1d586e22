"""Cards and their words. Which words a card has is said once, in tools/cards; a word that is added there is carried along here as it is."""
import struct

from loader import cards_tool

Card = cards_tool.Card
CARD = len(Card._fields)
# How many words of a card are written where cards are written by hand.
BY_HAND = 5


def in_cards(words):
    """The whole cards among words."""
    return [Card(*words[at:at + CARD]) for at in range(0, len(words) - len(words) % CARD, CARD)]


def words_of(cards):
    return [word for card in cards for word in card]


def cards_of(text):
    """The cards of a text, by tools/cards."""
    return cards_tool.cards(text)


def in_full(words):
    """The words of cards written by hand, with those that are not written. What is no whole card stays as it is, for refusal 1."""
    whole = len(words) - len(words) % BY_HAND
    return words_of(Card(*words[at:at + BY_HAND]) for at in range(0, whole, BY_HAND)) + list(words[whole:])


def in_words(data):
    """The words of a file, little-endian; bytes behind the last whole word are left out."""
    return list(struct.unpack(f'<{len(data) // 4}I', data[:len(data) - len(data) % 4]))


def in_bytes(words):
    return struct.pack(f'<{len(words)}I', *words)


def end_of(card):
    return card.item + card.length


def is_absent(card):
    """Whether the card has no name."""
    return card.name == 0 and card.size == 0


def moved(card, by):
    """The card of a text that stands so many bytes further on. An absent name has no place that could move."""
    return card._replace(item=card.item + by, name=card.name if is_absent(card) else card.name + by)
