"""A model of the type collection: refusals, store, drawing and lookups, after document 01 and its readings.

It is held against the oracle, and it says which refusals to expect, which the oracle can't."""
import sys

from lib import folders
from lib.cards import CARD, Card, end_of, in_cards, in_words, is_absent, moved, words_of
from lib.sizes import (
    ADOPT, CARDS, CARDS_USED, COUNTS, DOCUMENTS, ERRORS, ERRORS_LENT, HELD, IGNORE, NONE, ROW, ROWS_LENT, TEXT, TEXT_USED, WORDS, Error, Refusal,
    card_at, document_at, in_rows)

# The kinds of part of each heading, in their order; kinds of one place mix.
ORDER = {4: [[20], [26, 27, 28]], 5: [[20]], 6: [[21], [20], [22]], 7: [[21], [20], [22]], 8: [[20], [23]], 9: [[20], [24]], 10: [[20], [25]]}
ORDER.update({kind + 7: order for kind, order in list(ORDER.items())})
DEFAULT_ROOTS = {26: b'Query', 27: b'Mutation', 28: b'Subscription'}
# The error of a second part of one name, by the type's kind and the part's.
CLASH = {(6, 21): Error.OBJECT_INTERFACE, (7, 21): Error.INTERFACE_INTERFACE, (6, 22): Error.OBJECT_FIELD, (7, 22): Error.INTERFACE_FIELD,
         (9, 24): Error.ENUM_VALUE, (8, 23): Error.UNION_MEMBER, (10, 25): Error.INPUT_FIELD}
BARRED = {1, 2, 4} | set(range(11, 18))


# Cards and their refusals

def is_name(name):
    letters = b'ABCDEFGHIJKLMNOPQRSTUVWXYZabcdefghijklmnopqrstuvwxyz_'
    return len(name) > 0 and name[0] in letters and all(byte in letters + b'0123456789' for byte in name)


def place_of(heading, kind):
    """The place of a part's kind under a heading's, or None where it has none."""
    for place, kinds in enumerate(ORDER.get(heading, [])):
        if kind in kinds:
            return place
    return None


def name_in(text, card):
    return bytes(text[card.name:card.name + card.size])


def name_fault(text, card):
    """4, 27 or 28, the first in this order that holds for the card's name, or None. Of an absent name only 27 is asked."""
    if is_absent(card):
        return None if card.kind in (1, 4, 11) else Refusal.CARD_NAME_PRESENCE
    if card.name < card.item or card.name + card.size > end_of(card):
        return Refusal.CARD_NAME
    if card.kind in (21, 23) and (card.name, card.size) != (card.item, card.length):
        return Refusal.CARD_NAME
    if card.kind in (4, 11):
        return Refusal.CARD_NAME_PRESENCE
    return None if is_name(name_in(text, card)) else Refusal.CARD_NAME_BYTES


def card_fault(text, cards):
    """The first faulty card with the first of 2, 3, 4, 27, 28, 5 that holds for it: (number, card), or None."""
    heading, last_heading, last_part = None, 0, None
    for number, card in enumerate(cards):
        if not (1 <= card.kind <= 17 or 20 <= card.kind <= 28):
            return Refusal.CARD_KIND, number
        is_part = card.kind >= 20
        faulty = card.length == 0 or end_of(card) > len(text)
        if is_part and heading:
            faulty = faulty or card.item < heading.item or end_of(card) > end_of(heading)
            faulty = faulty or (last_part is not None and card.item < end_of(last_part))
        if not is_part:
            faulty = faulty or card.item < last_heading
        if faulty:
            return Refusal.CARD_SPAN, number
        named = name_fault(text, card)
        if named:
            return named, number
        if is_part:
            place = place_of(heading.kind, card.kind) if heading else None
            if place is None or (last_part and place < place_of(heading.kind, last_part.kind)):
                return Refusal.CARD_ORDER, number
            last_part = card
        else:
            heading, last_heading, last_part = card, end_of(card), None
    return None


def built_in_fault(text, cards):
    """Refusal 6: the first heading of a barred kind, or if none, the first error's card; or None."""
    for number, card in enumerate(cards):
        if card.kind in BARRED:
            return number
    drawn = draw([(text, cards, 0)], 0)
    return drawn['errors'][0][1] if drawn['errors'] else None


def lent_fault(text, words, is_built_in):
    """1 to 6 for lent cards: (number, card), or None."""
    if len(words) % CARD:
        return Refusal.CARDS_BROKEN, 0
    cards = in_cards(words)
    fault = card_fault(text, cards)
    if fault or not is_built_in:
        return fault
    card = built_in_fault(text, cards)
    return None if card is None else (Refusal.NOT_BUILT_IN, card)


# The merge

class Heading:
    def __init__(self, number, card, name, document, ignore):
        self.number, self.kind, self.name = number, card.kind, name
        self.document, self.ignore, self.parts = document, ignore, []


class Type:
    """A type of the catalogue: its row, and its lists of (part's card number, origin, name) by kind."""

    def __init__(self, kind, number, origin, is_built_in):
        self.kind, self.number, self.origin, self.is_built_in = kind, number, origin, is_built_in
        self.lists = {part: [] for places in ORDER[kind] for part in places}

    def add(self, heading, origin, errors):
        # Interfaces are judged before fields, as they stand before them.
        for number, kind, name in heading.parts:
            earlier = [part for part in self.lists[kind] if part[2] == name]
            if kind != 20 and earlier:
                errors.append((CLASH[self.kind, kind], number, earlier[0][0]))
            else:
                self.lists[kind].append((number, origin, name))


def headings_of(documents):
    number = 0
    headings = []
    for index, (text, cards, ignore) in enumerate(documents):
        for card in cards:
            name = name_in(text, card)
            if card.kind <= 17:
                headings.append(Heading(number, card, name, index, ignore))
            else:
                headings[-1].parts.append((number, card.kind, name))
            number += 1
    return headings


class Drawing:
    def __init__(self, documents, adopt):
        self.adopt = adopt
        self.errors = []
        self.types, self.orphans, self.directives = {}, {}, {}
        self.schema, self.schema_extensions = None, []
        self.uses, self.roots = [], {}
        for heading in headings_of(documents):
            self.read(heading)
        self.reading = len(self.errors)
        self.close()

    def read(self, heading):
        kind = heading.kind
        if kind in (1, 2):
            self.errors.append((Error.EXECUTABLE, heading.number, NONE))
        elif kind == 3:
            self.read_directive(heading)
        elif kind == 4:
            self.read_schema(heading)
        elif kind == 11:
            if self.schema is None:
                self.schema_extensions.append(heading)
            else:
                self.extend_schema(heading, heading.number)
        elif kind <= 10:
            self.read_type(heading)
        else:
            self.read_extension(heading)

    def read_directive(self, heading):
        standing = self.directives.get(heading.name)
        if standing is None or standing[1]:
            # A dict keeps the place of a key that is set again.
            self.directives[heading.name] = (heading.number, heading.document == 0)
        else:
            self.errors.append((Error.SECOND_DIRECTIVE, heading.number, standing[0]))

    def read_schema(self, heading):
        if self.schema is not None:
            self.errors.append((Error.SECOND_SCHEMA, heading.number, self.schema))
            return
        self.schema = heading.number
        self.extend_schema(heading, NONE)
        for extension in self.schema_extensions:
            self.extend_schema(extension, extension.number)

    def extend_schema(self, heading, origin):
        for number, kind, name in heading.parts:
            if kind == 20:
                self.uses.append((number, origin))
            elif kind in self.roots:
                self.errors.append((Error.SECOND_ROOT, number, self.roots[kind][0]))
            else:
                self.roots[kind] = (number, origin)

    def read_type(self, heading):
        first = self.types.get(heading.name)
        if first is None:
            added = Type(heading.kind, heading.number, NONE, heading.document == 0)
            self.types[heading.name] = added
            added.add(heading, NONE, self.errors)
            for early in self.orphans.pop(heading.name, []):
                if early.kind == heading.kind + 7:
                    added.add(early, early.number, self.errors)
        elif first.is_built_in and heading.ignore:
            pass
        elif first.is_built_in and heading.kind == 5:
            self.errors.append((Error.BUILT_IN_SCALAR, heading.number, NONE))
        else:
            self.errors.append((Error.SECOND_TYPE, heading.number, first.number))

    def read_extension(self, heading):
        extended = self.types.get(heading.name)
        if extended is None:
            self.orphans.setdefault(heading.name, []).append(heading)
        else:
            self.extend_type(extended, heading)

    def extend_type(self, extended, heading):
        if heading.kind == extended.kind + 7:
            extended.add(heading, heading.number, self.errors)
        else:
            self.errors.append((Error.OTHER_KIND, heading.number, extended.number))

    def close(self):
        for name, extensions in self.orphans.items():
            if not self.adopt:
                self.errors += [(Error.ORPHAN_TYPE_EXTENSION, heading.number, NONE) for heading in extensions]
                continue
            first = extensions[0]
            self.types[name] = Type(first.kind - 7, first.number, first.number, False)
            for heading in extensions:
                self.extend_type(self.types[name], heading)
        if self.schema is not None:
            return
        if not self.adopt and not self.set_default_roots():
            self.errors += [(Error.ORPHAN_SCHEMA_EXTENSION, heading.number, NONE) for heading in self.schema_extensions]
            return
        for heading in self.schema_extensions:
            self.extend_schema(heading, heading.number)
        if self.adopt and not self.roots:
            self.set_default_roots()

    def set_default_roots(self):
        for kind, name in DEFAULT_ROOTS.items():
            if name in self.types and self.types[name].kind == 6:
                self.roots[kind] = (NONE, NONE)
        return bool(self.roots)

    def rows(self):
        rows = [(4, NONE if self.schema is None else self.schema, NONE)]
        rows += [(20, number, origin) for number, origin in self.uses]
        rows += [(kind,) + self.roots[kind] for kind in (26, 27, 28) if kind in self.roots]
        rows += [(3, number, NONE) for number, _ in self.directives.values()]
        for each in self.types.values():
            rows.append((each.kind, each.number, each.origin))
            for places in ORDER[each.kind]:
                rows += [(kind, number, origin) for kind in places for number, origin, _ in each.lists[kind]]
        return rows


def draw(documents, adopt):
    """Documents are (text, cards, ignore switch when filed). Rows and errors are in order; the first so many errors arose while reading."""
    drawing = Drawing(documents, adopt)
    tallies = [sum(1 for error in drawing.errors if error[0] == number) for number in ERRORS]
    return {'rows': drawing.rows(), 'errors': drawing.errors, 'reading': drawing.reading, 'tallies': tallies}


# The store

class Store:
    """The two lent slices, text and words. Each entry returns its refusal's two numbers, or (0, 0), and behind them what it made."""

    def __init__(self, text=None, words=None):
        self.text = bytearray(TEXT) if text is None else text
        self.words = [0] * WORDS if words is None else words

    def card(self, number):
        return Card(*self.words[card_at(number):card_at(number + 1)])

    def name(self, number):
        """Empty for a number that no stored card has, as a faulty row's may be."""
        return name_in(self.text, self.card(number)) if number < self.words[CARDS_USED] else b''

    def row(self, index):
        return self.words[document_at(index):document_at(index + 1)]

    def document(self, index):
        """Its text, its cards with spans moved back to its own text, and its ignore switch."""
        offset, length, count, ignore = self.row(index)
        first = sum(self.row(earlier)[2] for earlier in range(index))
        cards = [moved(self.card(number), -offset) for number in range(first, first + count)]
        return bytes(self.text[offset:offset + length]), cards, ignore

    def documents(self):
        return [self.document(index) for index in range(self.words[HELD])]

    # 21 and 22

    def is_short(self):
        return len(self.text) < TEXT or len(self.words) < WORDS

    def refusal(self):
        if self.is_short():
            return Refusal.STORE_SHORT
        return Refusal.STORE_DAMAGED if self.is_damaged() else 0

    def is_damaged(self):
        documents, adopt, ignore, text_used, cards_used = self.words[:COUNTS]
        if not 1 <= documents <= DOCUMENTS or adopt > 1 or ignore > 1 or text_used > TEXT or cards_used > CARDS:
            return True
        text_end, cards, flag = 0, 0, 0
        for index in range(documents):
            offset, length, count, filed = self.row(index)
            if offset != text_end or not flag <= filed <= ignore or (index == 0 and filed != 0):
                return True
            text_end, cards, flag = text_end + length, cards + count, filed
        if text_end != text_used or cards != cards_used:
            return True
        # Absent names are stored unmoved, so a length of 0 has the offset 0.
        if any(card.size == 0 and card.name != 0 for card in map(self.card, range(cards_used))):
            return True
        for index, (text, cards, _) in enumerate(self.documents()):
            if card_fault(text, cards) or (index == 0 and built_in_fault(text, cards) is not None):
                return True
        return False

    # Opening, filing, turning on

    def open(self, text, words):
        if self.is_short():
            return Refusal.STORE_SHORT, 0
        fault = lent_fault(text, words, True)
        if fault:
            return fault
        if len(text) > TEXT:
            return Refusal.TEXT_FULL, 0
        if len(words) > CARD * CARDS:
            return Refusal.CARDS_FULL, 0
        self.words[:COUNTS] = [0] * COUNTS
        self.append(text, words)
        return 0, 0

    def file(self, text, words):
        refusal = self.refusal()
        if refusal:
            return refusal, 0
        fault = lent_fault(text, words, False)
        if fault:
            return fault
        if self.words[HELD] == DOCUMENTS:
            return Refusal.DOCUMENTS_FULL, 0
        if self.words[TEXT_USED] + len(text) > TEXT:
            return Refusal.TEXT_FULL, 0
        if self.words[CARDS_USED] + len(words) // CARD > CARDS:
            return Refusal.CARDS_FULL, 0
        self.append(text, words)
        return 0, 0

    def append(self, text, words):
        documents, _, ignore, offset, first = self.words[:COUNTS]
        cards = [moved(card, offset) for card in in_cards(words)]
        self.words[document_at(documents):document_at(documents + 1)] = [offset, len(text), len(cards), ignore]
        self.words[card_at(first):card_at(first + len(cards))] = words_of(cards)
        self.text[offset:offset + len(text)] = text
        self.words[HELD], self.words[TEXT_USED], self.words[CARDS_USED] = documents + 1, offset + len(text), first + len(cards)

    def turn_on(self, switch):
        """The switch is ADOPT or IGNORE."""
        refusal = self.refusal()
        if refusal == 0:
            self.words[switch] = 1
        return refusal, 0

    # Drawing

    def draw(self, rows=ROWS_LENT, errors=ERRORS_LENT):
        """The lengths are those of the slices lent to be written."""
        refusal = self.refusal()
        if refusal:
            return refusal, 0, None
        if rows < ROWS_LENT or errors < ERRORS_LENT:
            return Refusal.SLICE_SHORT, 0, None
        return 0, 0, draw(self.documents(), self.words[ADOPT])

    # Lookups: `words` are the lent rows.

    def rows_refusal(self, words, lent=0, least=0):
        """21, 22, 26, then 7 where a slice to be written (GROUPS_LENT, ORIGINS_LENT words) is shorter than it must be, or 0."""
        return self.refusal() or (Refusal.ROWS_REFUSED if self.are_rows_faulty(words) else Refusal.SLICE_SHORT if lent < least else 0)

    def are_rows_faulty(self, words):
        if len(words) % ROW or not words:
            return True
        rows = in_rows(words)
        if not are_kinds_in_order([row[0] for row in rows]):
            return True
        cards = [card for _, card, _ in rows if card != NONE]
        if len(set(cards)) < len(cards):
            return True
        return any(self.is_row_faulty(row, rows) for row in rows)

    def is_row_faulty(self, row, rows):
        what, card, origin = row
        if origin != NONE and not (origin < self.words[CARDS_USED] and 11 <= self.card(origin).kind <= 17):
            return True
        if card == NONE:
            if what == 4:
                return False
            if what not in DEFAULT_ROOTS or origin != NONE:
                return True
            return self.first_type(rows, DEFAULT_ROOTS[what], 6) is None
        if card >= self.words[CARDS_USED]:
            return True
        is_adopted = 5 <= what <= 10 and origin != NONE
        return self.card(card).kind != what + (7 if is_adopted else 0)

    def first_type(self, rows, name, kind):
        """The first type row of a name, if it is of the kind."""
        for what, card, _ in rows:
            if 5 <= what <= 10 and self.name(card) == name:
                return card if what == kind else None
        return None

    def catalogue(self, words):
        """The schema's rows, and for each name its first type row with the rows under it."""
        schema, types, under = [], {}, None
        for row in in_rows(words):
            if 5 <= row[0] <= 10:
                under = []
                types.setdefault(self.name(row[1]), (row, under))
            elif under is not None:
                under.append(row)
            elif row[0] != 3:
                schema.append(row)
        return schema, types

    def root(self, words, kind):
        schema, _ = self.catalogue(words)
        for what, card, _ in schema:
            if what == kind:
                return DEFAULT_ROOTS[kind] if card == NONE else self.name(card)
        return b''

    def type_field(self, words, owner, field):
        _, types = self.catalogue(words)
        if owner not in types:
            return 'no type'
        (what, card, _), parts = types[owner]
        for kind, part, _ in parts:
            if kind == 22 and self.name(part) == field:
                return f'found {part}'
        if field == b'__typename' and what in (6, 7, 8):
            return 'meta 1'
        if self.root(words, 26) == owner and field in (b'__schema', b'__type'):
            return 'meta 2' if field == b'__schema' else 'meta 3'
        return f'no field {card}'

    def is_subtype(self, words, owner, other):
        _, types = self.catalogue(words)
        if owner not in types:
            return False
        (what, _, _), parts = types[owner]
        if what == 8:
            return any(kind == 23 and self.name(part) == other for kind, part, _ in parts)
        if what != 7 or other not in types:
            return False
        return any(kind == 21 and self.name(part) == owner for kind, part, _ in types[other][1])

    def origins(self, words):
        return [origin for _, _, origin in self.catalogue(words)[0][1:]]

    def extensions(self, words):
        return list(dict.fromkeys(origin for origin in self.origins(words) if origin != NONE))

    def implementers(self, words):
        """By the interface's name, in the order of the naming cards' rows: naming card, object count, interface count, the types' cards in the rows' order."""
        groups = {}
        for (what, card, _), parts in self.catalogue(words)[1].values():
            listed = {}
            for kind, part, _ in parts:
                if kind == 21:
                    listed.setdefault(self.name(part), part)
            for name, part in listed.items():
                group = groups.setdefault(name, [part, 0, 0])
                group[1 if what == 6 else 2] += 1
                group.append(card)
        return groups


def are_kinds_in_order(kinds):
    """Row 4, its 20s, each root at most once, directives, then types with the parts of their kinds."""
    if kinds[:1] != [4]:
        return False
    order, place = [[20], [26], [27], [28], [3]], 0
    single = {26, 27, 28}
    last = None
    for kind in kinds[1:]:
        if 5 <= kind <= 10:
            order, place = ORDER[kind], 0
        else:
            ahead = [at for at in range(place, len(order)) if kind in order[at]]
            if not ahead or (kind in single and kind == last):
                return False
            place = ahead[0]
        last = kind
    return True


# Case folders

class Stopped(Exception):
    """The run ends: what is printed."""


def filed(folder):
    """The store that the folder's documents leave. A refusal stops the run."""
    store, turns = Store(), folders.switch_turns(folder)
    for held, document in enumerate(folders.documents(folder) + [None]):
        for switch in (ADOPT, IGNORE):
            if turns.get(switch) == held:
                store.turn_on(switch)
        if document is not None:
            text, data = document
            if len(data) % 4:
                raise Stopped(f'refused {Refusal.CARDS_BROKEN} 0\n')
            refusal = store.file(text, in_words(data)) if held else store.open(text, in_words(data))
            if refusal != (0, 0):
                raise Stopped('refused %d %d\n' % refusal)
    return store


def drawn(folder):
    store = filed(folder)
    number, card, catalogue = store.draw()
    if number:
        raise Stopped(f'refused {number} {card}\n')
    return store, catalogue


def shown(row):
    return ' '.join('-' if word == NONE else str(word) for word in row)


def listed(catalogue):
    """What the listing program prints of a drawing."""
    rows, errors, reading = catalogue['rows'], catalogue['errors'], catalogue['reading']
    lines = [f'rows {len(rows)}'] + [shown(row) for row in rows]
    lines += [f'errors {reading} {len(errors) - reading}'] + [shown(error) for error in errors]
    return '\n'.join(lines) + '\n'


def listing(folder):
    try:
        return listed(drawn(folder)[1])
    except Stopped as stopped:
        return str(stopped)


def answer(store, words, line):
    question = line.split(b' ')
    if question[0] == b'field' and len(question) == 3:
        return store.type_field(words, question[1], question[2])
    if question[0] == b'subtype' and len(question) == 3:
        return 'yes' if store.is_subtype(words, question[1], question[2]) else 'no'
    if question[0] == b'root' and len(question) == 2:
        return store.root(words, int(question[1])).decode() or '-'
    if line in (b'origins', b'extensions'):
        listed = store.origins(words) if line == b'origins' else store.extensions(words)
        return shown([len(listed)] + listed)
    if line == b'implementers':
        groups = store.implementers(words)
        return ' : '.join([str(len(groups))] + [f'{name.decode()} {shown(group)}' for name, group in groups.items()])
    sys.exit(f'no question: {line!r}')


def answers(folder):
    try:
        store, catalogue = drawn(folder)
    except Stopped as stopped:
        return str(stopped)
    words = [word for row in catalogue['rows'] for word in row]
    refusal = store.rows_refusal(words)
    assert refusal == 0, 'drawn rows are accepted by every lookup'
    return ''.join(answer(store, words, line) + '\n' for line in folders.questions(folder))
