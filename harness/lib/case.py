"""A case of the replay program while it is made: calls with the answers that are expected of them.

Each call is written down and done by the model. An answer that is also known otherwise is held against the model's, and a difference stops the making:
what the group says by hand (`want`), the oracle's listings and lookups, and for 22 and 26 a second telling (told.py). What reading a text gives is told by
lib/reader, and where that accepts it tools/cards is the second telling."""
import os

from lib import model
from lib.cards import BY_HAND, cards_of, in_bytes, in_full, words_of
from lib.reader.reading import parsed
from lib.sizes import (
    ADOPT, CARDS_LENT, CARDS_USED, ERRORS_LENT, GROUPS_LENT, IGNORE, NONE, ORIGINS_LENT, ROWS_LENT, TEXT, TEXT_USED, WORDS, Refusal, card_at, in_rows,
    tallies_of)
from lib.told import are_rows_drawable, asked, can_be_left, field_words, is_answer, question_of, shown

# How long a file of a case may be, for the replay program to read it; a text may have one byte more.
MOST_FILE = 65536
# How many answers were decided by whom; one that several know counts for the first of hand, oracle, twice told, reader, model.
decided = {'hand': 0, 'oracle': 0, 'twice told': 0, 'reader': 0, 'model': 0}


def as_bytes(name):
    return name if isinstance(name, bytes) else name.encode()


class Wrong(Exception):
    """Two that know an answer differ."""


class Drawn:
    """What the lookups after a drawing can be asked of the oracle about."""

    def __init__(self, store, documents, adopt, rows):
        self.documents, self.adopt, self.rows = documents, adopt, rows
        self.cards = store.words[card_at(0):card_at(store.words[CARDS_USED])]
        self.text = bytes(store.text[:store.words[TEXT_USED]])
        self.questions = []

    def holds(self, store, rows):
        """Whether the rows lent are those drawn, over a store that still has its cards and text."""
        start = card_at(0)
        return rows == self.rows and store.words[start:start + len(self.cards)] == self.cards and store.text.startswith(self.text)


class Case:
    def __init__(self, title):
        self.title = title
        self.documents, self.lines, self.listings, self.drawings = [], [], [], []
        self.calls = 0
        self.store_lent = TEXT, WORDS
        self.held = model.Store()
        self.rows, self.rows_lent = [0] * ROWS_LENT, 0
        self.last = tallies_of({})
        self.kept = None
        self.turn = 0
        # The account of the run, as long as it is known from the calls alone: documents with their ignore switch, and both switches.
        self.account = None
        self.twice = None, None
        # The document that texts to be read are gathered in, and its bytes so far.
        self.read_from, self.read_bytes = None, bytearray()

    def doc(self, text, by_hand=None):
        """A document's number in the folder, with cards written by hand or, where there are none, those of the text."""
        text = as_bytes(text)
        return self.lent_doc(text, words_of(cards_of(text)) if by_hand is None else in_full(by_hand))

    def lent_doc(self, text, words):
        """The same with all words of the cards."""
        if (text, words) not in self.documents:
            self.documents.append((text, words))
        return self.documents.index((text, words))

    def note(self, line):
        self.lines.append(as_bytes(line))

    def call(self, line, got, want, title=None):
        """Writes a call down; `got` is the model's answer and `want` the hand's, each a tuple of words, or None."""
        self.calls += line != 'tallies'
        if want is not None and tuple(want) != tuple(got):
            raise Wrong(f'{self.title}: {line}: by hand {want}, by the model {got}')
        if title is None:
            title = 'hand' if want is not None else 'model'
        decided[title] += 1
        self.note(b' '.join([as_bytes(line), as_bytes(shown(got))]) if len(got) else line)

    # What is lent

    def store(self):
        """The store as it is lent."""
        text, words = self.store_lent
        if (text, words) == (TEXT, WORDS):
            return self.held
        return model.Store(self.held.text[:text], self.held.words[:words])

    def lend_store(self, text=TEXT, words=WORDS):
        self.store_lent = text, words
        self.note(f'store {text} {words}')

    def lend_rows(self, length):
        self.rows_lent = length
        self.note(f'rows {length}')

    def put(self, index, value):
        """The store's word becomes the value."""
        self.held.words[index] = value
        self.account = None
        self.note(f'word {index} {shown([value])}')

    def put_byte(self, index, value):
        self.held.text[index] = value
        self.account = None
        self.note(f'byte {index} {value}')

    def put_row(self, index, value):
        self.rows[index] = value
        self.note(f'row {index} {shown([value])}')

    def put_rows(self, rows):
        """Rows of three words, written with as few lines as they need, and lent."""
        words = [word for row in rows for word in row]
        for index, word in enumerate(words):
            if self.rows[index] != word:
                self.put_row(index, word)
        self.lend_rows(len(words))

    def keep(self):
        self.kept = bytes(self.held.text), list(self.held.words), copied(self.account)
        self.note('keep')

    def restore(self):
        text, words, account = self.kept
        self.held.text[:], self.held.words[:] = text, words
        self.account = copied(account)
        self.note('restore')

    # Reading

    def stretch(self, text):
        """A document that has the text somewhere, and where: texts to be read share documents."""
        if self.read_from is None or (text not in self.read_bytes and len(self.read_bytes) + len(text) > MOST_FILE + 1):
            self.documents.append(None)
            self.read_from, self.read_bytes = len(self.documents) - 1, bytearray()
        if text not in self.read_bytes:
            self.read_bytes += text
        self.documents[self.read_from] = bytes(self.read_bytes), []
        start = self.read_bytes.index(text)
        return self.read_from, start, start + len(text)

    def parse(self, text, want=None, cards=None, lent=CARDS_LENT):
        """Reads a text into a slice; `want` is the answer by hand, `cards` the words by hand, five a card. Returns the cards' words."""
        text = as_bytes(text)
        number, second, told = parsed(text, lent)
        words = words_of(told)
        if number == 0 and told != cards_of(text):
            raise Wrong(f'{self.title}: {text!r}: tools/cards has other cards')
        if want is not None and tuple(want) != (number, second):
            raise Wrong(f'{self.title}: {text!r}: by hand {want}, by the reader {(number, second)}')
        if cards is not None and cards != [word for card in told for word in card[:BY_HAND]]:
            raise Wrong(f'{self.title}: {text!r}: by hand {cards}, by the reader {words}')
        document, start, end = self.stretch(text)
        title = 'hand' if want is not None else 'reader' if number else 'twice told'
        self.call(f'parse {document} {start} {end} {lent}', [number, second] + words, None, title)
        return words

    # Opening, filing, turning on

    def open(self, document, want=(0, 0)):
        text, words = self.documents[document]
        got = self.store().open(text, words)
        self.call(f'open {document}', got, want)
        if got == (0, 0):
            self.account = [(text, words, 0)], [0, 0]
        return got

    def add(self, document, want=(0, 0)):
        text, words = self.documents[document]
        self.check_store()
        got = self.store().file(text, words)
        self.call(f'add_ast {document}', got, want)
        if got == (0, 0) and self.account:
            self.account[0].append((text, words, self.account[1][1]))
        return got

    def turn_on(self, switch, want):
        self.check_store()
        got = self.store().turn_on(switch)
        self.call({ADOPT: 'adopt_orphan_extensions', IGNORE: 'ignore_builtin_redefinitions'}[switch], got, want)
        if got == (0, 0) and self.account:
            self.account[1][switch - ADOPT] = 1

    def adopt(self, want=(0, 0)):
        self.turn_on(ADOPT, want)

    def ignore(self, want=(0, 0)):
        self.turn_on(IGNORE, want)

    def file(self, *texts, switches='00'):
        """Opens with the first text, turns the switches on and files the others."""
        self.open(self.doc(texts[0]))
        if switches[0] == '1':
            self.adopt()
        if switches[1] == '1':
            self.ignore()
        for text in texts[1:]:
            self.add(self.doc(text))

    # Drawing

    def build(self, rows=ROWS_LENT, errors=ERRORS_LENT, want=0, listing=None):
        """Draws; `want` is the refusal's number (None: the model's), `listing` the listing by hand."""
        self.check_store()
        number, _, catalogue = self.store().draw(rows, errors)
        if want is not None and want != number:
            raise Wrong(f'{self.title}: build: by hand {want}, by the model {number}')
        if number:
            self.last = tallies_of({})
            self.call(f'build {rows} {errors} {number} 0', (), None, 'model' if want is None else 'hand')
            return None
        told = model.listed(catalogue)
        documents, adopt = self.documents_held()
        by_oracle = asked('list', documents, adopt)
        if told != by_oracle or (listing is not None and listing != told):
            raise Wrong(f'{self.title}: build: model\n{told}oracle\n{by_oracle}hand\n{listing}')
        if told not in self.listings:
            self.listings.append(told)
        self.call(f'build {rows} {errors} 0 {self.listings.index(told)}', (), None, 'oracle' if listing is None else 'hand')
        words = [word for row in catalogue['rows'] for word in row]
        self.rows[:len(words)] = words
        self.rows_lent = len(words)
        self.last = catalogue['tallies'] + [len(catalogue['errors'])]
        self.drawings.append(Drawn(self.held, documents, adopt, words))
        return catalogue

    def documents_held(self):
        """By the account of the calls, or of a store that was changed by hand as the model decodes it."""
        decoded = [(text, words_of(cards), ignore) for text, cards, ignore in self.held.documents()]
        if self.account is None:
            return decoded, self.held.words[ADOPT]
        if decoded != self.account[0] or self.held.words[ADOPT:IGNORE + 1] != self.account[1]:
            raise Wrong(f'{self.title}: the store and the account differ')
        return list(self.account[0]), self.account[1][0]

    def tallies(self, want=None):
        self.call('tallies', self.last, want, None if want else 'oracle')

    # Lookups

    def lent_rows(self):
        return self.rows[:self.rows_lent]

    def rows_refusal(self, lent=0, least=0):
        store, rows = self.store(), self.lent_rows()
        self.check_store()
        number = store.rows_refusal(rows, lent, least)
        is_told = number in (0, Refusal.SLICE_SHORT, Refusal.ROWS_REFUSED) and len(rows) < 600
        if is_told and are_rows_drawable(store, rows) != (number != Refusal.ROWS_REFUSED):
            raise Wrong(f'{self.title}: 26 is told in two ways, rows {rows}')
        return number

    def look_up(self, line, got, want, question):
        """A lookup with its question to the oracle, which is asked if the rows are those of a drawing."""
        title = None
        drawn = [drawing for drawing in self.drawings if question is not None and drawing.holds(self.held, self.lent_rows())]
        if drawn:
            drawn[-1].questions.append((question, got, line))
            title = 'oracle' if want is None else 'hand'
        if want is None and title is None and (line == 'check_rows' or (len(got) and got[0] in (Refusal.STORE_DAMAGED, Refusal.ROWS_REFUSED))):
            title = 'twice told'
        self.call(line, got, want, title)

    def check_rows(self, want=None):
        number = self.rows_refusal()
        self.look_up('check_rows', (number, 0), None if want is None else (want, 0), None)

    def root(self, operation, want=None):
        refused = self.rows_refusal()
        name = b'' if refused else self.store().root(self.lent_rows(), 26 + operation)
        if want is not None and as_bytes(want) != name:
            raise Wrong(f'{self.title}: root {operation}: by hand {want}, by the model {name}')
        question = None if refused else f'root {26 + operation}'
        self.look_up(b'root_operation %d %s' % (operation, name or b'-'), (), () if want is not None else None, question)

    def roots(self, *wants):
        for operation in range(3):
            self.root(operation, wants[operation] if wants else None)

    def field(self, owner, field, want=None):
        owner, field = as_bytes(owner), as_bytes(field)
        refused = self.rows_refusal()
        told = None if refused else self.store().type_field(self.lent_rows(), owner, field)
        got = (refused, 0, NONE, NONE) if refused else field_words(told)
        question = None if refused else question_of('field', owner, field)
        self.look_up(b'type_field %s %s' % (owner, field), got, want, question)

    def subtype(self, general, other, want=None):
        general, other = as_bytes(general), as_bytes(other)
        refused = self.rows_refusal()
        got = (refused, 0) if refused else (0, int(self.store().is_subtype(self.lent_rows(), general, other)))
        question = None if refused else question_of('subtype', general, other)
        self.look_up(b'is_subtype %s %s' % (general, other), got, want, question)

    def fill(self, entry, question, lent, least, want, words):
        number = self.rows_refusal(lent, least)
        listed, count = ([], 0) if number else words()
        self.look_up(f'{entry} {lent}', [number, count] + listed, want, None if number else question)

    def origins(self, lent=ORIGINS_LENT, want=None):
        self.fill('iter_origins', 'origins', lent, ORIGINS_LENT, want, lambda: counted(self.store().origins(self.lent_rows())))

    def extensions(self, lent=ORIGINS_LENT, want=None):
        self.fill('extensions', 'extensions', lent, ORIGINS_LENT, want, lambda: counted(self.store().extensions(self.lent_rows())))

    def implementers(self, lent=GROUPS_LENT, want=None):
        def words():
            groups = self.store().implementers(self.lent_rows())
            return [word for group in groups.values() for word in group], len(groups)
        self.fill('implementers_map', 'implementers', lent, GROUPS_LENT, want, words)

    def lists(self):
        self.origins()
        self.extensions()
        self.implementers()

    def look(self, most=40):
        """Each lookup over the rows lent: all roots and lists, then fields and subtypes, of names that are there and some that are not."""
        self.check_rows()
        self.roots()
        self.lists()
        store, rows = self.store(), in_rows(self.lent_rows())
        types = list(dict.fromkeys(store.name(card) for what, card, _ in rows if 5 <= what <= 10))
        fields, pairs, owner = [], [], None
        for what, card, _ in rows:
            if 5 <= what <= 10:
                owner = store.name(card)
                fields += [(owner, field) for field in (b'__typename', b'__schema', b'__type', b'absent')]
            elif what in (22, 24, 25):
                fields.append((owner, store.name(card)))
            elif what == 21:
                pairs += [(store.name(card), owner), (owner, store.name(card))]
            elif what == 23:
                pairs += [(owner, store.name(card)), (store.name(card), owner)]
        pairs += [(name, name) for name in types] + [(general, other) for general in types for other in types]
        fields.append((b'Absent', b'__typename'))
        pairs += [(b'Absent', b'Absent')]
        for owner, field in spread(list(dict.fromkeys(fields)), most):
            self.field(owner, field)
        for general, other in spread(list(dict.fromkeys(pairs)), most):
            self.subtype(general, other)

    # One refusal in many entries

    def entries(self, number, document=0):
        """Every entry that can answer a refusal for what the store or the rows are, with slices as long as asked: 21 and 22 in all, 26 in lookups."""
        pair, lookup = (number, 0), (number, 0, NONE, NONE)
        writing = [] if number == Refusal.ROWS_REFUSED else [
            lambda: self.add(document, pair), lambda: self.adopt(pair), lambda: self.ignore(pair), lambda: self.build(want=number)]
        reading = [lambda: self.check_rows(number), lambda: self.root(0, ''), lambda: self.root(1, ''), lambda: self.root(2, ''),
                   lambda: self.field('A', 'n', lookup), lambda: self.subtype('A', 'B', pair), lambda: self.origins(want=pair),
                   lambda: self.extensions(want=pair), lambda: self.implementers(want=pair)]
        return writing + reading

    def all_refuse(self, number, document=0):
        for entry in self.entries(number, document):
            entry()

    def one_refuses(self, number, document=0):
        """The next entry in turn."""
        entries = self.entries(number, document)
        entries[self.turn % len(entries)]()
        self.turn += 1

    def look_up_one(self):
        """The next lookup in turn, with the answer that the model gives."""
        lookups = [self.check_rows, lambda: self.root(self.turn % 3), lambda: self.field('Query', 'n'), lambda: self.subtype('I', 'Query'), self.origins,
                   self.extensions, self.implementers]
        lookups[self.turn % len(lookups)]()
        self.turn += 1

    # Held against others

    def check_store(self):
        """A store that was changed by hand: 22 told in another way."""
        if self.account is not None:
            return
        now = bytes(self.held.text), tuple(self.held.words)
        if self.twice[0] != now:
            self.twice = now, can_be_left(self.held)
        if (self.held.refusal() == 0) != self.twice[1]:
            raise Wrong(f'{self.title}: 22 is told in two ways')

    def check_answers(self):
        for drawing in self.drawings:
            if drawing.questions:
                lines = asked('ask', drawing.documents, drawing.adopt, [question for question, _, _ in drawing.questions]).split('\n')
                for line, (question, got, call) in zip(lines, drawing.questions):
                    if not is_answer(line, question, got, call):
                        raise Wrong(f'{self.title}: {call}: by the oracle {line}, by the model {got}')

    def write(self, folder):
        self.check_answers()
        os.makedirs(folder)
        files = {'calls': b''.join(line + b'\n' for line in [as_bytes(f'# {self.title}')] + self.lines)}
        for number, (text, words) in enumerate(self.documents):
            files[f'd{number}.txt'] = text
            files[f'd{number}.crd'] = in_bytes(words)
        for number, listing in enumerate(self.listings):
            files[f'listing{number}'] = listing.encode()
        for name, data in files.items():
            if len(data) > MOST_FILE + (name.endswith('.txt')):
                raise Wrong(f'{self.title}: {name} is too long')
            with open(os.path.join(folder, name), 'wb') as target:
                target.write(data)
        return sum(map(len, files.values()))


def copied(account):
    return None if account is None else (list(account[0]), list(account[1]))


def spread(items, most):
    """At most so many of the items, taken evenly."""
    if len(items) <= most:
        return items
    return [items[number * len(items) // most] for number in range(most)]


def counted(words):
    return words, len(words)
