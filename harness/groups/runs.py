"""Runs: many calls on one store, several drawings, refused calls and openings between. Some by hand, then random ones from the seed."""
from groups.collections import SEED
from groups.examples import INT, TABLE, listed
from lib import generator
from lib.cards import words_of
from lib.sizes import (
    ADOPT, CARDS, CARDS_USED, COUNTS, DOCUMENTS, ERRORS_LENT, HELD, IGNORE, NONE, ROWS_LENT, TEXT, WORDS, card_at, document_at, tallies_of)

PLAIN = listed('4 - -, 5 0 -, 6 1 -, 22 2 -')


def refused_between(case, *documents):
    """Calls that are refused, whatever is held: they leave everything."""
    for document, want in documents:
        case.add(document, want)
    case.open(case.doc('scalar A scalar A'), (6, 1))
    case.build(ROWS_LENT - 1, ERRORS_LENT, 7)
    case.lend_store(TEXT, WORDS - 1)
    case.adopt((21, 0))
    case.ignore((21, 0))
    case.build(want=21)
    case.lend_store()


def by_hand(new):
    case = new('a drawing after each call, refused calls between')
    faulty = [(case.doc('A', [5, 0, 1, 0]), (1, 0)), (case.doc('A', [0, 0, 1, 0, 1]), (2, 0)), (case.doc('A', [5, 0, 2, 0, 1]), (3, 0)),
              (case.doc('A', [5, 0, 1, 0, 0]), (27, 0)),
              (case.doc('A', [22, 0, 1, 0, 1]), (5, 0))]
    case.open(case.doc(INT))
    case.build(listing=listed('4 - -, 5 0 -'))
    refused_between(case, *faulty)
    case.build(listing=listed('4 - -, 5 0 -'))
    case.add(case.doc(TABLE[0][1][1]))
    refused_between(case, *faulty)
    case.build(listing=TABLE[0][2]['00'])
    case.tallies(tallies_of({12: 1}))
    refused_between(case, *faulty)
    case.adopt()
    case.build(listing=TABLE[0][2]['00'])
    case.look(8)
    case = new('opening again starts anew, with both switches 0')
    case.file(INT, 'extend type A{n:Int}scalar Int', switches='11')
    case.build(listing=listed('4 - -, 5 0 -, 6 1 1, 22 2 1'))
    case.file(INT, 'extend type A{n:Int}scalar Int')
    case.build(listing=listed('4 - -, 5 0 -', '1 1', '5 3 -, 7 1 -'))
    case.open(case.doc(''))
    case.build(listing=listed('4 - -'))
    case.add(case.doc('type Query'))
    case.build(listing=listed('4 - -, 26 - -, 6 0 -'))
    case = new('a refused opening inside a run')
    case.file(INT, 'type A{n:Int}')
    for text, words, want in (('A', [5], (1, 0)), ('A', [29, 0, 1, 0, 1], (2, 0)), ('A', [5, 0, 0, 0, 1], (3, 0)), ('A', [5, 0, 1, 1, 1], (4, 0)),
                              ('A', [20, 0, 1, 0, 1], (5, 0)),
                              ('A', [12, 0, 1, 0, 1], (6, 0))):
        case.open(case.doc(text, words), want)
        case.build(listing=PLAIN)
    case.lend_store(TEXT - 1)
    case.open(0, (21, 0))
    case.lend_store()
    case.build(listing=PLAIN)
    case = new('a smaller store over a larger one: what is left over does not matter')
    case.file(INT, 'type A{a:Int b:Int c:Int}enum E{v w}', 'schema{query:A}', 'scalar Int')
    case.build()
    case.open(case.doc('scalar S'))
    case.build(listing=listed('4 - -, 5 0 -'))
    case.tallies(tallies_of({}))
    case.field('A', 'a', (0, 2, NONE, NONE))
    case.add(case.doc('type A{a:Int}'))
    case.build(listing=PLAIN)
    case.lend_rows(15)
    case.check_rows(26)
    case.lend_rows(12)
    case.field('A', 'a', (0, 1, 0, 2))
    case = new('one document filed many times')
    case.open(case.doc(INT))
    document = case.doc('type A{n:Int}extend type A{m:Int}directive@d on FIELD extend schema@d')
    for _ in range(12):
        case.add(document)
    case.build()
    case.tallies()
    case.adopt()
    case.build()
    case.look(12)


def growth(new):
    """What holds between two drawings, and what does not."""
    case = new('places of defined types and their lists stay while documents join')
    case.open(case.doc('scalar Int enum E{v}'))
    for text in ('type A{a:Int}extend type B{x:Int}', 'extend type A implements I{b:Int}', 'interface I{a:Int}', 'type B{y:Int x:Int}',
                 'extend enum E{w}extend type A{a:Int}',
                 'union U=A|B extend interface I implements J', 'extend type B implements I@d{z:Int}', 'extend union U=C'):
        case.add(case.doc(text))
        case.build()
        case.look(8)
    case = new('an adopted type whose definition comes moves')
    case.file(INT, 'extend type A{a:Int}', 'type C', switches='10')
    case.build(listing=listed('4 - -, 5 0 -, 6 3 -, 6 1 1, 22 2 1'))
    case.field('A', 'a', (0, 1, 0, 2))
    case.add(case.doc('type A{a:Int}'))
    case.build(listing=listed('4 - -, 5 0 -, 6 3 -, 6 4 -, 22 5 -', '1 0', '12 2 5'))
    case.field('A', 'a', (0, 1, 0, 5))
    case = new('a subtype by adopting is lost when another kind is defined')
    case.file(INT, 'interface I extend type A implements I', switches='10')
    case.build()
    case.subtype('I', 'A', (0, 1))
    case.add(case.doc('union A=B'))
    case.build()
    case.subtype('I', 'A', (0, 0))
    case = new('meta fields vanish when a schema definition comes')
    case.file(INT, 'type Query{a:Int}type B')
    case.build()
    case.field('Query', '__schema', (0, 1, 2, NONE))
    case.roots('Query', '', '')
    case.add(case.doc('schema{query:B}'))
    case.build()
    case.field('Query', '__schema', (0, 3, NONE, 1))
    case.field('B', '__schema', (0, 1, 2, NONE))
    case.roots('B', '', '')
    case = new('drawing errors come and go, reading errors stay')
    case.file(INT, 'extend type A{a:Int}extend schema@d', 'scalar Int')
    case.build(listing=listed('4 - -, 5 0 -', '1 2', '5 5 -, 7 1 -, 6 3 -'))
    case.add(case.doc('type Query'))
    case.build(listing=listed('4 - -, 20 4 3, 26 - -, 5 0 -, 6 6 -', '1 1', '5 5 -, 7 1 -'))
    case.adopt()
    case.build(listing=listed('4 - -, 20 4 3, 26 - -, 5 0 -, 6 6 -, 6 1 1, 22 2 1', '1 0', '5 5 -'))
    case.add(case.doc('type A{a:Int}'))
    case.build(listing=listed('4 - -, 20 4 3, 26 - -, 5 0 -, 6 6 -, 6 7 -, 22 8 -', '2 0', '5 5 -, 12 2 8'))


def damage_between(new):
    case = new('damage in the middle of a run, then back')
    case.file(INT, 'type A{n:Int}')
    case.build(listing=PLAIN)
    case.keep()
    for at, value in ((HELD, 0), (CARDS_USED, 2), (card_at(1), 99), (document_at(0), 1), (ADOPT, 7)):
        case.put(at, value)
        case.all_refuse(22)
        case.restore()
        case.build(listing=PLAIN)
        case.adopt()
        case.ignore()
        case.field('A', 'n', (0, 1, 0, 2))
        case.restore()
    case = new('opening a damaged store')
    case.file(INT, 'type A{n:Int}')
    for at in range(COUNTS):
        case.put(at, NONE)
    case.lend_rows(0)
    case.all_refuse(22)
    case.open(0)
    case.add(1)
    case.build(listing=PLAIN)
    case = new('going back to what was kept, and on another way')
    case.file(INT, 'extend type A{n:Int}')
    case.keep()
    case.add(case.doc('type A{m:Int}'))
    case.build(listing=listed('4 - -, 5 0 -, 6 3 -, 22 4 -, 22 2 1'))
    case.restore()
    case.build(listing=listed('4 - -, 5 0 -', '0 1', '7 1 -'))
    case.add(case.doc('union A=B'))
    case.build(listing=listed('4 - -, 5 0 -, 8 3 -, 23 4 -'))
    case.restore()
    case.adopt()
    case.build(listing=listed('4 - -, 5 0 -, 6 1 1, 22 2 1'))


# Random runs

class Run:
    """Calls drawn at random over the documents of a random collection, some of them spoilt."""

    def __init__(self, case, draws):
        self.case, self.draws = case, draws
        collection = generator.Collection(draws, False)
        collection.fill()
        writers = collection.documents
        self.documents = [case.lent_doc(bytes(writer.text), words_of(writer.cards)) for writer in writers]
        for writer in writers[:3]:
            words = words_of(writer.cards)
            if words:
                words[draws.below(len(words))] = draws.pick([0, 1, 4, 19, 22, TEXT, NONE])
                self.documents.append(case.lent_doc(bytes(writer.text), words))
        self.questions = [line.split(' ') for line in collection.questions()]

    def name(self):
        names = [word for question in self.questions for word in question[1:] if question[0] in ('field', 'subtype')]
        return self.draws.pick(names)

    def start(self):
        self.case.lend_rows(0)
        self.case.one_refuses(22, self.documents[0])
        self.case.open(self.documents[0], None)

    def step(self):
        draws, case = self.draws, self.case
        shape = draws.below(24)
        if shape < 7:
            case.add(draws.pick(self.documents), None)
        elif shape == 7:
            case.turn_on(draws.between(ADOPT, IGNORE), None)
        elif shape == 8:
            case.open(draws.pick(self.documents), None)
        elif shape < 14:
            if case.build(want=None):
                case.tallies()
        elif shape == 14:
            kept = case.rows_lent
            case.build(draws.pick([ROWS_LENT - 1, ROWS_LENT, 0]), draws.pick([ERRORS_LENT - 1, 0]), None)
            case.lend_rows(kept)
        elif shape == 15:
            case.lend_store(*draws.pick([(TEXT - 1, WORDS), (TEXT, WORDS - 1)]))
            case.one_refuses(21, self.documents[0])
            case.lend_store()
        elif shape == 16:
            self.damage_store()
        elif shape == 17:
            self.damage_rows()
        else:
            self.look_up()

    def look_up(self):
        case, draws = self.case, self.draws
        draws.pick([case.check_rows, case.roots, case.lists, lambda: case.field(self.name(), self.name()), lambda: case.subtype(self.name(), self.name()),
                    self.ask, self.ask, self.ask])()

    def ask(self):
        question = self.draws.pick([question for question in self.questions if question[0] in ('field', 'subtype')])
        (self.case.field if question[0] == 'field' else self.case.subtype)(*question[1:])

    def damage_store(self):
        case, draws = self.case, self.draws
        documents, cards = min(case.held.words[HELD], DOCUMENTS), min(case.held.words[CARDS_USED], CARDS)
        at = draws.pick(list(range(document_at(documents))) + list(range(card_at(0), card_at(cards))))
        case.keep()
        case.put(at, draws.pick([0, 1, 2, case.held.words[at] + 1, max(case.held.words[at] - 1, 0), 20, TEXT, NONE]))
        if case.held.refusal():
            case.one_refuses(22, self.documents[0])
        else:
            case.build(want=None)
        case.restore()

    def damage_rows(self):
        case, draws = self.case, self.draws
        if not case.rows_lent:
            return case.look_up_one()
        at = draws.below(case.rows_lent)
        own = case.rows[at]
        case.put_row(at, draws.pick([0, 3, 4, 5, 6, 20, 22, 26, NONE, (own + 1) % 2 ** 32, max(own - 1, 0)]))
        case.look_up_one()
        case.look_up_one()
        case.put_row(at, own)


def make(new):
    by_hand(new)
    growth(new)
    damage_between(new)
    for number in range(24):
        draws = generator.Draws(SEED, 1000 + number)
        case = new(f'random run {number} (seed {SEED})')
        run = Run(case, draws)
        run.start()
        for _ in range(50):
            run.step()
        case.build(want=None)
