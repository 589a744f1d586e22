"""Does what the replay program does, with the model in place of the library: reads the case folders as they are written and compares each answer."""
import os

from lib import folders, model
from lib.cards import in_words, words_of
from lib.reader.reading import parsed
from lib.sizes import ADOPT, GROUPS_LENT, IGNORE, NONE, ORIGINS_LENT, ROWS_LENT, TEXT, WORDS, tallies_of
from lib.told import field_words, shown


def number(word):
    return NONE if word == b'-' else int(word)


class Replay:
    """One case folder. A call's method takes its words and returns what came, to be compared with the words expected, which it also returns."""

    def __init__(self, folder):
        self.folder = folder
        self.whole = model.Store()
        self.rows = [0] * ROWS_LENT
        self.text, self.words, self.rows_lent = TEXT, WORDS, 0
        self.last, self.kept = tallies_of({}), None

    def read(self, name):
        return folders.read(os.path.join(self.folder, name))

    def lent(self):
        if (self.text, self.words) == (TEXT, WORDS):
            return self.whole
        return model.Store(self.whole.text[:self.text], self.whole.words[:self.words])

    def document(self, word):
        return self.read(f'd{int(word)}.txt'), in_words(self.read(f'd{int(word)}.crd'))

    def lent_rows(self):
        return self.rows[:self.rows_lent]

    # Calls

    def parse(self, document, start, end, lent, *wanted):
        number, second, cards = parsed(self.read(f'd{int(document)}.txt')[int(start):int(end)], int(lent))
        return [number, second] + words_of(cards), wanted

    def open(self, document, *wanted):
        return self.lent().open(*self.document(document)), wanted

    def add_ast(self, document, *wanted):
        return self.lent().file(*self.document(document)), wanted

    def adopt_orphan_extensions(self, *wanted):
        return self.lent().turn_on(ADOPT), wanted

    def ignore_builtin_redefinitions(self, *wanted):
        return self.lent().turn_on(IGNORE), wanted

    def build(self, rows, errors, wanted, listing):
        refusal, _, catalogue = self.lent().draw(int(rows), int(errors))
        self.last = tallies_of({})
        if refusal == 0:
            words = [word for row in catalogue['rows'] for word in row]
            self.rows[:len(words)], self.rows_lent = words, len(words)
            self.last = catalogue['tallies'] + [len(catalogue['errors'])]
            if wanted == b'0' and model.listed(catalogue).encode() != self.read(f'listing{int(listing)}'):
                return ['another listing'], [b'listing']
        return [refusal], [wanted]

    def tallies(self, *wanted):
        return self.last, wanted

    def check_rows(self, *wanted):
        return (self.lent().rows_refusal(self.lent_rows()), 0), wanted

    def looked_up(self, refused, done):
        refusal = self.lent().rows_refusal(self.lent_rows())
        return refused(refusal) if refusal else done(self.lent(), self.lent_rows())

    def root_operation(self, operation, name):
        got = self.looked_up(lambda refusal: b'', lambda store, rows: store.root(rows, 26 + int(operation)))
        return ['root'] if got == (b'' if name == b'-' else name) else [got], [b'root']

    def type_field(self, owner, field, *wanted):
        return self.looked_up(lambda refusal: (refusal, 0, NONE, NONE), lambda store, rows: field_words(store.type_field(rows, owner, field))), wanted

    def is_subtype(self, general, other, *wanted):
        return self.looked_up(lambda refusal: (refusal, 0), lambda store, rows: (0, int(store.is_subtype(rows, general, other)))), wanted

    def filled(self, lent, least, wanted, done):
        refusal = self.lent().rows_refusal(self.lent_rows(), int(lent), least)
        return ([refusal, 0] if refusal else done(self.lent(), self.lent_rows())), wanted

    def iter_origins(self, lent, *wanted):
        def done(store, rows):
            listed = store.origins(rows)
            return [0, len(listed)] + listed
        return self.filled(lent, ORIGINS_LENT, wanted, done)

    def extensions(self, lent, *wanted):
        def done(store, rows):
            listed = store.extensions(rows)
            return [0, len(listed)] + listed
        return self.filled(lent, ORIGINS_LENT, wanted, done)

    def implementers_map(self, lent, *wanted):
        def done(store, rows):
            groups = list(store.implementers(rows).values())
            return [0, len(groups)] + sum(groups, [])
        return self.filled(lent, GROUPS_LENT, wanted, done)

    # What is lent

    def change(self, word, *values):
        if word == b'store':
            self.text, self.words = map(int, values)
            assert self.text <= TEXT and self.words <= WORDS
        elif word == b'rows':
            self.rows_lent = int(values[0])
            assert self.rows_lent <= ROWS_LENT
        elif word == b'keep':
            self.kept = bytes(self.whole.text), list(self.whole.words)
        elif word == b'restore':
            self.whole.text[:], self.whole.words[:] = self.kept
        else:
            slices = {b'word': self.whole.words, b'byte': self.whole.text, b'row': self.rows}
            assert int(values[0]) < len(slices[word])
            slices[word][int(values[0])] = number(values[1])


CALLS = [b'open', b'add_ast', b'adopt_orphan_extensions', b'ignore_builtin_redefinitions', b'build', b'tallies', b'check_rows', b'root_operation',
         b'type_field', b'is_subtype', b'iter_origins', b'extensions', b'implementers_map', b'parse']


def replayed(folder, title):
    """How many calls a case has and how many fail; failing ones are printed."""
    replay = Replay(folder)
    text = replay.read('calls')
    assert text.startswith(b'# ') and text.endswith(b'\n')
    calls = failures = 0
    for at, line in enumerate(text.split(b'\n')[:-1], 1):
        word, *rest = line.split(b' ')
        if line.startswith(b'#'):
            continue
        if word not in CALLS:
            replay.change(word, *rest)
            continue
        got, wanted = getattr(replay, word.decode())(*rest)
        # The tallies are a part of the last drawing's answer.
        calls += word != b'tallies'
        if [shown([each]) if isinstance(each, int) else str(each) for each in got] != [each.decode() for each in wanted]:
            failures += 1
            print(f'{title} {at}: {line.decode("utf-8", "replace")}: {got} came')
    return calls, failures


def replay_all(data):
    cases = calls = failures = 0
    while os.path.exists(os.path.join(data, str(cases), 'calls')):
        done = replayed(os.path.join(data, str(cases)), str(cases))
        calls, failures, cases = calls + done[0], failures + done[1], cases + 1
    print(f'{cases} cases, {calls} calls, {failures} failures')
    return failures
