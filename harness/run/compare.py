#!/usr/bin/env python3
"""Compares a listing program with the oracle on random collections: harness/run/compare.py PROGRAM COUNT [SEED] [MODE] [--ask PROGRAM]

PROGRAM is a command that is run in the case folder and prints the listing; `model` is the model itself. After --ask comes one that answers the
folder's questions. SEED is 1 if not given, and MODE is one of generate.py's. The oracle must have been built (harness/run/build.sh). A refusal is
expected where the model refuses, which the oracle can't tell (save 6); elsewhere oracle and model are compared too. Differences are kept in
harness/target/differences, the first five made smaller and printed; the last line counts. The exit status is 0 only if there is none."""
import os
import shlex
import shutil
import subprocess
import sys
import tempfile

from loader import BUILT, ORACLE
from lib import folders, generator, model, told
from lib.cards import CARD, in_bytes, in_cards, in_words, moved, words_of
from lib.sizes import Refusal

KEPT = os.path.join(BUILT, 'differences')
SHRUNK = 5
CARD_BYTES = 4 * CARD


def command(words):
    """A command whose program is found from here, not from the case folder."""
    words = shlex.split(words)
    if os.path.exists(words[0]):
        words[0] = os.path.abspath(words[0])
    return words


def run(words, folder):
    done = subprocess.run(words, cwd=folder, capture_output=True)
    if done.stderr or done.returncode:
        return f'status {done.returncode}: {done.stdout.decode("utf-8", "replace")}{done.stderr.decode("utf-8", "replace")}'
    return done.stdout.decode('utf-8', 'replace')


def by_name(text):
    """Answers with the groups of implementers sorted, each of which begins with its interface's name: the Rust's map has no order."""
    lines = text.split('\n')
    return '\n'.join(' : '.join(line.split(' : ')[:1] + sorted(line.split(' : ')[1:])) for line in lines)


class Comparison:
    def __init__(self, listing, ask):
        self.listing = None if listing == 'model' else command(listing)
        self.ask = None if ask is None else command(ask)

    def differences(self, folder):
        """What differs, as (title, expected, got); and whether the case is refused."""
        by_model = model.listing(folder)
        is_refused = by_model.startswith('refused')
        if is_refused and not by_model.startswith(f'refused {Refusal.NOT_BUILT_IN} '):
            expected, pairs = by_model, []
        else:
            expected = run([ORACLE, 'list', '.'], folder)
            pairs = [('oracle and model, listing', expected, by_model)]
        if self.listing:
            pairs.append(('listing', expected, run(self.listing, folder)))
        if not is_refused and os.path.exists(os.path.join(folder, 'questions')):
            answers = run([ORACLE, 'ask', '.'], folder)
            by_model = model.answers(folder)
            pairs.append(('oracle and model, answers', answers, by_name(by_model)))
            if self.ask:
                got = run(self.ask, folder)
                pairs.append(('answers, groups by name', answers, by_name(got)))
                pairs.append(('answers and model, groups in order', by_model, got))
        found = [(title, wanted, got) for title, wanted, got in pairs if wanted != got]
        return found, is_refused


class Case:
    """A case folder in memory, to be made smaller card by card. Texts stay whole meanwhile, so spans stay sound."""

    def __init__(self, folder):
        self.folder = folder
        self.documents = folders.documents(folder)
        self.questions = folders.questions(folder) if os.path.exists(self.path('questions')) else []

    def path(self, name):
        return os.path.join(self.folder, name)

    def write(self):
        for name in os.listdir(self.folder):
            if name[0] == 'd' and name[-4:] in ('.txt', '.crd'):
                os.remove(self.path(name))
        for number, (text, cards) in enumerate(self.documents):
            folders.write_document(self.folder, number, text, cards)
        with open(self.path('questions'), 'wb') as target:
            target.write(b''.join(line + b'\n' for line in self.questions))

    def smaller(self):
        """Every way to leave something out: a document, then a run of cards, then a question."""
        for number in range(len(self.documents) - 1, 0, -1):
            yield self.documents[:number] + self.documents[number + 1:], self.questions
        for number, (text, cards) in enumerate(self.documents):
            for size in (64, 16, 4, 2, 1):
                for at in range(0, len(cards) // CARD_BYTES, size):
                    left = cards[:CARD_BYTES * at] + cards[CARD_BYTES * (at + size):]
                    yield self.documents[:number] + [(text, left)] + self.documents[number + 1:], self.questions
        for at in range(len(self.questions)):
            yield self.documents, self.questions[:at] + self.questions[at + 1:]

    def cut(self):
        """Every document without the text that no heading's item covers."""
        documents = []
        for text, data in self.documents:
            left, cards, by = b'', [], 0
            for card in self.cards(data):
                if card.kind <= 17:
                    by = len(left) - card.item
                    left += text[card.item:card.item + card.length]
                cards.append(moved(card, by))
            documents.append((left, in_bytes(words_of(cards))))
        return documents

    def attempt(self, documents, questions, still_differs):
        kept = self.documents, self.questions
        self.documents, self.questions = documents, questions
        self.write()
        if still_differs():
            return True
        self.documents, self.questions = kept
        return False

    def shrink(self, still_differs):
        while any(self.attempt(*smaller, still_differs) for smaller in list(self.smaller())):
            pass
        if all(len(data) % CARD_BYTES == 0 and not model.card_fault(text, self.cards(data)) for text, data in self.documents):
            self.attempt(self.cut(), self.questions, still_differs)
        self.write()

    @staticmethod
    def cards(data):
        return in_cards(in_words(data))

    def show(self):
        for number, (text, data) in enumerate(self.documents):
            print(f'  d{number}.txt {text!r}')
            print(f'  d{number}.crd ' + '; '.join(','.join(map(str, card)) for card in self.cards(data)))
        for name in ('switches', 'turns'):
            if os.path.exists(self.path(name)):
                print(f'  {name} {folders.read(self.path(name))!r}')


def report(comparison, folder, found, is_refused):
    titles = {title for title, _, _ in found}

    def still_differs():
        """The same sort of difference: an accepted collection must not shrink into a refused one."""
        found, is_now_refused = comparison.differences(folder)
        return is_now_refused == is_refused and titles & {title for title, _, _ in found}

    print(f'DIFFERENCE {folder}: {", ".join(sorted(titles))}')
    case = Case(folder)
    case.shrink(still_differs)
    case.show()
    for title, wanted, got in comparison.differences(folder)[0]:
        print(f'  {title}, expected:\n{wanted}  got:\n{got}')


def main(arguments):
    ask = None
    if '--ask' in arguments:
        at = arguments.index('--ask')
        ask = arguments[at + 1]
        del arguments[at:at + 2]
    if not 2 <= len(arguments) <= 4:
        sys.exit(__doc__)
    told.need_oracle()
    program, count = arguments[0], int(arguments[1])
    seed = int(arguments[2]) if len(arguments) > 2 else 1
    mode = arguments[3] if len(arguments) > 3 else 'mixed'
    if mode == 'turns' and os.path.basename(shlex.split(program)[0]) == 'listing':
        sys.exit('the listing program has no file `turns`: its switches are turned on behind document 0')
    comparison = Comparison(program, ask)
    refused = lookups = different = 0
    with tempfile.TemporaryDirectory() as place:
        for number in range(count):
            folder = os.path.join(place, f'{number:06}')
            generator.make(seed, number, folder, mode)
            found, is_refused = comparison.differences(folder)
            refused += is_refused
            lookups += 0 if is_refused else len(folders.questions(folder))
            if found:
                different += 1
                kept = os.path.join(KEPT, f'{mode}-{seed}-{number:06}')
                shutil.rmtree(kept, ignore_errors=True)
                shutil.copytree(folder, kept)
                if different <= SHRUNK:
                    report(comparison, kept, found, is_refused)
                else:
                    print(f'DIFFERENCE {kept}')
            shutil.rmtree(folder)
    print(f'{count} collections ({mode}, seed {seed}), {refused} of them refused, {lookups} lookups: {different} differences')
    sys.exit(different > 0)


main(sys.argv[1:])
