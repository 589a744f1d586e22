"""What others than the model say of an answer: the oracle, and for 22 and 26 a second telling."""
import os
import re
import subprocess
import sys
import tempfile

from lib import folders, model
from lib.cards import in_bytes, moved, words_of
from lib.sizes import ADOPT, CARDS, CARDS_USED, DOCUMENTS, HELD, IGNORE, NONE, ROW, TEXT, TEXT_USED, card_at, document_at, in_rows
from loader import ORACLE


def shown(words):
    return ' '.join('-' if word == NONE else str(word) for word in words)


def field_words(told):
    """The four numbers of `type_field`'s answer."""
    words = told.split(' ')
    if words[0] == 'found':
        return 0, 1, 0, int(words[1])
    if words[0] == 'meta':
        return 0, 1, int(words[1]), NONE
    return (0, 2, NONE, NONE) if words[1] == 'type' else (0, 3, NONE, int(words[2]))


# The oracle

def need_oracle():
    if not os.path.exists(ORACLE):
        sys.exit('the oracle is not built: harness/run/build.sh FOLDER')


def question_of(word, first, second):
    """A question, or None for names that the oracle can't be asked about."""
    try:
        return f'{word} {first.decode()} {second.decode()}'
    except UnicodeDecodeError:
        return None


def asked(what, documents, adopt, questions=()):
    """What the oracle prints for documents with their ignore switches."""
    with tempfile.TemporaryDirectory() as folder:
        for number, (text, words, _) in enumerate(documents):
            folders.write_document(folder, number, text, in_bytes(words))
        ignored = [f'ignore {number}' for number, document in enumerate(documents) if document[2]]
        folders.write_lines(folder, 'turns', (['adopt 1'] if adopt else []) + ignored[:1])
        folders.write_lines(folder, 'questions', questions)
        done = subprocess.run([ORACLE, what, folder], capture_output=True)
        return done.stdout.decode() + done.stderr.decode()


def is_answer(line, question, got, call):
    """Whether the oracle's line says what the model does; groups group by group, as the Rust's map has no order."""
    word = question.split(' ')[0]
    if word == 'field':
        return field_words(line) == tuple(got)
    if word == 'subtype':
        return line == ('yes' if got[1] else 'no')
    if word == 'root':
        return line.encode() == call.split(b' ')[2]
    if word == 'implementers':
        # a group begins with the interface's name, which its naming card tells too
        told = [group.split(' ', 1)[1] for group in line.split(' : ')[1:]]
        return sorted(told) == sorted(shown(group) for group in groups_in(got[2:])) and int(line.split(' ')[0]) == got[1]
    return line == shown(got[1:])


def groups_in(words):
    groups, at = [], 0
    while at < len(words):
        end = at + 3 + words[at + 1] + words[at + 2]
        groups.append(words[at:end])
        at = end
    return groups


# 22 and 26 told in another way than the model does

def can_be_left(store):
    """Whether filing anew the documents that a store speaks of, with its switches, leaves that store."""
    words, fresh, first = store.words, model.Store(), 0
    if not 1 <= words[HELD] <= DOCUMENTS:
        return False
    for index in range(words[HELD]):
        offset, length, count, ignore = store.row(index)
        if offset + length > TEXT or first + count > CARDS:
            return False
        lent = words_of(moved(store.card(number), -offset) for number in range(first, first + count))
        if index and ignore:
            fresh.turn_on(IGNORE)
        filing = fresh.file if index else fresh.open
        if min(lent, default=0) < 0 or filing(bytes(store.text[offset:offset + length]), lent) != (0, 0):
            return False
        first += count
    for switch in (ADOPT, IGNORE):
        if words[switch]:
            fresh.turn_on(switch)
    used = list(range(document_at(words[HELD]))) + list(range(card_at(0), card_at(first)))
    text_used = fresh.words[TEXT_USED]
    return all(fresh.words[index] == words[index] for index in used) and fresh.text[:text_used] == store.text[:text_used]


LETTERS = {4: 's', 20: 'u', 26: 'q', 27: 'm', 28: 'b', 3: 'd', 5: 'S', 6: 'O', 7: 'I', 8: 'U', 9: 'E', 10: 'N', 21: 'i', 22: 'f', 23: 'v', 24: 'e',
           25: 'n'}
IN_ORDER = re.compile('su*q?m?b?d*(Su*|[OI]i*u*f*|Uu*v*|Eu*e*|Nu*n*)*')


def are_rows_drawable(store, words):
    """Whether 26 lets rows pass: the order of kinds as an expression, the other clauses one by one."""
    rows = in_rows(words)
    kinds = {number: store.card(number).kind for number in range(store.words[CARDS_USED])}
    if len(words) % ROW or not IN_ORDER.fullmatch(''.join(LETTERS.get(row[0], '?') for row in rows)):
        return False
    cards = [card for _, card, _ in rows if card in kinds]
    if len(cards) != len(set(cards)):
        return False
    for what, card, origin in rows:
        if origin != NONE and kinds.get(origin, 0) not in range(11, 18):
            return False
        if card == NONE and what == 4:
            continue
        if card == NONE:
            name = {26: b'Query', 27: b'Mutation', 28: b'Subscription'}.get(what)
            named = [kind for kind, number, _ in rows if kind in range(5, 11) and number in kinds and store.name(number) == name]
            if name is None or origin != NONE or named[:1] != [6]:
                return False
        elif kinds.get(card) != (what + 7 if what in range(5, 11) and origin != NONE else what):
            return False
    return True
