#!/usr/bin/env python3
"""Holds the model, and where it can tell the oracle, against the examples of document 01 and its readings: harness/run/check.py

The harness's sizes and refusals are held against the header's first. Prints what fails and a count; the exit status is 0 only if nothing fails."""
import os
import re
import subprocess
import sys
import tempfile

from loader import HEADER, ORACLE
from lib import folders, model, sizes
from lib.cards import CARD, cards_of, in_bytes, in_full, words_of
from lib.sizes import (
    ADOPT, CARDS, CARDS_LENT, CARDS_USED, DOCUMENTS, ERRORS, ERRORS_LENT, FIRST_CARD, GROUPS_LENT, HELD, IGNORE, NONE, ORIGINS_LENT, ROW, ROWS_LENT, TEXT,
    TEXT_USED, WORDS, card_at, document_at)

INT = 'scalar Int'
failed = []
count = 0


def same(title, got, wanted):
    global count
    count += 1
    if got != wanted:
        failed.append(title)
        print(f'{title}\n  wanted {wanted!r}\n  got    {got!r}')


# The header

header = folders.read(HEADER).decode()
for name, size in (('TEXT_BYTES', TEXT), ('STORE_WORDS', WORDS), ('ROW_WORDS', ROWS_LENT), ('ERROR_WORDS', ERRORS_LENT), ('ORIGIN_WORDS', ORIGINS_LENT),
                   ('GROUP_WORDS', GROUPS_LENT), ('READ_CARD_WORDS', CARDS_LENT), ('CARD_WORDS', CARD), ('WORDS_PER_ROW', ROW), ('CARDS_AT', FIRST_CARD),
                   ('ERROR_NUMBERS', len(ERRORS))):
    same(f'the header\'s {name}', [size], [int(told) for told in re.findall(rf'#define GIMLETASPEN_{name} (\d+)', header)])


def enum(name):
    """What an enum of the header lists, but for 0."""
    inside = re.search(rf'^enum gimletaspen_{name} {{(.*?)^}};', header, re.M | re.S).group(1)
    return {told: int(number) for told, number in re.findall(r'^    GIMLETASPEN_(\w+) = (\d+)', inside, re.M) if number != '0'}


same('the header\'s refusals', {name: number for name, number in vars(sizes.Refusal).items() if name.isupper()}, enum('refusal'))
same('the header\'s errors', ERRORS, list(enum('error').values()))


# Drawings: documents, switches, the rows and errors wanted ('-' stands alone).

def drawing(title, texts, switches, listing):
    texts = [text.encode() for text in texts]
    with tempfile.TemporaryDirectory() as folder:
        for number, text in enumerate(texts):
            folders.write_document(folder, number, text, in_bytes(words_of(cards_of(text))))
        with open(os.path.join(folder, 'switches'), 'w') as target:
            target.write(switches)
        same(f'{title}, model', model.listing(folder), listing)
        if os.path.exists(ORACLE):
            done = subprocess.run([ORACLE, 'list', folder], capture_output=True, text=True)
            same(f'{title}, oracle', done.stdout + done.stderr, listing)


def listed(rows, counts='0 0', errors=''):
    lines = [line.strip() for line in rows.split(',')]
    told = [line.strip() for line in errors.split(',') if line.strip()]
    return '\n'.join([f'rows {len(lines)}'] + lines + [f'errors {counts}'] + told) + '\n'


FIRST = '4 - -, 5 0 -'
drawing('P1', [INT, 'type A{n:Int n:Int}extend type A{m:Int}'], '00', listed(FIRST + ', 6 1 -, 22 2 -, 22 5 4', '1 0', '12 3 2'))
drawing('P2', [INT], '00', listed(FIRST))
drawing('P3', [INT, 'extend type B{m:Int}'], '00', listed(FIRST, '0 1', '7 1 -'))
drawing('P3 adopting', [INT, 'extend type B{m:Int}'], '10', listed(FIRST + ', 6 1 1, 22 2 1'))
drawing('P4', [INT, 'extend union U=B type U{n:Int}'], '00', listed(FIRST + ', 6 3 -, 22 4 -'))
drawing('P5', [INT, 'type U{n:Int}extend union U=B'], '00', listed(FIRST + ', 6 1 -, 22 2 -', '1 0', '8 3 1'))
drawing('P6', [INT, INT], '00', listed(FIRST, '1 0', '5 1 -'))
drawing('P6 ignored', [INT, INT], '01', listed(FIRST))
drawing('P7', [INT, 'type Int{n:Int}'], '00', listed(FIRST, '1 0', '4 1 0'))
drawing('P8', [INT, 'type Query{n:Int}'], '00', listed('4 - -, 26 - -, 5 0 -, 6 1 -, 22 2 -'))
P9 = [INT, 'type Query{n:Int}extend schema{query:Q}']
drawing('P9', P9, '00', listed('4 - -, 26 - -, 5 0 -, 6 1 -, 22 2 -', '0 1', '9 4 -'))
drawing('P9 adopting', P9, '10', listed('4 - -, 26 4 3, 5 0 -, 6 1 -, 22 2 -'))
drawing('P10', ['directive @d on FIELD'] * 3, '00', listed('4 - -, 3 1 -', '1 0', '3 2 1'))
drawing('3.2', ['directive@d on FIELD directive@d on QUERY', 'directive@d on FIELD'], '00', listed('4 - -, 3 2 -'))
drawing('3.2 twice', ['scalar Int scalar Int'], '00', 'refused 6 1\n')
drawing('3.3', ['scalar Int scalar Int schema{query:Q}'], '00', 'refused 6 2\n')
drawing('7.2', [INT, 'extend type A{a:Int}extend type B{a:Int}extend type A{a:Int}'], '00', listed(FIRST, '0 3', '7 1 -, 7 5 -, 7 3 -'))
drawing('7.3', [INT, 'extend type A{a:Int a:Int}type B{b:Int b:Int}type A{a:Int c:Int c:Int}'], '00',
        listed(FIRST + ', 6 4 -, 22 5 -, 6 7 -, 22 8 -, 22 9 -', '4 0', '12 6 5, 12 10 9, 12 2 8, 12 3 8'))
drawing('7.5', [INT, 'extend union A=B extend type A{a:Int}extend type A{b:Int}'], '10', listed(FIRST + ', 8 1 1, 23 2 1', '0 2', '8 3 1, 8 5 1'))
drawing('7.7', ['type A{a:Int}', 'scalar A enum A{a}'], '00', listed('4 - -, 6 0 -, 22 1 -', '2 0', '5 2 -, 4 3 0'))
drawing('7.13', [INT, 'type Query{a:Int}type Mutation{a:Int}extend schema{mutation:B}'], '10',
        listed('4 - -, 27 6 5, 5 0 -, 6 1 -, 22 2 -, 6 3 -, 22 4 -'))
drawing('7.14', [INT, 'interface Query{a:Int}extend schema@d'], '00', listed(FIRST + ', 7 1 -, 22 2 -', '0 1', '6 3 -'))


# Refusals of lent cards

def lent(title, text, words, wanted, is_built_in=False):
    same(title, model.lent_fault(text, in_full(words), is_built_in), wanted)


lent('1.1 absent', b'aa}', [1, 0, 3, 1, 0], (28, 0))
lent('1.1 present', b'aa}', [1, 0, 3, 0, 1], None)
lent('1.1 none', b'aa}', [1, 0, 3, 0, 0], None)
lent('1.1 schema', b'schema', [4, 0, 6, 1, 0], (27, 0))
lent('1.4', b'BBBB', [8, 0, 4, 0, 1, 23, 1, 2, 1, 1], (4, 1))
lent('1.5', b'\xff\x00', [], None)
lent('1.6 item', b'A', [5, NONE, 2, 0, 1], (3, 0))
lent('1.6 name', b'A', [5, 0, 1, NONE, 2], (4, 0))
for kind in (0, 18, 19, 29, NONE):
    lent(f'1.7 kind {kind}', b'A', [kind, 0, 1, 0, 1], (2, 0))
lent('2.1', b'AB', [6, 0, 2, 0, 1, 22, 0, 1, 0, 1], None)
lent('2.3 inside', b'ABCD', [6, 0, 4, 0, 1, 6, 2, 1, 2, 1], (3, 1))
lent('2.3 behind', b'ABCD', [6, 0, 3, 0, 1, 22, 1, 1, 1, 1, 6, 2, 2, 2, 1], (3, 2))
lent('2.4 whole', b'AB', [6, 0, 2, 0, 1, 22, 0, 2, 0, 1], None)
lent('2.4 kind 2', b'ABC', [2, 0, 2, 0, 1, 22, 2, 1, 2, 1], (3, 1))
lent('2.5 length', b'AB', [22, 0, 0, 0, 0], (3, 0))
lent('2.5 name', b'AB', [23, 0, 2, 0, 1], (4, 0))
lent('2.5 heading', b'AB', [22, 0, 1, 0, 1], (5, 0))
lent('2.7', b'AB', [22, 0, 1, 0, 1, 99, 0, 1, 0, 1], (5, 0))
lent('no whole cards', b'AB', [99, 0, 1, 0], (1, 0))
lent('3.4', b'A' * (TEXT + 1), [4, 0, 1, 0, 0], (6, 0), True)
lent('3.4 cards', b'A' * 3000, sum([[5, at, 1, at, 1] for at in range(CARDS + 1)], []), (6, 1), True)
lent('3.5', b'A', [3, 0, 1, 0, 1], None, True)


# The store

def store(*texts, switches=()):
    made = model.Store()
    for number, text in enumerate(texts):
        text = text.encode()
        words = words_of(cards_of(text))
        for switch in (switches if number == 1 else ()):
            made.turn_on(switch)
        same(f'filing {text!r}', made.file(text, words) if number else made.open(text, words), (0, 0))
    return made


def stored(title, wanted, change, *texts, **options):
    made = store(INT, *texts, **options)
    change(made)
    same(title, made.refusal(), wanted)


def put(word, value):
    def change(made):
        made.words[word] = value
    return change


def flags(*values):
    def change(made):
        made.words[IGNORE] = 1
        for index, value in enumerate(values):
            made.words[document_at(index, 3)] = value
    return change


same('4.4', model.Store().refusal(), 22)
same('4.1 text', model.Store(bytearray(TEXT - 1)).refusal(), 21)
same('4.1 words', model.Store(None, [0] * (WORDS - 1)).refusal(), 21)
stored('sound', 0, lambda made: None, 'type A{n:Int}')
stored('4.3 flags', 0, flags(0, 1, 1), 'scalar A', 'scalar B')
stored('4.3 then 0', 22, flags(0, 1, 0), 'scalar A', 'scalar B')
stored('4.3 document 0', 22, flags(1, 1, 1), 'scalar A', 'scalar B')
stored('4.3 switch 0', 22, put(document_at(1, 3), 1), 'scalar A')
stored('4.3 switch on', 0, put(IGNORE, 1), 'scalar A')
stored('4.3 no documents', 22, put(HELD, 0), 'scalar A')
stored('4.3 65 documents', 22, put(HELD, DOCUMENTS + 1), 'scalar A')
stored('4.3 adopt 2', 22, put(ADOPT, 2), 'scalar A')
stored('4.3 text used', 22, put(TEXT_USED, 17), 'scalar A')
stored('4.3 cards used', 22, put(CARDS_USED, 1), 'scalar A')
stored('4.3 offset', 22, put(document_at(1), 11), 'scalar A')
stored('4.5 schema', 22, put(card_at(1, 3), 10), 'schema{query:A}')
stored('4.5 sound', 0, lambda made: None, 'schema{query:A}')
stored('4.6 before', 22, put(card_at(1, 1), 9), 'scalar A')
stored('4.7', 22, put(card_at(0), 12))
stored('unused', 0, put(WORDS - 1, 7), 'scalar A')
edge = store(INT)
for _ in range(DOCUMENTS - 1):
    edge.file(b'', [])
same('64 documents', (edge.words[HELD], edge.refusal()), (DOCUMENTS, 0))
same('65th', edge.file(b'', []), (23, 0))
same('5.2', edge.file(b'A', in_full([22, 0, 1, 0, 1])), (5, 0))
same('65,536 bytes', store(INT).file(b'x' * (TEXT - 10), []), (0, 0))
same('one more', store(INT).file(b'x' * (TEXT - 9), []), (24, 0))
many = lambda amount: (b'A' * amount, in_full(sum([[5, at, 1, at, 1] for at in range(amount)], [])))
same('2,300 cards', store(INT).file(*many(CARDS - 1)), (0, 0))
same('2,301 cards', store(INT).file(*many(CARDS)), (25, 0))
same('5.3', store(INT).file(b'A' * (TEXT - 9), many(CARDS)[1]), (24, 0))
same('7 rows', store(INT).draw(ROWS_LENT - 1, ERRORS_LENT)[:2], (7, 0))
same('7 errors', store(INT).draw(ROWS_LENT, ERRORS_LENT - 1)[:2], (7, 0))


# Lent rows: document 1 has the type A with the field n (cards 1, 2), document 2 a schema extension (3, 4), two extensions of A (5, 6 and 7, 8).

lookup = store(INT, 'type A{n:Int}', 'extend schema{query:A}extend type A{m:Int}extend type A{o:Int}', 'type Query{a:Int}interface Query{a:Int}')


def rows(title, wanted, *lines):
    words = [NONE if word == '-' else int(word) for line in lines for word in line.split()]
    same(title, lookup.rows_refusal(words), wanted)


rows('6.2 none', 26)
rows('6.2 alone', 0, '4 - -')
rows('not threes', 26, '4 -')
rows('6.1 zeros', 26, '4 - -', '0 0 0')
rows('6.3 one root', 0, '4 - -', '26 4 3', '5 0 -')
rows('6.3 twice', 26, '4 - -', '26 4 3', '26 4 3')
rows('6.3 two 4s', 26, '4 - -', '4 - -')
rows('6.4', 26, '4 - -', '5 0 -', '22 2 -')
rows('6.4 object', 0, '4 - -', '6 1 -', '22 2 -', '22 6 5')
for row in ('6 1 -', '6 5 5', '6 5 7'):
    rows(f'6.5 {row}', 0, '4 - -', row)
for row in ('6 5 -', '6 1 5'):
    rows(f'6.5 {row}', 26, '4 - -', row)
rows('6.6', 26, '4 - -', '26 - 3', '6 9 -')
rows('6.7 object', 0, '4 - -', '26 - -', '6 9 -', '7 11 -')
rows('6.7 interface first', 26, '4 - -', '26 - -', '7 11 -', '6 9 -')
rows('6.7 no type', 26, '4 - -', '26 - -')
rows('6.9', 0, '4 - 3', '6 1 -', '22 8 3')
rows('6.10', 26, '4 - -', '6 1 -', '22 2 -', '22 2 -')
rows('no card', 26, '4 - -', '6 13 -')
rows('no origin', 26, '4 - -', '6 1 -', '22 2 1')
rows('- for a type', 26, '4 - -', '6 - -')

same('7 groups', lookup.rows_refusal([4, NONE, NONE], GROUPS_LENT - 1, GROUPS_LENT), 7)
same('7 origins', lookup.rows_refusal([4, NONE, NONE], ORIGINS_LENT, ORIGINS_LENT), 0)
same('26 before 7', lookup.rows_refusal([], 0, ORIGINS_LENT), 26)
print(f'{count} examples, {len(failed)} fail')
sys.exit(len(failed) > 0)
