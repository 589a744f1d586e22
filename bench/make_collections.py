#!/usr/bin/env python3
"""Writes the collections that are measured: bench/make_collections.py FOLDER makes FOLDER/small, medium, large, full and full64, each a folder of documents,
cards and questions. small is P1 of the scope; medium has one document of 35 types of 3 fields and 35 extensions of 2, behind document 0; large has eight
such documents; full has a scalar in document 0 and 2,299 in one document behind it, 2,300 cards in all; full64 has the same scalars in 63 documents."""
import os
import sys

# The harness's loader does the rest.
sys.path[0] = os.path.join(os.path.dirname(os.path.abspath(__file__)), '..', 'harness', 'run')
import loader
from lib import folders
from lib.cards import cards_of, in_bytes, words_of
from lib.sizes import CARDS, DOCUMENTS

ZERO = 'scalar Int'
WHOLE = ['root 26', 'origins', 'extensions', 'implementers']
# Types of a block(), and the scalars that fill the store behind document 0's.
BLOCK, SCALARS = 35, CARDS - 1


def write(folder, texts, questions):
    os.makedirs(folder, exist_ok=True)
    count = 0
    for number, text in enumerate(texts):
        cards = cards_of(text.encode())
        folders.write_document(folder, number, text.encode(), in_bytes(words_of(cards)))
        count += len(cards)
    with open(os.path.join(folder, 'switches'), 'w', encoding='ascii') as file:
        file.write('00')
    folders.write_lines(folder, 'questions', questions)
    print(f'{os.path.basename(folder)}: {count} cards, {len(texts)} documents')


def block(start, count):
    """Types of three fields, and an extension of two for each; no name comes twice."""
    types = [f'type Type{i}{{first{i}:Int second{i}:Int third{i}:Int}}' for i in range(start, start + count)]
    extensions = [f'extend type Type{i}{{fourth{i}:Int fifth{i}:Int}}' for i in range(start, start + count)]
    return ' '.join(types + extensions)


def asked(count):
    """Questions about types of block(): fields that are there, in the extension, and not there."""
    some = range(0, count, max(1, count // 40))
    fields = [f'field Type{i} {name}{i}' for i in some for name in ('second', 'fifth', 'sixth')]
    return fields + [f'subtype Type{i} Type{i + 1}' for i in some] + WHOLE


def scalars(start, count):
    return ' '.join(f'scalar S{i}' for i in range(start, start + count))


def main(folder):
    write(f'{folder}/small', [ZERO, 'type A{n:Int n:Int}extend type A{m:Int}'], ['field A n', 'field A m', 'field A k', 'subtype A B'] + WHOLE)
    write(f'{folder}/medium', ['scalar Int scalar String', block(0, BLOCK)], asked(BLOCK))
    zero = 'scalar Int scalar String scalar Float scalar Boolean scalar ID'
    write(f'{folder}/large', [zero] + [block(BLOCK * i, BLOCK) for i in range(8)], asked(8 * BLOCK))
    plain = [f'field S{i} n' for i in range(0, SCALARS, 57)] + [f'subtype S{i} S{i + 1}' for i in range(0, SCALARS - 1, 57)] + WHOLE
    write(f'{folder}/full', [ZERO, scalars(0, SCALARS)], plain)
    cuts = [SCALARS * i // (DOCUMENTS - 1) for i in range(DOCUMENTS)]
    write(f'{folder}/full64', [ZERO] + [scalars(a, b - a) for a, b in zip(cuts, cuts[1:])], plain)


if len(sys.argv) != 2:
    sys.exit(__doc__)
main(sys.argv[1])
