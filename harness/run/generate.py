#!/usr/bin/env python3
"""Writes random case folders: harness/run/generate.py SEED COUNT FOLDER [MODE] [--first NUMBER] [--check]

Case number i is made from SEED and i alone, into FOLDER/i (six digits): d0.txt, d0.crd, d1.txt and so on, switches, questions. Modes:
    small     few names, so that nearly everything collides
    large     up to 2,300 cards, 64 documents and 65,536 bytes
    turns     small, with a file `turns` that turns switches on before a later document (the listing program has no such file)
    damaged   small, with faulty cards, text or limits: refusals
    mixed     small, and every eighth one large (when no mode is named)
--check also reads each text with tools/cards and compares the cards, wherever the text is in the language."""
import os
import sys

import loader  # so that lib is found
from lib import generator


def main(arguments):
    is_checked = '--check' in arguments
    arguments = [argument for argument in arguments if argument != '--check']
    first = 0
    if '--first' in arguments:
        at = arguments.index('--first')
        first = int(arguments[at + 1])
        del arguments[at:at + 2]
    mode = arguments[3] if len(arguments) == 4 else 'mixed'
    if len(arguments) not in (3, 4) or mode not in generator.MODES:
        sys.exit(__doc__)
    for number in range(first, first + int(arguments[1])):
        generator.make(int(arguments[0]), number, os.path.join(arguments[2], f'{number:06}'), mode, is_checked)


main(sys.argv[1:])
