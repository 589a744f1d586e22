#!/usr/bin/env python3
"""What `parse` must answer for texts: harness/run/reader.py FILE ... prints each file's answer and cards, by the reader in lib/reader."""
import sys

import loader  # so that lib is found
from lib import folders
from lib.reader.reading import parsed


def main(arguments):
    if not arguments:
        sys.exit(__doc__)
    for path in arguments:
        number, second, cards = parsed(folders.read(path))
        print(f'{path}: {number} {second}')
        for card in cards:
            print('  ' + ','.join(map(str, card)))


main(sys.argv[1:])
