#!/usr/bin/env python3
"""Holds the library's `parse` and other parsers against the reader in lib/reader, on random texts: harness/run/parse.py COUNT [SEED] [MODE]

Modes (lib/texts.py): mixed (when none is named), sound, damaged, cuts (every beginning of a text), limits. harness/run/link.sh must have been run;
--no-library leaves the library out, --library-only leaves out graphql-js and graphql-core, --program FILE takes another program than
harness/target/parse. Differences that are on no list are kept in harness/target/parse-differences; the exit status is 0 only if there is none."""
import sys

import loader  # so that lib is found
from lib import comparing, texts

CHUNK = 1000


def main(arguments):
    compared = comparing.compared_by(arguments)
    mode = arguments[2] if len(arguments) > 2 else 'mixed'
    if not 1 <= len(arguments) <= 3 or mode not in texts.MODES:
        sys.exit(__doc__)
    count, seed = int(arguments[0]), int(arguments[1]) if len(arguments) > 1 else 1
    taken, chunk = set(), []
    for lent in texts.series(seed, count, mode, taken):
        chunk.append(lent)
        if len(chunk) == CHUNK:
            compared.hold(chunk)
            chunk = []
    compared.hold(chunk)
    comparing.told(compared, count)
    print(f'{len(taken)} of {len(texts.productions())} productions were used to make them (mode {mode}, seed {seed})')
    sys.exit(compared.differences > 0)


main(sys.argv[1:])
