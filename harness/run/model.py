#!/usr/bin/env python3
"""Asks the model about a case folder, in the oracle's form.

    harness/run/model.py list FOLDER      what the listing program prints for a case folder
    harness/run/model.py ask FOLDER       the answers to its questions, one a line (harness/README.md has their form)"""
import sys

import loader  # so that lib is found
from lib import model


def main(arguments):
    if len(arguments) != 2 or arguments[0] not in ('list', 'ask'):
        sys.exit(__doc__)
    told = model.listing if arguments[0] == 'list' else model.answers
    sys.stdout.write(told(arguments[1]))


main(sys.argv[1:])
