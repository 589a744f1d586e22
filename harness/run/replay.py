#!/usr/bin/env python3
"""Replays the written cases with the model in place of the library: harness/run/replay.py [FOLDER] (crates/replay/data if not given).

Prints each call that is answered otherwise, then how many there were. The exit status is 0 only if there is none."""
import sys

import loader
from lib import replay


def main(arguments):
    if len(arguments) > 1 or any(argument.startswith('-') for argument in arguments):
        sys.exit(__doc__)
    sys.exit(replay.replay_all(arguments[0] if arguments else loader.REPLAYED) > 0)


main(sys.argv[1:])
