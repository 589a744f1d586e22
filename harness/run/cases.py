#!/usr/bin/env python3
"""Makes the replay program's cases: harness/run/cases.py [FOLDER] writes FOLDER/0, FOLDER/1 ... (crates/replay/data if not given), the same each time.

Needed is the oracle (harness/run/build.sh). What is in FOLDER is replaced. Stops where two that know an answer differ. Prints a table of the groups."""
import os
import shutil
import sys

import loader
from groups import (
    card_faults, collections, errors, examples, limits, lookups, merges, orders, reading, reading_bytes, reading_states, refusals, row_faults, runs,
    store_faults)
from lib import case, told

GROUPS = [
    ('examples of 01', examples), ('faulty cards', card_faults), ('6, 7 and 21', refusals), ('22', store_faults), ('limits', limits), ('26', row_faults),
    ('order of refusals', orders), ('errors', errors), ('merges', merges), ('lookups', lookups), ('random collections', collections), ('runs', runs),
    ('reading', reading), ('reading in every state', reading_states), ('reading every byte', reading_bytes)]


def made(group):
    """The group's cases, each with a title of its own."""
    cases = []
    group.make(lambda title: cases.append(case.Case(title)) or cases[-1])
    return cases


def main(arguments):
    if len(arguments) > 1 or any(argument.startswith('-') for argument in arguments):
        sys.exit(__doc__)
    told.need_oracle()
    data = arguments[0] if arguments else loader.REPLAYED
    shutil.rmtree(data, ignore_errors=True)
    number = calls = size = 0
    print('| numbers | group | cases | calls | bytes |\n|---|---|---|---|---|')
    for title, group in GROUPS:
        cases = made(group)
        sizes = [each.write(os.path.join(data, str(number + at))) for at, each in enumerate(cases)]
        asked = sum(each.calls for each in cases)
        print(f'| {number} to {number + len(cases) - 1} | {title} | {len(cases)} | {asked:,} | {sum(sizes):,} |')
        number, calls, size = number + len(cases), calls + asked, size + sum(sizes)
    print(f'| | all | {number} | {calls:,} | {size:,} |')
    print(', '.join(f'{title} {count:,}' for title, count in case.decided.items()))


main(sys.argv[1:])
