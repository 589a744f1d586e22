"""What the commands that compare readers share: their options, and how they tell what came."""
import os
import sys

from lib import held, parsers
from loader import BUILT, PARSE

KEPT = os.path.join(BUILT, 'parse-differences')
SHOWN = 10


def option(arguments, name, has_value=False):
    if name not in arguments:
        return None
    at = arguments.index(name)
    value = arguments[at + 1] if has_value else True
    del arguments[at:at + 1 + has_value]
    return value


def others():
    """The parsers that are there; it is told which are not."""
    found = []
    for parser in (parsers.GraphqlJs, parsers.GraphqlCore):
        try:
            found.append(parser())
        except (parsers.Stopped, ImportError, OSError):
            print(f'{parser.__name__} is not there')
    return found


def tell(number, title, text, wanted, got):
    """Keeps a text that is read in two ways, and prints the first of them."""
    os.makedirs(KEPT, exist_ok=True)
    path = os.path.join(KEPT, f'{number}.txt')
    with open(path, 'wb') as target:
        target.write(text)
    if number <= SHOWN:
        print(f'DIFFERENCE {title}: {path}: {text[:300]!r}\n  expected {str(wanted)[:500]}\n  got      {str(got)[:500]}')


def told(compared, count):
    print(f'{count:,} texts: ' + ', '.join(f'{number or "accepted"} {times:,}' for number, times in sorted(compared.answers.items())))
    if compared.library:
        title = 'library' if compared.library.program == PARSE else compared.library.program
        print(f'{title}: each answer, each card, and that all else stayed')
    for title, times in compared.told.items():
        print(f'{title}: ' + ', '.join(f'{what} {each:,}' for what, each in sorted(times.items(), key=lambda pair: -pair[1])))
    for title, times in sorted(compared.reasons.items(), key=lambda pair: -pair[1]):
        print(f'  known difference: {title} {times:,}')
    print(f'{compared.differences} differences that are on no list')


def compared_by(arguments):
    """What is compared, as the options say."""
    program = option(arguments, '--program', True) or PARSE
    library = None if option(arguments, '--no-library') else parsers.Library(program)
    if library and not os.path.exists(program):
        sys.exit(f'{program} is not there: harness/run/link.sh')
    found = [] if option(arguments, '--library-only') else others()
    if not library and not found:
        sys.exit('there is nothing to compare')
    return held.Held(library, found, tell)
