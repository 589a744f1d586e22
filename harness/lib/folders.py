"""Case folders, as harness/README.md tells them."""
import os
import sys

from lib.sizes import ADOPT, IGNORE


def read(path):
    with open(path, 'rb') as source:
        return source.read()


def documents(folder):
    """Each document's text and the bytes of its cards, until a file is missing."""
    found = []
    while True:
        paths = [os.path.join(folder, f'd{len(found)}.{kind}') for kind in ('txt', 'crd')]
        if not all(map(os.path.exists, paths)):
            return found
        found.append(tuple(map(read, paths)))


def write_document(folder, number, text, data):
    for kind, content in (('txt', text), ('crd', data)):
        with open(os.path.join(folder, f'd{number}.{kind}'), 'wb') as target:
            target.write(content)


def write_lines(folder, name, lines):
    with open(os.path.join(folder, name), 'w') as target:
        target.write(''.join(line + '\n' for line in lines))


def questions(folder):
    return read(os.path.join(folder, 'questions')).split(b'\n')[:-1]


def switch_turns(folder):
    """Before which document adopting and ignoring are turned on, by their word in the store."""
    turns = {}
    path = os.path.join(folder, 'switches')
    if os.path.exists(path):
        digits = read(path)
        if digits.endswith(b'\n'):
            digits = digits[:-1]
        if digits not in (b'00', b'01', b'10', b'11'):
            sys.exit('switches are not two digits 0 or 1')
        turns = {switch: 1 for at, switch in enumerate((ADOPT, IGNORE)) if digits[at:at + 1] == b'1'}
    path = os.path.join(folder, 'turns')
    if os.path.exists(path):
        for line in read(path).decode().splitlines():
            word, document = line.split(' ')
            turns[{'adopt': ADOPT, 'ignore': IGNORE}[word]] = int(document)
    return turns
