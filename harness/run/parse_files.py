#!/usr/bin/env python3
"""Reads texts that others wrote, by all readers: harness/run/parse_files.py [--inside] FOLDER ... takes the files .graphql, .graphqls and .gql below FOLDER.

With --inside also what stands in programs, tests and documents: strings between backquotes, triple quotes or fences, here-documents and indented blocks that
look like definitions. A text that is too long is read as it is and in pieces that begin at a heading. Options and exit status are those of
harness/run/parse.py. No such text is part of this repository; Debian's packages have some: golang-github-vektah-gqlparser-dev,
golang-github-graph-gophers-graphql-go-dev, golang-sourcehut-emersion-gqlclient-dev, ruby-graphql, python3-graphene and the source of libgraphql-perl
(`apt-get download`, `dpkg -x`)."""
import os
import re
import sys

import loader  # so that lib is found
from lib import comparing, folders, held
from lib.sizes import CARDS, CARDS_LENT, TEXT

SUFFIXES = ('.graphql', '.graphqls', '.gql')
OTHER_SUFFIXES = ('.go', '.rb', '.py', '.pm', '.pl', '.t', '.js', '.mjs', '.ts', '.md', '.rst', '.txt', '.yml', '.yaml', '.el', '.org')
INSIDE = [re.compile(pattern, re.S | re.M) for pattern in (
    rb'`([^`]+)`', rb'"""(.+?)"""', rb"'''(.+?)'''", rb'```\w*\n(.+?)```', rb'<<[-~]?[\'"]?(?P<mark>[A-Za-z_]+)[\'"]?[^\n]*\n(.*?)\n\s*(?P=mark)\s*$',
    rb'\|[-+]?\n((?:[ \t]+[^\n]*\n|\n)+)', rb'^\s*input:\s*"?([^\n|"][^\n]*?)"?$', rb"'([^'\n]+)'", rb"q[qw]?\{(.+?)\n\}")]
LIKELY = re.compile(rb'\b(?:type|interface|union|enum|input|scalar|schema|directive|extend|query|mutation|fragment)\b')


def files(folder, suffixes):
    for place, inner, names in os.walk(folder):
        inner.sort()
        yield from (os.path.join(place, name) for name in sorted(names) if name.endswith(suffixes))


def inside(data):
    """What looks like a text of the language in a file of another."""
    found = [match.group(match.lastindex) for pattern in INSIDE for match in pattern.finditer(data)]
    return [text for text in found if LIKELY.search(text) and len(text) <= TEXT]


def pieces(text):
    """A long text cut at headings, each piece as long as may be."""
    refused, tokens, ended = held.OCTOBER.judged(text)
    if refused:
        return []
    made, start, count, last = [], 0, 0, 0
    for card in held.OCTOBER.cards(tokens, ended):
        if card.kind < 20 and card.item > start and (card.item + card.length - start > TEXT or count > CARDS // 2):
            made.append(text[start:last])
            start, count = last, 0
        if card.kind < 20:
            last = card.item + card.length
        count += 1
    return made + [text[start:]]


def main(arguments):
    compared = comparing.compared_by(arguments)
    is_inside = comparing.option(arguments, '--inside') is not None
    if not arguments or any(argument.startswith('-') for argument in arguments):
        sys.exit(__doc__)
    for folder in arguments:
        paths = list(files(folder, SUFFIXES))
        texts = {folders.read(path): None for path in paths}
        others = list(files(folder, OTHER_SUFFIXES)) if is_inside else []
        for path in others:
            texts.update((text, None) for text in inside(folders.read(path)))
        texts.update((piece, None) for text in list(texts) if len(text) > TEXT for piece in pieces(text))
        before = compared.answers.copy()
        compared.hold([(text, CARDS_LENT) for text in texts])
        told = compared.answers - before
        print(f'{folder}: {len(paths)} files, {len(others)} others, {len(texts):,} texts of {sum(map(len, texts)):,} bytes: '
              + ', '.join(f'{number or "accepted"} {times:,}' for number, times in sorted(told.items())))
    comparing.told(compared, sum(compared.answers.values()))
    sys.exit(compared.differences > 0)


main(sys.argv[1:])
