"""Readers that lib/reader is held against: the library through its entry for C, graphql-js and graphql-core.

The library answers as `parsed` does. Of the others each text's outcome is None (no UTF-8, so no string for them), its cards, a Refused or a Crashed."""
import json
import os
import struct
import subprocess
from collections import namedtuple

from lib.cards import CARD, Card, in_cards, in_words
from lib.reader.lexer import byte_places
from lib.reader.reading import ROOTS
from loader import GRAPHQL_JS, PARSE

Refused = namedtuple('Refused', 'offset message')
Crashed = namedtuple('Crashed', 'message')
# Where Debian's packages put what node loads.
NODE_PATH = '/usr/share/nodejs'


class Stopped(Exception):
    """A program ended with another status than 0."""


def run(command, data, **options):
    done = subprocess.run(command, input=data, stdout=subprocess.PIPE, **options)
    if done.returncode:
        raise Stopped(f'{command[0]} ended with status {done.returncode}')
    return done.stdout


class Library:
    """harness/target/parse, which harness/run/link.sh makes."""

    def __init__(self, program=PARSE):
        self.program = program

    def answers(self, lent):
        """For texts with their slices' lengths: number, second number, cards, and whether anything was changed that had to stay."""
        try:
            return self.told(lent)
        except Stopped as stopped:
            # The text that it was is found by asking about fewer at a time.
            half = len(lent) // 2
            return self.answers(lent[:half]) + self.answers(lent[half:]) if half else [(None, None, [], str(stopped))]

    def told(self, lent):
        words = in_words(run([self.program], b''.join(struct.pack('<II', len(text), length) + text for text, length in lent)))
        told, at = [], 0
        for _ in lent:
            number, second, changed, count = words[at:at + 4]
            told.append((number, second, in_cards(words[at + 4:at + 4 + count]), changed))
            at += 4 + count
        assert at == len(words)
        return told


class GraphqlJs:
    def __init__(self):
        self.environment = {**os.environ, 'NODE_PATH': os.environ.get('NODE_PATH', NODE_PATH)}
        self.title = 'graphql-js ' + self.run(['version'], b'').decode().strip()

    def run(self, arguments, data):
        return run([os.environ.get('NODE', 'node'), '--stack-size=4000', GRAPHQL_JS] + arguments, data, env=self.environment)

    def outcomes(self, texts):
        for line in self.run([], b''.join(struct.pack('<I', len(text)) + text for text in texts)).splitlines():
            told = json.loads(line)
            if told is None:
                yield None
            elif 'crash' in told:
                yield Crashed(told['crash'])
            elif 'cards' in told:
                yield [Card(*words[:CARD]) for words in told['cards']]
            else:
                yield Refused(told['offset'], told['message'])


class GraphqlCore:
    def __init__(self):
        import graphql
        self.graphql = graphql
        self.title = 'graphql-core ' + graphql.__version__

    def outcomes(self, texts):
        return map(self.outcome, texts)

    def outcome(self, text):
        try:
            points = text.decode('utf-8')
        except UnicodeDecodeError:
            return None
        places = byte_places(points) if len(points) != len(text) else range(len(text) + 1)
        try:
            return core_cards(self.graphql.parse(points), places)
        except self.graphql.GraphQLSyntaxError as error:
            return Refused(places[min(error.positions[0], len(points))], error.message)
        except Exception as error:
            return Crashed(repr(error))


# graphql-core's names of headings, in the order of their kinds from 3 on.
CORE_HEADINGS = ['directive_definition', 'schema_definition', 'scalar_type_definition', 'object_type_definition', 'interface_type_definition',
                 'union_type_definition', 'enum_type_definition', 'input_object_type_definition', 'schema_extension', 'scalar_type_extension',
                 'object_type_extension', 'interface_type_extension', 'union_type_extension', 'enum_type_extension', 'input_object_type_extension']


def core_cards(document, places):
    """The cards of a document, by the locations of its nodes."""
    cards = []

    def span(node):
        return (places[node.loc.start], places[node.loc.end] - places[node.loc.start]) if node else (0, 0)

    def card(kind, item, name, type_name=None):
        cards.append(Card(*(kind, *span(item), *span(name), *span(type_name))[:CARD]))

    for item in document.definitions:
        if item.kind not in CORE_HEADINGS:
            continue
        kind = 3 + CORE_HEADINGS.index(item.kind)
        card(kind, item, getattr(item, 'name', None))
        if kind == 3:
            continue
        for name in getattr(item, 'interfaces', None) or ():
            card(21, name, name)
        for use in item.directives or ():
            card(20, use, use.name)
        for field in getattr(item, 'fields', None) or ():
            type_name = field.type
            while hasattr(type_name, 'type'):
                type_name = type_name.type
            card(25 if kind in (10, 17) else 22, field, field.name, type_name.name)
        for member in getattr(item, 'types', None) or ():
            card(23, member, member)
        for value in getattr(item, 'values', None) or ():
            card(24, value, value.name)
        for root in getattr(item, 'operation_types', None) or ():
            card(ROOTS[f'`{root.operation.value}`'], root, root.type)
    return cards
