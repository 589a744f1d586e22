#!/usr/bin/env python3
"""Writes the texts whose reading is measured: bench/make_texts.py FOLDER makes FOLDER/schema.txt, strings.txt, values.txt and letters.txt, each of 65,536
bytes.

schema has the shape of a service's schema: described types with fields, arguments, uses, enums, inputs and unions. strings is little but descriptions and
comments, values little but values of up to 32 levels. letters has members of one letter, so many that it is refused with 25 when all of it was read; the
others are accepted."""
import os
import sys

# The harness's loader does the rest.
sys.path[0] = os.path.join(os.path.dirname(os.path.abspath(__file__)), '..', 'harness', 'run')
import loader
from lib.reader.reading import parsed
from lib.sizes import LEVELS, TEXT


def filled(pieces):
    """Pieces, numbered, as many as there is room for; a comment fills the rest."""
    made, number = '', 0
    while len((made + pieces(number)).encode()) < TEXT - 1:
        made += pieces(number)
        number += 1
    return made + '#' * (TEXT - len(made.encode()))


def schema(number):
    return f'''"""
A customer's order number {number}, as the warehouse keeps it.
"""
type Order{number} implements Node & Timestamped @key(fields: "id") {{
  "The identifier."
  id: ID!
  createdAt: DateTime!
  """
  The lines of the order, a page of them at a time.
  """
  lines(first: Int = 20, after: String, orderBy: LineOrder = {{field: CREATED_AT, direction: DESC}}): OrderLineConnection!
  customer: Customer
  tags: [String!]! @deprecated(reason: "Use `labels` instead.")
  totalPrice(currency: CurrencyCode! = EUR): Money!
}}

"Where an order can stand."
enum OrderState{number} {{
  OPEN
  "On its way to the customer."
  SHIPPED
  RETURNED @deprecated
}}

input OrderInput{number} {{
  customerId: ID!
  note: String = "none"
  lineIds: [ID!]! = []
}}

union SearchResult{number} = Customer | Order{number} | Product

extend type Query {{
  order{number}(id: ID!): Order{number}
}}

'''


COMMENT = 'what is said in a comment, with an é and a € in it; ' * 4
LINE = 'A long description, "quoted" and \\"""escaped\\""", over several lines. ' * 6
INDENTED = 'Its second line is indented, and has a ‘quotation’ of its own. ' * 3
ADDRESS = 'https://example.org/a/path\\u00e9\\n' * 3


def strings(number):
    return f'''# Number {number}: {COMMENT}
"""
{LINE}
  {INDENTED}
"""
scalar S{number} @specifiedBy(url: "{ADDRESS}") # {COMMENT}
'''


def values(number):
    depth = LEVELS - number % 8
    lists = '[' * depth + f'{number}, -1.5e3, "s", null' + ']' * depth
    objects = '{a: ' * depth + 'VALUE' + '}' * depth
    mixed = '[{b: ' * (LEVELS // 2) + 'true' + '}]' * (LEVELS // 2)
    return f'input I{number} {{ a: [[[[T!]!]!]!]! = {lists} b: T = {objects} c: T = {mixed} }}\n'


def letters():
    text = 'enum E{' + 'a ' * TEXT
    return text[:TEXT - 1] + '}'


def main(folder):
    os.makedirs(folder, exist_ok=True)
    for name, text in (('schema', filled(schema)), ('strings', filled(strings)), ('values', filled(values)), ('letters', letters())):
        data = text.encode()
        assert len(data) == TEXT, name
        with open(os.path.join(folder, f'{name}.txt'), 'wb') as file:
            file.write(data)
        number, second, _ = parsed(data)
        print(f'{name}: {len(data)} bytes, answer {number} {second}')


if len(sys.argv) != 2:
    sys.exit(__doc__)
main(sys.argv[1])
