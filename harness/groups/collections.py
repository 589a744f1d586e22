"""Collections that the generator makes from a stated seed, with lookups; and the type language's own introspection types as document 0."""
import tempfile

import loader
from lib import folders, generator
from lib.cards import in_words
from lib.case import Case, spread
from lib.sizes import ADOPT, IGNORE, in_rows

SEED = 20240501
INTROSPECTION = folders.read(loader.INTROSPECTION)


def generated(case, number, mode):
    """The files of one random folder: documents, before which of them each switch is turned on, questions."""
    with tempfile.TemporaryDirectory() as folder:
        generator.make(SEED, number, folder, mode)
        documents = [case.lent_doc(text, in_words(data)) for text, data in folders.documents(folder)]
        return documents, folders.switch_turns(folder), folders.questions(folder)


def filed(case, documents, turns):
    """Files as the listing program does, but goes on after a refusal. Whether document 0 was opened."""
    if case.open(documents[0], None) != (0, 0):
        return False
    for held, document in enumerate(documents[1:] + [None], 1):
        for switch in (ADOPT, IGNORE):
            if turns.get(switch) == held:
                case.turn_on(switch, (0, 0))
        if document is not None:
            case.add(document, None)
    return True


def asked(case, questions):
    for question in questions:
        word, *names = question.split(b' ')
        if word == b'field':
            case.field(*names)
        elif word == b'subtype':
            case.subtype(*names)


def all_pairs(case, most):
    """is_subtype over pairs of all names that the rows have, types, interfaces and members."""
    rows = in_rows(case.lent_rows())
    names = list(dict.fromkeys(case.held.name(card) for what, card, _ in rows if 5 <= what <= 10 or what in (21, 23)))
    for general, other in spread([(general, other) for general in names for other in names], most):
        case.subtype(general, other)


def collection(new, number, mode, looks, pairs):
    case = new(f'random collection {number} ({mode}, seed {SEED})')
    documents, turns, questions = generated(case, number, mode)
    if not filed(case, documents, turns):
        case.lend_rows(0)
        return case.one_refuses(22)
    case.build()
    case.tallies()
    case.look(looks)
    asked(case, questions)
    all_pairs(case, pairs)
    return case


def introspection(new):
    drawn = lambda case, *texts, switches='00': (case.file(INTROSPECTION, *texts, switches=switches), case.build(), case.tallies())
    case = new('introspection types alone, every field')
    drawn(case)
    case.look(120)
    case = new('introspection types with a schema of three roots')
    drawn(case,
          'schema{query:Q mutation:M subscription:S}type Q{me:User node(id:ID!):Node}type M{a:Int}type S{a:Int}',
          'interface Node{id:ID!}type User implements Node{id:ID! name:String}union Any=User|Q')
    case.look(30)
    case = new('introspection types with default roots')
    drawn(case, 'type Query{a:Int}type Mutation{a:Int}', 'extend type Query{b:Int}')
    case.look(30)
    again = 'scalar String scalar Int type __Type{name:String}enum __TypeKind{A}scalar __Schema type Boolean{a:Int}'
    for switches in ('00', '01', '11'):
        case = new(f'introspection types defined again, switches {switches}')
        drawn(case, again, again, switches=switches)
        case.look(10)
    case = new('introspection types extended')
    drawn(case,
          'extend type __Type{name:String extra:Int}extend enum __TypeKind{SCALAR MORE}extend scalar Int@skip extend type __Schema implements __Type',
          'extend union __Field=A')
    case.look(20)
    case = new('built-in directives replaced')
    drawn(case, 'directive@include(if:Boolean!)on FIELD directive@mine on FIELD', 'directive@skip on FIELD directive@include on FIELD',
          'directive@specifiedBy on SCALAR directive@mine on FIELD')
    case.look(4)
    case = new('introspection types as document 1, or twice')
    case.file('', INTROSPECTION)
    case.build()
    case.add(case.doc(INTROSPECTION))
    case.build()
    case.ignore()
    case.add(case.doc(INTROSPECTION))
    case.build()
    case.tallies()
    case.file(INTROSPECTION, INTROSPECTION)
    case.build()
    case.tallies()
    case.ignore()
    case.add(case.doc(INTROSPECTION))
    case.build()
    case.tallies()
    case.look(10)


def size(number, mode):
    """How many bytes a random folder's documents have."""
    scratch = Case('')
    generated(scratch, number, mode)
    return sum(len(text) + 4 * len(words) for text, words in scratch.documents)


def make(new):
    introspection(new)
    for number in range(40):
        collection(new, number, 'small', 10, 20)
    for number in range(12):
        collection(new, number, 'turns', 6, 10)
    # Those that fill the store to a limit are left out: the limits have cases of their own.
    for number in [number for number in range(30) if size(number, 'damaged') < 20000][:20]:
        collection(new, number, 'damaged', 6, 6)
    for number in range(3):
        collection(new, number, 'large', 30, 40)
