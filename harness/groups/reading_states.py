"""`parse` in every state of the grammar: each production, and behind each beginning of a text that another state stands behind, the end and every sort of
token. What comes is the reader's word; that the states are all of them rests on the productions alone."""
import functools

from lib.reader.reading import OCTOBER
from lib.texts import FIRST, productions

GRAMMAR, MACHINE = OCTOBER.grammar, OCTOBER.machine
CLASSES = {'Name': 'a', 'NameButLiterals': 'a', 'IntValue': '1', 'FloatValue': '1.5', 'StringValue': '"s"'}
# One token of each sort that the grammar tells apart, and something unreadable.
TOKENS = ['a', '1', '"s"', 'type', 'schema', 'extend', 'implements', 'query', 'on', 'true', 'FIELD'] + list('!$&():=@[]{|}') + ['%']
# What a beginning goes on with; one location stands for all, and one number for all values of one token.
NEXT = ['a', '1', '"s"', 'schema', 'scalar', 'type', 'interface', 'union', 'enum', 'input', 'directive', 'extend', 'implements', 'query', 'mutation',
        'subscription',
        'on', 'repeatable', 'FIELD'] + list('!$&():=@[]{|}')
MOST_OPEN = 2
STATES_A_CASE = 25


def spelled(symbol):
    return CLASSES.get(symbol) or symbol[1:-1]


def shortest_texts():
    """For each symbol the shortest tokens that it derives."""
    texts = {}
    is_changed = True
    while is_changed:
        is_changed = False
        for head, alternatives in GRAMMAR.alternatives.items():
            for symbols, _ in alternatives:
                if all(symbol in texts or symbol not in GRAMMAR.alternatives for symbol in symbols):
                    made = [token for symbol in symbols for token in texts.get(symbol) or [spelled(symbol)]]
                    if head not in texts or len(made) < len(texts[head]):
                        texts[head], is_changed = made, True
    return texts


def contexts(texts):
    """For each symbol the tokens that stand around it in a shortest text."""
    around, waiting = {FIRST: ([], [])}, [FIRST]
    while waiting:
        head = waiting.pop(0)
        before, behind = around[head]
        for symbols, _ in GRAMMAR.alternatives[head]:
            pieces = [texts.get(symbol) or [spelled(symbol)] for symbol in symbols]
            for at, symbol in enumerate(symbols):
                if symbol in GRAMMAR.alternatives and symbol not in around:
                    around[symbol] = before + sum(pieces[:at], []), sum(pieces[at + 1:], []) + behind
                    waiting.append(symbol)
    return around


def each_production(new):
    texts = shortest_texts()
    around = contexts(texts)
    case, count = None, 0
    for head, at in sorted(productions()):
        if count % 60 == 0:
            case = new(f'parse: productions from {head} on')
        count += 1
        symbols, _ = GRAMMAR.alternatives[head][at]
        before, behind = around[head]
        inside = [token for symbol in symbols for token in texts.get(symbol) or [spelled(symbol)]]
        case.note(f'# {head} : {" ".join(symbols)}')
        text = ' '.join(before + inside + behind)
        case.parse(text)
        case.parse(f'{text} scalar A')


def lexed(tokens):
    return [terminal for terminal, _, _ in OCTOBER.lexer.lexed(' '.join(tokens).encode())[0]]


@functools.cache
def following(tokens):
    """Which tokens may come next, or None where these themselves may not come."""
    terminals = lexed(tokens)
    if MACHINE.read(terminals)[0] < len(terminals):
        return None
    return frozenset(token for token in NEXT if MACHINE.read(terminals + lexed([token]))[0] > len(terminals))


def unclosed(tokens):
    """Where the brackets that are open were opened."""
    places = []
    for at, token in enumerate(tokens):
        if token in '([{':
            places.append(at)
        elif token in ')]}':
            places.pop()
    return places


def state_of(tokens):
    """What tells a beginning from another: the states right behind its last token, what may follow, and the same in front of each open bracket. None for no
    beginning, and for one with too many brackets."""
    if following(tokens) is None or len(unclosed(tokens)) > MOST_OPEN:
        return None
    return MACHINE.read(lexed(tokens))[2], following(tokens), tuple(following(tokens[:at]) for at in unclosed(tokens))


def beginnings():
    """A shortest beginning for each state, found by going on from each with every token."""
    found, waiting = {}, [()]
    while waiting:
        tokens = waiting.pop(0)
        state = state_of(tokens)
        if state is None or state in found:
            continue
        found[state] = tokens
        waiting += [tokens + (token,) for token in NEXT]
    return list(found.values())


def each_state(new):
    case = None
    for number, tokens in enumerate(beginnings()):
        if number % STATES_A_CASE == 0:
            case = new(f'parse: what may follow, states from {number} on')
        text = ' '.join(tokens)
        case.note(f'# behind {text or "nothing"}')
        case.parse(text)
        for token in TOKENS:
            case.parse(f'{text} {token}')


def make(new):
    each_production(new)
    each_state(new)
