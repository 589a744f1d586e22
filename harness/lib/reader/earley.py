"""A recogniser for any grammar in which nothing is empty, after Earley; sets of items with one origin are made once and kept, as Aycock and Horspool do
(Practical Earley Parsing, 2002)."""
from lib.reader.grammar import accepts

BRACE = '`{`'


class State:
    """Items with one origin. An item is a head, its alternative and how much of it is read."""

    def __init__(self, machine, items):
        self.machine, self.items = machine, items
        self.moves = {}
        ended = [(head, symbols, is_restricted) for head, symbols, is_restricted, dot in items if dot == len(symbols)]
        self.completed = tuple(dict.fromkeys(head for head, _, _ in ended))
        self.completed_before_brace = tuple(dict.fromkeys(head for head, _, is_restricted in ended if not is_restricted))
        self.predicted = None

    def predict(self):
        """The state of what can begin here, or None."""
        grammar, found = self.machine.grammar, {}
        waiting = [symbols[dot] for _, symbols, _, dot in self.items if dot < len(symbols)]
        while waiting:
            head = waiting.pop()
            if head in found or head not in grammar.alternatives:
                continue
            found[head] = [(head, symbols, is_restricted, 0) for symbols, is_restricted in grammar.alternatives[head]]
            waiting += [symbols[0] for _, symbols, _, _ in found[head]]
        items = frozenset(item for all_of in found.values() for item in all_of)
        return self.machine.state(items) if items else None

    def after(self, symbol):
        """The state behind a head or a token, or None; reached once, it is in `moves`."""
        is_head = symbol in self.machine.grammar.alternatives
        items = frozenset((head, symbols, is_restricted, dot + 1) for head, symbols, is_restricted, dot in self.items if dot < len(symbols)
                          and (symbols[dot] == symbol if is_head else accepts(symbols[dot], symbol)))
        self.moves[symbol] = self.machine.state(items) if items else None
        return self.moves[symbol]


class Machine:
    def __init__(self, grammar):
        self.grammar, self.states = grammar, {}
        self.first = self.state(frozenset([('', (grammar.start,), False, 0)]))

    def state(self, items):
        if items not in self.states:
            self.states[items] = state = State(self, items)
            state.predicted = state.predict()
        return self.states[items]

    def read(self, terminals):
        """How many tokens can be read, each beginning being one of a sentence; for each place what was completed there, with its starts; and the states
        that the last token leads to."""
        sets, ended = [], []
        following = [(self.first, 0), (self.first.predicted, 0)]
        for at in range(len(terminals) + 1):
            terminal = terminals[at] if at < len(terminals) else None
            current, following = following, []
            sets.append(current)
            entered = frozenset(state for state, _ in current) if terminal is None else None
            ended.append(self.complete(sets, current, at, terminal == BRACE))
            if terminal is None:
                break
            seen = set()
            for state, origin in current:
                behind = state.moves[terminal] if terminal in state.moves else state.after(terminal)
                if behind is not None:
                    add(following, seen, behind, origin, at + 1)
            if not following:
                return at, ended, None
        return len(terminals), ended, entered

    @staticmethod
    def complete(sets, current, at, is_brace):
        completed, seen = {}, set(current)
        for state, origin in current:
            for head in state.completed_before_brace if is_brace else state.completed:
                starts = completed.setdefault(head, [])
                if origin in starts:
                    continue
                starts.append(origin)
                for waiting, earlier in sets[origin]:
                    behind = waiting.moves[head] if head in waiting.moves else waiting.after(head)
                    if behind is not None:
                        add(current, seen, behind, earlier, at)
        return completed


def add(items, seen, state, origin, at):
    """Puts a state and what can begin behind it into a set."""
    for pair in ((state, origin), (state.predicted, at)):
        if pair[0] is not None and pair not in seen:
            seen.add(pair)
            items.append(pair)


class Tree:
    """The derivation of a sentence, from what was completed where. The grammar is unambiguous, so the first that is found is the only one."""

    def __init__(self, grammar, terminals, ended):
        self.grammar, self.terminals, self.ended = grammar, terminals, ended

    def inside(self, head, start, end):
        """The pieces of a head's stretch of tokens, each a symbol with its start and end."""
        for symbols, is_restricted in self.grammar.alternatives[head]:
            if is_restricted and end < len(self.terminals) and self.terminals[end] == BRACE:
                continue
            pieces = self.split(symbols, len(symbols), start, end)
            if pieces is not None:
                return pieces
        raise AssertionError(f'no derivation of {head}')

    def split(self, symbols, count, start, end):
        """The first so many symbols over a stretch, or None; the last one's start is looked for first."""
        if count == 0:
            return [] if start == end else None
        symbol = symbols[count - 1]
        for middle in self.starts(symbol, end):
            if middle >= start:
                pieces = self.split(symbols, count - 1, start, middle)
                if pieces is not None:
                    return pieces + [(symbol, middle, end)]
        return None

    def starts(self, symbol, end):
        if symbol in self.grammar.alternatives:
            return self.ended[end].get(symbol, ())
        return (end - 1,) if end > 0 and accepts(symbol, self.terminals[end - 1]) else ()

    def listed(self, symbol, start, end):
        """The members of a list X+."""
        members = []
        while True:
            pieces = self.inside(symbol, start, end)
            members.append(pieces[-1])
            if len(pieces) == 1:
                return members[::-1]
            end = pieces[0][2]
