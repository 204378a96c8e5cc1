#!/usr/bin/env python3
"""A second driver, written from document 01, and the cases of the program drive_replay.

    driver_cases.py write SEED COUNT DIR          the cases as DIR/stdin, what the program prints of them as DIR/stdout
    driver_cases.py try SEED COUNT RUNS PROGRAM   RUNS lists of COUNT cases, from SEED on, each held to what PROGRAM prints

The same seed and count give the same cases. The stored ones of crates/drive_replay are those of `write 1 2600`.

A list of cases is four bytes, the number of bytes that the cases share; these bytes; the cases. A case is fifteen numbers of four bytes,
little-endian, and then a byte for each cell that was put: those of the stack, and those of the list.

    0, 1   where among the shared bytes the grammar begins, and its length      8, 9    stack room, list room
    2, 3   the same of the table                                               10, 11  number of the answer (0: accepted), its place
    4, 5   the same of the tokens                                              12, 13  steps, list length
    6, 7   the step limit, its low and its high half                           14      cells of the stack that were put

Before a call cell i of stack and list is 40,000 + i, so that a cell that was not put is told from every state and production.
"""
import collections
import os
import random
import struct
import subprocess
import sys
import tempfile

from grammar_reader import NONTERMINAL, RECORD, TERMINAL, answer, coded, number, productions_of, record

SHIFT, GOTO, REDUCE = 0, 1, 2
STATES = 128
ROOM = 1024
NEVER_MET = 2 ** 64 - 1
UNTOUCHED = 40000


# ---- the driver of document 01

class Coded:
    """What a driver needs of a coded grammar."""

    def __init__(self, data):
        self.productions, _ = productions_of(data)
        rights = [symbol for _, right in self.productions for symbol in right]
        self.terminals = max([s for kind, s in rights if kind == TERMINAL], default=-1) + 1
        self.nonterminals = max([s for kind, s in rights if kind == NONTERMINAL] + [left for left, _ in self.productions]) + 1


def table_records(data):
    """State, kind, byte 3, symbol, target of each record."""
    ats = range(0, len(data), RECORD)
    return [(number(data, at), data[at + 2], data[at + 3], number(data, at + 4), number(data, at + 6)) for at in ats]


def record_fault(grammar, records, shifts, place):
    state, kind, zero, symbol, target = records[place]
    if zero != 0 or kind > REDUCE or state > STATES - 1:
        return True
    if symbol > {SHIFT: grammar.terminals - 1, GOTO: grammar.nonterminals - 1, REDUCE: grammar.terminals}[kind]:
        return True
    if target > (len(grammar.productions) - 1 if kind == REDUCE else STATES - 1):
        return True
    if place > 0:
        before = records[place - 1]
        if (before[0], before[1], before[3]) >= (state, kind, symbol):
            return True
    return kind == REDUCE and (state, symbol) in shifts


def table_fault(grammar, data):
    """The place of refusal 15, or None."""
    if len(data) % RECORD != 0:
        return 0
    records = table_records(data)
    shifts = {(state, symbol) for state, kind, _, symbol, _ in records if kind == SHIFT}
    return next((place for place in range(len(records)) if record_fault(grammar, records, shifts, place)), None)


class Run:
    """A run: the states on the stack, the productions on the list, and every cell that was put."""

    def __init__(self, grammar, table, tokens, limit, stack_room, list_room):
        self.grammar, self.tokens, self.limit = grammar, tokens, limit
        self.stack_room, self.list_room = stack_room, list_room
        self.shift, self.goto, self.reduce = {}, {}, {}
        for state, kind, _, symbol, target in table_records(table):
            (self.shift, self.goto, self.reduce)[kind][state, symbol] = target
        self.states, self.cells, self.list = [], [], []
        self.place = self.steps = 0

    def put_state(self, state):
        self.cells[len(self.states):len(self.states) + 1] = [state]
        self.states.append(state)

    def move(self):
        """One move: the number with which the run ends, 0 for acceptance, or None where it goes on."""
        at_end = self.place == len(self.tokens)
        token = self.grammar.terminals if at_end else self.tokens[self.place]
        where = (self.states[-1], token)
        if where not in self.shift and where not in self.reduce:
            return 17
        if self.steps >= self.limit:
            return 21
        if where in self.shift:
            if len(self.states) == self.stack_room:
                return 20
            self.put_state(self.shift[where])
            self.place += 1
            self.steps += 1
            return None
        return self.reduction(self.reduce[where], at_end)

    def reduction(self, production, at_end):
        left, right = self.grammar.productions[production]
        left_over = len(self.states) - len(right)
        if left_over < 1:
            return 18
        if production == 0:
            if not at_end or left_over > 1:
                return 18
        elif (self.states[left_over - 1], left) not in self.goto:
            return 18
        if len(self.list) == self.list_room:
            return 19
        if production != 0 and left_over == self.stack_room:
            return 20
        self.list.append(production)
        self.steps += 1
        del self.states[left_over:]
        if production == 0:
            return 0
        self.put_state(self.goto[self.states[-1], left])
        return None

    def whole(self):
        if self.stack_room == 0:
            return 20
        self.put_state(0)
        end = None
        while end is None:
            end = self.move()
        return end


# what a call leaves: the answer's number (0: accepted), its place, steps, the cells of the stack that were put, those of the list
Left = collections.namedtuple("Left", "number place steps stack list")


def drive(data, table, tokens, limit, stack_room, list_room):
    refusal = answer(data)
    if refusal:
        return Left(*refusal, 0, [], [])
    grammar = Coded(data)
    place = table_fault(grammar, table)
    if place is not None:
        return Left(15, place, 0, [], [])
    for place, token in enumerate(tokens):
        if token >= grammar.terminals:
            return Left(16, place, 0, [], [])
    run = Run(grammar, table, tokens, limit, stack_room, list_room)
    end = run.whole()
    return Left(end, run.place, run.steps, run.cells, run.list)


# ---- tables: Knuth's, with the lookahead in the items; a shift is kept where a reduction stands against it

def first_sets(productions):
    """For each nonterminal the terminals that begin it, and None if it derives the empty string."""
    firsts = collections.defaultdict(set)
    grown = True
    while grown:
        grown = False
        for left, right in productions:
            more = first_of(firsts, right, {None})
            grown |= not more <= firsts[left]
            firsts[left] |= more
    return firsts


def first_of(firsts, symbols, behind):
    found = set()
    for kind, symbol in symbols:
        if kind == TERMINAL:
            return found | {symbol}
        found |= firsts[symbol] - {None}
        if None not in firsts[symbol]:
            return found
    return found | behind


def closed(productions, firsts, kernel):
    """All items (production, dot, token) that the items of the kernel lead to."""
    items, left_over = set(kernel), list(kernel)
    while left_over:
        production, dot, token = left_over.pop()
        right = productions[production][1]
        if dot == len(right) or right[dot][0] == TERMINAL:
            continue
        for ahead in first_of(firsts, right[dot + 1:], {token}):
            for other, (left, _) in enumerate(productions):
                item = (other, 0, ahead)
                if left == right[dot][1] and item not in items:
                    items.add(item)
                    left_over.append(item)
    return items


def table_of(data):
    """The records of Knuth's table as tuples, or None if it has more than 128 states."""
    grammar = Coded(data)
    productions, eof = grammar.productions, grammar.terminals
    firsts = first_sets(productions)
    kernels = [frozenset({(0, 0, eof)})]
    numbers = {kernels[0]: 0}
    records = {}
    for state, kernel in enumerate(kernels):
        over = collections.defaultdict(set)
        for production, dot, token in closed(productions, firsts, kernel):
            right = productions[production][1]
            if dot < len(right):
                over[right[dot]].add((production, dot + 1, token))
            else:
                records.setdefault((state, REDUCE, token), production)
        for kind, symbol in sorted(over):
            moved = frozenset(over[kind, symbol])
            if moved not in numbers:
                if len(kernels) == STATES:
                    return None
                numbers[moved] = len(kernels)
                kernels.append(moved)
            records[state, SHIFT if kind == TERMINAL else GOTO, symbol] = numbers[moved]
    return [(*key, target) for key, target in sorted(records.items()) if key[1] != REDUCE or (key[0], SHIFT, key[2]) not in records]


def table_bytes(records):
    return b"".join(struct.pack("<HBBHH", state, kind, 0, symbol, target) for state, kind, symbol, target in records)


# ---- grammars and tokens

def grammar_at_random(dice):
    """A coded grammar: every nonterminal has a production of earlier terminals only, so that it derives a string."""
    names = dice.randint(1, 6)
    letters = dice.randint(1, 5)
    productions = [(0, *[symbol_at_random(dice, names, letters) for _ in range(dice.choice([1, 1, 1, 2, 3]))])]
    for name in range(1, names + 1):
        productions.append((name, *[(dice.randrange(letters),) for _ in range(dice.choice([0, 1, 1, 2]))]))
        for _ in range(dice.choice([0, 1, 1, 2, 3])):
            productions.append((name, *[symbol_at_random(dice, names, letters) for _ in range(dice.choice([0, 1, 2, 2, 3, 4]))]))
    return coded(productions[0], *dice.sample(productions[1:], len(productions) - 1))


def symbol_at_random(dice, names, letters):
    return dice.randint(1, names) if dice.random() < 0.5 else (dice.randrange(letters),)


def big_grammar(dice):
    """Many terminals and long right sides: a list of words, each begun by its own terminal."""
    words = [(2, (t,), *[(dice.randrange(40, 62),) for _ in range(dice.randint(0, 2))]) for t in range(dice.randint(5, 20))]
    longest = (2, (61,), *[(dice.randrange(40, 62),) for _ in range(15)])
    return coded((0, 1), (1, 1, 2), (1,), *words, longest)


def many_words():
    """Words of three tokens, each begun by its own: a table of some thousand records."""
    return coded((0, 1), (1, 1, 2), (1, 2), *[(2, (t,), (t + 1,), (t,)) for t in range(40)])


def sentence(dice, grammar, depth=6, most=60):
    """Tokens that the grammar's start derives, if they come out short enough; else cut."""
    shortest = {}
    while len(shortest) < grammar.nonterminals:
        for left, right in grammar.productions:
            if left not in shortest and all(kind == TERMINAL or symbol in shortest for kind, symbol in right):
                shortest[left] = right
    tokens, waiting = [], [(NONTERMINAL, grammar.productions[0][0], 0)]
    while waiting and len(tokens) < most:
        kind, symbol, level = waiting.pop()
        if kind == TERMINAL:
            tokens.append(symbol)
            continue
        rights = [right for left, right in grammar.productions if left == symbol]
        right = dice.choice(rights) if level < depth else shortest[symbol]
        waiting.extend((k, s, level + 1) for k, s in reversed(right))
    return tokens


def tokens_at_random(dice, grammar):
    way = dice.random()
    if way < 0.05 or grammar.terminals == 0:
        return []
    if way < 0.15:
        return [dice.randrange(grammar.terminals) for _ in range(dice.randint(1, 12))]
    tokens = sentence(dice, grammar, dice.randint(2, 9))
    if way < 0.55:
        return tokens
    at = dice.randint(0, len(tokens))
    wrong = [] if way < 0.7 else [dice.randrange(grammar.terminals)]
    return tokens[:at] + wrong + tokens[at + dice.randint(0, 1):]


# ---- damages

def changed(records, at, **fields):
    """Table bytes with some bytes of one record changed; a field is a byte's place in the record, b0 to b7."""
    data = bytearray(table_bytes(records))
    for name, value in fields.items():
        data[RECORD * at + int(name[1:])] = value
    return bytes(data)


def wide(name, value):
    low = int(name[1:])
    return {f"b{low}": value % 256, f"b{low + 1}": value // 256}


def damaged_table(dice, grammar, records):
    """A table with one fault of refusal 15, as a rule; a damage may turn out to be none."""
    n, m, count = grammar.terminals, grammar.nonterminals, len(grammar.productions)
    at = dice.randrange(len(records))
    state, kind, symbol, target = records[at]
    too_high = {SHIFT: n, GOTO: m, REDUCE: n + 1}[kind]
    ways = [
        lambda: table_bytes(records)[:-dice.randint(1, 7)],
        lambda: table_bytes(records) + bytes(dice.randint(1, 7)),
        lambda: changed(records, at, b3=dice.choice([1, 2, 128, 255])),
        lambda: changed(records, at, b2=dice.choice([3, 4, 255])),
        lambda: changed(records, len(records) - 1, **wide("b0", dice.choice([128, 129, 256, 65535]))),
        lambda: changed(records, at, **wide("b0", dice.choice([127, 128, 256, 65535]))),
        lambda: changed(records, at, **wide("b4", dice.choice([too_high, too_high + 1, 256, 65535]))),
        lambda: changed(records, at, **wide("b4", too_high - 1)),
        lambda: changed(records, at, **wide("b6", dice.choice([count, count + 1, 256, 65535]) if kind == REDUCE else dice.choice([128, 256, 65535]))),
        lambda: changed(records, at, **wide("b6", count - 1 if kind == REDUCE else 127)),
        lambda: table_bytes(records[:at] + [records[at]] + records[at:]),
        lambda: table_bytes(dice.sample(records, len(records))),
        lambda: table_bytes(records[:at] + records[at + 1:] + [records[at]]),
        lambda: table_bytes(shifted_too(dice, records, n)),
        lambda: shifted_behind(dice, records),
        lambda: changed(records, at, **{f"b{dice.randrange(8)}": dice.randrange(256)}),
    ]
    data = dice.choice(ways)()
    if dice.random() < 0.2 and len(data) >= RECORD:
        byte = dice.randrange(len(data))
        data = data[:byte] + bytes([dice.randrange(256)]) + data[byte + 1:]
    return data


def shifted_too(dice, records, n):
    """A shift is added where a reduction stands, in its order."""
    reductions = [r for r in records if r[1] == REDUCE and r[2] < n]
    if not reductions:
        return records
    state, _, symbol, _ = dice.choice(reductions)
    return sorted(records + [(state, SHIFT, symbol, dice.randrange(STATES))])


def shifted_behind(dice, records):
    """The same out of its order, behind all records, and perhaps with a fault of its own."""
    state, _, symbol, _ = dice.choice([r for r in records if r[1] == REDUCE] or records)
    return table_bytes(records + [(state, SHIFT, symbol, dice.choice([0, 127, 128]))])


def wrong_table(dice, grammar, records):
    """A table with no fault of 15, as a rule, that does not belong to the grammar: its runs may break or go on for ever."""
    records = list(records)
    n, way = grammar.terminals, dice.random()
    if way < 0.4:
        return table_bytes(ends_early(records, n))
    if way < 0.6:
        return table_bytes([(*r[:3], 0 if r[1:3] == (REDUCE, n) else r[3]) for r in records])
    for _ in range(dice.randint(1, 3)):
        at = dice.randrange(len(records))
        state, kind, symbol, target = records[at]
        way = dice.random()
        if way < 0.3 and len(records) > 1:
            del records[at]
        elif kind == REDUCE:
            records[at] = (state, kind, symbol, 0 if way < 0.5 else dice.randrange(len(grammar.productions)))
        else:
            known = dice.choice(records)[0]
            records[at] = (state, kind, symbol, known if way < 0.9 else dice.randrange(STATES))
    return table_bytes(records)


def ends_early(records, n):
    """Production 0 is reduced on every token that is not shifted, where it was on Eof alone."""
    ends = {state for state, kind, symbol, target in records if (kind, target) == (REDUCE, 0)}
    shifts = {(state, symbol) for state, kind, symbol, _ in records if kind == SHIFT}
    kept = [r for r in records if r[0] not in ends or r[1] != REDUCE]
    return sorted(kept + [(state, REDUCE, t, 0) for state in ends for t in range(n + 1) if (state, t) not in shifts])


def table_at_random(dice, grammar):
    """Any actions and gotos at a few states."""
    records = {}
    states = dice.randint(1, 4)
    for state in range(states):
        for token in range(grammar.terminals + 1):
            way = dice.random()
            if way < 0.45 and token < grammar.terminals:
                records[state, SHIFT, token] = dice.randrange(states)
            elif way < 0.9:
                records[state, REDUCE, token] = dice.randrange(len(grammar.productions))
        for nonterminal in range(grammar.nonterminals):
            if dice.random() < 0.7:
                records[state, GOTO, nonterminal] = dice.randrange(states)
    return table_bytes([(*key, target) for key, target in sorted(records.items())])


def damaged_grammar(dice, data):
    way = dice.random()
    if way < 0.1:
        return dice.choice([b"", data + bytes(4104 - len(data)), data[:-dice.randint(1, 7)], data + bytes(1)])
    if way < 0.25:
        return without_strings(dice)
    if way < 0.4:
        return start_again(dice, data)
    at = dice.randrange(len(data))
    return data[:at] + bytes([dice.choice([0, 1, 2, 62, 64, dice.randrange(256)])]) + data[at + 1:]


def without_strings(dice):
    """Nonterminal 0, 2 or a later one derives no string, or has no production."""
    last = dice.randint(2, 5)
    loop = dice.randint(1, last)
    skipped = dice.choice([None, dice.randint(1, last)])
    rest = [(name, (0,), name) if name == loop else (name, (name % 3,)) for name in range(1, last + 1) if name != skipped]
    return coded((0, *range(1, last + 1)), *rest)


def start_again(dice, data):
    """One more production that has the start on its left or on its right."""
    productions, _ = productions_of(data)
    start, last = productions[0][0], len(productions)
    left, right = dice.choice([(start, 0), (1, start), (start, start)])
    return data + record(last, 0, NONTERMINAL, left) + record(last, 1, NONTERMINAL, right)


# ---- cases

Case = collections.namedtuple("Case", "grammar table tokens limit stack_room list_room")


def around(dice, wanted, ample):
    """As much as is wanted, one less, one more, none, or less."""
    return max(0, min(ample, dice.choice([wanted, wanted, wanted - 1, wanted - 1, wanted + 1, 0, dice.randint(0, wanted)])))


def rooms_and_limit(dice, data, table, tokens):
    """A case whose rooms and limit are ample, or one or all of them about what the run takes with ample ones."""
    ample = dice.choice([24, 40, 40, 64, 80])
    left = drive(data, table, tokens, NEVER_MET, ample, ample)
    tight = dice.choice([(), (), (), (0,), (1,), (2,), (0, 1, 2)])
    wanted = [(left.steps, NEVER_MET), (len(left.stack), ample), (len(left.list), ample)]
    return Case(data, table, tokens, *[around(dice, *pair) if k in tight else pair[1] for k, pair in enumerate(wanted)])


def cases_of(dice, data):
    """Cases that share a grammar: good, damaged and wrong tables."""
    grammar = Coded(data)
    records = table_of(data)
    if not records:
        return
    good = table_bytes(records)
    for _ in range(12):
        yield rooms_and_limit(dice, data, good, tokens_at_random(dice, grammar))
    for _ in range(3):
        table = dice.choice([wrong_table(dice, grammar, records), table_at_random(dice, grammar)])
        for _ in range(3):
            yield rooms_and_limit(dice, data, table, tokens_at_random(dice, grammar))
    for _ in range(6 if len(good) < 2000 else 1):
        yield rooms_and_limit(dice, data, damaged_table(dice, grammar, records), tokens_at_random(dice, grammar))
    tokens = tokens_at_random(dice, grammar)
    at = dice.randint(0, len(tokens))
    wrong = dice.choice([grammar.terminals, grammar.terminals + 1, 255])
    yield Case(data, good, tokens[:at] + [wrong] + tokens[at:], 9, 9, 9)
    for _ in range(4):
        yield Case(damaged_grammar(dice, data), dice.choice([good, b""]), tokens, 9, dice.randint(0, 9), dice.randint(0, 9))
    yield rooms_and_limit(dice, data, b"", tokens)


def fixed_cases():
    """Document 01's examples 2 to 6, runs over many tokens in the largest rooms, and a table of many records, good and damaged."""
    a = (0,)
    first, second = coded((0, 1), (1, a)), bytes(RECORD)
    table = table_bytes(table_of(first))
    for tokens, limit, stack_room, list_room in [([0], 9, 4, 4), ([], 9, 4, 4), ([0, 0], 9, 4, 4), ([0], 2, 4, 4), ([0], 9, 1, 4), ([0], 9, 4, 1)]:
        yield Case(first, table, tokens, limit, stack_room, list_room)
    yield Case(second, table_bytes([(0, REDUCE, 0, 0)]), [], 1, 1, 1)
    letters = coded((0, 1), (1, 1, a), (1,))
    deep = coded((0, 1), (1, a, 1), (1,))
    for data in (letters, deep):
        for tokens in (ROOM - 3, ROOM - 2, ROOM - 1):
            yield Case(data, table_bytes(table_of(data)), [0] * tokens, NEVER_MET, ROOM, ROOM)
    words, records = many_words(), table_of(many_words())
    reduction = next(r for r in records if r[1] == REDUCE)
    shift_behind = table_bytes(records + [(reduction[0], SHIFT, reduction[2], 0)])
    tokens = [t for k in range(120) for t in (k % 40, k % 40 + 1, k % 40)]
    for table in (table_bytes(records), changed(records, len(records) - 1, b3=1), shift_behind):
        yield Case(words, table, tokens, NEVER_MET, ROOM, ROOM)


def cases(seed, count):
    dice = random.Random(seed)
    made = list(fixed_cases())
    grammars = 0
    while len(made) < count:
        grammars += 1
        data = big_grammar(dice) if grammars % 30 == 0 else grammar_at_random(dice)
        if answer(data) is None:
            made.extend(cases_of(dice, data))
    return made[:count]


# ---- the stored list

class Shared:
    """Bytes that cases share, each list of them once."""

    def __init__(self):
        self.data, self.places = bytearray(), {}

    def place(self, part):
        if part not in self.places:
            self.places[part] = len(self.data)
            self.data += part
        return self.places[part], len(part)


def stored(made):
    """The bytes of the list, and how many cases have which answer."""
    shared, listed, counts = Shared(), [], collections.Counter()
    for case in made:
        left = drive(*case)
        parts = [*shared.place(case.grammar), *shared.place(case.table), *shared.place(bytes(case.tokens))]
        limits = [case.limit % 2 ** 32, case.limit // 2 ** 32, case.stack_room, case.list_room]
        said = [left.number, 0 if left.number == 0 else left.place, left.steps, len(left.list), len(left.stack)]
        listed.append(struct.pack("<15I", *parts, *limits, *said) + bytes(left.stack) + bytes(left.list))
        counts[left.number] += 1
    return struct.pack("<I", len(shared.data)) + shared.data + b"".join(listed), counts


def printed(counts):
    """What the program prints where no case differs."""
    lines = [f"accepted: {counts[0]}"] + [f"refused {k}: {counts[k]}" for k in [3, 4, 5, 6, 7, 8, *range(15, 22)]]
    return "\n".join(lines) + f"\n{sum(counts.values())} cases, 0 differ\n"


def write(seed, count, folder):
    data, counts = stored(cases(seed, count))
    with open(f"{folder}/stdin", "wb") as file:
        file.write(data)
    with open(f"{folder}/stdout", "w") as file:
        file.write(printed(counts))


def try_program(seed, count, runs, program):
    """Runs the program on many lists and adds up their answers."""
    total, differing = collections.Counter(), 0
    for k in range(runs):
        data, counts = stored(cases(seed + k, count))
        with tempfile.TemporaryFile() as file:
            file.write(data)
            file.seek(0)
            wrote = subprocess.run([program], stdin=file, stdout=subprocess.PIPE, check=True).stdout.decode()
        if wrote != printed(counts):
            differing += 1
            print(f"seed {seed + k}:\n{wrote}", end="")
        total += counts
    print(printed(total).rsplit("\n", 2)[0])
    print(f"{sum(total.values())} cases in {runs} lists, {differing} lists differ")


if __name__ == "__main__":
    if len(sys.argv) == 5 and sys.argv[1] == "write":
        write(int(sys.argv[2]), int(sys.argv[3]), sys.argv[4])
    elif len(sys.argv) == 6 and sys.argv[1] == "try":
        try_program(int(sys.argv[2]), int(sys.argv[3]), int(sys.argv[4]), os.path.abspath(sys.argv[5]))
    else:
        sys.exit(__doc__)
