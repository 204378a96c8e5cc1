#!/usr/bin/env python3
"""A second reader of coded grammars, written from document 01 alone, and the cases of the program grammar_limits.

    grammar_reader.py read HEX     the answer for one grammar
    grammar_reader.py write DIR    the cases as DIR/stdin and a line for each as DIR/stdout

A case is one byte, the length of its name; the name; two bytes, little-endian, the length of the grammar; the grammar. Its line is
the name, then `coded`, or `refused` with number and place.
"""
import sys

RECORD = 8
NONTERMINAL, TERMINAL = 0, 1


def number(data, at):
    return data[at] + 256 * data[at + 1]


def unusable(kind, zero, symbol):
    """Refusal 4."""
    return zero != 0 or kind > 1 or symbol > (61 if kind == TERMINAL else 63)


def misplaced(before, production, position, kind):
    """Refusal 5. `before` is the production and position of the record before, None at the first."""
    if before is None:
        expected = [(0, 0)]
    else:
        expected = [(before[0], before[1] + 1), (before[0] + 1, 0)]
    if (production, position) not in expected:
        return True
    return (position == 0 and kind != NONTERMINAL) or production > 127 or position > 16


def productions_of(data):
    """The left sides with their right sides, or the refusal of the first faulty record."""
    productions = []
    before = None
    for record in range(len(data) // RECORD):
        at = record * RECORD
        production, position, symbol = number(data, at), number(data, at + 2), number(data, at + 6)
        kind, zero = data[at + 4], data[at + 5]
        if unusable(kind, zero, symbol):
            return None, (4, record)
        if misplaced(before, production, position, kind):
            return None, (5, record)
        before = (production, position)
        if position == 0:
            productions.append((symbol, []))
        else:
            productions[-1][1].append((kind, symbol))
    return productions, None


def deriving(productions):
    """The nonterminals that derive a string of terminals."""
    found = set()
    grown = True
    while grown:
        grown = False
        for left, right in productions:
            if left not in found and all(kind == TERMINAL or symbol in found for kind, symbol in right):
                found.add(left)
                grown = True
    return found


def answer(data):
    """None for a coded grammar, else number and place of the refusal."""
    if len(data) == 0 or len(data) > 4096 or len(data) % RECORD != 0:
        return 3, 0
    productions, refusal = productions_of(data)
    if refusal:
        return refusal
    start = productions[0][0]
    for place, (left, right) in enumerate(productions):
        if (place > 0 and left == start) or (NONTERMINAL, start) in right:
            return 6, place
    named = {left for left, _ in productions}
    named |= {symbol for _, right in productions for kind, symbol in right if kind == NONTERMINAL}
    below = range(max(named) + 1)
    lefts = {left for left, _ in productions}
    for nonterminal in below:
        if nonterminal not in lefts:
            return 7, nonterminal
    found = deriving(productions)
    for nonterminal in below:
        if nonterminal not in found:
            return 8, nonterminal
    return None


# ---- the cases

def record(production, position, kind, symbol, zero=0):
    return bytes([production % 256, production // 256, position % 256, position // 256, kind, zero, symbol % 256, symbol // 256])


def coded(*productions):
    """The bytes of productions, each a left side and the symbols of its right side: a number for a nonterminal, (t,) for terminal t."""
    data = b""
    for place, (left, *right) in enumerate(productions):
        data += record(place, 0, NONTERMINAL, left)
        for position, symbol in enumerate(right, 1):
            if isinstance(symbol, tuple):
                data += record(place, position, TERMINAL, symbol[0])
            else:
                data += record(place, position, NONTERMINAL, symbol)
    return data


def chain(length):
    """Nonterminals 0 to length, each deriving the next and the last the empty string."""
    return coded(*[(a, a + 1) for a in range(length)], (length,))


def limits():
    a, b = (0,), (1,)
    full = coded((0, 1, a, a), *[(1, a, b, a)] * 127)
    yield "length 0", b""
    yield "length 8", bytes(8)
    yield "length 12", bytes(12)
    yield "length 4096", full
    yield "length 4104", full + record(127, 4, TERMINAL, 0)
    yield "terminal 61", coded((0, (61,)))
    yield "terminal 62", coded((0, (62,)))
    yield "nonterminal 63", chain(63)
    yield "nonterminal 64", chain(64)
    yield "position 16", coded((0, *[a] * 16))
    yield "position 17", coded((0, *[a] * 17))
    yield "production 127", coded((0, 1), *[(1,)] * 127)
    yield "production 128", coded((0, 1), *[(1,)] * 128)


def others():
    a = (0,)
    yield "example 1", coded((0, 1), (1, a))
    yield "example 10", coded((0, 1), (1, 1, a))
    yield "start on the right of production 0", coded((0, a, 0))
    yield "start on the right of production 2", coded((0, 1), (1, a), (1, 0))
    yield "start on the left of production 1", coded((0, 1), (0, a), (1, a))
    yield "start is nonterminal 1", coded((1, 0), (0, a), (0, 1))
    yield "terminal of the start's number", coded((0, a, a))
    yield "nonterminal 1 without production", coded((0, 2), (2, a))
    yield "nonterminal 0 without production", coded((1, 2), (2, 0))
    yield "6 before 7", coded((0, 2, 0), (2, a))
    yield "7 before 8", coded((0, 1, 3), (1, 1), (3, a))
    yield "two without a string", coded((0, 1), (1, a), (3, 2), (2, 3))
    yield "4 before 5 within a record", record(1, 0, TERMINAL, 62)
    yield "5 before 4 of the next record", record(1, 0, NONTERMINAL, 0) + record(0, 1, TERMINAL, 62)
    yield "4 before 5 of the next record", record(0, 0, NONTERMINAL, 64) + record(0, 2, TERMINAL, 0)
    yield "terminal on the left", record(0, 0, TERMINAL, 0)
    yield "a position left out", record(0, 0, NONTERMINAL, 0) + record(0, 2, TERMINAL, 0)
    yield "a production left out", record(0, 0, NONTERMINAL, 0) + record(2, 0, NONTERMINAL, 1)


def damages():
    """Every single-byte damage of a good grammar of eight records: S→A B, A→a, B→b A."""
    good = coded((0, 1, 2), (1, (0,)), (2, (1,), 1))
    assert len(good) == 8 * RECORD and answer(good) is None
    yield "undamaged", good
    for at, byte in enumerate(good):
        for value in sorted({0, 1, 255, (byte + 1) % 256} - {byte}):
            yield f"byte {at} is {value}", good[:at] + bytes([value]) + good[at + 1:]


def given(digits):
    """The bytes of hexadecimal digits."""
    try:
        return bytes.fromhex(digits)
    except ValueError:
        sys.exit(f"{digits} is no list of bytes in hexadecimal digits")


def line(name, data):
    refusal = answer(data)
    return f"{name}: " + ("coded" if refusal is None else "refused %d %d" % refusal)


def write(folder):
    with open(f"{folder}/stdin", "wb") as cases, open(f"{folder}/stdout", "w") as lines:
        for make in (limits, others, damages):
            for name, data in make():
                cases.write(bytes([len(name)]) + name.encode() + bytes([len(data) % 256, len(data) // 256]) + data)
                lines.write(line(name, data) + "\n")


if __name__ == "__main__":
    if len(sys.argv) == 3 and sys.argv[1] == "read":
        print(line("given", given(sys.argv[2])))
    elif len(sys.argv) == 3 and sys.argv[1] == "write":
        try:
            write(sys.argv[2])
        except OSError as why:
            sys.exit(f"the cases were not written: {why}")
    else:
        sys.exit(__doc__)
