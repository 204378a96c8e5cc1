#!/usr/bin/env python3
"""Makes the cases of the program build_limits, which run the builder at its limits, and the lines that it must write.

    build_cases.py ORACLE FOLDER

writes FOLDER/stdin and FOLDER/stdout. ORACLE answers coded grammars: see the oracle's own text. What is no matter of the construction
(modes, rooms, refusals 1 to 5 and 14) is what document 01 says.

A case is one byte, the length of its name; the name; one byte, the mode; two bytes, the numbers of the work room; three bytes, the bytes
of the table room; two bytes, the length of the grammar; the grammar; numbers are little-endian. Its line: the name, the answer, how many
bytes of the table room were written, and how many numbers of the work room are zero; every other byte and number is as it was.
"""
import json
import pathlib
import struct
import subprocess
import sys

WORK, TABLE = 8192, 131072


def N(k):
    return 0, k


def T(k):
    return 1, k


def coded(productions):
    """The bytes of productions, each a left side and its symbols."""
    out = b""
    for p, (left, symbols) in enumerate(productions):
        for position, (kind, symbol) in enumerate([N(left)] + symbols):
            out += struct.pack("<HHBBH", p, position, kind, 0, symbol)
    return out


def asked(oracle, mode, grammar):
    job = struct.pack("<BI", mode, len(grammar)) + grammar
    return json.loads(subprocess.run([oracle], input=job, stdout=subprocess.PIPE, check=True).stdout)


EXAMPLE_1 = [(0, [N(1)]), (1, [T(0)])]


def long_grammar():
    """512 records: 30 productions of 16 symbols that differ in the last."""
    return [(0, [N(1)])] + [(1, [T(0)] * 15 + [T(1 + k)]) for k in range(30)]


def many_states(count):
    """As many LR(0) states: 2 for the start, one for each symbol of the productions behind it."""
    rest = count - 2 - 8
    sides = [min(16, rest - 16 * k) for k in range(8)]
    return [(0, [N(1)]), (1, [N(2 + k) for k in range(8)])] + [(2 + k, [T(k)] * size) for k, size in enumerate(sides)]


def many_items(count):
    """(k + 2)^2 items by k right recursive productions and one more, and one for each further symbol of that one."""
    k = 43
    more = count - (k + 2) ** 2
    first = [(0, [N(1)])] + [(1, [T(x), N(1)]) for x in range(k)]
    if more <= 15:
        return first + [(1, [T(k)] * (1 + more))]
    # a nonterminal behind the last production's symbols brings one item more
    return first + [(1, [T(k)] * 15 + [N(2)]), (2, [T(k + 1)] * (more - 16))]


def many_actions(count):
    """A state with as many reductions, each in conflict with the others before the lanes are traced."""
    return [(0, [N(1)])] + [(1, [N(2 + k), T(k)]) for k in range(count)] + [(2 + k, [T(40)]) for k in range(count)]


def cases(oracle):
    """Yields name, mode, numbers of the work room, bytes of the table room, grammar, answer, whether the work room is cleared."""
    def built(name, productions, mode=0, doc=None, work=WORK, table=TABLE):
        grammar = coded(productions)
        answer = asked(oracle, mode, grammar)["doc"]
        if doc is not None and not answer.startswith(doc):
            sys.exit(f"{name}: the oracle says {answer}, and {doc} is meant")
        return name, mode, work, table, grammar, answer, True

    one = coded(EXAMPLE_1)
    yield built("4,096 bytes", long_grammar(), doc="built")
    yield "4,104 bytes", 0, WORK, TABLE, coded(long_grammar()) + coded([(1, [])]), "refused 3 0", True
    yield built("terminal 61", [(0, [N(1)]), (1, [T(61)])], doc="built")
    yield "terminal 62", 0, WORK, TABLE, coded([(0, [N(1)]), (1, [T(62)])]), "refused 4 3", True
    yield built("position 16", [(0, [N(1)]), (1, [T(0)] * 16)], doc="built")
    yield "position 17", 0, WORK, TABLE, coded([(0, [N(1)]), (1, [T(0)] * 17)]), "refused 5 19", True
    for mode, name in enumerate(("lane", "canonical")):
        yield built(f"128 states, {name}", many_states(128), mode, "built 128 states")
        yield built(f"129 states, {name}", many_states(129), mode, "refused 9 0")
        yield built(f"2,048 items, {name}", many_items(2048), mode, "built")
        yield built(f"2,049 items, {name}", many_items(2049), mode, "refused 10 0")
        yield built(f"17 reductions in a state, {name}", many_actions(17), mode, ("refused 11", "built")[mode])
    yield built("16 actions", many_actions(16), doc="built")
    yield "work room of 8,191", 0, WORK - 1, TABLE, one, "refused 2 0", False
    yield built("work room of 8,192", EXAMPLE_1, doc="built 3 states 4 records")
    yield built("work room of 8,200", EXAMPLE_1, work=WORK + 8)
    yield "table room one record short", 0, WORK, 24, one, "refused 14 4", True
    yield "table room one byte short", 0, WORK, 31, one, "refused 14 4", True
    yield built("table room just enough", EXAMPLE_1, table=32)
    yield built("table room of no whole records", EXAMPLE_1, table=35)
    yield "no table room", 1, WORK, 0, one, "refused 14 4", True
    yield "mode 2", 2, WORK, TABLE, one, "refused 1 0", False
    yield "mode 2 and no work room", 2, 0, TABLE, one, "refused 1 0", False
    yield "no grammar and no work room", 0, 0, TABLE, b"", "refused 2 0", False
    yield "no grammar", 0, WORK, TABLE, b"", "refused 3 0", True


def main(oracle, folder):
    stdin, stdout = b"", ""
    for name, mode, work, table, grammar, answer, cleared in cases(oracle):
        words = answer.split()
        written = 8 * int(words[3]) if words[0] == "built" else 0
        stdin += bytes([len(name)]) + name.encode() + bytes([mode]) + struct.pack("<H", work) + struct.pack("<I", table)[:3] + struct.pack("<H", len(grammar)) + grammar
        stdout += f"{name}: {answer}\n  table room: {written} bytes written; work room: {WORK if cleared else 0} numbers zero\n"
    folder = pathlib.Path(folder)
    (folder / "stdin").write_bytes(stdin)
    (folder / "stdout").write_text(stdout)


if __name__ == "__main__":
    if len(sys.argv) != 3:
        sys.exit(__doc__)
    main(*sys.argv[1:])
