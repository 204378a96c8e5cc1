#!/usr/bin/env python3
"""The driver's speed: steps a second of long runs, and the time of a table's check.

    bench_drive.py PROGRAM [RUNS]     PROGRAM is splicepost_drive; each time is the least processor time of RUNS runs (40)

What a run takes beside the start of the program, the reading and the checks is the time with its tokens less the time with none. What the
check of a table takes is the time with the table less the time with an empty one. If valgrind is there, instructions are counted too.
The tokens end in one that is rejected, so that no productions are printed.
"""
import os
import resource
import shutil
import subprocess
import sys
import tempfile

from driver_cases import GOTO, REDUCE, SHIFT, STATES, many_words, table_bytes, table_of
from grammar_reader import coded

TOKENS = 60000


def word_list():
    """A list of words, one token each: half of the steps are shifts."""
    return coded((0, 1), (1, 1, (0,)), (1, (0,)), (1, (1,), (1,))), [0] * TOKENS + [1]


def sums():
    """Sums of products, in brackets too, in lines: unit reductions, and a table of some hundred records."""
    plus, times, opening, closing, number, end = [(t,) for t in range(6)]
    grammar = coded((0, 1), (1, 1, 2), (1, 2), (2, 3, end), (3, 3, plus, 4), (3, 4), (4, 4, times, 5), (4, 5), (5, opening, 3, closing), (5, number))
    line = [2, 4, 0, 4, 1, 4, 3, 1, 4, 5]
    return grammar, line * (TOKENS // 3 // len(line)) + [5]


def largest_table():
    """A grammar of 62 terminals and 64 nonterminals, and a table without fault that has as many records as one can have."""
    chain = [(a, (a % 62,), a + 1) for a in range(63)]
    grammar = coded(*chain, (63, (61,)))
    records = []
    for state in range(STATES):
        records += [(state, SHIFT, t, t) for t in range(0, 62, 2)]
        records += [(state, GOTO, a, a) for a in range(64)]
        records += [(state, REDUCE, t, 1) for t in range(1, 62, 2)] + [(state, REDUCE, 62, 1)]
    return grammar, table_bytes(records)


class Bench:
    def __init__(self, program, runs):
        self.program, self.runs = program, runs
        self.folder = tempfile.mkdtemp()

    def files(self, grammar, table, tokens):
        names = []
        for name, data in (("grammar", grammar), ("table", table), ("tokens", bytes(tokens))):
            names.append(f"{self.folder}/{name}{len(data)}")
            with open(names[-1], "wb") as file:
                file.write(data)
        return names

    def seconds(self, names):
        """The least processor time, and what the program wrote."""
        least = None
        for _ in range(self.runs):
            before = resource.getrusage(resource.RUSAGE_CHILDREN)
            wrote = subprocess.run([self.program, *names], stdout=subprocess.PIPE, check=True).stdout.decode()
            after = resource.getrusage(resource.RUSAGE_CHILDREN)
            took = after.ru_utime + after.ru_stime - before.ru_utime - before.ru_stime
            least = took if least is None else min(least, took)
        return least, wrote

    def instructions(self, names):
        if not shutil.which("valgrind"):
            return None
        command = ["valgrind", "--tool=callgrind", "--callgrind-out-file=/dev/null", self.program, *names]
        said = subprocess.run(command, stdout=subprocess.DEVNULL, stderr=subprocess.PIPE, check=True).stderr.decode()
        return int(next(line for line in said.splitlines() if "Collected" in line).split()[-1])

    def difference(self, more, less):
        """Seconds and instructions that the first call takes more than the second, and what it wrote."""
        (long, wrote), (short, _) = self.seconds(more), self.seconds(less)
        counts = self.instructions(more), self.instructions(less)
        return long - short, None if None in counts else counts[0] - counts[1], wrote.split("\n")[0]

    def run(self, name, grammar, tokens):
        table = table_bytes(table_of(grammar))
        took, counted, wrote = self.difference(self.files(grammar, table, tokens), self.files(grammar, table, []))
        steps = int(wrote.split()[3])
        print(f"{name}: {len(table) // 8} records, {len(tokens)} tokens, {wrote}: {1000 * took:.2f} ms, {steps / took / 1e6:.1f} million steps a second", end="")
        print("" if counted is None else f", {counted / steps:.0f} instructions a step")

    def check(self, name, grammar, table):
        took, counted, wrote = self.difference(self.files(grammar, table, []), self.files(grammar, b"", []))
        records = len(table) // 8
        print(f"{name}: {records} records, {wrote}: {1000 * took:.2f} ms", end="")
        print("" if counted is None else f", {counted / records:.0f} instructions a record")


def main(program, runs):
    bench = Bench(os.path.abspath(program), runs)
    try:
        bench.run("a list of words", *word_list())
        bench.run("sums", *sums())
        words = many_words()
        bench.run("many words", words, [t for k in range(TOKENS // 3) for t in (k % 40, k % 40 + 1, k % 40)] + [40])
        bench.check("check of the largest table", *largest_table())
        bench.check("check of the table of many words", words, table_bytes(table_of(words)))
    finally:
        shutil.rmtree(bench.folder)


if __name__ == "__main__":
    if len(sys.argv) not in (2, 3):
        sys.exit(__doc__)
    main(sys.argv[1], int(sys.argv[2]) if len(sys.argv) == 3 else 40)
