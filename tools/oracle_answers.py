#!/usr/bin/env python3
"""Makes the cases of the program build_replay, and from an oracle's answers the text that it must write.

    oracle_answers.py store GEN ORACLE SEED COUNT EACH FOLDER
    oracle_answers.py compare GEN ORACLE REPLAY SEED COUNT

GEN SEED COUNT writes jobs (mode, length, coded grammar), two for each grammar, and with --list the shape of each grammar; ORACLE answers
each job by a line of JSON: see the oracle's own text. A job whose answer the oracle does not know (it gave up before it met a limit) is
left out and counted.

`store` puts document 01's examples first, in the modes of which it says something, with what it says of them written out below; the oracle
has to say the same, where it is a matter of the construction. Behind them it sorts the jobs by shape, mode, answer, and whether there are
clones, and keeps the EACH shortest of every sort. It writes the cases to FOLDER/stdin and the text that is expected to FOLDER/stdout.
`compare` runs all jobs by REPLAY, an executable of build_replay, and compares its text with the oracle's; it names the first that differs.
Both count on standard output, by mode and by answer.
"""
import collections
import json
import pathlib
import struct
import subprocess
import sys

from build_cases import N, T, asked, coded

KINDS = "sgr"

a, b, c, d, e = (T(k) for k in range(5))

# How the text of a refusal begins that comes before any construction: the oracle has no such check.
BEFORE = tuple(f"refused {number} " for number in range(1, 9))

# Document 01's examples: number, coded grammar, and by mode (0 lane, 1 canonical) how the text begins and lines that it has.
EXAMPLES = [
    (1, bytes.fromhex("0000000000000000 0000010000000100 0100000000000100 0100010001000000"),
     {0: ("built 3 states 4 records\n0 s 0 2\n0 g 1 1\n1 r 1 0\n2 r 1 1\n", [])}),
    (6, bytes(8), {0: ("built 1 states 1 records\n0 r 0 0\n", []), 1: ("built 1 states 1 records\n0 r 0 0\n", [])}),
    (7, coded([(0, [N(1)]), (1, [a, N(2), c]), (1, [a, N(3), d]), (1, [b, N(2), d]), (1, [b, N(3), c]), (2, [e]), (3, [e])]),
     {0: ("built 14 states ", ["3 s 4 13", "6 r 2 5", "6 r 3 6", "13 r 2 6", "13 r 3 5"])}),
    (8, coded([(0, [N(1)]), (1, [N(1), a, N(1)]), (1, [b])]), {0: ("refused 12 2\n", []), 1: ("refused 12 1\n", [])}),
    (9, coded([(0, [N(1)]), (1, [N(2), c]), (1, [N(3), d]), (1, [N(4), d]), (1, [N(5), c]), (2, [a, N(6)]), (3, [a, N(7)]), (4, [b, N(6)]),
               (5, [b, N(7)]), (6, [e]), (7, [e])]),
     {0: ("refused 12 1\n", []), 1: ("built 18 states ", [])}),
    (10, coded([(0, [N(1)]), (1, [N(1), a])]), {0: ("refused 8 0\n", []), 1: ("refused 8 0\n", [])}),
    (11, b"", {0: ("refused 3 0\n", []), 1: ("refused 3 0\n", [])}),
    (11, bytes(12), {0: ("refused 3 0\n", []), 1: ("refused 3 0\n", [])}),
]


def expected(answer):
    """Document 01's text of an answer, or None where the oracle does not know it."""
    words = answer["doc"].split()
    if words[0] not in ("built", "refused"):
        return None
    lines = [answer["doc"]]
    if words[0] == "built":
        lines += [f"{state} {KINDS[kind]} {symbol} {target}" for state, kind, symbol, target in answer["records"]]
    return "".join(line + "\n" for line in lines)


def job_of(mode, grammar):
    return struct.pack("<BI", mode, len(grammar)) + grammar


def examples(oracle):
    """Yields mode, job, answer, text of each example; the oracle has to say what document 01 says."""
    for number, grammar, modes in EXAMPLES:
        for mode, (begins, lines) in modes.items():
            if begins.startswith(BEFORE):
                yield mode, job_of(mode, grammar), {"doc": begins.strip()}, begins
                continue
            answer = asked(oracle, mode, grammar)
            text = expected(answer)
            if text is None or not text.startswith(begins) or not set(lines) <= set(text.splitlines()):
                sys.exit(f"example {number}, mode {mode}: the oracle says {text!r}, and document 01 {begins!r} with {lines}")
            yield mode, job_of(mode, grammar), answer, text


def jobs_of(gen, oracle, seed, count):
    """Yields shape, mode, job, the oracle's answer."""
    made = subprocess.run([gen, seed, count, "--list"], stdout=subprocess.PIPE, stderr=subprocess.PIPE, check=True)
    shapes = [line.split()[1] for line in made.stderr.decode().splitlines()]
    jobs, at, cut = made.stdout, 0, []
    while at < len(jobs):
        (length,) = struct.unpack_from("<I", jobs, at + 1)
        cut.append(jobs[at:at + 5 + length])
        at += 5 + length
    answers = subprocess.run([oracle], input=jobs, stdout=subprocess.PIPE, check=True).stdout.decode().splitlines()
    if len(answers) != len(cut) or len(cut) != 2 * len(shapes):
        sys.exit(f"{len(shapes)} grammars, {len(cut)} jobs, {len(answers)} answers: two jobs for a grammar and an answer for a job are wanted")
    for k, (job, line) in enumerate(zip(cut, answers)):
        yield shapes[k // 2], job[0], job, json.loads(line)


def sort_of(mode, answer):
    words = answer["doc"].split()
    return ("lane", "canonical")[mode], words[0] if words[0] == "built" else " ".join(words[:2])


def report(counts, unknown):
    for (mode, answer), n in sorted(counts.items()):
        print(f"{mode} {answer}: {n}")
    print(f"{sum(counts.values())} answers, {unknown} left out")


def store(gen, oracle, seed, count, each, folder):
    sorts, unknown = collections.defaultdict(list), 0
    for shape, mode, job, answer in jobs_of(gen, oracle, seed, count):
        text = expected(answer)
        if text is None:
            unknown += 1
            continue
        sorts[shape, sort_of(mode, answer), answer.get("clones", 0) > 0].append((len(job) + len(text), job, text))
    counts, cases = collections.Counter(), []
    for mode, job, answer, text in examples(oracle):
        counts[sort_of(mode, answer)] += 1
        cases.append((job, text))
    for (shape, sort, clones), found in sorted(sorts.items()):
        for size, job, text in sorted(found)[:int(each)]:
            counts[sort] += 1
            cases.append((job, text))
    folder = pathlib.Path(folder)
    (folder / "stdin").write_bytes(b"".join(job for job, text in cases))
    (folder / "stdout").write_text("".join(text for job, text in cases))
    report(counts, unknown)


def compare(gen, oracle, replay, seed, count):
    counts, unknown, jobs, texts = collections.Counter(), 0, [], []
    for shape, mode, job, answer in jobs_of(gen, oracle, seed, count):
        text = expected(answer)
        if text is None:
            unknown += 1
            continue
        counts[sort_of(mode, answer)] += 1
        jobs.append(job)
        texts.append(text)
    out = subprocess.run([replay], input=b"".join(jobs), stdout=subprocess.PIPE, check=True).stdout.decode()
    differ, at = 0, 0
    for k, text in enumerate(texts):
        if not out.startswith(text, at):
            print(f"case {k} differs: {out[at:at + 60]!r} where {text[:60]!r} is expected; grammar {jobs[k][5:].hex()}")
            differ = 1
            break
        at += len(text)
    if not differ and at < len(out):
        print(f"{len(out) - at} bytes of text left over")
        differ = 1
    report(counts, unknown)
    print("no difference" if not differ else "different")


def main(words):
    if len(words) == 7 and words[0] == "store":
        store(*words[1:])
    elif len(words) == 6 and words[0] == "compare":
        compare(*words[1:])
    else:
        sys.exit(__doc__)


if __name__ == "__main__":
    main(sys.argv[1:])
