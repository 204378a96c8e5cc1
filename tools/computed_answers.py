#!/usr/bin/env python3
"""Holds the definitions of `rules` to an oracle's answers, by computation.

    computed_answers.py GEN ORACLE CLONE SEED COUNT MOST [ANSWER [CLONES]]

GEN SEED COUNT writes jobs (mode, length, coded grammar), ORACLE answers each by a line of JSON: see the oracle's own text. The cases of
grammars with at most MOST records, whose answers begin with ANSWER and have at least CLONES clones where these are given, become
theorems `said mode grammar ≡ answer` and `table mode grammar ≡ records`, proved by `refl`, in a crate `computed` of CLONE, a scratch copy
of this repository; `rt check` in its folder computes them. What was made is counted on standard output, by mode and by answer.
"""
import collections
import json
import pathlib
import struct
import subprocess
import sys

HEAD = """-- Answers of the oracle, computed.
use Rattle.std.proofs.Common.{ℕ, ◌≡◌, refl, List, [], ◌∷◌, replicate}
use Rattle.rules.specs.Limits.{limits}
use Rattle.rules.specs.Answers.{Said, built, refused, build_said}
use Rattle.rules.specs.Build.{build}
use Rattle.rules.proofs.Coding.{table, s, g, r}

unfoldable said : ℕ → List ℕ → Said
unfolding build build_said limits
said mode bytes = build_said (build limits mode bytes (replicate 65536 0) (replicate 8192 0)).answer
"""


def listed(words):
    return "(" + "".join(f"{w} ∷ " for w in words) + "[])"


def theorems(k, mode, grammar, answer):
    doc = answer["doc"].split()
    said = f"built {doc[1]} {doc[3]}" if doc[0] == "built" else f"refused {doc[1]} {doc[2]}"
    bytes_ = listed(grammar)
    yield f"said{k} : said {mode} {bytes_} ≡ {said}\nunfolding said\nsaid{k} = refl\n"
    if doc[0] == "built":
        records = listed("sgr"[kind] + f" {state} {symbol} {target}" for state, kind, symbol, target in answer["records"])
        yield f"table{k} : table {mode} {bytes_} ≡ {records}\nunfolding table\ntable{k} = refl\n"


def main(gen, oracle, clone, seed, count, most, wanted="", clones="0"):
    jobs = subprocess.run([gen, seed, count], stdout=subprocess.PIPE, check=True).stdout
    answers = subprocess.run([oracle], input=jobs, stdout=subprocess.PIPE, check=True).stdout.decode().splitlines()
    crate = pathlib.Path(clone) / "crates" / "computed"
    (crate / "proofs").mkdir(parents=True)
    (crate / "src").mkdir()
    (crate / "src" / "lib.rt").write_text("// Answers of the oracle, computed: see proofs/.\n")
    made, counts, at = [], collections.Counter(), 0
    for k, line in enumerate(answers):
        mode, (length,) = jobs[at], struct.unpack_from("<I", jobs, at + 1)
        grammar, at = jobs[at + 5:at + 5 + length], at + 5 + length
        answer = json.loads(line)
        if length > 8 * int(most) or not answer["doc"].startswith(wanted) or answer.get("clones", 0) < int(clones):
            continue
        counts[f"mode {mode} " + " ".join(answer["doc"].split()[:2] if answer["doc"].startswith("refused") else ["built"])] += 1
        counts["with clones"] += answer.get("clones", 0) > 0
        made.extend(theorems(k, mode, grammar, answer))
    names = []
    for i in range(0, len(made), 20):
        names.append(f"Cases{i // 20}")
        (crate / "proofs" / f"{names[-1]}.antt").write_text(HEAD + "\n" + "\n".join(made[i:i + 20]))
    (crate / "proofs" / "Lib.antt").write_text("".join(f"pub mod {name}\n" for name in sorted(names)))
    with open(pathlib.Path(clone) / "crates.txt", "a") as crates:
        crates.write("computed: base rules\n")
    for what, number in sorted(counts.items()):
        print(f"{what}: {number}")


if __name__ == "__main__":
    if not 7 <= len(sys.argv) <= 9:
        sys.exit(__doc__)
    main(*sys.argv[1:])
