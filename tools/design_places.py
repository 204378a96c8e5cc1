#!/usr/bin/env python3
"""Counts and lists the places of docs/DESIGN-PASS.md in crates/*/src: tools/design_places.py [POINT..] [--list]

Without a point it counts all of them. It reads text, not types: what it lists is looked at, and the page says what each place is."""
import collections
import glob
import re
import sys

def sources():
    for path in sorted(glob.glob("crates/*/src/*.rt")):
        yield path, open(path).read()


def functions():
    for path, text in sources():
        for match in re.finditer(r"^(    )?(?:pub )?(?:final )?(?:extern \"C\" )?fn (\w+)", text, re.M):
            indent = match.group(1) or ""
            stop = re.compile(r"^" + indent + r"\}$", re.M).search(text, match.start())
            whole = text[match.start():stop.end()] if stop else ""
            head, _, body = whole.partition("\n" + indent + "{\n")
            if not body and " {\n" in whole:
                head, _, body = whole.partition(" {\n")
            if body:
                yield path, text.count("\n", 0, match.start()) + 1, match.group(2), head, body


def parameters(head):
    signature = re.split(r"^ *(?:requires|ensures)\b", head, flags=re.M)[0]
    return re.findall(r"\b(\w+): (&mut \[?\w+[^,)]*|&?\[?\w+[^,)]*)", signature)


def lines(pattern):
    for path, text in sources():
        for number, line in enumerate(text.split("\n"), 1):
            if re.search(pattern, line):
                yield f"{path}:{number}: {line.strip()}"


def shape(text):
    text = re.sub(r"^ *(?:requires|ensures)\b.*?(?=^ *(?:requires|ensures)\b|\Z)", "", text, flags=re.M | re.S)
    text = re.sub(r"\bb?\"[^\"]*\"", "S", text)
    return re.sub(r"\b(?!if\b|return\b|for\b|while\b|match\b|let\b|mut\b|fn\b|in\b|else\b|loop\b)\w+\b", "x", re.sub(r"\s+", " ", text))


def loops():
    kinds = collections.defaultdict(list)
    for path, text in sources():
        rows = text.split("\n")
        for number, row in enumerate(rows):
            loop = re.match(r"( *)(?:'\w+: )?(for|while|loop)\b(?: (\w+|\(.*?\)) in (.*))?", row)
            if not loop or not row.rstrip().endswith("{"):
                continue
            end = next(n for n in range(number + 1, len(rows)) if rows[n] == loop.group(1) + "}")
            body = " ".join(r.strip() for r in rows[number + 1:end])
            after = rows[end + 1].strip() if end + 1 < len(rows) else ""
            name = loop.group(3) or ""
            if loop.group(2) != "for":
                kind = loop.group(2)
            elif "return true;" in body and after == "false":
                kind = "for, some pass"
            elif "return false;" in body and after == "true":
                kind = "for, all pass"
            elif re.search(r"return (?:Some\()?" + name + r"\b", body):
                kind = "for, the first that passes"
            elif re.match(r"\w+ (?:\+= |= \w+ \+ )", body):
                kind = "for, a count or a sum"
            elif re.search(r"\[" + name + r"\]", body):
                kind = "for, an index into a slice"
            else:
                kind = "for, a step each"
            kinds[kind].append(f"{path}:{number + 1}: {row.strip()} {body[:70]}")
    return kinds


def point_1():
    yield "own enums", list(lines(r"^(?:pub )?enum "))
    yield "flags in structs", [f"{p}: {name}.{field}" for p, text in sources() for name, fields in re.findall(r"^(?:pub )?struct (\w+).*?\{\n(.*?)^\}", text, re.M | re.S)
                               for field in re.findall(r"(\w+): bool,", fields)]
    yield "parameters that are a flag", [f"{p}:{n}: {f}({a})" for p, n, f, h, b in functions() for a, t in parameters(h) if t.strip() == "bool"]
    yield "numbers for kinds", [f"{p}:{n}: {f}({a}: {t})" for p, n, f, h, b in functions() for a, t in parameters(h) if a in ("kind", "mode", "action") and t.strip() in ("u64", "usize")]
    yield "a number that says none", list(lines(r"^// .*(?:, or the (?:number|end)\b|or m if|, or n\.|; the number of|`count` if none|; the place, if|, else one more)"))


def point_2():
    groups = collections.defaultdict(list)
    for path, number, name, head, body in functions():
        if body.count("\n") > 1 or re.search(r"\[[A-Z]\w+ \+", body):
            groups[shape(head.split("\n")[0] + body)].append(f"{path}:{number}: {name}")
    alike = [g for g in groups.values() if len(g) > 1]
    yield "functions of one shape", [row for g in sorted(alike, key=len, reverse=True) for row in g]
    names = collections.defaultdict(list)
    for row in lines(r"^(?:pub )?const \w+: "):
        names[re.search(r"const (\w+)", row).group(1)].append(row)
    yield "constants that stand twice", [row for g in names.values() if len(g) > 1 for row in g]


def point_3():
    for kind, rows in sorted(loops().items()):
        yield kind, rows


def point_4():
    yield "equality and order", [f"{p}:{n}: {f}" for p, n, f, h, b in functions() if re.match(r"(?:before|is_for|same_\w+|larger|either|wide|is_equal|cells_agree|are)$", f)]
    yield "conversions", [f"{p}:{n}: {f}" for p, n, f, h, b in functions() if re.search(r"_said$|^said$|^number(?:_at)?$|^kind_over$|^own_target$", f)]
    yield "printing", [f"{p}:{n}: {f}" for p, n, f, h, b in functions() if f.startswith("write_") and "Print" in h]


def point_5():
    pairs = collections.Counter()
    for path, number, name, head, body in functions():
        own = sorted({a for a, t in parameters(head)})
        pairs.update((a, b) for a in own for b in own if a < b and not {a, b} & {"work", "g", "self", "to", "err"})
    yield "parameters together in five or more", [f"{a}, {b}: {n}" for (a, b), n in pairs.most_common() if n >= 5]
    facts = collections.Counter()
    for path, number, name, head, body in functions():
        facts.update(set(re.findall(r"\b([A-Z]\w+) ", " ".join(re.findall(r"requires.*?\{(.*?)\}", head, re.S)))))
    yield "facts asked by three or more", [f"{w}: {n}" for w, n in facts.most_common() if n >= 3]


def point_6():
    yield "searches by halving", [f"{p}:{n}: {f}" for p, n, f, h, b in functions() if re.search(r"while low < high", b)]
    yield "a room with a place beside it", [f"{p}:{n}: {f}" for p, n, f, h, b in functions() if {"table", "at"} <= {a for a, t in parameters(h)} or {"list", "listed"} <= {a for a, t in parameters(h)}]


def point_7():
    yield "parameters that say which step to run", [f"{p}:{n}: {f}({a})" for p, n, f, h, b in functions() for a, t in parameters(h) if a in ("canonical", "itself", "all", "terminals", "part") and t.strip() == "bool"]


def point_8():
    files = glob.glob("crates/*/proofs/**/Answers.antt", recursive=True) + glob.glob("crates/*/proofs/**/Invariants.antt", recursive=True)
    yield "lines of Answers and Invariants", [""] * sum(len(open(f).read().split("\n")) - 1 for f in files)
    yield "answers", [""] * sum(len(re.findall(r"^pub ", open(f).read(), re.M)) for f in files if f.endswith("Answers.antt"))


def main():
    words = [w for w in sys.argv[1:] if w != "--list"]
    for point in words or "12345678":
        for title, rows in globals()["point_" + point]():
            print(f"{point}  {title}: {len(rows)}")
            if "--list" in sys.argv:
                for row in rows:
                    print("      " + row)


main()
