"""What mass_compare and mass_damage share: the program of mass.c, and a run in parts that can be stopped and goes on.

A part has a seed of its own. Its counts are kept in FOLDER as a file, under a mark of everything that they depend on, so that a part that
is done is not run again, unless the library, the oracle or a tool has changed since.
"""
import collections
import concurrent.futures
import hashlib
import os
import pathlib
import struct
import subprocess
import sys
import time

TOOLS = pathlib.Path(__file__).resolve().parent
# Counts that are not added up.
GREATEST = {"most records"}


def compiled(library, folder):
    """The program of mass.c over this library. CFLAGS are the compiler's, as -fsanitize=address,undefined."""
    program = folder / "mass"
    flags = os.environ.get("CFLAGS", "-O2").split()
    subprocess.run(["gcc", "-std=gnu11", "-Wall", *flags, "-I", TOOLS.parent / "include", "-o", program, TOOLS / "mass.c", library], check=True)
    return program


def jobs_in(data):
    """Mode and grammar of each job."""
    at = 0
    while at < len(data):
        mode, length = struct.unpack_from("<BI", data, at)
        yield mode, data[at + 5:at + 5 + length]
        at += 5 + length


def generated(gen, seed, count, *words):
    return subprocess.run([gen, str(seed), str(count), *words], stdout=subprocess.PIPE, check=True).stdout


class Told:
    """What a run of mass.c says: its counts, and the cases that differ."""

    def __init__(self, text=""):
        self.counts, self.differing = collections.Counter(), []
        for line in text.splitlines():
            if line.startswith("differs"):
                self.differing.append(line)
            else:
                number, what = line.split(" ", 1)
                self.counts[what] = int(number)

    def text(self):
        return "".join(f"{number} {what}\n" for what, number in self.counts.items()) + "".join(line + "\n" for line in self.differing)

    def add(self, other):
        for what, number in other.counts.items():
            self.counts[what] = max(self.counts[what], number) if what in GREATEST else self.counts[what] + number
        self.differing += other.differing


def told_by(command, given, **more):
    """What a run of mass.c on the file `given` tells. Where a call has not come back everything stops, and the file is left."""
    run = subprocess.run(command, stdout=subprocess.PIPE, text=True, **more)
    if run.returncode != 0:
        last = (run.stdout.splitlines() or ["no output"])[-1]
        sys.exit(f"{given}: the run ended with {run.returncode}: {last}")
    return Told(run.stdout)


def told_of(program, command, given, cases):
    """What mass.c tells of these cases, kept in the file `given` meanwhile."""
    given.write_bytes(cases)
    with open(given, "rb") as stdin:
        told = told_by([program, command], given, stdin=stdin)
    given.unlink()
    return told


def mark_of(*files):
    """A mark of what the counts depend on."""
    digest = hashlib.sha256(os.environ.get("CFLAGS", "").encode())
    for file in [*files, *sorted(TOOLS.glob("mass*")), TOOLS / "driver_cases.py", TOOLS / "grammar_reader.py"]:
        if pathlib.Path(file).is_file():
            digest.update(pathlib.Path(file).read_bytes())
    return digest.hexdigest()


def whole_run(part, seed, count, each, folder, mark, processes):
    """Runs part(seed, count) for `count` in parts of `each`, seed by seed, and gives the sum of what they tell."""
    total, done = Told(), 0
    sizes = [(seed + k, min(each, count - k * each)) for k in range(-(-count // each))]
    with concurrent.futures.ProcessPoolExecutor(processes) as pool:
        waiting = {}
        for number, size in sizes:
            kept = folder / f"{part.__name__}-{number}-{size}"
            lines = kept.read_text().split("\n", 1) if kept.exists() else [""]
            if lines[0] == mark:
                total.add(Told(lines[1]))
                done += size
            else:
                waiting[pool.submit(part, number, size)] = (number, size, kept)
        if done:
            print(f"{done} were done before", flush=True)
        begun = time.monotonic()
        for future in concurrent.futures.as_completed(waiting):
            number, size, kept = waiting[future]
            try:
                told = future.result()
            except BaseException:
                pool.shutdown(wait=False, cancel_futures=True)
                raise
            scratch = kept.with_suffix(".part")
            scratch.write_text(mark + "\n" + told.text())
            scratch.rename(kept)
            total.add(told)
            done += size
            print(f"seed {number}: {size}, {told.counts['calls']} calls, {told.counts['differing']} differ; "
                  f"{done} of {count} done, {time.monotonic() - begun:.0f} s", flush=True)
    return total


def verdict(total):
    """The last lines: how many differ, and of those the one with the shortest grammar."""
    if total.differing:
        print(min(total.differing, key=len))
    print(f"{total.counts['differing']} of {total.counts['calls']} calls differ")
    return 1 if total.counts["differing"] else 0


def print_row(number, zero, counts):
    """A row of a table of answers, in markdown: none at all where nothing was counted."""
    if any(counts):
        name = zero if number == 0 else f"refused with {number}"
        print(f"| {name} |" + "".join(f" {count:,} |" if count else " |" for count in counts))
