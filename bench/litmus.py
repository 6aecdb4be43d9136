#!/usr/bin/env python3
"""Runs the litmus tests of examples/litmus and tabulates what they read.

usage: litmus.py [SEEDS [RUNS]]      (1000 and 200 if none is given)

An outcome is the values of all loads, and the old values of all swaps and adds, by node and in program order. Those that are allowed are
the outcomes of all interleavings of the programs on one memory, which the script goes through one by one. Seen are those of `seeded S`
for S from 0 on, and of `run`, whose roles race.
"""
import collections
import glob
import os
import subprocess
import sys

HERE = os.path.dirname(os.path.abspath(__file__))
FLASH = os.path.join(HERE, "..", "flash")
PROGRAM = os.path.join(HERE, "..", "crates", "flash_main", "out", "flash_main")


def programs_of(text):
    """Each node's operations: kind, address and operand."""
    programs = collections.defaultdict(list)
    for line in text.splitlines():
        words = line.split(" ")
        if words[0].isdigit() and words[1] in ("L", "S", "X", "A"):
            programs[int(words[0])].append((words[1], int(words[2], 16), int(words[3]) if len(words) > 3 else None))
    return [programs[node] for node in sorted(programs)]


def done(op, memory):
    """What an operation reads, if it reads, and the memory after it."""
    kind, address, operand = op
    old = dict(memory).get(address, 0)
    new = {"L": old, "S": operand, "X": operand, "A": (old + (operand or 0)) % 2**64}[kind]
    after = tuple(sorted({**dict(memory), address: new}.items()))
    return (None if kind == "S" else old), after


def allowed(programs):
    """The outcomes of all interleavings."""
    seen, outcomes = set(), set()

    def walk(places, memory, read):
        if (places, memory, read) in seen:
            return
        seen.add((places, memory, read))
        if all(place == len(program) for place, program in zip(places, programs)):
            outcomes.add(tuple(value for values in read for value in values))
        for node, program in enumerate(programs):
            if places[node] < len(program):
                value, after = done(program[places[node]], memory)
                values = read[node] if value is None else read[node] + (value,)
                walk(places[:node] + (places[node] + 1,) + places[node + 1 :], after, read[:node] + (values,) + read[node + 1 :])

    walk(tuple(0 for _ in programs), (), tuple(() for _ in programs))
    return outcomes


def outcome_of(report, programs):
    """What was read, by node and in program order, from the history of a report."""
    lines = report.splitlines()
    start = next(i for i, line in enumerate(lines) if line.startswith("history "))
    read = {}
    for line in lines[start + 1 : start + 1 + int(lines[start].split(" ")[1])]:
        words = line.split(" ")
        if words[2] != "S":
            read[(int(words[0]), int(words[1]))] = int(words[-1])
    return tuple(read[key] for key in sorted(read))


def outcomes_of(words, text, programs):
    done = subprocess.run([PROGRAM, *words], input=text, capture_output=True, text=True, check=True)
    return outcome_of(done.stdout, programs)


def shown(counts, may):
    """How many of the allowed outcomes were seen, and how often each where they are few."""
    seen = sorted(set(counts) & may)
    if len(may) > 8:
        return str(len(seen))
    return f"{len(seen)}: " + ", ".join(f"{' '.join(map(str, outcome))} ({counts[outcome]})" for outcome in seen)


def main():
    seeds = int(sys.argv[1]) if len(sys.argv) > 1 else 1000
    runs = int(sys.argv[2]) if len(sys.argv) > 2 else 200
    subprocess.run([FLASH], stdin=subprocess.DEVNULL, stderr=subprocess.DEVNULL, check=False)
    bad = 0
    print("| Test | What it shows | Allowed | Seen by seeds | Seen in threads | Others |\n|---|---|---|---|---|---|")
    for path in sorted(glob.glob(os.path.join(HERE, "..", "examples", "litmus", "*.trace"))):
        text = open(path).read()
        programs = programs_of(text)
        may = allowed(programs)
        by_seeds = collections.Counter(outcomes_of(["seeded", str(seed)], text, programs) for seed in range(seeds))
        by_threads = collections.Counter(outcomes_of(["run"], text, programs) for _ in range(runs))
        others = (set(by_seeds) | set(by_threads)) - may
        bad += len(others)
        name = os.path.basename(path)[: -len(".trace")]
        print(f"| `{name}` | {text.splitlines()[0][2:]} | {len(may)} | {shown(by_seeds, may)} | {shown(by_threads, may)} | {len(others)} |", flush=True)
    sys.exit(1 if bad else 0)


main()
