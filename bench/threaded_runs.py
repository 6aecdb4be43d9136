#!/usr/bin/env python3
"""Runs random traces in threads, and replays the steps of each run in one thread: both have to print the same report.

usage: threaded_runs.py [RUNS [SEED]]      (1000 and 1 if none is given)

The traces are of 2 to 64 nodes, with few links in half of them, and of both versions. The first difference ends it.
"""
import os
import random
import subprocess
import sys

HERE = os.path.dirname(os.path.abspath(__file__))
PROGRAM = os.path.join(HERE, "..", "crates", "flash_main", "out", "flash_main")


def random_trace(chance):
    nodes = chance.choice([2, 3, 4, 8, 16, 64])
    lines = chance.choice([1, 2, 4])
    words = chance.choice([1, 2, 4])
    links = chance.choice([1, 2, 64, 128])
    sets = chance.choice([1, 2, 4])
    pending = chance.choice([1, 2, 16])
    evicts = chance.choice([1, 2, 4])
    version = chance.choice([1, 2])
    out = [f"flash {version}\nnodes {nodes}\nlines {lines}\nwords {words}\nlinks {links}\nsets {sets}\npending {pending}\nevicts {evicts}\n"]
    kinds = "LLLS" if version == 1 else "LLSXA"
    for _ in range(chance.randrange(1, 200)):
        kind = chance.choice(kinds)
        address = chance.randrange(nodes * lines * words) * 8
        value = "" if kind == "L" else f" {chance.randrange(1 << 64)}"
        out.append(f"{chance.randrange(nodes)} {kind} {address:#x}{value}\n")
    return "".join(out)


def run(words, text):
    done = subprocess.run([PROGRAM, *words.split()], input=text.encode(), capture_output=True)
    if done.returncode != 0:
        sys.exit(f"{words}: status {done.returncode}, {done.stderr.decode()}{text}")
    return done.stdout.decode()


def main():
    runs = int(sys.argv[1]) if len(sys.argv) > 1 else 1000
    chance = random.Random(int(sys.argv[2]) if len(sys.argv) > 2 else 1)
    events = 0
    for number in range(runs):
        trace = random_trace(chance)
        printed = run("run", trace + "end\n")
        journal, report = printed.split("\nend\n", 1)
        events += journal.count("\n")
        if run("replay", trace + journal + "\nend\n") != report:
            sys.exit(f"run {number} of\n{trace}end\nis replayed to another report than it has printed\n{printed}")
        if "entries" not in run("check", trace + "end\n" + printed):
            sys.exit(f"run {number} of\n{trace}end\nhas no good history\n{printed}")
    print(f"{runs} runs, {events} events: each replayed to the same report, each with a good history")


if __name__ == "__main__":
    main()
