#!/usr/bin/env python3
"""Traces for the benchmark, each from its sizes and a seed, the same every time.

usage: traces.py shared NODES OPS LINKS      loads and writes of all nodes, mostly on a few lines that all share
       traces.py home OPS NODES LINES WORDS SETS   each node on its own memory
       traces.py steps STEPS                 a section of steps, each enabled: a node loads a line of another and gives it back
       traces.py comments BYTES              comments alone, and the smallest trace
       traces.py generated OPS SEED          the trace that `flash gen OPS SEED` runs
"""
import random
import sys


def header(nodes, lines, words, links, sets, pending=16, evicts=4):
    return f"flash 1\nnodes {nodes}\nlines {lines}\nwords {words}\nlinks {links}\nsets {sets}\npending {pending}\nevicts {evicts}\n"


def shared(nodes, count, links):
    chance = random.Random(1)
    lines, words, sets = 64, 4, 64
    out = [header(nodes, lines, words, links, sets)]
    for _ in range(count):
        node = chance.randrange(nodes)
        line = chance.randrange(32) if chance.random() < 0.7 else chance.randrange(nodes * lines)
        address = (line * words + chance.randrange(words)) * 8
        out.append(f"{node} S {address:#x} {chance.randrange(1000)}\n" if chance.random() < 0.25 else f"{node} L {address:#x}\n")
    return "".join(out) + "end\n"


def home(count, nodes, lines, words, sets):
    chance = random.Random(1)
    out = [header(nodes, lines, words, 62, sets)]
    for _ in range(count):
        node = chance.randrange(nodes)
        address = ((node * lines + chance.randrange(lines)) * words + chance.randrange(words)) * 8
        out.append(f"{node} S {address:#x} {chance.randrange(1000)}\n" if chance.random() < 0.5 else f"{node} L {address:#x}\n")
    return "".join(out) + "end\n"


def steps(count):
    """Rounds of five steps, a load from afar, a hint and its taking; what is left of the steps asks again and again for a line that is pending."""
    rounds = min(count // 5, 99997)
    again = (count - 5 * rounds - 8) // 3
    out = [header(3, 2, 1, 1, 1, 1, 1)]
    out += ["1 L 0x0\n"] * rounds + ["1 S 0x0 1\n0 L 0x0\n2 L 0x0\n", "steps\n"]
    out += ["i 1\nt 1 0 q -\nt 0 1 r -\ne 1 0 hint\nt 1 0 q -\n"] * rounds
    if again > 0:
        out += ["i 1\nt 1 0 q -\nt 0 1 r -\ni 0\n"] + ["i 2\nt 2 0 q -\nt 0 2 r -\n"] * again
    return "".join(out) + "end\n"


def comments(size):
    line = "# " + "x" * 60 + "\n"
    rest = header(2, 1, 1, 1, 1, 1, 1) + "end\n"
    return line * ((size - len(rest)) // len(line)) + rest


WORD = (1 << 64) - 1


def mixed(state):
    """The word that the generator makes of a state."""
    low = (((state >> 18) ^ state) >> 27) & 0xFFFFFFFF
    turn = state >> 59
    return (low >> turn | low << (32 - turn)) & 0xFFFFFFFF


def pcg32(seed):
    """The words of `Pcg32::seed_from_u64`."""
    halves = []
    for _ in range(4):
        seed = (seed * 6364136223846793005 + 11634580027462260723) & WORD
        halves.append(mixed(seed))
    step = halves[2] | halves[3] << 32 | 1
    state = (halves[0] | halves[1] << 32) + step
    while True:
        state = (state * 6364136223846793005 + step) & WORD
        yield mixed(state)


def generated(count, seed):
    words = pcg32(seed)
    out = [header(8, 1024, 16, 2048, 256)]
    for _ in range(count):
        a, b, c, d = (next(words) for _ in range(4))
        node = a % 8
        line = (c % 32, c % 8192)[b % 4] if b % 4 < 2 else node * 1024 + c % 1024
        address = (line * 16 + c // 8192 % 16) * 8
        out.append(f"{node} S {address:#x} {d}\n" if b // 4 % 4 == 0 else f"{node} L {address:#x}\n")
    return "".join(out) + "end\n"


KINDS = {"shared": shared, "home": home, "steps": steps, "comments": comments, "generated": generated}

if __name__ == "__main__":
    if len(sys.argv) < 3 or sys.argv[1] not in KINDS:
        sys.exit(__doc__)
    sys.stdout.write(KINDS[sys.argv[1]](*[int(word) for word in sys.argv[2:]]))
