#!/usr/bin/env python3
"""Times the built program on growing inputs: the least time of some runs, the peak memory, and both for an event.

usage: bench.py [RUNS [COMMAND]]      (3 runs of each command if none is given)

The time holds the start of the program, reading and printing. The events are those that the report, or the summary, counts; of `check` the entries are counted, of `story` the steps. Of `run` the events are those of the run whose time is shown, and the memory is that of another run.
"""
import os
import re
import subprocess
import sys
import time
from functools import partial

import traces

HERE = os.path.dirname(os.path.abspath(__file__))
FLASH = os.path.join(HERE, "..", "flash")
PROGRAM = os.path.join(HERE, "..", "crates", "flash_main", "out", "flash_main")


def run(words, text):
    """The time and the output of one run."""
    start = time.perf_counter()
    process = subprocess.Popen([PROGRAM, *words.split()], stdin=subprocess.PIPE, stdout=subprocess.PIPE)
    output, _ = process.communicate(text)
    spent = time.perf_counter() - start
    if process.returncode != 0:
        sys.exit(f"{words}: status {process.returncode}")
    return spent, output


def peak_of(words, text):
    """The peak memory of one run in bytes, told by `time`: what Python itself would tell of a child holds the memory of Python."""
    done = subprocess.run(["/usr/bin/time", "-f", "%M", PROGRAM, *words.split()], input=text, stdout=subprocess.DEVNULL, stderr=subprocess.PIPE, check=False)
    return int(done.stderr.split()[-1]) * 1024


def show(name, words, text, runs):
    """Prints a line. The output says how many events, entries or steps there were."""
    data = text.encode()
    best, output = min((run(words, data) for _ in range(runs)), key=lambda pair: pair[0])
    counted = {"check": "entries", "story": "steps"}.get(words.split()[0], "events")
    count = int(re.search(rb"\n%s (\d+)\n" % counted.encode(), output).group(1))
    peak = peak_of(words, data)
    each = f"{best / count * 1e9:8.0f} ns and {peak / count:6.0f} bytes each" if count else " " * 33
    print(f"{name:44} {best * 1000:9.1f} ms {count:9} {counted:7} {each} {peak / 2**20:7.1f} MiB", flush=True)


def reported(nodes, count):
    """A trace with the report of its serial run behind it."""
    text = traces.shared(nodes, count, 2048)
    return text + run("serial", text.encode())[1].decode()


def rows():
    """What is timed: a name, the words of a command, and what makes its input."""
    for nodes in (16, 64):
        for links in (2048, 16):
            for count in (25000, 50000, 100000):
                yield f"serial, {nodes} nodes, {links} links, {count} operations", "serial", partial(traces.shared, nodes, count, links)
    for count in (25000, 100000):
        yield f"serial, home lines, {count} operations", "serial", partial(traces.home, count, 16, 1024, 4, 256)
    for count in (25000, 50000, 100000):
        yield f"gen {count} 1", f"gen {count} 1", str
    for count in (250000, 500000, 1000000):
        yield f"replay, {count} steps", "replay", partial(traces.steps, count)
    for count in (5000, 10000, 20000):
        yield f"seeded 1, 16 nodes, {count} operations", "seeded 1", partial(traces.shared, 16, count, 2048)
    for nodes in (2, 8, 16):
        for count in (5000, 10000, 20000):
            yield f"run, {nodes} nodes, {count} operations", "run", partial(traces.shared, nodes, count, 2048)
    for count in (25000, 50000, 100000):
        yield f"bits serial, 16 nodes, {count} operations", "bits serial", partial(traces.shared, 16, count, 2048)
    for nodes in (16, 64):
        for count in (25000, 50000, 100000):
            yield f"eager serial, {nodes} nodes, {count} operations", "eager serial", partial(traces.shared, nodes, count, 2048)
    for count in (25000, 50000, 100000):
        yield f"check, {count} entries", "check", partial(reported, 16, count)
    for count in (250000, 500000, 1000000):
        yield f"story 0, {count} steps", "story 0", partial(traces.steps, count)
    for size in (4 << 20, 16 << 20):
        yield f"serial, {size >> 20} MiB of comments", "serial", partial(traces.comments, size)


def main():
    runs = int(sys.argv[1]) if len(sys.argv) > 1 else 3
    command = sys.argv[2] if len(sys.argv) > 2 else None
    # The script builds the program where it isn't built yet; the times are those of the program itself.
    subprocess.run([FLASH], stdin=subprocess.DEVNULL, stderr=subprocess.DEVNULL, check=False)
    for name, words, make in rows():
        if command in (None, words.split()[0]):
            show(name, words, make(), runs)


main()
