#!/usr/bin/env python3
"""Refuses each growth of memory in turn, the first one, then the second one alone, and so on, and says how each run ends.

usage: refused_memory.py COMMAND [NUMBERS] < TRACE

A run has to end with status 5 and nothing written, or as the run with ample memory does. A `run` in threads makes other steps each time, so it has to end with status 5 and nothing written, or with status 0 and steps that are replayed to the report behind them. Wants the built program and a C compiler (cc): a small library that is loaded before the C library counts the calls.
"""
import collections
import os
import subprocess
import sys
import tempfile

HERE = os.path.dirname(os.path.abspath(__file__))
PROGRAM = os.path.join(HERE, "..", "crates", "flash_main", "out", "flash_main")
MEMORY = 5

SOURCE = r"""
#include <fcntl.h>
#include <stdlib.h>
#include <stddef.h>
#include <unistd.h>
extern void *__libc_malloc(size_t);
extern void *__libc_realloc(void *, size_t);
static long calls;
static long refused(void) {
    static long number = -1;
    if (number < 0) { const char *at = getenv("REFUSED_CALL"); number = at ? atol(at) : 0; }
    return number;
}
static int refuses(void) {
    if (__atomic_add_fetch(&calls, 1, __ATOMIC_SEQ_CST) != refused()) return 0;
    const char *path = getenv("REFUSED_MARK");
    int mark = path ? open(path, O_CREAT | O_WRONLY, 0600) : -1;
    if (mark >= 0) close(mark);
    return 1;
}
void *malloc(size_t size) { return refuses() ? NULL : __libc_malloc(size); }
void *realloc(void *old, size_t size) { return refuses() ? NULL : __libc_realloc(old, size); }
"""


def build(folder):
    source, library = os.path.join(folder, "refuse.c"), os.path.join(folder, "refuse.so")
    with open(source, "w", encoding="utf-8") as file:
        file.write(SOURCE)
    subprocess.run(["cc", "-O1", "-shared", "-fPIC", "-o", library, source], check=True)
    return library


class Runs:
    """Runs of one command over one trace, and how they may end."""

    def __init__(self, words, trace, folder):
        self.words, self.trace = words, trace
        self.library, self.mark = build(folder), os.path.join(folder, "mark")
        self.ample, _ = self.run(0)

    def run(self, call):
        """The run in which this growth is refused, and whether it came to that growth."""
        surroundings = dict(os.environ, LD_PRELOAD=self.library, REFUSED_CALL=str(call), REFUSED_MARK=self.mark)
        done = subprocess.run([PROGRAM, *self.words], input=self.trace, capture_output=True, env=surroundings, check=False)
        reached = os.path.exists(self.mark)
        if reached:
            os.remove(self.mark)
        return done, reached

    def is_replayed(self, printed):
        """Whether steps are printed that are replayed to the report behind them."""
        journal, end, report = printed.partition(b"\nend\n")
        lines = self.trace[: self.trace.rindex(b"end")]
        replayed = subprocess.run([PROGRAM, "replay"], input=lines + journal + end, capture_output=True, check=False)
        return replayed.returncode == 0 and replayed.stdout == report

    def is_right(self, done):
        if self.words == ["run"]:
            return done.returncode == 0 and not done.stderr and self.is_replayed(done.stdout)
        return (done.returncode, done.stdout, done.stderr) == (self.ample.returncode, self.ample.stdout, self.ample.stderr)


def main():
    words, trace = sys.argv[1:], sys.stdin.buffer.read()
    ends = collections.Counter()
    with tempfile.TemporaryDirectory() as folder:
        runs = Runs(words, trace, folder)
        call = last = 0
        # Beyond the last growth no run is refused any more; 50 such runs in a row end the search.
        while call - last < 50:
            call += 1
            done, reached = runs.run(call)
            if reached:
                last = call
            if done.returncode == MEMORY and not done.stdout:
                ends[f"status {MEMORY}, nothing written, {done.stderr.decode().strip() or 'no text'}"] += 1
            elif not runs.is_right(done):
                sys.exit(f"call {call}: status {done.returncode}, {len(done.stdout)} bytes written, {done.stderr.decode().strip()}")
            elif reached:
                ends[f"status {done.returncode}, as with ample memory"] += 1
    print(f"{' '.join(words)}: status {runs.ample.returncode} with ample memory; growth {last} is the last one that was refused")
    for text, count in ends.items():
        print(f"  {text}: {count}")


main()
