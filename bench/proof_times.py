#!/usr/bin/env python3
"""Where the proof of a crate takes its time: its modules by the seconds that each took, most first.

    bench/proof_times.py CRATE [--test] [MOST]

The crate is checked once from nothing, in one job, over libraries that are built already (rt lib in each crate below it, or
rt check in the crate itself). Each checked module is written when it is done, so that the time between two of them is the
later one's. The first of them has the reading of all libraries in it. Only what is measured on an idle machine counts.
"""
import importlib.machinery
import importlib.util
import os
import subprocess
import sys
import tempfile
import time


def the_tool():
    """The command rt of the kit, as a module."""
    page = subprocess.run(["rt", "doc"], stdout=subprocess.PIPE, text=True, check=True).stdout.strip()
    folder = os.path.join(os.path.dirname(page), "bin")
    sys.path.insert(0, folder)
    path = os.path.join(folder, "rt")
    loader = importlib.machinery.SourceFileLoader("rt_tool", path)
    tool = importlib.util.module_from_spec(importlib.util.spec_from_loader("rt_tool", loader))
    loader.exec_module(tool)
    tool.rtlib.Crate = tool.Crate
    return tool


def checked(tool, crate, more, kept):
    """Checks the crate from nothing into the folder kept; its last line, and the seconds that the check took."""
    words = [tool.rtlib.RATTLE, "check", *crate.words(["--jobs", "1", *more], keeps=False), "--incremental", kept]
    begun = time.time()
    ran = subprocess.run(words, cwd=crate.folder, stdin=subprocess.DEVNULL, stdout=subprocess.PIPE, stderr=subprocess.STDOUT, text=True)
    return begun, time.time() - begun, ran.stdout.strip().split("\n")[-1]


def modules(folder, begun):
    """Each module that the check wrote, with the seconds that passed since the one before."""
    stamped = []
    for at, _, files in os.walk(folder):
        for name in files:
            if name.endswith(".oantt") and not name.endswith(".decls.oantt"):
                stamped.append((os.stat(f"{at}/{name}").st_mtime, name[: -len(".oantt")]))
    before, told = begun, []
    for stamp, name in sorted(stamped):
        told.append((stamp - before, name))
        before = stamp
    return told


def main(words):
    more = [it for it in words if it.startswith("--")]
    plain = [it for it in words if not it.startswith("--")]
    most = int(plain[1]) if len(plain) > 1 else 20
    root = os.path.dirname(os.path.dirname(os.path.abspath(__file__)))
    os.chdir(root)
    tool = the_tool()
    crate = next(it for it in tool.rtlib.crates_below(root) if it.name == plain[0])
    with tempfile.TemporaryDirectory(prefix="proof-times-") as kept:
        begun, took, verdict = checked(tool, crate, more, kept)
        told = modules(kept, begun)
    print(f"{plain[0]}: {took:.1f} s, {len(told)} modules; {verdict[:60]}")
    for seconds, name in sorted(told, reverse=True)[:most]:
        print(f"{seconds:8.2f}  {name}")


main(sys.argv[1:])
