#!/usr/bin/env python3
"""Tries the wrong bodies that the gate has no time for: the prover has to refuse each of them.

    bench/wrong_bodies.py CRATE..

They stand in bench/wrong_bodies/CRATE, in the form of the edits in crates/CRATE/must-fail, which the gate tries itself. Each crate
that is named is tried on a copy of this repository, where they stand in the place of its own edits. Each one takes a check of its
crate, 10 to 60 seconds, and the first of a crate the crate's whole proof. Nothing in the repository changes.
"""
import os
import shutil
import subprocess
import sys
import tempfile

ROOT = os.path.dirname(os.path.dirname(os.path.abspath(__file__)))
EDITS = os.path.join(ROOT, "bench", "wrong_bodies")


def copied(room):
    """A copy of what the tool reads of this repository."""
    shutil.copytree(f"{ROOT}/crates", f"{room}/crates", ignore=shutil.ignore_patterns("out"), symlinks=True)
    for name in ("crates.txt", "HANDLES"):
        shutil.copy(f"{ROOT}/{name}", room)
    # The top of a repository ends the search for crates.txt.
    subprocess.run(["git", "init", "-q", room], check=True)


def tried(room, crate):
    """Tries the wrong bodies of a crate; the lines that the tool says of them."""
    folder = f"{room}/crates/{crate}/must-fail"
    shutil.rmtree(folder, ignore_errors=True)
    shutil.copytree(f"{EDITS}/{crate}", folder)
    ran = subprocess.run(["rt", "must-fail", crate], cwd=room, stdout=subprocess.PIPE, stderr=subprocess.STDOUT, text=True)
    shutil.rmtree(folder)
    return [line for line in ran.stdout.split("\n") if f"must-fail {crate}/" in line], ran.returncode


def main(crates):
    if not crates:
        sys.exit("which crates? There are wrong bodies of " + ", ".join(sorted(os.listdir(EDITS))))
    failed = 0
    with tempfile.TemporaryDirectory(prefix="wrong-bodies-") as room:
        copied(room)
        for crate in crates:
            lines, status = tried(room, crate)
            print("\n".join(line[:160] for line in lines))
            refused = sum("refused, as it must be" in line for line in lines)
            print(f"{crate}: {refused} of {len(os.listdir(f'{EDITS}/{crate}'))} refused")
            failed += status != 0 or refused != len(os.listdir(f"{EDITS}/{crate}"))
    sys.exit(1 if failed else 0)


main(sys.argv[1:])
