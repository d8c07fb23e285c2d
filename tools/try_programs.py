#!/usr/bin/env python3
"""Runs the programs without their proofs, on the interpreter where it can and compiled with the compiler's assumptions checked.

    python3 tools/try_programs.py

What is proved is the source. That the compiler keeps its meaning is not, so it is tried: `rt try` runs each program, and it
must write what is stored. (`rt ci` runs those of crates/ as two compilers make them.) `replay` is run on its first cases
alone: the interpreter ends after twenty million steps.

`slices` calls `sliced::build_rows`, over slices of rows. It has no proof, so it is no crate of the repository: it stands in
tests/slices, and is one in the copied folder alone.
"""

import shutil
import struct
import subprocess
import sys
import tempfile
from pathlib import Path

ROOT = Path(__file__).resolve().parent.parent
# Each program, and the files that it opens.
PROGRAMS = {"sums": [], "ids": ["vocab.pack"], "replay": [], "slices": ["lists.bin"]}
CASES = 16
SLICES = "slices: refusal streams text doubles trie rows build scored sliced\n"


def first_cases(stored, count):
    """The first cases of replay's input: three lengths as words, and then so many bytes."""
    at = 0
    for _ in range(count):
        at += 12 + sum(struct.unpack_from("<3I", stored, at))
    return stored[:at]


def lay_out(copy):
    """The repository's crates in another folder, with a short input for replay."""
    shutil.copy(ROOT / "crates.txt", copy)
    shutil.copytree(ROOT / "crates", copy / "crates", ignore=shutil.ignore_patterns("out"))
    replay = copy / "crates" / "replay"
    stored = (replay / "stdin").read_bytes()
    (replay / "stdin").write_bytes(first_cases(stored, CASES))
    (replay / "stdout").write_text(f"{CASES} agree\n0 differ\n")
    add_slices(copy)


def add_slices(copy):
    """The program of tests/slices as a crate, with the file that it opens and what it must print."""
    kept, slices = ROOT / "tests" / "slices", copy / "crates" / "slices"
    for part in ("src", "data"):
        (slices / part).mkdir(parents=True)
    shutil.copy(kept / "main.txt", slices / "src" / "main.rt")
    shutil.copy(kept / "lists.bin", slices / "data")
    shutil.copy(kept / "stdout", slices)
    (slices / "stdin").write_bytes(b"")
    with open(copy / "crates.txt", "a") as lines:
        lines.write(SLICES)


def try_one(crate, files):
    """Whether a program writes what is stored, and what was said where it does not."""
    data = [word for file in files for word in ("--data", f"{file}={crate / 'data' / file}")]
    pipes = {"stdout": subprocess.PIPE, "stderr": subprocess.PIPE}
    with open(crate / "stdin", "rb") as given:
        run = subprocess.run(["rt", "try", *data], cwd=crate, stdin=given, **pipes)
    said = run.stderr.decode(errors="replace")
    fine = run.returncode == 0 and run.stdout == (crate / "stdout").read_bytes() and "run=ended status=0" in said
    return fine, said + run.stdout[:2000].decode(errors="replace")


def main():
    with tempfile.TemporaryDirectory() as folder:
        copy = Path(folder).resolve()
        lay_out(copy)
        bad = []
        for name, files in PROGRAMS.items():
            fine, said = try_one(copy / "crates" / name, files)
            print(f"{name}: {'wrote what is stored' if fine else 'DIFFERENT'}", flush=True)
            if not fine:
                print(said)
                bad.append(name)
    return 1 if bad else 0


if __name__ == "__main__":
    sys.exit(main())
