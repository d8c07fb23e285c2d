#!/usr/bin/env python3
"""Tries wrong versions of the crates, each of which the prover must refuse.

    python3 tools/must_fail.py [--finer] [CRATE..]

Run it once the crates are proved. The edits are those of crates/CRATE/must-fail/, which `rt ci` tries too, and the finer ones
of crates/CRATE/wrong/. With --finer it tries the latter alone, as ./test does. They are laid out as the must-fail edits of a
copy of the repository, and `rt must-fail` tries them there: it begins with what is proved, so that an edit takes seconds.

An edit is refused when the prover finds a goal that does not hold. Anything else fails: an edit that is still proved, whose
text is not there exactly once, or that does not reach the prover. The last line says how many were refused and how many were
not.
"""

import re
import shutil
import subprocess
import sys
import tempfile
from pathlib import Path

ROOT = Path(__file__).resolve().parent.parent
FINER = ("wrong",)
ALL = ("must-fail", "wrong")
LINE = re.compile(r"(?:rt: )?must-fail (\w+)/([\w.-]+)\.edit: (refused, as it must be|NOT REFUSED|BAD EDIT|NOT TRIED)")


def edits_of(crate, folders):
    """The edits of a crate, by name."""
    found = [e for f in folders for e in (ROOT / "crates" / crate / f).glob("*.edit")]
    return sorted(found, key=lambda e: e.stem)


def lay_out(copy, crates, folders):
    """The repository in another folder, where the edits to be tried are the must-fail edits."""
    shutil.copy(ROOT / "crates.txt", copy)
    shutil.copytree(ROOT / "crates", copy / "crates", ignore=shutil.ignore_patterns("out", "must-fail", "wrong"))
    for crate in crates:
        to = copy / "crates" / crate / "must-fail"
        to.mkdir()
        for edit in edits_of(crate, folders):
            if (to / edit.name).exists():
                raise SystemExit(f"{crate} has two edits of the name {edit.name}")
            shutil.copy(edit, to)


def try_all(crates, folders):
    """The edits that were refused, of all that there are; each is told of as it comes."""
    refused = set()
    with tempfile.TemporaryDirectory() as folder:
        copy = Path(folder).resolve()
        lay_out(copy, crates, folders)
        words = ["rt", "must-fail", *crates]
        pipes = {"stdout": subprocess.PIPE, "stderr": subprocess.STDOUT, "text": True, "errors": "replace"}
        with subprocess.Popen(words, cwd=copy, **pipes) as work:
            for line in work.stdout:
                told = LINE.match(line)
                print(line.rstrip("\n").replace(f"{copy}/", ""), flush=True)
                if told and told[3].startswith("refused"):
                    refused.add((told[1], told[2]))
    return refused


def main(words):
    finer = "--finer" in words
    folders = FINER if finer else ALL
    wanted = [w for w in words if w != "--finer"]
    crates = sorted(p.name for p in (ROOT / "crates").iterdir() if edits_of(p.name, folders))
    unknown = [c for c in wanted if c not in crates]
    if unknown:
        print(f"no edits of: {' '.join(unknown)}")
        return 2
    crates = wanted or crates
    every = {(c, e.stem) for c in crates for e in edits_of(c, folders)}
    refused = try_all(crates, folders) & every
    for crate, name in sorted(every - refused):
        print(f"not refused: {crate}/{name}")
    print(f"{len(refused)} wrong versions refused, {len(every) - len(refused)} not")
    return 0 if refused == every else 1


if __name__ == "__main__":
    sys.exit(main(sys.argv[1:]))
