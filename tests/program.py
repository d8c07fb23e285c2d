#!/usr/bin/env python3
"""Runs the program `ids` as a user would, and compares what it prints with what is written here.

Each run has a folder of its own with a pack or none, an input, and the expected output, byte for byte. Every run is made
twice, its input whole and a byte at a time, and must end with status 0. Usage: program.py PROGRAM
"""

import os
import struct
import subprocess
import sys
import tempfile

sys.path.insert(0, os.path.join(os.path.dirname(os.path.abspath(__file__)), "..", "tools"))
from packs import UNIGRAM, WORDPIECE, Vocabulary, make

ROOT = os.path.join(os.path.dirname(os.path.abspath(__file__)), "..")


def unigram(rows, unknown=0):
    return make(Vocabulary(UNIGRAM, [(t.encode(), x) for t, x in rows], unknown))


CASE = make(Vocabulary(WORDPIECE, [(b"un", 1), (b"##able", 2)], 0, 100, b"##"))
LETTERS = unigram([("<unk>", 0.0), ("a", -1.0), ("b", -1.0), ("ab", -2.0)])
SAMPLE = open(os.path.join(ROOT, "sample", "vocab.pack"), "rb").read()
COMMENTS = open(os.path.join(ROOT, "sample", "comments.txt"), "rb").read()

# name, pack (None: no file), input, output
RUNS = [
    ("the paper's case", CASE, b"unable\n\nunx\n", b"2 1 2\n0\n1 0\n"),
    ("a Unigram pack", LETTERS, b"ab\nba\nq\n", b"1 3\n2 2 1\n1 0\n"),
    (
        "the sample",
        SAMPLE,
        COMMENTS,
        b"9 61 24 1 14 6 13 68 122 131\n0\n6 66 28 130 34 27 129\n"
        b"15 62 42 9 25 46 130 68 138 139 2 86 87 36 68 0\nrefused 4\n4 67 22 24 7\n",
    ),
    ("no pack at all", None, b"unable\n", b"pack refused 11\n"),
    ("an empty pack", b"", b"unable\n", b"pack refused 11\n"),
    ("trailing bytes", CASE + b"x", b"unable\n", b"pack refused 11\n"),
    ("a bad row", unigram([("a", float("inf"))]), b"a\n", b"pack refused 5\n"),
    ("a token outside", CASE[:36] + struct.pack("<I", 7) + CASE[40:], b"a\n", b"pack refused 2\n"),
    ("no room", unigram([(c * 1_000, 0.0) for c in "abcde"]), b"a\n", b"pack refused 7\n"),
    ("too large a pack", LETTERS + bytes(65_537 - len(LETTERS)), b"a\n", b"pack refused 1\n"),
    ("a refused pack before too much input", b"", b"a\n" * 20_000, b"pack refused 11\n"),
    ("too much input", LETTERS, b"a" * 32_769, b"input refused 1\n"),
    ("the most input", LETTERS, b"\n" * 32_768, b"0\n" * 32_768),
    ("an empty input", LETTERS, b"", b""),
    ("no final LF", LETTERS, b"a\nab", b"1 1\n1 3\n"),
    ("one empty line", LETTERS, b"\n", b"0\n"),
    ("CR and NUL are text", LETTERS, b"a\r\n\0b\n", b"2 1 0\n2 0 2\n"),
    ("a byte order mark is text", LETTERS, b"\xef\xbb\xbfa\n", b"2 0 1\n"),
    ("ill-formed lines", LETTERS, b"a\xff\n\xed\xa0\x80\na\n", b"refused 4\nrefused 4\n1 1\n"),
    ("the longest line", LETTERS, b"q" * 4_095 + b"\n", b"1 0\n"),
    ("one byte longer", LETTERS, b"q" * 4_096 + b"\n", b"refused 9\n"),
    ("the longest word", CASE, b"q" * 4_096 + b"\n", b"1 0\n"),
    ("one character longer", CASE, b"q" * 4_097 + b"\n", b"refused 10\n"),
]


def run(program, pack, data, piece):
    with tempfile.TemporaryDirectory() as folder:
        if pack is not None:
            with open(os.path.join(folder, "vocab.pack"), "wb") as f:
                f.write(pack)
        child = subprocess.Popen([program], cwd=folder, stdin=subprocess.PIPE, stdout=subprocess.PIPE, bufsize=0)
        try:
            for i in range(0, len(data), piece):
                child.stdin.write(data[i : i + piece])
            child.stdin.close()
        except BrokenPipeError:
            pass  # it has read all that it may
        out = child.stdout.read()
        return out, child.wait()


def main():
    program = os.path.abspath(sys.argv[1])
    wrong = 0
    for name, pack, data, right in RUNS:
        for piece in (max(len(data), 1), 1):
            out, status = run(program, pack, data, piece)
            if out != right or status != 0:
                wrong += 1
                print(f"DIFFERENT: {name}, in pieces of {piece}: status {status}, {out[:200]!r}, not {right[:200]!r}")
    print(f"runs of the program: {2 * len(RUNS)}, {wrong} different")
    return 1 if wrong else 0


if __name__ == "__main__":
    sys.exit(main())
