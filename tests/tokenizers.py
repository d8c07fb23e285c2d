#!/usr/bin/env python3
"""From a vocabulary as coders have it to ids: packs are made from files of every format, the program codes comments with them,
and what it prints is what the Rust gives for the same rows. Usage: tokenizers.py PROGRAM COMPARE
"""

import json
import os
import random
import subprocess
import sys
import tempfile

ROOT = os.path.join(os.path.dirname(os.path.abspath(__file__)), "..")
TOOL = os.path.join(ROOT, "tools", "vocab.py")


def sample():
    with open(os.path.join(ROOT, "sample", "vocab.tsv"), encoding="utf-8") as file:
        rows = [line.rstrip("\n").rsplit("\t", 1) for line in file]
    return [(token, float(score)) for token, score in rows]


def words(tokens):
    """A WordPiece vocabulary of the sample's words: whole words, their beginnings, and continuations."""
    out = ["[PAD]", "[UNK]", "[CLS]"]
    for token in tokens:
        token = token.strip()
        for piece in (token, "##" + token, token[:2], "##" + token[2:]):
            if piece.strip("#") and piece not in out:
                out.append(piece)
    return out


def files(folder):
    """Each file with the words that `make` takes after its name."""
    rows = sample()
    pieces = words([token for token, _ in rows])
    unigram = {"type": "Unigram", "unk_id": 0, "vocab": [list(row) for row in rows]}
    wordpiece = {
        "type": "WordPiece",
        "unk_token": "[UNK]",
        "continuing_subword_prefix": "##",
        "max_input_chars_per_word": 100,
        "vocab": {piece: i for i, piece in enumerate(pieces)},
    }
    shell = {"version": "1.0", "truncation": None, "normalizer": {"type": "Lowercase"}, "added_tokens": []}
    contents = {
        "unigram.json": json.dumps({**shell, "model": unigram}, ensure_ascii=False),
        "wordpiece.json": json.dumps({**shell, "model": wordpiece}),
        "vocab.txt": "\n".join(pieces) + "\n",
        "m.vocab": "".join(f"{token}\t{score}\n" for token, score in rows),
        "table.tsv": "".join(f"{token}\t{score}\n" for token, score in rows),
    }
    for name, text in contents.items():
        with open(os.path.join(folder, name), "w", encoding="utf-8") as file:
            file.write(text)
    more = {"table.tsv": ["--kind", "unigram"], **dict.fromkeys(["unigram.json", "wordpiece.json"], ["--ignore", "normalizer"])}
    return [(name, more.get(name, [])) for name in contents]


def comments():
    r = random.Random(1)
    tokens = [token for token, _ in sample()][1:]
    lines = ["".join(r.choice(tokens) for _ in range(r.randrange(12))) for _ in range(150)]
    singles = ["".join(r.choice(tokens).strip() for _ in range(r.randrange(4))) for _ in range(150)]
    return "\n".join([*lines, *singles, "", "日本の絵", "q€"]).encode() + b"\n\xff\n"


def main():
    program, compare = (os.path.abspath(word) for word in sys.argv[1:3])
    data, different, lines = comments(), 0, 0
    with tempfile.TemporaryDirectory() as folder:
        for name, more in files(folder):
            pack = os.path.join(folder, "vocab.pack")
            words = ["make", os.path.join(folder, name), pack, "--force", *more]
            made = subprocess.run([sys.executable, TOOL, *words], capture_output=True)
            out = subprocess.run([program], cwd=folder, input=data, capture_output=True).stdout
            right = subprocess.run([compare, "print", pack], input=data, capture_output=True).stdout
            lines += right.count(b"\n")
            if made.returncode != 0 or out != right or right.count(b"\n") != data.count(b"\n"):
                different += 1
                print(f"DIFFERENT: {name}: {made.stderr!r} {out[:200]!r}, not {right[:200]!r}")
    print(f"packs from five kinds of files: {lines} lines coded, {different} files different")
    return 1 if different else 0


if __name__ == "__main__":
    sys.exit(main())
