#!/usr/bin/env python3
"""Tests of tools/prepare.py: 200 comments on the whole way, from text to ids, against what the real SentencePiece gave (stored
in tests/sentencepiece/, where make.py says how); BERT's published cases; the settings of tokenizer.json; and ids joined to
comments again. Usage: prepare.py PROGRAM
"""

import json
import os
import subprocess
import sys
import tempfile
import unittest

ROOT = os.path.realpath(os.path.join(os.path.dirname(os.path.abspath(__file__)), ".."))
STORED = os.path.join(ROOT, "tests", "sentencepiece")
PROGRAM = os.path.abspath(sys.argv.pop(1)) if len(sys.argv) > 1 and not sys.argv[1].startswith("-") else None


def read(name):
    with open(os.path.join(STORED, name), "rb") as file:
        return file.read()


def tool(name, *words, given=b""):
    """The status, and what was written to standard output and error."""
    done = subprocess.run([sys.executable, os.path.join(ROOT, "tools", name), *words], input=given, capture_output=True)
    assert b"Traceback" not in done.stderr, done.stderr.decode()
    return done.returncode, done.stdout, done.stderr.decode()


class Folder(unittest.TestCase):
    def setUp(self):
        folder = tempfile.TemporaryDirectory()
        self.addCleanup(folder.cleanup)
        self.folder, self.map = folder.name, os.path.join(folder.name, "map")

    def prepare(self, *words, given):
        return tool("prepare.py", *words, "--map", self.map, given=given.encode() if isinstance(given, str) else given)

    def lines(self, *words, given):
        status, out, err = self.prepare(*words, given=given)
        self.assertEqual(status, 0, err)
        return out.decode().split("\n")[:-1]

    def json(self, **settings):
        path = os.path.join(self.folder, "tokenizer.json")
        model = {"type": "Unigram", "unk_id": 0, "vocab": [["<unk>", 0], ["▁the", -1], ["▁room", -2]]}
        with open(path, "w", encoding="utf-8") as file:
            json.dump({"model": model, **settings}, file)
        return path


class SentencePiece(Folder):
    def test_the_whole_way(self):
        vocab = os.path.join(STORED, "m.vocab")
        self.assertEqual(tool("vocab.py", "make", vocab, os.path.join(self.folder, "vocab.pack"))[0], 0)
        status, lines, err = self.prepare("sentencepiece", vocab, given=read("comments.txt"))
        self.assertEqual(status, 0, err)
        printed = subprocess.run([PROGRAM], cwd=self.folder, input=lines, capture_output=True, check=True).stdout
        status, joined, _ = tool("prepare.py", "join", self.map, given=printed)
        right = [line.split() for line in read("ids.txt").decode().split("\n")[:-1]]
        self.assertEqual([line.split()[1:] for line in joined.decode().split("\n")[:-1]], right)
        self.assertEqual((status, len(right)), (0, 200))
        pieces = tool("vocab.py", "decode", os.path.join(self.folder, "vocab.pack"), given=joined)[1].decode().split("\n")[:-1]
        known = lambda words, i: [word for word, k in zip(words, i) if k != "0"]
        for mine, theirs, ids in zip(pieces, read("pieces.txt").decode().split("\n"), right):
            self.assertEqual(known(mine.split("\t"), ids), known(theirs.split(" "), ids))

    def test_rules(self):
        for comment, line in (
            ("  the \t room\u3000! ", "▁the▁room▁!"),
            ("", ""),
            (" \u00a0", ""),
            ("\u0007the\u200broom", "▁the▁room"),
            ("ｆｕｌｌ ① ﬁ ～ e\u0301 ｶﾞ", "▁full▁1▁fi▁～▁é▁ガ"),
        ):
            self.assertEqual(self.lines("sentencepiece", given=comment + "\n"), [line])

    def test_what_is_not_sure(self):
        given = "the\ne\u0301\u0323\n".encode() + b"\xff\n" + "\ua7f2\n각\u11a8가\u11a8\n\0\nroom".encode()
        status, out, err = self.prepare("sentencepiece", given=given)
        self.assertEqual((status, out.decode()), (3, "▁the\n▁room\n"))
        for i, said in ((2, "U+0323"), (3, "byte 1"), (4, "U+A7F2"), (5, "become one"), (6, "NUL")):
            self.assertRegex(err, rf"comment {i} is not prepared: .*{said.replace('+', '[+]')}")
        with open(self.map, encoding="ascii") as file:
            self.assertEqual(file.read(), "1\n-\n-\n-\n-\n-\n1\n")

    def test_control_symbols(self):
        status, out, err = self.prepare("sentencepiece", os.path.join(STORED, "m.vocab"), given="a<s>b\n")
        self.assertEqual((status, out), (3, b""))
        self.assertIn("<s>", err)


class Bert(Folder):
    def test_published_cases(self):
        for words, comment, lines in (
            ([], "ah\u535A\u63A8zz", ["ah", "\u535A", "\u63A8", "zz"]),
            ([], " \tHeLLo!how   Are yoU?  ", ["hello", "!", "how", "are", "you", "?"]),
            ([], "H\u00E9llo", ["hello"]),
            (["--cased"], " \tHeLLo!how   Are yoU?  ", ["HeLLo", "!", "how", "Are", "yoU", "?"]),
            (["--cased"], "H\u00E9llo", ["H\u00E9llo"]),
            ([], "A\u0000\ufffd\u200bb", ["ab"]),
            ([], "", []),
            ([], "it's 5$—no", ["it", "'", "s", "5", "$", "—", "no"]),
        ):
            self.assertEqual(self.lines("bert", *words, given=comment + "\n"), lines)

    def test_settings(self):
        bert = {"normalizer": {"type": "BertNormalizer", "lowercase": True}, "pre_tokenizer": {"type": "BertPreTokenizer"}}
        self.assertEqual(self.lines("json", self.json(**bert), given="Ünder\n"), ["under"])
        bert["normalizer"]["strip_accents"] = False
        self.assertEqual(self.lines("json", self.json(**bert), given="Ünder\n"), ["ünder"])


METASPACE = {"type": "Metaspace", "replacement": "▁", "prepend_scheme": "always"}


class Json(Folder):
    def test_known(self):
        squeeze = {"type": "Replace", "pattern": {"Regex": " {2,}"}, "content": " "}
        steps = {"type": "Sequence", "normalizers": [{"type": "Nmt"}, {"type": "NFKC"}, {"type": "Lowercase"}, squeeze]}
        path = self.json(normalizer=steps, pre_tokenizer=METASPACE)
        self.assertEqual(self.lines("json", path, given="ＴＨＥ  Room\n"), ["▁the▁room"])
        split = {"type": "Sequence", "pretokenizers": [{"type": "WhitespaceSplit"}, {**METASPACE, "add_prefix_space": True}]}
        self.assertEqual(self.lines("json", self.json(pre_tokenizer=split), given=" the  room \n"), ["▁the▁room"])
        self.assertEqual(self.lines("json", self.json(), given="the room\n"), ["the room"])

    def test_unknown(self):
        for settings, said in (
            ({"normalizer": {"type": "Precompiled", "precompiled_charsmap": "x"}}, "Precompiled"),
            ({"normalizer": {"type": "Prepend", "prepend": "x"}}, "Prepend"),
            ({"pre_tokenizer": {"type": "ByteLevel"}}, "ByteLevel"),
            ({"pre_tokenizer": {**METASPACE, "prepend_scheme": "first"}}, "first"),
            ({"normalizer": {"type": "BertNormalizer", "lowercase": "yes"}}, "lowercase"),
            ({"normalizer": "NFKC"}, "normalizer"),
        ):
            status, out, err = self.prepare("json", self.json(**settings), given="a\n")
            self.assertEqual((status, out), (1, b""))
            self.assertIn(said, err)

    def test_added_tokens(self):
        path = self.json(added_tokens=[{"id": 0, "content": "[CLS]"}])
        status, out, err = self.prepare("json", path, given="a\nthe [CLS] room\n")
        self.assertEqual((status, out), (3, b"a\n"))
        self.assertIn("[CLS]", err)

    def test_the_tool_asks_for_it(self):
        pack = os.path.join(self.folder, "vocab.pack")
        path = self.json(pre_tokenizer=METASPACE, added_tokens=[{"id": 0, "content": "<unk>"}])
        self.assertEqual(tool("vocab.py", "make", path, pack)[0], 1)
        self.assertEqual(tool("vocab.py", "make", path, pack, "--prepared")[0], 0)
        path = self.json(pre_tokenizer={"type": "ByteLevel"})
        status, _, err = tool("vocab.py", "make", path, pack, "--prepared", "--force")
        self.assertEqual(status, 1)
        self.assertIn("ByteLevel", err)


class Joining(Folder):
    def join(self, counts, printed):
        with open(self.map, "w", encoding="ascii") as file:
            file.write(counts)
        return tool("prepare.py", "join", self.map, given=printed)

    def test_joined(self):
        status, out, err = self.join("2\n0\n1\n", b"2 5 6\n1 7\n0\n")
        self.assertEqual((status, out), (0, b"3 5 6 7\n0\n0\n"))
        status, out, err = self.join("2\n-\n1\n", b"2 5 6\nrefused 4\n1 8\n")
        self.assertEqual((status, out), (3, b"refused 4\nunprepared\n1 8\n"))
        self.assertIn("1 comments with ids, 2 without", err)

    def test_not_of_one_day(self):
        for counts, printed, said in (
            ("2\n", b"0\n", "not of one day"),
            ("x\n", b"0\n", "not a map"),
            ("1\n", b"2 5\n", "line 1"),
            ("1\n", b"pack refused 7\n", "line 1"),
        ):
            status, out, err = self.join(counts, printed)
            self.assertEqual((status, out), (1, b""))
            self.assertIn(said, err)

    def test_usage(self):
        self.assertEqual(tool("prepare.py")[0], 2)
        self.assertEqual(tool("prepare.py", "bert")[0], 2)
        self.assertIn(b"Status: 0", tool("prepare.py", "--help")[1])
        self.assertEqual(tool("prepare.py", "--version")[0], 0)
        self.assertEqual(tool("prepare.py", "json", "/none.json", "--map", self.map)[0], 1)


if __name__ == "__main__":
    unittest.main()
