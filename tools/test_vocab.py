#!/usr/bin/env python3
"""Tests of vocab.py: every format to the rows that it means, what would give other ids refused, every refusal with its number
and row, every message with what it names, and the commands."""

import contextlib
import io
import json
import os
import struct
import subprocess
import sys
import tempfile
import unittest

HERE = os.path.dirname(os.path.abspath(__file__))
sys.path.insert(0, HERE)
import vocab
from packs import NO_ID, UNIGRAM, WORDPIECE, Bad, Pack, Vocabulary, count_nodes, fingerprint, make

# the paper's case: 76 bytes
CASE = struct.pack("<9I", 2, 2, 36, 68, 8, 0, 100, 2, 2) + struct.pack("<8I", 0, 2, 1, 0, 2, 6, 2, 0) + b"un##able"


def run(*words, given=b""):
    """The status, and what was written to standard output and error."""
    out, err = io.StringIO(), io.StringIO()
    stdin, sys.stdin = sys.stdin, io.TextIOWrapper(io.BytesIO(given))
    try:
        with contextlib.redirect_stdout(out), contextlib.redirect_stderr(err):
            status = vocab.main(list(words))
    except SystemExit as e:
        status = e.code
    finally:
        sys.stdin = stdin
    return status, out.getvalue(), err.getvalue()


class Folder(unittest.TestCase):
    def setUp(self):
        self.folder = tempfile.TemporaryDirectory()
        self.addCleanup(self.folder.cleanup)
        self.out = os.path.join(self.folder.name, "out.pack")

    def file(self, name, data):
        path = os.path.join(self.folder.name, name)
        with open(path, "wb") as f:
            f.write(data if isinstance(data, bytes) else data.encode())
        return path

    def json(self, model, **rest):
        return self.file("tokenizer.json", json.dumps({"model": model, **rest}))

    def rows(self, path, *words, said=""):
        status, _, err = run("make", path, self.out, "--force", *words)
        self.assertEqual(status, 0, err)
        self.assertIn(said, err)
        with open(self.out, "rb") as f:
            pack = Pack(f.read())
        return pack, list(zip(pack.tokens(), [row[2] for row in pack.rows]))

    def refuses(self, path, *words, said, status=1):
        """Nothing is written, and the message has these words."""
        got, out, err = run("make", path, self.out, *words)
        self.assertEqual((got, out), (status, ""), err)
        for word in [said] if isinstance(said, str) else said:
            self.assertIn(word, err)
        self.assertNotIn("Traceback", err)
        self.assertFalse(os.path.exists(self.out))


UNIGRAM_MODEL = {"type": "Unigram", "unk_id": 1, "vocab": [["a", -1.5], ["<unk>", 0], ["日本", -2.25]]}
WORDPIECE_MODEL = {"type": "WordPiece", "unk_token": "[UNK]", "vocab": {"[UNK]": 7, "un": 3, "@@able": 9}}


class Formats(Folder):
    def test_unigram_tokenizer_json(self):
        pack, rows = self.rows(self.json(UNIGRAM_MODEL))
        self.assertEqual(rows, [(b"a", -1.5), (b"<unk>", 0.0), ("日本".encode(), -2.25)])
        self.assertEqual((pack.kind, pack.unknown, pack.max_chars, pack.prefix), (UNIGRAM, 1, 0, b""))

    def test_wordpiece_tokenizer_json(self):
        model = {**WORDPIECE_MODEL, "continuing_subword_prefix": "@@", "max_input_chars_per_word": 12}
        del model["type"]
        pack, rows = self.rows(self.json(model))
        self.assertEqual(rows, [(b"[UNK]", 7), (b"un", 3), (b"@@able", 9)])
        self.assertEqual((pack.kind, pack.unknown, pack.max_chars, pack.prefix), (WORDPIECE, 7, 12, b"@@"))

    def test_bert_vocab(self):
        pack, rows = self.rows(self.file("vocab.txt", "[PAD]\n[UNK]\r\nun\n##able\n"))
        self.assertEqual(rows, [(b"[PAD]", 0), (b"[UNK]", 1), (b"un", 2), (b"##able", 3)])
        self.assertEqual((pack.unknown, pack.max_chars, pack.prefix), (1, 100, b"##"))

    def test_sentencepiece(self):
        pack, rows = self.rows(self.file("m.vocab", "<unk>\t0\n<s>\t0\n▁the\t-3.25\n\t\t-4\n"))
        self.assertEqual(rows, [(b"<unk>", 0.0), (b"<s>", 0.0), ("▁the".encode(), -3.25), (b"\t", -4.0)])
        self.assertEqual(pack.unknown, 0)

    def test_table(self):
        path = self.file("words.tsv", "a\t-1\nb\t-2.5")
        pack, rows = self.rows(path, "--kind", "unigram", "--unknown-token", "b")
        self.assertEqual((rows, pack.unknown), ([(b"a", -1.0), (b"b", -2.5)], 1))
        path = self.file("ids.tsv", "a\t5\n#b\t6\n")
        pack, rows = self.rows(path, "--kind", "wordpiece", "--unknown", "77", "--prefix", "#", "--max-chars", "3")
        self.assertEqual(rows, [(b"a", 5), (b"#b", 6)])
        self.assertEqual((pack.unknown, pack.max_chars, pack.prefix), (77, 3, b"#"))

    def test_a_number_is_an_id_and_no_token(self):
        path = self.file("words.tsv", "a\t-1\n0\t-2\n")
        self.assertEqual(self.rows(path, "--kind", "unigram", "--unknown", "0")[0].unknown, 0)
        self.assertEqual(self.rows(path, "--kind", "unigram", "--unknown-token", "0")[0].unknown, 1)
        os.remove(self.out)
        self.refuses(path, "--kind", "unigram", "--unknown", "a", said=["'a'", "--unknown-token"], status=2)
        self.refuses(path, "--kind", "unigram", "--unknown-token", "z", said="z")
        self.refuses(path, "--kind", "unigram", "--unknown", "1", "--unknown-token", "a", said="not allowed", status=2)
        self.refuses(path, "--kind", "unigram", "--unknown", "4294967296", said="4,294,967,295", status=2)

    def test_what_a_table_lacks(self):
        path = self.file("t.tsv", "a\t1\n")
        self.refuses(path, said="--kind")
        self.refuses(path, "--kind", "unigram", said=["--unknown ID", "--unknown-token"])
        self.refuses(path, "--kind", "unigram", "--unknown", "0", "--prefix", "#", said="WordPiece")


class OtherIds(Folder):
    """What would give other ids is refused, or made with a word that is said on the screen."""

    def test_other_models(self):
        self.refuses(self.json({"type": "BPE", "vocab": {}, "merges": []}), said="BPE")
        self.refuses(self.json({"vocab": {"a": 0}, "merges": ["a b"], "unk_token": "a"}), said="BPE")

    def test_byte_fallback(self):
        path = self.json({**UNIGRAM_MODEL, "byte_fallback": True})
        self.refuses(path, said=["byte_fallback", "--ignore byte_fallback"])
        self.rows(path, "--ignore", "byte_fallback", said="ignored: byte_fallback")
        self.rows(self.json({**UNIGRAM_MODEL, "byte_fallback": False}))

    def test_bpe_listing(self):
        rows = "<unk>\t0\n<s>\t0\n</s>\t0\n" + "".join(f"p{i}\t-{i}\n" for i in range(40))
        path = self.file("m.vocab", rows)
        self.refuses(path, said=["BPE", "--ignore bpe"])
        self.rows(path, "--ignore", "bpe", said="ignored: bpe")

    def test_what_comes_before_the_model(self):
        for field, setting in (
            ("normalizer", {"type": "Sequence", "normalizers": [{"type": "NFKC"}, {"type": "Lowercase"}]}),
            ("pre_tokenizer", {"type": "Metaspace", "replacement": "▁"}),
            ("added_tokens", [{"id": 0, "content": "<s>"}]),
        ):
            path = self.json(UNIGRAM_MODEL, **{field: setting})
            self.refuses(path, said=[field, "tools/prepare.py", f"--ignore {field}"])
            self.rows(path, "--ignore", field, said=f"ignored: {field}")
            os.remove(self.out)
            self.rows(self.json(UNIGRAM_MODEL, **{field: None}))
            os.remove(self.out)

    def test_unknown_id(self):
        for unknown in (None, 3, -1):
            self.refuses(self.json({**UNIGRAM_MODEL, "unk_id": unknown}), said="unk" if unknown is None else str(unknown))
        self.assertEqual(self.rows(self.json({**UNIGRAM_MODEL, "unk_id": None}), "--unknown", "2")[0].unknown, 2)


class Messages(Folder):
    def test_not_utf_8(self):
        for data, said in (
            ("é\t-1\n".encode("latin-1"), ["line 1", "byte 1", "latin1"]),
            ("a\t-1\n".encode("utf-16"), "UTF-16"),
            ("a\t-1\n".encode("utf-8-sig"), "byte order mark"),
        ):
            self.refuses(self.file("m.vocab", data), said=said)
            self.refuses(self.file("vocab.txt", data), said=said)
        self.refuses(self.file("t.json", json.dumps({"model": {"é": 1}}, ensure_ascii=False).encode("latin-1")), said="byte")
        self.refuses(self.file("t.json", b"\xef\xbb\xbf{}"), said="byte order mark")

    def test_json(self):
        pairs = lambda *rows: {**UNIGRAM_MODEL, "vocab": list(rows)}
        for model, said in (
            ({"type": "Unigram", "unk_id": 0}, "model.vocab: missing"),
            ({"type": "Unigram", "unk_id": 0, "vocab": None}, "model.vocab: missing"),
            (None, "model: null"),
            (pairs(["a", -1], ["b"]), "model.vocab[1]"),
            (pairs(["a", "-1"]), ["model.vocab[0]", '"-1"', "score"]),
            (pairs([None, -1]), ["model.vocab[0]", "token"]),
            (pairs("a"), "model.vocab[0]"),
            ({**UNIGRAM_MODEL, "vocab": {"a": 1}}, "model.vocab"),
            ({**UNIGRAM_MODEL, "unk_id": "1"}, "model.unk_id"),
            ({**WORDPIECE_MODEL, "vocab": {"a": "1"}}, ["model.vocab['a']", "id"]),
            ({**WORDPIECE_MODEL, "vocab": {"a": 1.5}}, "model.vocab['a']"),
            ({**WORDPIECE_MODEL, "vocab": []}, "model.vocab"),
            ({**WORDPIECE_MODEL, "max_input_chars_per_word": "x"}, "model.max_input_chars_per_word"),
            ({**WORDPIECE_MODEL, "unk_token": 3}, "model.unk_token"),
        ):
            self.refuses(self.json(model), said=said)
        self.rows(self.json({**WORDPIECE_MODEL, "continuing_subword_prefix": None, "max_input_chars_per_word": None}))
        os.remove(self.out)
        self.refuses(self.file("t.json", '{"model": '), said=["line 1", "JSON"])
        self.refuses(self.file("t.json", "[]"), said="object")

    def test_surrogates_are_no_text(self):
        path = self.file("t.json", '{"model": {"type": "Unigram", "unk_id": 0, "vocab": [["\\ud800", 1]]}}')
        self.refuses(path, said=["model.vocab[0]", "surrogate"])

    def test_lines_that_are_no_rows(self):
        for text, said in (("a 1\n", "line 1"), ("a\t1\nb\tx\n", ["line 2", "'x'"])):
            self.refuses(self.file("t.tsv", text), "--kind", "unigram", "--unknown", "0", said=said)

    def test_files(self):
        self.refuses(self.file("m.model", b"\n\x07"), said=".vocab")
        self.refuses(os.path.join(self.folder.name, "none.vocab"), said=["none.vocab", "No such file"])
        self.refuses(self.folder.name, "--format", "table", "--kind", "unigram", said="directory")

    def test_usage(self):
        path = self.file("vocab.pack", CASE)
        for words in (["inspect", path, "--rows", "x"], ["inspect", path, "--rows", "-1"], [], ["make", path], ["bake"]):
            status, _, err = run(*words)
            self.assertEqual(status, 2, words)
            self.assertIn("usage", err)
        status, out, _ = run("--help")
        self.assertEqual(status, 0)
        for word in ("tokenizer-json", "bert-vocab", "sentencepiece", "table", "Status: 0", "decode", "show"):
            self.assertIn(word, out)
        self.assertEqual(run("--version")[:2], (0, f"vocab.py {vocab.VERSION}\n"))

    def test_closed_pipe(self):
        path = self.file("long.pack", make(Vocabulary(UNIGRAM, [(b"%05d" % i, 0.0) for i in range(20_000)], 0)))
        tool = os.path.join(HERE, "vocab.py")
        command = f"{sys.executable} {tool} inspect {path} --rows all | head -1; exit ${{PIPESTATUS[0]}}"
        done = subprocess.run(["bash", "-c", command], capture_output=True, text=True)
        self.assertEqual((done.returncode, done.stdout.count("\n")), (1, 1))
        self.assertIn("closed", done.stderr)
        self.assertNotIn("Traceback", done.stderr)

    def test_output_that_can_not_be_written(self):
        tool = os.path.join(HERE, "vocab.py")
        with open("/dev/full", "wb") as full:
            command = [sys.executable, tool, "check", self.file("v.pack", CASE)]
            done = subprocess.run(command, stdout=full, stderr=subprocess.PIPE)
        self.assertEqual(done.returncode, 1)
        self.assertNotIn(b"Traceback", done.stderr)


class Writing(Folder):
    def test_overwriting(self):
        path = self.json(UNIGRAM_MODEL)
        self.rows(path)
        status, _, err = run("make", path, self.out)
        self.assertEqual(status, 1)
        self.assertIn("--force", err)
        self.rows(path, "--force")
        status, _, err = run("make", path, path, "--force")
        self.assertEqual(status, 1)
        self.assertIn("itself", err)
        with open(path) as f:
            self.assertEqual(json.load(f)["model"], UNIGRAM_MODEL)

    def test_the_folder_is_made(self):
        out = os.path.join(self.folder.name, "my", "vocab.pack")
        self.assertEqual(run("make", self.json(UNIGRAM_MODEL), out)[0], 0)
        self.assertTrue(os.path.exists(out))

    def test_what_the_program_would_refuse(self):
        many, deep = [f"{i:05}" for i in range(5_000)], [f"{i:03}" + "x" * 20 for i in range(300)]
        for tokens, number in ((many, 1), (deep, 7)):
            path = self.file("t.tsv", "".join(f"{token}\t0\n" for token in tokens))
            words = ["--kind", "unigram", "--unknown", "0"]
            self.refuses(path, *words, said=[f"refusal {number}", "--for-library"])
            pack, _ = self.rows(path, *words, "--for-library")
            status, out, err = run("check", self.out)
            self.assertEqual((status, out), (1, ""))
            self.assertIn(f"refusal {number}", err)
            self.assertEqual(run("check", self.out, "--for-library")[0], 0)
            os.remove(self.out)

    def test_warnings(self):
        path = self.file("t.tsv", "a\t1\n\t2\na\t3\nb\t3\n")
        self.rows(path, "--kind", "wordpiece", "--unknown", "0", said="empty tokens, which match nothing: rows 1")
        self.rows(path, "--kind", "wordpiece", "--unknown", "0", said="the token 'a' stands in rows 0, 2: the last counts")
        self.rows(path, "--kind", "wordpiece", "--unknown", "0", said="the id 3 stands in rows 2, 3")
        self.rows(path, "--kind", "unigram", "--unknown", "0", said="the token 'a' stands in rows 0, 2: the first counts")


class Packs(Folder):
    def test_the_case_byte_for_byte(self):
        v = Vocabulary(WORDPIECE, [(b"un", 1), (b"##able", 2)], 0, 100, b"##")
        self.assertEqual(make(v), CASE)
        pack = Pack(CASE)
        self.assertEqual((pack.nodes, pack.prefix, pack.unknown, pack.max_chars), (9, b"##", 0, 100))

    def test_a_prefix_that_stands_in_no_token(self):
        pack = Pack(make(Vocabulary(WORDPIECE, [(b"a", 1)], 0, 1, b"##")))
        self.assertEqual(pack.prefix, b"##")

    def test_no_rows(self):
        self.assertEqual(Pack(make(Vocabulary(UNIGRAM, [], 0))).nodes, 1)

    def test_nodes(self):
        self.assertEqual(count_nodes([b"ab", b"abc", b"", b"ab", b"b"]), 5)

    def refused(self, data, number, row=None):
        with self.assertRaises(Bad) as e:
            Pack(data)
        self.assertEqual((e.exception.number, e.exception.row), (number, row))

    def word(self, at, n):
        return CASE[: 4 * at] + struct.pack("<I", n) + CASE[4 * at + 4 :]

    def test_layout(self):
        for length in range(len(CASE)):
            self.refused(CASE[:length], 11)
        self.refused(CASE + b"x", 11)
        for at, n in ((0, 0), (0, 3), (1, 1), (1, NO_ID), (2, 35), (3, 69), (4, 7), (4, NO_ID), (12, 1)):
            self.refused(self.word(at, n), 11)
        unigram = make(Vocabulary(UNIGRAM, [(b"a", 1.0)], 0))
        for at in (24, 28, 32):
            self.refused(unigram[:at] + b"\1\0\0\0" + unigram[at + 4 :], 11)

    def test_order(self):
        self.refused(self.word(8, 65), 1)
        self.refused(self.word(9, 9), 2, 0)
        self.refused(self.word(7, 9), 2)
        both = self.word(7, 9)
        self.refused(both[:36] + struct.pack("<I", 9) + both[40:], 2, 0)

    def test_rows(self):
        self.refused(make(Vocabulary(UNIGRAM, [(b"a", 1.0), (b"a" * 1025, 1.0)], 0)), 3, 1)
        self.refused(make(Vocabulary(UNIGRAM, [(b"\xff", 1.0)], 0)), 4, 0)
        self.refused(make(Vocabulary(UNIGRAM, [(b"a", float("nan"))], 0)), 5, 0)
        self.refused(make(Vocabulary(UNIGRAM, [(b"a", float("-inf"))], 0)), 5, 0)
        self.refused(make(Vocabulary(WORDPIECE, [(b"a", NO_ID)], 0, 1, b"")), 6, 0)
        self.refused(make(Vocabulary(WORDPIECE, [(b"a", 1)], 0, 1, b"\xc3")), 4)
        Pack(make(Vocabulary(UNIGRAM, [(b"a" * 1024, 1.0)], 0)))


class Commands(Folder):
    def test_check_and_inspect(self):
        path = self.file("vocab.pack", CASE)
        status, out, _ = run("check", path)
        self.assertEqual(status, 0)
        self.assertIn("9 nodes", out)
        self.assertIn("fits", out)
        self.assertIn(fingerprint(CASE), out)
        status, out, _ = run("inspect", path, "--rows", "1")
        self.assertEqual(status, 0)
        self.assertIn(f"vocabulary {fingerprint(CASE)}\n", out)
        self.assertIn("prefix '##'", out)
        self.assertIn("0\t1\t'un'", out)
        self.assertIn("1 more", out)
        status, _, err = run("check", self.file("bad.pack", CASE[:-1]))
        self.assertEqual(status, 1)
        self.assertIn("refusal 11", err)
        self.assertEqual(run("check", os.path.join(self.folder.name, "none"))[0], 1)

    def test_decode_and_show(self):
        path = self.file("vocab.pack", CASE)
        status, out, err = run("decode", path, given=b"2 1 2\n0\n1 0\nrefused 4\nunprepared\n")
        self.assertEqual((status, out, err), (0, "un\t##able\n\n(unknown)\nrefused 4\nunprepared\n", ""))
        status, out, _ = run("show", path, given=b"2 1 2\nrefused 1\n")
        self.assertEqual((status, out), (0, "line 1: 2 ids\n           1  un\n           2  ##able\nline 2: refused 1\n"))
        other = [(line, "no line") for line in (b"2 1\n", b"x\n", b"pack refused 7\n", b"1 -1\n", b"refused\n", b"\n")]
        for line, said in [(b"1 5\n", "another vocabulary"), *other]:
            status, _, err = run("decode", path, given=line)
            self.assertEqual(status, 1)
            self.assertIn(said, err)
            self.assertIn("line 1", err)

    def test_ids_of_each_kind(self):
        rows = [(b"a", 5), (b"b", 5), (b"a", 6), (b"c\td", 7)]
        path = self.file("w.pack", make(Vocabulary(WORDPIECE, rows, 0, 9, b"")))
        self.assertEqual(run("decode", path, given=b"3 6 5 7\n")[1], "a\tb\tc\\td\n")
        rows = [(b"a", -1.0), (b"b", -2.0), (b"a", -3.0)]
        path = self.file("u.pack", make(Vocabulary(UNIGRAM, rows, 9)))
        self.assertEqual(run("decode", path, given=b"3 0 1 9\n")[1], "a\tb\t(unknown)\n")
        self.assertEqual(run("decode", path, given=b"1 2\n")[0], 1)
        path = self.file("s.pack", make(Vocabulary(WORDPIECE, [(b"a", 5), (b"b", 5)], 0, 9, b"")))
        self.assertIn("2 tokens have the id 5", run("decode", path, given=b"1 5\n")[2])


if __name__ == "__main__":
    unittest.main()
