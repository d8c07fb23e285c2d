#!/usr/bin/env python3
"""Runs of ./run: what it prints, its status, its words on standard error, and how it builds the program. Usage: run.py"""

import importlib.machinery
import importlib.util
import os
import shutil
import subprocess
import sys
import tempfile
import time
import unittest

ROOT = os.path.realpath(os.path.join(os.path.dirname(os.path.abspath(__file__)), ".."))
RUN = os.path.join(ROOT, "run")
SAMPLE = os.path.join(ROOT, "sample")


def run(*words, given=b"", program=RUN, **more):
    done = subprocess.run([program, *words], input=given, capture_output=True, **more)
    assert b"Traceback" not in done.stderr, done.stderr
    return done.returncode, done.stdout, done.stderr.decode()


class Statuses(unittest.TestCase):
    def test_every_comment_coded(self):
        status, out, err = run(SAMPLE, given=b"the light\n\n")
        self.assertEqual((status, out.count(b"\n")), (0, 2))
        self.assertTrue(out.endswith(b"\n0\n"))
        self.assertRegex(err, r"^vocabulary [0-9a-f]{12}: 2 comments coded, 0 refused\n$")

    def test_some_refused(self):
        status, out, err = run(SAMPLE, given=b"\xff\na\n\xc3\n")
        self.assertEqual((status, out.split(b"\n")[0], out.count(b"\n")), (3, b"refused 4", 3))
        self.assertIn("1 comments coded, 2 refused", err)

    def test_nothing_to_code(self):
        self.assertEqual(run(SAMPLE, given=b"")[:2], (0, b""))

    def test_pack_refused(self):
        with tempfile.TemporaryDirectory() as folder:
            status, out, err = run(folder, given=b"a\n")
            self.assertEqual((status, out), (1, b""))
            self.assertIn("tools/vocab.py", err)
            with open(os.path.join(folder, "vocab.pack"), "wb") as file:
                file.write(b"no pack")
            status, out, err = run(folder, given=b"a\n")
            self.assertEqual((status, out), (1, b""))
            self.assertIn("pack refused 11", err)

    def test_input_that_is_a_folder(self):
        status, out, err = run(SAMPLE, SAMPLE)
        self.assertEqual((status, out), (1, b""))
        self.assertIn("a folder", err)

    def test_output_that_can_not_be_written(self):
        with open("/dev/full", "wb") as full:
            done = subprocess.run([RUN, SAMPLE], input=b"a\n", stdout=full, stderr=subprocess.PIPE)
        self.assertEqual(done.returncode, 1)
        self.assertIn(b"standard output", done.stderr)
        self.assertNotIn(b"Traceback", done.stderr)

    def test_usage(self):
        for words in ([""], [SAMPLE, ""], ["a", "b", "c"], ["--what"], ["no-such-folder"], [SAMPLE, "no-such-file"]):
            status, out, err = run(*words)
            self.assertEqual((status, out), (2, b""), words)
            self.assertTrue(err)
        for word in ("-h", "--help"):
            status, out, _ = run(word)
            self.assertEqual(status, 0)
            self.assertIn(b"Status: 0", out)
        self.assertEqual(run("--version")[0], 0)


class LongInput(unittest.TestCase):
    def test_several_runs(self):
        lines = [b"the light was good %d" % (i % 97) for i in range(4_000)]
        lines[1_500] = b"\xff"
        lines[2_000] = b""
        singly = {line: run(SAMPLE, given=line + b"\n")[1] for line in set(lines[:98]) | {b"\xff", b""}}
        for data in (b"\n".join(lines) + b"\n", b"\n".join(lines)):
            status, out, err = run(SAMPLE, given=data)
            self.assertEqual(out, b"".join(singly[line] for line in lines))
            self.assertEqual(status, 3)
            self.assertIn("3,999 comments coded, 1 refused", err)

    def test_the_longest_line(self):
        short = b"a\n"
        fits = b"b" * 32_767 + b"\n"
        self.assertEqual(run(SAMPLE, given=short + fits + short)[1].split(b"\n")[1], b"refused 9")
        status, out, err = run(SAMPLE, given=short + b"b" + fits + short)
        self.assertEqual((status, out), (1, b""))
        self.assertIn("line 2 has 32,769 bytes", err)
        status, out, err = run(SAMPLE, given=short + b"b" * 32_769)
        self.assertEqual((status, out), (1, b""))


class Places(unittest.TestCase):
    def test_through_a_symlink_and_from_elsewhere(self):
        with tempfile.TemporaryDirectory() as folder:
            link = os.path.join(folder, "code")
            os.symlink(RUN, link)
            self.assertEqual(run(program=link, cwd=folder)[:2], run(cwd="/")[:2])

    def test_what_is_built(self):
        run()
        loader = importlib.machinery.SourceFileLoader("run_program", RUN)
        module = importlib.util.module_from_spec(importlib.util.spec_from_loader("run_program", loader))
        sys.dont_write_bytecode = True
        loader.exec_module(module)
        names = module.crates()
        self.assertLessEqual({"ids", "output", "text", "refusal"}, names)
        self.assertNotIn("exports", names)
        self.assertTrue(module.is_built(names))
        kept = os.stat(module.PROGRAM)
        try:
            os.utime(module.PROGRAM, (0, 0))
            self.assertFalse(module.is_built(names))
        finally:
            os.utime(module.PROGRAM, ns=(kept.st_atime_ns, kept.st_mtime_ns))


STUB = """#!/bin/sh
echo 'crate low: modules loaded=0 checked=3'
sleep 2
echo 'crate other: modules loaded=0 checked=9'
mkdir -p out
printf '#!/bin/sh\\nsed s/.*/0/\\n' > out/ids
chmod +x out/ids
echo 'crate ids: modules loaded=2 checked=1'
"""


class Building(unittest.TestCase):
    """With a command rt that builds a program which prints 0 for each line."""

    def setUp(self):
        folder = tempfile.TemporaryDirectory()
        self.addCleanup(folder.cleanup)
        self.root = folder.name
        for name in ("tools", "bin", "crates/low/src", "crates/ids/src", "crates/other/src", "sample"):
            os.makedirs(os.path.join(self.root, name))
        for source, place in ((RUN, "run"), (os.path.join(ROOT, "tools", "packs.py"), "tools/packs.py")):
            shutil.copy(source, os.path.join(self.root, place))
        self.put("crates.txt", "low:\nother: low\nids: low\n")
        self.put("bin/rt", STUB)
        os.chmod(os.path.join(self.root, "bin/rt"), 0o755)
        self.put("crates/low/src/lib.rt", "// low")
        self.put("sample/vocab.pack", "")
        self.put("sample/comments.txt", "a\nb\n")
        self.path = {"PATH": os.path.join(self.root, "bin") + ":" + os.environ["PATH"], "PYTHONDONTWRITEBYTECODE": "1"}

    def put(self, name, text):
        with open(os.path.join(self.root, name), "w", encoding="utf-8") as file:
            file.write(text)

    def run_here(self):
        return run(program=os.path.join(self.root, "run"), env=self.path)

    def test_lines_for_crates_and_again_after_a_change(self):
        status, out, err = self.run_here()
        self.assertEqual((status, out), (0, b"0\n0\n"))
        self.assertIn("1 of 2: low,", err)
        self.assertIn("2 of 2: ids,", err)
        self.assertNotIn("other", err)
        self.assertNotIn("proving", self.run_here()[2])
        source = os.path.join(self.root, "crates/low/src/lib.rt")
        os.utime(source, (time.time() + 60,) * 2)
        self.assertIn("proving", self.run_here()[2])

    def test_a_second_run_waits(self):
        command = os.path.join(self.root, "run")
        first = subprocess.Popen([command], env=self.path, stdout=subprocess.PIPE, stderr=subprocess.PIPE)
        time.sleep(1)
        status, out, err = self.run_here()
        self.assertEqual((status, out), (0, b"0\n0\n"))
        self.assertIn("waiting", err)
        self.assertNotIn("proving", err)
        self.assertEqual(first.communicate()[0], b"0\n0\n")

    def test_a_build_that_fails(self):
        self.put("bin/rt", "#!/bin/sh\necho 'fn low::f: not proved'\nexit 1\n")
        status, out, err = self.run_here()
        self.assertEqual((status, out), (1, b""))
        self.assertIn("not proved", err)


if __name__ == "__main__":
    unittest.main()
