#!/usr/bin/env python3
"""Turns comments into the lines that a vocabulary is made for, and joins the ids of the lines to their comments again.

  prepare.py sentencepiece [FILE.vocab] < COMMENTS    lines for a SentencePiece Unigram vocabulary: a line for each comment
  prepare.py bert [--cased] < COMMENTS                lines for a BERT WordPiece vocabulary: a line for each word
  prepare.py json TOKENIZER.json < COMMENTS           either, by the settings of the file
  prepare.py join MAP < IDS                           a line of ids for each comment

The program codes lines as they are. Folding case, normalising and splitting come before it, and are done here as the
tokenizers that the vocabularies come from do them. A comment is a line of UTF-8. The lines go to standard output. --map MAP
(asked for) keeps how many lines each comment has, so that `join` can put the ids together:

  prepare.py json tokenizer.json --map day.map < day.txt > day.lines
  ./run my day.lines > day.lines.ids
  prepare.py join day.map < day.lines.ids > day.ids

SentencePiece: the rules nmt_nfkc (NFKC, control characters gone, other spaces made spaces), spaces at the ends gone and
between words made one, each space and the beginning marked with U+2581. A comment is not prepared, and named on standard
error, where the result can't be told for sure: ill-formed UTF-8; several combining marks on one letter; letters newer than
the rules, or that join; the text of a control symbol such as <s>. Such comments have no line, and `unprepared` stands for
their ids. The settings of a tokenizer.json that are not known here are refused.

Status: 0 done; 3 done, and some comments are not prepared or their lines were refused; 1 a file can't be read, written or
used; 2 bad usage.
"""

import argparse
import os
import re
import sys
import unicodedata

sys.path.insert(0, os.path.dirname(os.path.abspath(__file__)))
from packs import Unreadable
from vocabularies import described, of_type, read_json, two_columns, UNIGRAM

VERSION = "1.0"
SPACE = "\u2581"


class Unprepared(Exception):
    """A comment whose lines can't be told for sure, and why."""


def say(words):
    print(words, file=sys.stderr)


# ---- SentencePiece's rules nmt_nfkc

GONE = [*range(1, 9), 0xB, *range(0xE, 0x20), 0x7F, 0x8F, 0x9F]
SPACES = [9, 0xA, 0xC, 0xD, 0x1680, 0x200B, 0x200C, 0x200E, 0x200F, 0x2028, 0x2029, 0x2581, 0xFEFF, 0xFFFD]
NMT = {**dict.fromkeys(GONE), **dict.fromkeys(SPACES, " ")}
FULL_TILDE = "\uff5e"  # kept, since Japanese uses it and ~ differently

# compatibility letters that are newer than the rules
NEWER = [(0xA7F1, 0xA7F4), (0x10780, 0x107BA), (0x1CCD6, 0x1CCF9), (0x1E030, 0x1E06D)]

# what the rules join: a syllable of Hangul letters; a halfwidth kana with its sound mark; a letter with one combining mark
HANGUL = "[\u1100-\u1112][\u1161-\u1175][\u11a8-\u11c2]?"
JOINED = re.compile(f"{HANGUL}|.[\uff9e\uff9f]|.", re.DOTALL)


def clusters(text):
    """The text in parts that the rules change one by one."""
    out = []
    for part in JOINED.findall(text):
        if out and unicodedata.combining(part[0]):
            plain = len(unicodedata.normalize("NFKD", out[-1])) == 1 and not unicodedata.combining(out[-1])
            if not plain or len(part) != 1 or len(unicodedata.normalize("NFD", part)) != 1:
                raise Unprepared(f"the combining mark U+{ord(part[0]):04X} does not stand on a plain letter")
            out[-1] += part
        else:
            out.append(part)
    return out


def nmt_nfkc(text):
    """The text by the rules. Raises where NFKC as Unicode has it may not be NFKC as the rules have it."""
    if "\0" in text:
        raise Unprepared("it has a NUL")
    for c in text:
        if any(low <= ord(c) <= high for low, high in NEWER):
            raise Unprepared(f"the letter U+{ord(c):04X} is newer than the rules")
    nfkc = lambda part: part if part == FULL_TILDE else unicodedata.normalize("NFKC", part)
    text = text.translate(NMT)
    singly = "".join(nfkc(part) for part in clusters(text))
    if singly != "".join(nfkc(part) for part in re.split(f"({FULL_TILDE})", text)):
        raise Unprepared("two of its letters become one, which the rules and Unicode do differently")
    return singly


def marked(text):
    """Words behind marks: spaces at the ends gone, one mark for the spaces between and for the beginning."""
    words = [word for word in text.split(" ") if word]
    return "".join(SPACE + word for word in words)


# ---- BERT's basic tokenizer

CHINESE = [
    (0x4E00, 0x9FFF), (0x3400, 0x4DBF), (0x20000, 0x2A6DF), (0x2A700, 0x2B73F),
    (0x2B740, 0x2B81F), (0x2B820, 0x2CEAF), (0xF900, 0xFAFF), (0x2F800, 0x2FA1F),
]  # fmt: skip


def clean(text):
    out = []
    for c in text:
        if c in "\t\n\r" or unicodedata.category(c) == "Zs":
            out.append(" ")
        elif c not in "\0\ufffd" and not unicodedata.category(c).startswith("C"):
            out.append(c)
    return "".join(out)


def spaced_chinese(text):
    return "".join(f" {c} " if any(low <= ord(c) <= high for low, high in CHINESE) else c for c in text)


def without_accents(text):
    return "".join(c for c in unicodedata.normalize("NFD", text) if unicodedata.category(c) != "Mn")


def is_punctuation(c):
    return (c.isascii() and c.isprintable() and not c.isalnum() and c != " ") or unicodedata.category(c).startswith("P")


def bert_words(text):
    words = []
    for part in text.split():
        piece = ""
        for c in part:
            if is_punctuation(c):
                words += [piece, c]
                piece = ""
            else:
                piece += c
        words.append(piece)
    return [word for word in words if word]


# ---- the settings of a tokenizer.json

SPACES_AS_ONE = ({"Regex": " {2,}"}, " ")


class Settings:
    """What is done to a comment, step by step, and how it becomes lines."""

    def __init__(self, steps, lines, symbols=()):
        self.steps, self.lines, self.symbols = steps, lines, symbols

    def of(self, comment):
        for symbol in self.symbols:
            if symbol in comment:
                raise Unprepared(f"it has the text of the token {symbol!r}, which is not read as text")
        for step in self.steps:
            comment = step(comment)
        return self.lines(comment)


def flag(setting, field, default):
    value = setting.get(field)
    return default if value is None else of_type_bool(value, field)


def of_type_bool(value, field):
    if not isinstance(value, bool):
        raise Unreadable(f"{field}: {value!r} where true or false should stand")
    return value


def bert_steps(setting):
    lower = flag(setting, "lowercase", True)
    accents = flag(setting, "strip_accents", lower)
    steps = [clean] if flag(setting, "clean_text", True) else []
    steps += [spaced_chinese] if flag(setting, "handle_chinese_chars", True) else []
    steps += [without_accents] if accents else []
    return steps + ([str.lower] if lower else [])


def normalizer_steps(setting):
    """The steps of a normalizer; of a Sequence those of its parts."""
    kind = setting.get("type")
    if kind == "Sequence":
        return [step for part in setting.get("normalizers", []) for step in normalizer_steps(part)]
    if kind == "BertNormalizer":
        return bert_steps(setting)
    if kind == "Lowercase":
        return [str.lower]
    if kind in ("NFC", "NFD", "NFKC", "NFKD"):
        return [lambda text: unicodedata.normalize(kind, text)]
    if kind == "StripAccents":
        return [lambda text: "".join(c for c in text if unicodedata.category(c) != "Mn")]
    if kind == "Nmt":
        return [lambda text: text.translate(NMT)]
    if kind == "Replace" and (setting.get("pattern"), setting.get("content")) == SPACES_AS_ONE:
        return [lambda text: re.sub(" {2,}", " ", text)]
    raise Unreadable(f"normalizer {described(setting)}: not known here")


def metaspace(setting):
    scheme = setting.get("prepend_scheme") or ("always" if flag(setting, "add_prefix_space", True) else "never")
    if setting.get("replacement") != SPACE or scheme != "always":
        raise Unreadable(f"pre_tokenizer Metaspace with {setting.get('replacement')!r}, {scheme}: not known here")


def splitter(setting):
    """How a pre_tokenizer makes lines of a comment."""
    kind = setting.get("type")
    if kind == "BertPreTokenizer":
        return bert_words
    if kind == "Sequence":
        parts = setting.get("pretokenizers", [])
        if [part.get("type") for part in parts] == ["WhitespaceSplit", "Metaspace"]:
            metaspace(parts[1])
            return lambda text: [marked(" ".join(text.split()))]
    if kind == "Metaspace":
        metaspace(setting)
        return lambda text: [metaspaced(text)]
    raise Unreadable(f"pre_tokenizer {described(setting)}: not known here")


def metaspaced(text):
    text = text.replace(" ", SPACE)
    return text if not text or text.startswith(SPACE) else SPACE + text


def contents(added):
    return [of_type(of_type(t, dict, "added_tokens", "tokens").get("content"), str, "added_tokens", "a content") for t in added]


def known(field, setting):
    """Raises where a setting of a tokenizer.json is not known here."""
    if field == "added_tokens":
        contents(of_type(setting, list, field, "a list"))
    elif field == "normalizer":
        normalizer_steps(of_type(setting, dict, field, "an object"))
    else:
        splitter(of_type(setting, dict, field, "an object"))


def from_json(path):
    whole = read_json(path)
    for field in ("normalizer", "pre_tokenizer", "added_tokens"):
        if whole.get(field):
            known(field, whole[field])
    steps = normalizer_steps(whole["normalizer"]) if whole.get("normalizer") else []
    lines = splitter(whole["pre_tokenizer"]) if whole.get("pre_tokenizer") else lambda text: [text]
    return Settings(steps, lines, contents(whole.get("added_tokens") or []))


def from_sentencepiece(path):
    symbols = []
    if path is not None:
        symbols = [t.decode() for t, score in two_columns(path, UNIGRAM) if score == 0 and re.fullmatch(rb"<.+>", t)]
    return Settings([nmt_nfkc], lambda text: [marked(text)], symbols)


# ---- commands


def comments():
    """The comments of standard input: its lines, without CR LF or LF."""
    lines = sys.stdin.buffer.read().split(b"\n")
    if lines[-1] == b"":
        lines.pop()
    return [line[:-1] if line.endswith(b"\r") else line for line in lines]


def prepare(settings, comment):
    try:
        lines = settings.of(comment.decode("utf-8"))
    except UnicodeDecodeError as e:
        raise Unprepared(f"byte {e.start + 1} is no UTF-8") from None
    if any("\n" in line for line in lines):
        raise Unprepared("a line end stands in it")
    return lines


def command_prepare(args, settings):
    out, counts, bad = [], [], 0
    for i, comment in enumerate(comments(), 1):
        try:
            lines = prepare(settings, comment)
            out += lines
            counts.append(str(len(lines)))
        except Unprepared as e:
            bad += 1
            counts.append("-")
            say(f"comment {i} is not prepared: {e}")
    with open(args.map, "w", encoding="ascii") as file:
        file.write("".join(f"{count}\n" for count in counts))
    sys.stdout.buffer.write("".join(f"{line}\n" for line in out).encode())
    say(f"{len(counts) - bad:,} comments prepared in {len(out):,} lines, {bad:,} not prepared")
    return 3 if bad else 0


def read_map(path):
    with open(path, encoding="ascii", errors="replace") as file:
        words = file.read().split("\n")[:-1]
    for i, word in enumerate(words, 1):
        if word != "-" and not (word.isascii() and word.isdecimal()):
            raise Unreadable(f"{path}, line {i}: {word!r} is no number of lines: it is not a map of prepare.py")
    return words


def joined(lines):
    """The line of a comment, of the lines of its parts: all ids, or the first refusal."""
    ids = []
    for number, line in lines:
        words = line.split()
        if words[:1] == ["refused"]:
            return line
        if not words or not all(w.isascii() and w.isdecimal() for w in words) or int(words[0]) != len(words) - 1:
            raise Unreadable(f"standard input, line {number}: {line[:60]!r} is no line that the program prints for a comment")
        ids += words[1:]
    return " ".join([str(len(ids)), *ids])


def command_join(args):
    counts = read_map(args.map)
    lines = sys.stdin.buffer.read().decode("ascii", "replace").split("\n")[:-1]
    wanted = sum(int(count) for count in counts if count != "-")
    if wanted != len(lines):
        raise Unreadable(f"{args.map} is of {wanted:,} lines, and standard input has {len(lines):,}: they are not of one day")
    at, out = 0, []
    for count in counts:
        if count == "-":
            out.append("unprepared")
            continue
        out.append(joined([(at + k + 1, lines[at + k]) for k in range(int(count))]))
        at += int(count)
    print("".join(f"{line}\n" for line in out), end="")
    bad = sum(line.startswith(("refused", "unprepared")) for line in out)
    say(f"{len(out) - bad:,} comments with ids, {bad:,} without")
    return 3 if bad else 0


def parser():
    p = argparse.ArgumentParser(description=__doc__, formatter_class=argparse.RawDescriptionHelpFormatter)
    p.add_argument("--version", action="version", version=f"prepare.py {VERSION}")
    commands = p.add_subparsers(dest="command", required=True, metavar="sentencepiece|bert|json|join")
    s = commands.add_parser("sentencepiece", help="for a SentencePiece Unigram vocabulary")
    s.add_argument("vocab", nargs="?", help="its .vocab, whose control symbols no comment may spell")
    b = commands.add_parser("bert", help="for a BERT WordPiece vocabulary")
    b.add_argument("--cased", action="store_true", help="case and accents are kept")
    j = commands.add_parser("json", help="by the settings of a tokenizer.json")
    j.add_argument("file")
    s.set_defaults(run=lambda args: command_prepare(args, from_sentencepiece(args.vocab)))
    b.set_defaults(run=lambda args: command_prepare(args, Settings(bert_steps({"lowercase": not args.cased}), bert_words)))
    j.set_defaults(run=lambda args: command_prepare(args, from_json(args.file)))
    for c in (s, b, j):
        c.add_argument("--map", required=True, metavar="MAP", help="where to keep how many lines each comment has")
    o = commands.add_parser("join", help="the ids of the lines to their comments")
    o.add_argument("map")
    o.set_defaults(run=command_join)
    return p


def main(words=None):
    args = parser().parse_args(words)
    try:
        status = args.run(args)
        sys.stdout.flush()
        return status
    except Unreadable as e:
        say(f"{getattr(args, 'file', None) or getattr(args, 'vocab', None) or args.map}: {e}")
    except BrokenPipeError:
        os.dup2(os.open(os.devnull, os.O_WRONLY), 1)
        say("standard output was closed before all was written")
    except OSError as e:
        say(f"{e.filename or 'standard output'}: {e.strerror}")
    return 1


if __name__ == "__main__":
    sys.exit(main())
