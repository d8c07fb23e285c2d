#!/usr/bin/env python3
"""Makes, checks and shows vocabulary packs for the program `ids`, and turns ids back into pieces.

  vocab.py make FILE OUT [options]       writes the pack OUT from a vocabulary
  vocab.py check PACK                    says what the program will say of the pack
  vocab.py inspect PACK [--rows N]       shows the header, what the pack needs, and its first N rows (20; 'all' for every one)
  vocab.py decode PACK < IDS             the pieces of each line that the program printed, separated by tabs
  vocab.py show PACK < IDS               the same, each piece beside its id

FILE is one of these, told by its name, or by --format:
  tokenizer-json   NAME.json: Hugging Face tokenizer.json with a Unigram or WordPiece model
  bert-vocab       vocab.txt: a token a line, its id the line's number from 0
  sentencepiece    NAME.vocab: token, tab, score, as SentencePiece's Unigram training writes it
  table            any other name: token, tab, score (--kind unigram) or id (--kind wordpiece)
All are UTF-8 without a byte order mark.

What a tokenizer does before its model (normalizer, pre_tokenizer, added_tokens) is not done by the program. A tokenizer.json
that has such settings is refused, unless --prepared says that the comments go through tools/prepare.py, or --ignore names the
setting. What was ignored is said on standard error.

Status: 0 done; 1 the file, the pack or the ids are refused or can't be read or written; 2 bad usage. A pack that the program
would refuse is not written, unless --for-library asks for it. A file that is there is overwritten only with --force, FILE
itself never.
"""

import argparse
import os
import sys

sys.path.insert(0, os.path.dirname(os.path.abspath(__file__)))
from packs import KINDS, NO_ID, UNIGRAM, WORDPIECE, Bad, Pack, Unreadable, fingerprint, make
from vocabularies import FORMATS, IGNORED, read_vocabulary, unknown_id, warnings

VERSION = "1.0"


def say(*lines):
    for line in lines:
        print(line, file=sys.stderr)


def vocabulary(args):
    kind = {"unigram": UNIGRAM, "wordpiece": WORDPIECE, None: None}[args.kind]
    v = read_vocabulary(args.file, args.format, kind, args.prepared, args.ignore)
    v.unknown = unknown_id(v, args.unknown, args.unknown_token)
    if v.kind == WORDPIECE:
        v.max_chars = v.max_chars if args.max_chars is None else args.max_chars
        v.prefix = v.prefix if args.prefix is None else args.prefix.encode()
    elif args.prefix is not None or args.max_chars is not None:
        raise Unreadable("--prefix and --max-chars are for WordPiece")
    return v


def may_write(args):
    if os.path.exists(args.out):
        if os.path.samefile(args.file, args.out):
            raise Unreadable("OUT is the vocabulary itself")
        if not args.force:
            raise Unreadable(f"{args.out} is there already: --force overwrites it")


def command_make(args):
    v = vocabulary(args)
    data = make(v)
    pack = Pack(data)
    why = pack.too_much()
    if why is not None and not args.for_library:
        raise Unreadable(f"the program would refuse the pack: {why}. --for-library writes it all the same")
    may_write(args)
    os.makedirs(os.path.dirname(args.out) or ".", exist_ok=True)
    with open(args.out, "wb") as file:
        file.write(data)
    say(*(f"ignored: {IGNORED[field]}" for field in args.ignore))
    say(*(f"note: {line}" for line in warnings(v)))
    print(f"{args.out}: {KINDS[v.kind]}, unknown id {v.unknown}, vocabulary {fingerprint(data)}")
    print("\n".join(pack.needs()))


def read_pack(path):
    with open(path, "rb") as file:
        data = file.read()
    return data, Pack(data)


def command_check(args):
    data, pack = read_pack(args.pack)
    why = pack.too_much()
    if why is not None and not args.for_library:
        raise why
    print(f"{args.pack}: fine, vocabulary {fingerprint(data)}")
    print("\n".join(pack.needs()))


def command_inspect(args):
    data, pack = read_pack(args.pack)
    print(f"vocabulary {fingerprint(data)}")
    print(f"kind {pack.kind} ({KINDS[pack.kind]})")
    print(f"unknown id {pack.unknown}")
    if pack.kind == WORDPIECE:
        print(f"max_chars {pack.max_chars}")
        print(f"prefix {pack.prefix.decode()!r}")
    print("\n".join(pack.needs()))
    if not pack.rows:
        return
    most = len(pack.rows) if args.rows is None else args.rows
    print(f"row\t{'score' if pack.kind == UNIGRAM else 'id'}\ttoken")
    for i, ((_, _, worth), token) in enumerate(zip(pack.rows[:most], pack.tokens())):
        print(f"{i}\t{worth!r}\t{token.decode()!r}")
    if most < len(pack.rows):
        print(f"and {len(pack.rows) - most:,} more")


# ---- from ids to pieces


def printed_lines():
    """What the program printed, or prepare.py joined, line by line: a list of ids; or no list, and what stands there instead."""
    for i, line in enumerate(sys.stdin.buffer, 1):
        words = line.decode("ascii", "replace").split()
        try:
            if words == ["unprepared"] or words[:1] == ["refused"] and int(words[1]) > 0:
                yield i, None, " ".join(words)
                continue
            count, *ids = [int(word) for word in words]
            if count != len(ids) or min([count, *ids]) < 0:
                raise ValueError
        except (ValueError, IndexError):
            why = "is no line that the program prints for a comment"
            raise Unreadable(f"standard input, line {i}: {line[:60]!r} {why}") from None
        yield i, ids, None


ESCAPES = {ord("\\"): "\\\\", ord("\t"): "\\t", ord("\n"): "\\n", ord("\r"): "\\r"}


class Pieces:
    """The pieces of ids, as text that has no tab and no line end in it."""

    def __init__(self, pack):
        self.tokens, self.unknown, self.shared = pack.by_id(), pack.unknown, set()

    def of(self, line, i):
        found = self.tokens.get(i)
        if found is None:
            if i == self.unknown:
                return "(unknown)"
            raise Unreadable(f"standard input, line {line}: no token has the id {i}: it is another vocabulary's")
        if len(found) > 1:
            self.shared.add(i)
        return found[0].decode().translate(ESCAPES)

    def end(self):
        for i in sorted(self.shared):
            say(f"note: {len(self.tokens[i])} tokens have the id {i}; the first is shown")


def command_decode(args):
    pieces = Pieces(read_pack(args.pack)[1])
    for line, ids, instead in printed_lines():
        print(instead if ids is None else "\t".join(pieces.of(line, i) for i in ids))
    pieces.end()


def command_show(args):
    pieces = Pieces(read_pack(args.pack)[1])
    for line, ids, instead in printed_lines():
        print(f"line {line}: " + (instead if ids is None else f"{len(ids)} ids"))
        for i in ids or []:
            print(f"  {i:>10}  {pieces.of(line, i)}")
    pieces.end()


# ---- the command line


def whole(low, high):
    def read(word):
        if not (word.isascii() and word.isdecimal() and low <= int(word) <= high):
            raise argparse.ArgumentTypeError(f"{word!r} is not a whole number from {low} to {high:,}")
        return int(word)

    return read


def unknown_number(word):
    try:
        return whole(0, NO_ID)(word)
    except argparse.ArgumentTypeError as e:
        raise argparse.ArgumentTypeError(f"{e}; a token is given with --unknown-token") from None


def row_count(word):
    return None if word == "all" else whole(0, 1 << 32)(word)


def parser():
    p = argparse.ArgumentParser(description=__doc__, formatter_class=argparse.RawDescriptionHelpFormatter)
    p.add_argument("--version", action="version", version=f"vocab.py {VERSION}")
    commands = p.add_subparsers(dest="command", required=True, metavar="make|check|inspect|decode|show")
    m = commands.add_parser("make", help="make a pack from a vocabulary")
    m.add_argument("file")
    m.add_argument("out")
    m.add_argument("--format", choices=FORMATS)
    m.add_argument("--kind", choices=["unigram", "wordpiece"])
    unknown = m.add_mutually_exclusive_group()
    unknown.add_argument("--unknown", type=unknown_number, metavar="ID", help="the unknown id, a number")
    unknown.add_argument("--unknown-token", metavar="TOKEN", help="the token whose id is the unknown id")
    m.add_argument("--prefix", help="WordPiece: what stands before every piece but the first")
    m.add_argument("--max-chars", type=whole(0, NO_ID), metavar="N", help="WordPiece: a longer word is one unknown id")
    m.add_argument("--prepared", action="store_true", help="the comments will go through tools/prepare.py")
    m.add_argument("--ignore", action="append", default=[], choices=sorted(IGNORED), help="make it though its own ids differ")
    m.add_argument("--for-library", action="store_true", help="write a pack that is too large for the program")
    m.add_argument("--force", action="store_true", help="overwrite OUT")
    m.set_defaults(run=command_make)
    c = commands.add_parser("check", help="say what the program will say of a pack")
    c.add_argument("pack")
    c.add_argument("--for-library", action="store_true", help="say whether the library takes it")
    c.set_defaults(run=command_check)
    i = commands.add_parser("inspect", help="show what a pack holds")
    i.add_argument("pack")
    i.add_argument("--rows", default=20, type=row_count, metavar="N", help="how many rows to show, or 'all'")
    i.set_defaults(run=command_inspect)
    for name, run, words in (
        ("decode", command_decode, "the pieces of each line of ids"),
        ("show", command_show, "each piece beside its id"),
    ):
        d = commands.add_parser(name, help=words)
        d.add_argument("pack")
        d.set_defaults(run=run)
    return p


def main(words=None):
    args = parser().parse_args(words)
    try:
        args.run(args)
        sys.stdout.flush()
    except (Bad, Unreadable) as e:
        say(f"{getattr(args, 'file', None) or args.pack}: {e}")
        return 1
    except BrokenPipeError:
        os.dup2(os.open(os.devnull, os.O_WRONLY), 1)
        say("standard output was closed before all was written")
        return 1
    except OSError as e:
        say(f"{e.filename or 'standard output'}: {e.strerror}")
        return 1
    return 0


if __name__ == "__main__":
    sys.exit(main())
