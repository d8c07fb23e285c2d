"""The pack file: how it is made, read and refused by the rules' numbers, and its fingerprint."""

import hashlib
import math
import struct
import sys

HEADER = 36
ROW = 16
UNIGRAM, WORDPIECE = 1, 2
KINDS = {UNIGRAM: "unigram", WORDPIECE: "wordpiece"}
NO_ID = 0xFFFFFFFF

MAX_ROWS = 1_048_576
MAX_TABLE = 16_777_216
MAX_TOKEN = 1_024
MAX_PREFIX = 64

# what the program `ids` reads and lends
PROGRAM_BYTES = 65_536
PROGRAM_NODES = 4_096


class Bad(Exception):
    """A vocabulary or a pack that is refused: the number, the row where there is one, and words."""

    def __init__(self, number, words, row=None):
        self.number, self.row = number, row
        where = "" if row is None else f"row {row}: "
        super().__init__(f"{where}{words} (refusal {number})")


class Unreadable(Exception):
    """A file that is not in its format, or that would give other ids: what is wrong, and what to do."""


class Progress:
    """A line on standard error for long lists, at most one each 65,536 steps."""

    def __init__(self, what, total):
        self.what, self.total, self.shown = what, total, False

    def at(self, i):
        if i and i % 65_536 == 0:
            self.shown = True
            print(f"\r{self.what}: {i:,} of {self.total:,}", end="", file=sys.stderr, flush=True)

    def end(self):
        if self.shown:
            print(f"\r{self.what}: {self.total:,} of {self.total:,}", file=sys.stderr)


class Vocabulary:
    """Tokens as bytes with their worths (scores for Unigram, ids for WordPiece), and what stands in the header."""

    def __init__(self, kind, rows, unknown, max_chars=0, prefix=b""):
        self.kind, self.rows, self.unknown = kind, rows, unknown
        self.max_chars, self.prefix = max_chars, prefix


def id_of(rows, kind, token):
    """The id of a token: Unigram's is its first row, WordPiece's what its last row says."""
    found = [i if kind == UNIGRAM else worth for i, (t, worth) in enumerate(rows) if t == token]
    if not found:
        return None
    return found[0] if kind == UNIGRAM else found[-1]


def is_text(bytes_):
    try:
        bytes_.decode("utf-8")
        return True
    except UnicodeDecodeError:
        return False


def check_row(kind, table, i, off, length, worth):
    """One row, "tested in the order 2, 3, 4, then 5 or 6"."""
    if off + length > len(table):
        raise Bad(2, f"bytes {off} to {off + length} lie outside the {len(table)} bytes of strings", i)
    if length > MAX_TOKEN:
        raise Bad(3, f"a token of {length} bytes; {MAX_TOKEN} is the most", i)
    token = table[off : off + length]
    if not is_text(token):
        raise Bad(4, f"the token {token!r} is not well-formed UTF-8", i)
    if kind == UNIGRAM and not math.isfinite(worth):
        raise Bad(5, f"the score {worth} is not finite", i)
    if kind == WORDPIECE and worth == NO_ID:
        raise Bad(6, f"the id {NO_ID} means no id", i)


def count_nodes(tokens):
    """1 and the number of distinct non-empty prefixes."""
    seen = set()
    progress = Progress("counting nodes", len(tokens))
    for i, token in enumerate(tokens):
        progress.at(i)
        for n in range(len(token), 0, -1):
            prefix = token[:n]
            if prefix in seen:
                break
            seen.add(prefix)
    progress.end()
    return 1 + len(seen)


def fingerprint(data):
    """The first 12 hexadecimal digits of the SHA-256 of a pack's bytes."""
    return hashlib.sha256(data).hexdigest()[:12]


def make(v):
    """The bytes of the pack. Repeated tokens share their bytes."""
    if len(v.rows) > MAX_ROWS:
        raise Bad(1, f"{len(v.rows):,} rows; {MAX_ROWS:,} is the most")
    table, at, rows = bytearray(), {}, bytearray()
    progress = Progress("packing", len(v.rows))
    for i, (token, worth) in enumerate(v.rows):
        progress.at(i)
        if token not in at:
            at[token] = len(table)
            table += token
        if v.kind == UNIGRAM:
            worth = struct.pack("<d", worth)
        elif 0 <= worth <= NO_ID:
            worth = struct.pack("<II", worth, 0)
        else:
            raise Bad(6, f"the id {worth} does not fit", i)
        rows += struct.pack("<II", at[token], len(token)) + worth
    progress.end()
    prefix = (0, 0)
    if v.kind == WORDPIECE:
        place = at.get(v.prefix, bytes(table).find(v.prefix))
        if place < 0:
            place = len(table)
            table += v.prefix
        prefix = (place, len(v.prefix))
    for what, n in (("the unknown id", v.unknown), ("max_chars", v.max_chars)):
        if not 0 <= n <= NO_ID:
            raise Unreadable(f"{what} is {n}, which is not between 0 and {NO_ID:,}")
    strings = HEADER + ROW * len(v.rows)
    header = (v.kind, len(v.rows), HEADER, strings, len(table), v.unknown, v.max_chars, *prefix)
    return struct.pack("<9I", *header) + bytes(rows) + bytes(table)


class Pack:
    """A pack, read by the rules and refused by their numbers. Room (7) is not tested: it is the caller's."""

    def __init__(self, data):
        self.size = len(data)
        if self.size < HEADER:
            raise Bad(11, f"{self.size} bytes; the header alone has {HEADER}")
        words = struct.unpack_from("<9I", data)
        kind, rows, rows_off, strings_off, strings_len = words[:5]
        self.kind, self.unknown, self.max_chars, prefix_off, prefix_len = kind, *words[5:]
        if kind not in KINDS:
            raise Bad(11, f"kind {kind} is neither 1 (Unigram) nor 2 (WordPiece)")
        if rows_off != HEADER:
            raise Bad(11, f"the rows' offset is {rows_off}, not {HEADER}")
        if strings_off != HEADER + ROW * rows:
            raise Bad(11, f"the strings' offset is {strings_off}, not {HEADER + ROW * rows}")
        if strings_off + strings_len != self.size:
            raise Bad(11, f"the strings end at byte {strings_off + strings_len} of {self.size}")
        if kind == UNIGRAM and (self.max_chars, prefix_off, prefix_len) != (0, 0, 0):
            raise Bad(11, "a Unigram pack has max_chars or a prefix")
        self.table = data[strings_off:]
        self.rows = [self.read_row(data, i) for i in range(rows)]
        if rows > MAX_ROWS:
            raise Bad(1, f"{rows:,} rows; {MAX_ROWS:,} is the most")
        if strings_len > MAX_TABLE:
            raise Bad(1, f"{strings_len:,} bytes of strings; {MAX_TABLE:,} is the most")
        if prefix_len > MAX_PREFIX:
            raise Bad(1, f"a prefix of {prefix_len} bytes; {MAX_PREFIX} is the most")
        progress = Progress("checking rows", rows)
        for i, row in enumerate(self.rows):
            progress.at(i)
            check_row(kind, self.table, i, *row)
        progress.end()
        if prefix_off + prefix_len > len(self.table):
            raise Bad(2, "the prefix lies outside the strings")
        self.prefix = self.table[prefix_off : prefix_off + prefix_len]
        if not is_text(self.prefix):
            raise Bad(4, f"the prefix {self.prefix!r} is not well-formed UTF-8")
        self.nodes = count_nodes(self.tokens())

    def read_row(self, data, i):
        off, length, worth, pad = struct.unpack_from("<4I", data, HEADER + ROW * i)
        if self.kind == UNIGRAM:
            (worth,) = struct.unpack_from("<d", data, HEADER + ROW * i + 8)
        elif pad != 0:
            raise Bad(11, f"the last four bytes of row {i} are not zero")
        return off, length, worth

    def tokens(self):
        return [self.table[off : off + length] for off, length, _ in self.rows]

    def by_id(self):
        """The tokens of each id: Unigram's id is a token's first row, WordPiece's what its last row says."""
        ids = {}
        for i, (token, (_, _, worth)) in enumerate(zip(self.tokens(), self.rows)):
            if not token:
                continue
            if self.kind == WORDPIECE:
                ids[token] = worth
            else:
                ids.setdefault(token, i)
        tokens = {}
        for token, i in ids.items():
            tokens.setdefault(i, []).append(token)
        return tokens

    def too_much(self):
        """Why the program `ids` refuses a pack that the rules accept; None where it does not."""
        if self.size > PROGRAM_BYTES:
            return Bad(1, f"{self.size:,} bytes; the program `ids` reads {PROGRAM_BYTES:,}")
        if self.nodes > PROGRAM_NODES:
            return Bad(7, f"{self.nodes:,} nodes; the program `ids` lends {PROGRAM_NODES:,}")
        return None

    def needs(self):
        """What it needs, and whether the program has the room."""
        lines = [f"{len(self.rows):,} rows, {self.size:,} bytes; {self.nodes:,} nodes, {self.nodes - 1:,} edges"]
        why = self.too_much()
        if why is None:
            lines.append(f"fits the program `ids` ({PROGRAM_BYTES:,} bytes, {PROGRAM_NODES:,} nodes)")
        else:
            lines.append(f"for the library alone: {why}")
        return lines
