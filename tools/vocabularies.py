"""Vocabularies as coders have them, read from their files. What would give other ids here is refused, with what to do."""

import json
import os

from packs import NO_ID, UNIGRAM, WORDPIECE, KINDS, Unreadable, Vocabulary, id_of

FORMATS = ("tokenizer-json", "bert-vocab", "sentencepiece", "table")

# what may be set aside by name, and what the screen then says
IGNORED = {
    "byte_fallback": "byte_fallback: its tokenizer codes an unknown character as byte tokens, here it is the unknown id",
    "bpe": "bpe: its tokenizer merges pairs by rank, here the sum of the ranks decides, which gives other ids",
    "normalizer": "normalizer: its tokenizer changes the text first, here nobody does",
    "pre_tokenizer": "pre_tokenizer: its tokenizer splits the text first, here nobody does",
    "added_tokens": "added_tokens: its tokenizer finds them in the text first, here they are coded like other text",
}

NOT_UTF_8 = "not UTF-8. If it is Latin-1: iconv -f latin1 -t utf-8"
MARKS = {b"\xef\xbb\xbf": "UTF-8 with a byte order mark", b"\xff\xfe": "UTF-16", b"\xfe\xff": "UTF-16"}


def read_bytes(path):
    with open(path, "rb") as file:
        data = file.read()
    for mark, name in MARKS.items():
        if data.startswith(mark):
            raise Unreadable(f"it is {name}: save it as UTF-8 without a byte order mark (iconv does)")
    return data


def text_lines(path):
    """The lines of a file, which is UTF-8."""
    lines = read_bytes(path).split(b"\n")
    if lines and lines[-1] == b"":
        lines.pop()
    lines = [line[:-1] if line.endswith(b"\r") else line for line in lines]
    for i, line in enumerate(lines):
        try:
            line.decode("utf-8")
        except UnicodeDecodeError as e:
            raise Unreadable(f"line {i + 1}, byte {e.start + 1}: {NOT_UTF_8}") from None
    return lines


def number(word, kind, line):
    try:
        return float(word) if kind == UNIGRAM else int(word)
    except ValueError:
        what = "a score" if kind == UNIGRAM else "an id"
        raise Unreadable(f"line {line + 1}: {word!r} is not {what}") from None


def two_columns(path, kind):
    rows = []
    for i, line in enumerate(text_lines(path)):
        token, tab, worth = line.rpartition(b"\t")
        if not tab:
            raise Unreadable(f"line {i + 1}: no tab between the token and its {'score' if kind == UNIGRAM else 'id'}")
        rows.append((token, number(worth.decode().strip(), kind, i)))
    return rows


# ---- tokenizer.json


def of_type(value, types, where, what):
    if isinstance(value, bool) or not isinstance(value, types):
        raise Unreadable(f"{where}: {json.dumps(value)[:60]} where {what} should stand")
    return value


def encode(text, where):
    try:
        return of_type(text, str, where, "a token").encode("utf-8")
    except UnicodeEncodeError:
        raise Unreadable(f"{where}: half of a surrogate pair is no text") from None


def read_json(path):
    data = read_bytes(path)
    try:
        return of_type(json.loads(data.decode("utf-8")), dict, "the file", "an object")
    except UnicodeDecodeError as e:
        raise Unreadable(f"byte {e.start + 1}: {NOT_UTF_8}") from None
    except json.JSONDecodeError as e:
        raise Unreadable(f"line {e.lineno}, column {e.colno}: not JSON ({e.msg})") from None


def described(setting):
    """The names of a normalizer or pre_tokenizer, for a message."""
    if isinstance(setting, dict):
        inner = setting.get("normalizers") or setting.get("pretokenizers")
        if setting.get("type") == "Sequence" and isinstance(inner, list):
            return " then ".join(described(s) for s in inner) or "nothing"
        return str(setting.get("type"))
    return json.dumps(setting)[:40]


def unapplied(whole, prepared, ignored):
    """What the tokenizer does before its model, and nobody does here."""
    for field in ("normalizer", "pre_tokenizer", "added_tokens"):
        setting = whole.get(field)
        if not setting or field in ignored:
            continue
        if prepared:
            import prepare

            prepare.known(field, setting)
            continue
        what = f"{len(setting)} of them" if field == "added_tokens" else described(setting)
        raise Unreadable(
            f"{field} ({what}): its tokenizer applies it to the text before coding, and the program does not. Send the "
            f"comments through tools/prepare.py and say --prepared; or say --ignore {field}, and ids will differ"
        )


def unigram_model(model, ignored):
    if model.get("byte_fallback") and "byte_fallback" not in ignored:
        why = f"model.byte_fallback is true. {IGNORED['byte_fallback']}"
        raise Unreadable(f"{why}: say --ignore byte_fallback if that is meant")
    rows = []
    for i, pair in enumerate(of_type(model["vocab"], list, "model.vocab", "a list of pairs")):
        where = f"model.vocab[{i}]"
        if not isinstance(pair, list) or len(pair) != 2:
            raise Unreadable(f"{where}: {json.dumps(pair)[:60]} where a token and its score should stand")
        rows.append((encode(pair[0], where), float(of_type(pair[1], (int, float), where, "a score"))))
    unknown = model.get("unk_id")
    if unknown is not None:
        of_type(unknown, int, "model.unk_id", "a number")
        if not 0 <= unknown < len(rows):
            raise Unreadable(f"model.unk_id is {unknown}, and there are {len(rows)} rows")
    return Vocabulary(UNIGRAM, rows, unknown)


def wordpiece_model(model):
    rows = []
    for token, i in of_type(model["vocab"], dict, "model.vocab", "tokens with their ids").items():
        where = f"model.vocab[{token!r}]"
        rows.append((encode(token, where), of_type(i, int, where, "an id")))
    text = lambda field, default: encode(default if model.get(field) is None else model[field], f"model.{field}")
    most = model.get("max_input_chars_per_word")
    most = 100 if most is None else of_type(most, int, "model.max_input_chars_per_word", "a number")
    unknown = id_of(rows, WORDPIECE, text("unk_token", "[UNK]"))
    return Vocabulary(WORDPIECE, rows, unknown, most, text("continuing_subword_prefix", "##"))


def from_tokenizer_json(path, prepared, ignored):
    whole = read_json(path)
    model = of_type(whole.get("model"), dict, "model", "an object")
    if model.get("vocab") is None:
        raise Unreadable("model.vocab: missing; this is no tokenizer.json with its vocabulary")
    # older files do not name the model: merges are BPE's, a list of pairs is Unigram, a mapping to ids WordPiece
    kind = model.get("type")
    if kind is None:
        kind = "BPE" if "merges" in model else "Unigram" if isinstance(model["vocab"], list) else "WordPiece"
    if kind not in ("Unigram", "WordPiece"):
        raise Unreadable(f"its model is {kind}: only Unigram and WordPiece are coded here")
    unapplied(whole, prepared, ignored)
    return unigram_model(model, ignored) if kind == "Unigram" else wordpiece_model(model)


# ---- the other formats


def from_bert_vocab(path):
    rows = [(token, i) for i, token in enumerate(text_lines(path))]
    return Vocabulary(WORDPIECE, rows, id_of(rows, WORDPIECE, b"[UNK]"), 100, b"##")


def are_ranks(rows):
    """Scores 0, -1, -2 .. after the control symbols, which have 0: SentencePiece lists the merges of BPE so."""
    scores = [score for _, score in rows]
    first = next((i for i, score in enumerate(scores) if score != 0), len(scores))
    ranks = scores[max(first - 1, 0) :]
    return len(ranks) > 16 and all(score == -k for k, score in enumerate(ranks))


def from_sentencepiece(path, ignored):
    rows = two_columns(path, UNIGRAM)
    if are_ranks(rows) and "bpe" not in ignored:
        why = f"its scores are 0, -1, -2 ..: the list of a BPE model. {IGNORED['bpe']}"
        raise Unreadable(f"{why}: say --ignore bpe if that is meant")
    return Vocabulary(UNIGRAM, rows, id_of(rows, UNIGRAM, b"<unk>"))


def from_table(path, kind):
    rows = two_columns(path, kind)
    if kind == UNIGRAM:
        return Vocabulary(kind, rows, id_of(rows, kind, b"<unk>"))
    return Vocabulary(kind, rows, id_of(rows, kind, b"[UNK]"), 100, b"##")


def guess(path):
    name = os.path.basename(path)
    if name.endswith(".model"):
        raise Unreadable("a SentencePiece .model is not read here: use the .vocab that was written beside it")
    if name.endswith(".json"):
        return "tokenizer-json"
    if name.endswith(".vocab"):
        return "sentencepiece"
    if name.endswith("vocab.txt"):
        return "bert-vocab"
    return "table"


def read_vocabulary(path, form=None, kind=None, prepared=False, ignored=()):
    form = form or guess(path)
    if form == "table":
        if kind is None:
            raise Unreadable("a table does not say its kind: give --kind unigram or --kind wordpiece")
        return from_table(path, kind)
    if form == "tokenizer-json":
        v = from_tokenizer_json(path, prepared, ignored)
    elif form == "bert-vocab":
        v = from_bert_vocab(path)
    else:
        v = from_sentencepiece(path, ignored)
    if kind is not None and kind != v.kind:
        raise Unreadable(f"it is a {KINDS[v.kind]} vocabulary")
    return v


# ---- what is odd, and accepted


def places(rows):
    shown = ", ".join(str(i) for i in rows[:5])
    return shown if len(rows) <= 5 else f"{shown} and {len(rows) - 5:,} more"


def repeated(pairs):
    """The rows of each value that stands in more than one row, by the first of them."""
    rows = {}
    for i, value in pairs:
        rows.setdefault(value, []).append(i)
    return [(value, at) for value, at in rows.items() if len(at) > 1]


def warnings(v):
    """Lines about what the rules accept and a coder may not have meant, at most ten of a sort."""
    out = []
    empty = [i for i, (token, _) in enumerate(v.rows) if not token]
    if empty:
        out.append(f"empty tokens, which match nothing: rows {places(empty)}")
    kept = "first" if v.kind == UNIGRAM else "last"
    same = repeated((i, token) for i, (token, _) in enumerate(v.rows) if token)
    for token, at in same[:10]:
        out.append(f"the token {token.decode('utf-8', 'replace')!r} stands in rows {places(at)}: the {kept} counts")
    if len(same) > 10:
        out.append(f"and {len(same) - 10:,} more repeated tokens")
    if v.kind == WORDPIECE:
        same = repeated((i, worth) for i, (_, worth) in enumerate(v.rows))
        for worth, at in same[:10]:
            out.append(f"the id {worth} stands in rows {places(at)}: those tokens can't be told apart in the ids")
        if len(same) > 10:
            out.append(f"and {len(same) - 10:,} more repeated ids")
    return out


def unknown_id(v, given_id, given_token):
    """The unknown id: what was given, or what the vocabulary says."""
    if given_token is not None:
        found = id_of(v.rows, v.kind, given_token.encode())
        if found is None:
            raise Unreadable(f"--unknown-token {given_token}: not a token of the vocabulary")
        return found
    if given_id is not None:
        return given_id
    if v.unknown is None:
        raise Unreadable("it does not say which id is the unknown one: give --unknown ID or --unknown-token TOKEN")
    if not 0 <= v.unknown <= NO_ID:
        raise Unreadable(f"its unknown id is {v.unknown}: give --unknown ID or --unknown-token TOKEN")
    return v.unknown
