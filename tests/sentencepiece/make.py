#!/usr/bin/env python3
"""How the stored files were made, with the real SentencePiece (Debian's package sentencepiece, 0.1.97): 3,000 comments for
training and 200 for the test, a Unigram model of 400 pieces, and what spm_encode gives for the 200. Usage: make.py, in an
empty folder; it writes comments.txt, m.vocab, pieces.txt and ids.txt.
"""

import random
import subprocess

WORDS = """the a and of in to I we it was is light room rooms picture pictures painting paintings museum guide guides
children child loved liked hated boring beautiful wonderful dark too very much noisy quiet queue tickets
expensive cheap cafe coffee garden gardens statue statues audio map maps floor stairs lift toilet closed open
friendly staff thank you again come back next year time more less labels small big text read hard easy found
lost our my son daughter school visit visited exhibition exhibit display case glass reflection dinosaur mummy
rocket train model hands interactive screen touch broken worked working not no never always great good bad best
worst Rembrandt Vermeer Kahlo Hokusai café naïve façade Zürich São Müller Ångström déjà piñata crème""".split()
OTHER = ["日本の絵", "美しい", "博物館", "ありがとう", "Привет", "музей", "красиво", "μουσείο", "متحف", "박물관", "좋아요", "ﾐｭｰｼﾞｱﾑ", "ｶﾞｲﾄﾞ"]
SIGNS = ["!", "!!", "?", "...", "…", ":)", "👍", "❤️", "👨‍👩‍👧", "5/5", "10€", "½", "№3", "ｆｕｌｌ", "①", "™"]
SIGNS += ["“so”", "–", "～", "x²", "ﬁne"]
SPACES = [" ", " ", " ", " ", " ", "  ", "\u00a0", "\t", "\u3000", "\u200b"]


def comment(r):
    out = []
    for _ in range(r.randrange(1, 14)):
        word = r.choice(WORDS)
        roll = r.random()
        if roll < 0.05:
            word = r.choice(OTHER)
        elif roll < 0.15:
            word += r.choice(SIGNS)
        elif roll < 0.2:
            word = word.upper()
        elif roll < 0.23:
            word += r.choice(WORDS)
        elif roll < 0.25:
            word = word.replace("é", "e\u0301").replace("o", "0")
        out += [word, r.choice(SPACES)]
    return "".join(out)


def write(name, lines):
    with open(name, "w", encoding="utf-8", newline="") as file:
        file.write("".join(line + "\n" for line in lines))


def main():
    r = random.Random(1)
    write("train.txt", [comment(r) for _ in range(3_000)])
    test = [comment(r) for _ in range(190)]
    test += ["", " ", "\u00a0 \u3000", "qqqq zzzz", "☃☃☃ snow ☃", "the\u0007room", "\ufeffthe light", "▁the▁room"]
    test += ["e\u0301te\u0301", "x"]
    write("comments.txt", test)
    train = "--input=train.txt --model_prefix=m --vocab_size=400 --model_type=unigram --character_coverage=0.999"
    subprocess.run(["spm_train", *train.split(), "--num_threads=1"], check=True, stderr=subprocess.DEVNULL)
    for form in ("piece", "id"):
        command = ["spm_encode", "--model=m.model", f"--output_format={form}", "--input=comments.txt", f"--output={form}s.txt"]
        subprocess.run(command, check=True)


if __name__ == "__main__":
    main()
