//! Packs and the program. What the program prints is read off the paper here a second time, with the Rust of tokie for tries and
//! ids, and compared with the compiled port: random packs and inputs, each limit, and damaged packs. The program itself
//! is run too, with its input in pieces.

use std::fs;
use std::io::{Read, Write};
use std::path::{Path, PathBuf};
use std::process::{Command, Stdio};

use crate::port;
use crate::random::Random;
use crate::rows::{Kind, Rows, Worth};
use crate::small;
use crate::text::Tally;
use crate::tokie::{Lattice, Unigram, VocabTrie, Wordpiece};

/// What a pack says, beside its rows.
#[derive(Clone, Debug)]
pub struct Made {
    pub kind: Kind,
    pub rows: Vec<(Vec<u8>, Worth)>,
    pub unknown: u32,
    pub max_chars: u32,
    pub prefix: Vec<u8>,
}

/// "Little-endian u32 header, 36 bytes .. A row is 16 bytes: offset, length, then its worth".
pub fn pack(m: &Made) -> Vec<u8> {
    let mut strings: Vec<u8> = Vec::new();
    let mut rows: Vec<u8> = Vec::new();
    for (token, worth) in &m.rows {
        rows.extend((strings.len() as u32).to_le_bytes());
        rows.extend((token.len() as u32).to_le_bytes());
        strings.extend(token);
        match worth {
            Worth::Score(x) => rows.extend(x.to_bits().to_le_bytes()),
            Worth::Id(i) => rows.extend(u64::from(*i).to_le_bytes()),
        }
    }
    let (kind, prefix) = match m.kind {
        Kind::Unigram => (1, (0, 0)),
        Kind::WordPiece => (2, (strings.len(), m.prefix.len())),
    };
    if m.kind == Kind::WordPiece {
        strings.extend(&m.prefix);
    }
    let at = 36 + 16 * m.rows.len();
    let max_chars = if m.kind == Kind::Unigram { 0 } else { m.max_chars };
    let header =
        [kind, m.rows.len(), 36, at, strings.len(), m.unknown as usize, max_chars as usize, prefix.0, prefix.1];
    let mut out: Vec<u8> = header.iter().flat_map(|&w| (w as u32).to_le_bytes()).collect();
    out.extend(rows);
    out.extend(strings);
    out
}

/// A fine pack, with the Rust's trie of its rows.
enum Vocabulary {
    Unigram(Lattice),
    WordPiece(VocabTrie, u32),
}

fn word(bytes: &[u8], i: usize) -> u64 {
    u64::from(u32::from_le_bytes(bytes[4 * i..][..4].try_into().unwrap()))
}

/// "Order for a pack: 11, 1 (prefix length too), rows, 2 for a prefix outside the strings, 4 for the prefix, 7."
fn read(bytes: &[u8]) -> Result<Vocabulary, u32> {
    if bytes.len() > 65_536 {
        return Err(1);
    }
    if bytes.len() < 36 {
        return Err(11);
    }
    let [kind, rows, rows_off, strings_off, strings_len, unknown, max_chars, prefix_off, prefix_len]: [u64; 9] =
        std::array::from_fn(|i| word(bytes, i));
    let laid = rows_off == 36 && strings_off == 36 + 16 * rows && strings_off + strings_len == bytes.len() as u64;
    let kind = match kind {
        1 => Kind::Unigram,
        2 => Kind::WordPiece,
        _ => return Err(11),
    };
    if !laid || kind == Kind::Unigram && (max_chars, prefix_off, prefix_len) != (0, 0, 0) {
        return Err(11);
    }
    let mut list = Rows { tab: bytes[strings_off as usize..].to_vec(), ..Rows::default() };
    for row in bytes[36..strings_off as usize].chunks_exact(16) {
        let worth = match kind {
            Kind::Unigram => Worth::Score(f64::from_bits(word(row, 2) + (word(row, 3) << 32))),
            Kind::WordPiece if word(row, 3) != 0 => return Err(11),
            Kind::WordPiece => Worth::Id(word(row, 2) as u32),
        };
        list.push(word(row, 0) as u32, word(row, 1) as u32, worth);
    }
    if prefix_len > 64 {
        return Err(1);
    }
    if let Some((number, _)) = list.fault(kind) {
        return Err(number);
    }
    if prefix_off + prefix_len > strings_len {
        return Err(2);
    }
    let prefix = str::from_utf8(&list.tab[prefix_off as usize..][..prefix_len as usize]).map_err(|_| 4u32)?;
    let (vocabulary, nodes) = match kind {
        Kind::Unigram => {
            let lattice = Lattice::build(&Unigram { rows: list.unigram(), unknown: unknown as u32 });
            let nodes = lattice.parts().edge_at.len();
            (Vocabulary::Unigram(lattice), nodes)
        }
        Kind::WordPiece => {
            let w = Wordpiece { rows: list.wordpiece(), unknown: unknown as u32, prefix: prefix.to_string() };
            let trie = VocabTrie::build(&w);
            let nodes = trie.parts().edge_at.len();
            (Vocabulary::WordPiece(trie, max_chars as u32), nodes)
        }
    };
    if nodes > 4_096 { Err(7) } else { Ok(vocabulary) }
}

/// One line's ids, or its refusal: "1, 8, 4, 9, 10", of which 1 and 8 can't be here.
fn line_ids(v: &Vocabulary, line: &[u8]) -> Result<Vec<u32>, u32> {
    let text = str::from_utf8(line).map_err(|_| 4u32)?;
    let characters = text.chars().count();
    match v {
        Vocabulary::Unigram(_) if !text.is_empty() && (4_096 < text.len() + 1 || 4_096 < characters) => Err(9),
        _ if 4_096 < characters => Err(10),
        Vocabulary::Unigram(lattice) => Ok(lattice.segment(text).ids),
        // The paper's one known difference: an empty word has no ids
        Vocabulary::WordPiece(..) if text.is_empty() => Ok(Vec::new()),
        Vocabulary::WordPiece(trie, max_chars) => Ok(trie.encode(text, *max_chars)),
    }
}

/// What the program prints.
pub fn printed(pack: &[u8], input: &[u8]) -> Vec<u8> {
    let vocabulary = match read(pack) {
        Err(number) => return format!("pack refused {number}\n").into_bytes(),
        Ok(v) => v,
    };
    if input.len() > 32_768 {
        return b"input refused 1\n".to_vec();
    }
    let mut lines: Vec<&[u8]> = input.split(|&b| b == b'\n').collect();
    if lines.last().is_some_and(|rest| rest.is_empty()) {
        lines.pop();
    }
    let mut out = String::new();
    for line in lines {
        match line_ids(&vocabulary, line) {
            Ok(ids) => {
                out += &ids.len().to_string();
                ids.iter().for_each(|i| out += &format!(" {i}"));
            }
            Err(number) => out += &format!("refused {number}"),
        }
        out.push('\n');
    }
    out.into_bytes()
}

// ---- cases

fn made(r: &mut Random) -> Made {
    if r.one_in(2) {
        let v = small::unigram(r);
        let rows = v.rows.into_iter().map(|(t, x)| (t.into_bytes(), Worth::Score(x))).collect();
        return Made { kind: Kind::Unigram, rows, unknown: v.unknown, max_chars: 0, prefix: Vec::new() };
    }
    let v = small::wordpiece(r);
    let rows = v.rows.into_iter().map(|(t, i)| (t.into_bytes(), Worth::Id(i))).collect();
    let max_chars = if r.one_in(6) { u32::MAX } else { r.below(8) as u32 };
    Made { kind: Kind::WordPiece, rows, unknown: v.unknown, max_chars, prefix: v.prefix.into_bytes() }
}

/// A few lines: texts over the tokens, empty ones, bytes that are often no text, CR, NUL; the last LF is often missing.
fn input(r: &mut Random, m: &Made) -> Vec<u8> {
    let tokens: Vec<String> = m.rows.iter().map(|row| String::from_utf8_lossy(&row.0).into_owned()).collect();
    let tokens: Vec<&str> = tokens.iter().map(String::as_str).collect();
    let mut out = Vec::new();
    for _ in 0..r.below(5) {
        match r.below(8) {
            0 => out.extend(small::bytes(r)),
            1 => (),
            2 => out.extend(b"a\r\0b\xEF\xBB\xBF"),
            _ => out.extend(small::text(r, &tokens).into_bytes()),
        }
        out.push(b'\n');
    }
    if r.one_in(3) {
        out.pop();
    }
    out
}

/// A pack with something wrong in it: a byte, a word of the header, its end.
fn damage(r: &mut Random, bytes: &mut Vec<u8>) {
    let n = bytes.len();
    match r.below(6) {
        0 => {
            let i = r.below(n);
            bytes[i] = r.next() as u8;
        }
        1 => bytes.truncate(r.below(n)),
        2 => bytes.push(r.next() as u8),
        3 => {
            let at = 4 * r.below(9);
            let near = word(bytes, at / 4) as u32;
            let to =
                *r.pick(&[0, 1, 2, 3, 35, 36, 64, 65, near.wrapping_add(1), near.wrapping_sub(1), u32::MAX, 1 << 31]);
            bytes[at..at + 4].copy_from_slice(&to.to_le_bytes());
        }
        4 if n > 52 => {
            let i = 36 + r.below(n.min(36 + 64) - 36);
            bytes[i] = *r.pick(&[0, 1, 0x7F, 0x80, 0xF0, 0xFF]);
        }
        _ => {
            let at = 4 * r.below(9);
            bytes[at..at + 4].copy_from_slice(&(r.next() as u32).to_le_bytes());
        }
    }
}

fn alike(t: &mut Tally, pack: &[u8], input: &[u8]) {
    let (port, right) = (port::print(pack, input), printed(pack, input));
    t.check(port == right, || {
        let (a, b) = (String::from_utf8_lossy(&port), String::from_utf8_lossy(&right));
        format!("pack of {}, input of {}: {a:.200?}, not {b:.200?}\n    {pack:02x?}", pack.len(), input.len())
    });
}

fn random(seed: u64, count: usize) -> bool {
    let mut t = Tally::default();
    let mut r = Random::new(seed);
    for _ in 0..count {
        let m = made(&mut r);
        let input = input(&mut r, &m);
        alike(&mut t, &pack(&m), &input);
    }
    t.say("the program's output, random packs and inputs")
}

/// Each byte of good packs changed in turn, each truncation, and random damage.
fn damaged(seed: u64, packs: usize, count: usize) -> bool {
    let mut t = Tally::default();
    let mut r = Random::new(seed);
    for _ in 0..packs {
        let m = made(&mut r);
        let (good, lines) = (pack(&m), input(&mut r, &m));
        for n in 0..good.len() {
            alike(&mut t, &good[..n], &lines);
            for flip in [1, 0x80, 0xFF, r.next() as u8] {
                let mut bad = good.clone();
                bad[n] ^= flip;
                alike(&mut t, &bad, &lines);
            }
        }
    }
    for _ in 0..count {
        let m = made(&mut r);
        let (mut bad, lines) = (pack(&m), input(&mut r, &m));
        for _ in 0..1 + r.below(2) {
            if bad.len() >= 36 {
                damage(&mut r, &mut bad);
            }
        }
        alike(&mut t, &bad, &lines);
    }
    t.say("the program's output, damaged packs")
}

/// A Unigram pack whose trie has n nodes: one token of each length, no longer than a token may be.
fn with_nodes(n: usize) -> Made {
    let mut rows = Vec::new();
    let mut left = n - 1;
    for first in b'a'.. {
        let len = left.min(1_000);
        if len == 0 {
            break;
        }
        rows.push((vec![first; len], Worth::Score(-1.0)));
        left -= len;
    }
    Made { kind: Kind::Unigram, rows, unknown: 0, max_chars: 0, prefix: Vec::new() }
}

/// The limits at the number and one above: nodes, the file, the input, a line's bytes and characters, a prefix.
fn limits() -> bool {
    let mut t = Tally::default();
    for nodes in [4_095, 4_096, 4_097] {
        alike(&mut t, &pack(&with_nodes(nodes)), b"aaa\nq\n");
    }
    let w = |prefix: &[u8]| Made {
        kind: Kind::WordPiece,
        rows: vec![(b"a".to_vec(), Worth::Id(u32::MAX - 1)), ("é".into(), Worth::Id(3))],
        unknown: 9,
        max_chars: u32::MAX,
        prefix: prefix.to_vec(),
    };
    for len in [0, 64, 65] {
        alike(&mut t, &pack(&w(&vec![b'#'; len])), b"aaa\n");
    }
    // a file of exactly so many bytes: the rest is a token that the text never uses
    for size in [65_535, 65_536, 65_537] {
        let mut m = with_nodes(2);
        while pack(&m).len() + 16 + 1_024 < size {
            m.rows.push((vec![b'a'; 1_024], Worth::Score(1.0)));
        }
        let left = size - pack(&m).len() - 16;
        m.rows.push((vec![b'a'; left], Worth::Score(0.5)));
        assert_eq!(pack(&m).len(), size);
        alike(&mut t, &pack(&m), b"a\naa\n");
    }
    let (u, w) = (pack(&with_nodes(3)), pack(&w(b"")));
    for n in [32_767, 32_768, 32_769] {
        for p in [&u, &w] {
            alike(&mut t, p, &b"aa\n".repeat(12_000)[..n]);
            alike(&mut t, p, &vec![b'\n'; n]);
        }
    }
    for n in [4_094, 4_095, 4_096, 4_097] {
        for c in ["a", "é", "q"] {
            for p in [&u, &w] {
                alike(&mut t, p, c.repeat(n).as_bytes());
                alike(&mut t, p, &c.repeat(n).as_bytes()[..n]);
            }
        }
    }
    // the longest output there is: each byte of the input an id of ten digits
    let mut long = w.clone();
    long[20..24].copy_from_slice(&u32::MAX.to_le_bytes());
    alike(&mut t, &long, &"a".repeat(4_096).into_bytes());
    let lines: Vec<u8> = (0..8).flat_map(|_| [vec![b'a'; 4_095], vec![b'\n']].concat()).collect();
    alike(&mut t, &w, &lines);
    t.say("the program's output, each limit")
}

// ---- the program itself

/// Runs the program in a folder of its own, its input in pieces of so many bytes.
fn run_program(program: &Path, folder: &Path, pack: Option<&[u8]>, input: &[u8], piece: usize) -> (Vec<u8>, bool) {
    let file = folder.join("vocab.pack");
    match pack {
        Some(bytes) => fs::write(&file, bytes).unwrap(),
        None => _ = fs::remove_file(&file),
    }
    let mut child = Command::new(program)
        .current_dir(folder)
        .stdin(Stdio::piped())
        .stdout(Stdio::piped())
        .spawn()
        .expect("the program starts");
    let mut stdin = child.stdin.take().unwrap();
    for part in input.chunks(piece) {
        // a program that has read enough may have ended
        if stdin.write_all(part).and_then(|()| stdin.flush()).is_err() {
            break;
        }
    }
    drop(stdin);
    let mut out = Vec::new();
    child.stdout.take().unwrap().read_to_end(&mut out).unwrap();
    let ended = child.wait().unwrap();
    (out, ended.code() == Some(0))
}

/// The program as a process: good and damaged packs, no pack, its input whole and a byte at a time.
pub fn program(root: &Path, seed: u64, quick: bool) -> bool {
    let program = root.join("crates/ids/out/ids");
    let folder = std::env::temp_dir().join(format!("soahkimal-ids-{}", std::process::id()));
    fs::create_dir_all(&folder).unwrap();
    let mut t = Tally::default();
    let mut r = Random::new(seed);
    let mut alike = |pack: Option<&[u8]>, input: &[u8], piece: usize| {
        let (out, fine) = run_program(&program, &folder, pack, input, piece);
        let right = printed(pack.unwrap_or(&[]), input);
        t.check(fine && out == right, || format!("status 0: {fine}; {out:02x?}, not {right:02x?}"));
    };
    alike(None, b"a\n", 1);
    alike(None, b"", 1);
    for k in 0..if quick { 60 } else { 2_000 } {
        let m = made(&mut r);
        let lines = input(&mut r, &m);
        let mut bytes = pack(&m);
        if k % 3 == 0 {
            damage(&mut r, &mut bytes);
        }
        alike(Some(&bytes), &lines, if k % 2 == 0 { 1 } else { 4_096 });
    }
    let u = pack(&with_nodes(3));
    for n in [32_768, 32_769, 100_000] {
        alike(Some(&u), &b"aa\n".repeat(40_000)[..n], 1_000);
    }
    alike(Some(&u), &b"aa\n".repeat(11_000)[..32_768], 7);
    alike(Some(&[u.as_slice(), &[0; 65_537]].concat()), b"a\n", 1);
    fs::remove_dir_all(&folder).unwrap();
    t.say("the program as a process, status 0 each time")
}

// ---- stored cases

/// Cases to store: for each the lengths of pack, input and output as little-endian words, and then their bytes.
pub fn stored_bytes() -> Vec<u8> {
    let mut r = Random::new(2026);
    let mut out = Vec::new();
    for k in 0..3_000 {
        let m = made(&mut r);
        let (mut bytes, lines) = (pack(&m), input(&mut r, &m));
        if k % 4 == 0 {
            damage(&mut r, &mut bytes);
        }
        let right = printed(&bytes, &lines);
        for part in [&bytes, &lines, &right] {
            out.extend((part.len() as u32).to_le_bytes());
        }
        out.extend([bytes, lines, right].concat());
    }
    out
}

/// What `replay` replays is what the Rust and the paper give.
pub fn stored(root: &Path) -> bool {
    let path: PathBuf = root.join("crates/replay/stdin");
    let same = fs::read(&path).is_ok_and(|bytes| bytes == stored_bytes());
    println!("the stored cases of the program: {}", if same { "3000, 0 differences" } else { "DIFFERENT" });
    same
}

pub fn run(root: &Path, seed: u64, quick: bool) -> bool {
    let (count, packs, bad) = if quick { (5_000, 10, 5_000) } else { (200_000, 200, 200_000) };
    [stored(root), limits(), random(seed, count), damaged(seed, packs, bad), program(root, seed, quick)]
        .iter()
        .all(|&same| same)
}
