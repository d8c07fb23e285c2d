//! Row lists for `sliced::build_rows`. It takes a slice of structs, which no exported function has, so it is not linked here: a
//! program in Rattle, tests/slices/main.txt, calls it on these lists, tests/slices/lists.bin. Each list is stored with how
//! many places each column is lent and what must come of it. Tries and unknown scores are those of the Rust, run
//! unchanged. The Rust has no refusals: which there is, and what the columns hold after it, is read off the paper.

use std::collections::HashSet;
use std::fs;
use std::path::Path;

use crate::random::Random;
use crate::rows::{Kind, Refusal, Rows, Worth};
use crate::tokie::{Lattice, Parts, Unigram};
use crate::{large, small};

/// The lent columns, in the order of the call: off, len, score; edge_at, edge_n, node_id, node_score, byte, to, work.
type Lengths = [usize; 10];

/// How many places the program has for each column.
const PLACES: Lengths = [64, 64, 64, 1_100, 1_100, 1_100, 1_100, 1_100, 1_100, 2_200];

/// The longest case that the program takes.
const MOST: usize = 32_768;

/// The fewest places in each column: one for each row, and for n nodes "N node, N-1 edge or 2N work places".
fn least(rows: usize, n: usize) -> Lengths {
    [rows, rows, rows, n, n, n, n, n - 1, n - 1, 2 * n]
}

/// What the Rust builds of rows without a fault.
fn parts(rows: &Rows) -> Parts {
    Lattice::build(&Unigram { rows: rows.unigram(), unknown: 0 }).parts()
}

/// The fewest places for these rows; for rows with a fault, which need none, those of a trie of eight nodes.
fn enough(rows: &Rows) -> Lengths {
    let nodes = if rows.fault(Kind::Unigram).is_none() { parts(rows).edge_at.len() } else { 8 };
    least(rows.off.len(), nodes)
}

/// Up to three places more in each column.
fn roomy(r: &mut Random, lent: Lengths) -> Lengths {
    lent.map(|l| l + r.below(4))
}

fn words<T: Copy + Into<u64>>(list: &[T]) -> Vec<u8> {
    list.iter().flat_map(|&w| (w.into() as u32).to_le_bytes()).collect()
}

fn longs(list: &[f64]) -> Vec<u8> {
    list.iter().flat_map(|x| x.to_bits().to_le_bytes()).collect()
}

/// Each row in 20 bytes: offset, length, 0 for a score or 1 for an id, and the score's bits or the id.
fn rows_bytes(rows: &Rows) -> Vec<u8> {
    let mut out = Vec::new();
    for i in 0..rows.off.len() {
        let (is_id, worth) = match rows.worth(i) {
            Worth::Score(x) => (0, x.to_bits()),
            Worth::Id(id) => (1, u64::from(id)),
        };
        out.extend(words(&[rows.off[i], rows.len[i], is_id]));
        out.extend(worth.to_le_bytes());
    }
    out
}

/// A trie, column after column.
fn trie_bytes(p: &Parts) -> Vec<u8> {
    let edge_n: Vec<u8> = p.edge_n.iter().flat_map(|n| n.to_le_bytes()).collect();
    [words(&p.edge_at), edge_n, words(&p.id), longs(&p.score), p.byte.clone(), words(&p.to)].concat()
}

/// What must come of a list: the Rust's trie, or a refusal. "Order for a build: 1, rows, 7."
fn outcome(rows: &Rows, lent: Lengths) -> Result<Parts, Refusal> {
    if let Some(refusal) = rows.fault(Kind::Unigram) {
        return Err(refusal);
    }
    let p = parts(rows);
    let need = least(rows.off.len(), p.edge_at.len());
    if need.iter().zip(lent).all(|(&n, l)| n <= l) { Ok(p) } else { Err((7, None)) }
}

/// A case without its length, as the head of tests/slices/main.txt has it.
fn case(rows: &Rows, lent: Lengths) -> Vec<u8> {
    let (answer, unknown_score, trie) = match outcome(rows, lent) {
        Ok(p) => ([0, u32::MAX, p.edge_at.len() as u32], p.unknown_score, trie_bytes(&p)),
        Err((number, row)) => ([number, row.unwrap_or(u32::MAX), 0], 0.0, Vec::new()),
    };
    let sizes = [rows.tab.len() as u32, rows.off.len() as u32];
    let head = [words(&sizes), words(&lent.map(|l| l as u32)), words(&answer), longs(&[unknown_score])].concat();
    let out = [head, rows_bytes(rows), rows.tab.clone(), trie].concat();
    let fits = lent.iter().zip(PLACES).all(|(&l, most)| l <= most) && rows.off.len() <= PLACES[0];
    assert!(fits && out.len() <= MOST, "the program has room for the case");
    out
}

/// The cases so far, end to end, each after its length, and how many they are.
#[derive(Default)]
struct Stored {
    bytes: Vec<u8>,
    count: usize,
}

impl Stored {
    fn put(&mut self, rows: &Rows, lent: Lengths) {
        let case = case(rows, lent);
        self.bytes.extend(words(&[case.len() as u32]));
        self.bytes.extend(case);
        self.count += 1;
    }

    /// Exactly enough places, more in each column, each column in turn one short, and none.
    fn put_lengths(&mut self, r: &mut Random, rows: &Rows) {
        let full = enough(rows);
        self.put(rows, full);
        self.put(rows, roomy(r, full.map(|l| l + 1)));
        for c in 0..full.len() {
            if full[c] > 0 {
                let mut short = full;
                short[c] -= 1;
                self.put(rows, short);
            }
        }
        self.put(rows, [0; 10]);
    }
}

fn scored<S: AsRef<[u8]>>(list: impl IntoIterator<Item = (S, f64)>) -> Rows {
    Rows::of(list.into_iter().map(|(token, x)| (token, Worth::Score(x))))
}

/// "Unigram, unknown id 0 and row 0 `<unk>` score 0 unless said": the paper's examples 1 to 8.
fn examples() -> Vec<Rows> {
    let after_unknown = |rows: &[(&str, f64)]| scored([&[("<unk>", 0.0)], rows].concat());
    vec![
        after_unknown(&[("a", -1.0), ("b", -1.0), ("ab", -2.0)]),
        after_unknown(&[("a", -1.0), ("ab", -2.0), ("bc", -2.0), ("c", -1.0)]),
        after_unknown(&[("a", 0.1), ("b", 0.2), ("ab", 0.3)]),
        after_unknown(&[("a", -1.0)]),
        scored([("<unk>", 30.0), ("ab", 30.0)]),
        after_unknown(&[("x", -1.0)]),
        after_unknown(&[("a", -3.0), ("a", -1.0)]),
        scored([("", -50.0), ("a", -1.0)]),
    ]
}

/// All lists of up to three of a few tokens, so with each repeated, empty ones among them; the first is the empty list.
fn short_lists(r: &mut Random) -> Vec<Rows> {
    let set = ["", "a", "ab", "é"];
    let mut lists: Vec<Vec<&str>> = vec![vec![]];
    let mut from = 0;
    for _ in 0..3 {
        let till = lists.len();
        for k in from..till {
            lists.extend(set.map(|s| [&lists[k][..], &[s]].concat()));
        }
        from = till;
    }
    lists.iter().map(|list| scored(list.iter().map(|s| (s, small::score(r))))).collect()
}

/// In how many ways a row may be bad here; LONG are those of a token above its limit.
const WAYS: usize = 13;
const LONG: [usize; 2] = [4, 5];

/// Makes row i bad in one of the ways. The table ends with 1,025 bytes of text, where a way needs them, and two that are no
/// text. Some ways have more than one fault, which shows the order 2, 3, 4, 5.
fn spoil(rows: &mut Rows, i: usize, way: usize) {
    let n = rows.tab.len() as u32;
    let mut span = |off: u32, len: u32| (rows.off[i], rows.len[i]) = (off, len);
    match way {
        0 => span(n, 1),
        1 => span(n + 1, 0),
        2 => span(u32::MAX, u32::MAX),
        3 => span(0, n + 1),
        4 => span(n - 1_027, 1_025),
        5 => span(n - 1_026, 1_025),
        6 => span(n - 2, 2),
        7 => span(n - 2, 1),
        8 => rows.scored[i] = false,
        9 => rows.score[i] = f64::NAN,
        10 => rows.score[i] = f64::INFINITY,
        11 => rows.score[i] = f64::NEG_INFINITY,
        _ => {
            span(n - 2, 2);
            rows.score[i] = f64::INFINITY;
        }
    }
}

/// The list with some rows bad, each in its way.
fn spoiled(rows: &Rows, bad: &[(usize, usize)]) -> Rows {
    let mut rows = rows.clone();
    // what a row has for an id, where that is its worth
    rows.id.fill(7);
    if bad.iter().any(|(_, way)| LONG.contains(way)) {
        rows.tab.extend([b'x'; 1_025]);
    }
    rows.tab.extend([0xC3, 0x28]);
    bad.iter().for_each(|&(i, way)| spoil(&mut rows, i, way));
    rows
}

/// Each fault at the first, a middle and the last row, alone and with every later row bad in another way, in enough places
/// and in none: "the first bad row", and "Order for a build: 1, rows, 7".
fn put_faults(stored: &mut Stored) {
    let fine = scored([("a", -1.0), ("ab", -2.5), ("", -3.0), ("é", 0.5), ("a", -0.0)]);
    let full = enough(&fine);
    stored.put(&fine, full);
    for way in 0..WAYS {
        for i in [0, 2, 4] {
            let alone = spoiled(&fine, &[(i, way)]);
            stored.put(&alone, full);
            stored.put(&alone, [0; 10]);
            let bad: Vec<_> = (i..5).map(|k| (k, (way + 4 * (k - i)) % WAYS)).collect();
            stored.put(&spoiled(&fine, &bad), full.map(|l| l + 2));
        }
    }
}

/// Spans at the table's end, and tokens of 1,024 and 1,025 bytes.
fn put_edges(r: &mut Random, stored: &mut Stored) {
    for (off, len) in [(5, 0), (4, 1), (2, 3), (5, 1), (6, 0), (u32::MAX, 0), (0, u32::MAX)] {
        let mut rows = scored([("ab", -1.0), ("cde", -4.0)]);
        assert!(rows.tab == *b"abcde");
        rows.push(off, len, Worth::Score(-7.25));
        let lent = roomy(r, enough(&rows));
        stored.put(&rows, lent);
    }
    for len in [1_024, 1_025] {
        let mut rows = Rows { tab: "é".repeat(513).into_bytes(), ..Rows::default() };
        rows.push(0, 2, Worth::Score(1.5));
        rows.push(len % 2, len, Worth::Score(-1.5));
        let lent = enough(&rows);
        stored.put(&rows, lent);
    }
    // one byte more than a token may have, and well-formed
    let mut rows = Rows { tab: vec![b'a'; 1_025], ..Rows::default() };
    rows.push(0, 1_025, Worth::Score(-1.5));
    stored.put(&rows, enough(&rows));
    // a list as long as the program's columns
    let many = scored((0..64).map(|i| (format!("{}", i % 40), f64::from(i))));
    stored.put(&many, enough(&many));
}

/// A small list; one in eight has up to 20 tokens, some of them longer.
fn random_rows(r: &mut Random, k: usize) -> Rows {
    if k % 8 != 0 {
        return scored(small::unigram(r).rows);
    }
    let n = 1 + r.below(20);
    let tokens: Vec<String> = (0..n).map(|_| if r.one_in(3) { large::word(r) } else { small::text(r, &[]) }).collect();
    scored(tokens.into_iter().map(|s| (s, small::score(r))).collect::<Vec<_>>())
}

/// Lists with one to three bad rows, and fine ones with one or two columns too short.
fn put_refused(r: &mut Random, stored: &mut Stored, count: usize) {
    for k in 0..count {
        let mut rows = random_rows(r, 1);
        rows.push(0, 0, Worth::Score(small::score(r)));
        let full = enough(&rows);
        let mut lent = roomy(r, full);
        if k % 2 == 0 {
            let bad: Vec<_> = (0..1 + r.below(3)).map(|_| (r.below(rows.off.len()), r.below(WAYS))).collect();
            rows = spoiled(&rows, &bad);
        } else {
            for _ in 0..1 + r.below(2) {
                let c = r.below(lent.len());
                lent[c] = r.below(full[c].max(1));
            }
        }
        stored.put(&rows, lent);
    }
}

/// All cases. The same in every run.
fn all() -> Stored {
    let mut stored = Stored::default();
    let mut r = Random::new(2026);
    for rows in examples() {
        stored.put_lengths(&mut r, &rows);
    }
    for (k, rows) in short_lists(&mut r).iter().enumerate() {
        if k % 10 == 0 {
            stored.put_lengths(&mut r, rows);
        } else {
            let lent = roomy(&mut r, enough(rows));
            stored.put(rows, lent);
        }
    }
    put_faults(&mut stored);
    put_edges(&mut r, &mut stored);
    put_refused(&mut r, &mut stored, 200);
    // 1,000 lists that the Rust builds, no two alike
    let mut seen = HashSet::new();
    while seen.len() < 1_000 {
        let rows = random_rows(&mut r, seen.len());
        let lent = enough(&rows);
        if rows.off.is_empty() || !seen.insert(case(&rows, lent)) {
            continue;
        }
        assert!(rows.fault(Kind::Unigram).is_none());
        stored.put(&rows, roomy(&mut r, lent));
    }
    stored
}

/// The file, for `--print`.
pub fn stored_bytes() -> Vec<u8> {
    all().bytes
}

/// What the program replays is what the Rust and the paper give, and what it must print is the number of cases.
pub fn stored(root: &Path) -> bool {
    let folder = root.join("tests/slices");
    let Stored { bytes, count } = all();
    let lists = fs::read(folder.join("lists.bin")).is_ok_and(|file| file == bytes);
    let said = fs::read_to_string(folder.join("stdout")).is_ok_and(|file| file == format!("{count} agree\n0 differ\n"));
    let verdict = if lists && said { format!("{count}, 0 differences") } else { "DIFFERENT".to_string() };
    println!("the stored row lists: {verdict}");
    lists && said
}
