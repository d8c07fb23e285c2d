//! Times of the compiled port beside the Rust's, on the same inputs in the same process.

use std::hint::black_box;
use std::time::Instant;

use crate::random::Random;
use crate::rows::{Kind, Rows, Worth};
use crate::tokie::{self, Lattice, VocabTrie};
use crate::{builds, large, packs, port, segments, text, wordpieces};

/// Nanoseconds a call: the least of some runs of many calls, so that other work on the machine counts little.
pub fn nanoseconds<R>(call: impl FnMut() -> R) -> f64 {
    runs(call)[0]
}

/// Nanoseconds a call in each run, the least first.
fn runs<R>(mut call: impl FnMut() -> R) -> Vec<f64> {
    let calls = enough(&mut call);
    sorted((0..RUNS).map(|_| run(calls, &mut call)).collect())
}

/// How often each is timed.
const RUNS: usize = 15;

/// As many calls as take some 2 milliseconds.
fn enough<R>(call: &mut impl FnMut() -> R) -> u32 {
    let began = Instant::now();
    let mut calls = 1u32;
    loop {
        let start = Instant::now();
        (0..calls).for_each(|_| _ = black_box(call()));
        if start.elapsed().as_micros() > 2000 || began.elapsed().as_millis() > 200 {
            return calls;
        }
        calls *= 2;
    }
}

/// Nanoseconds a call, over this many calls.
fn run<R>(calls: u32, call: &mut impl FnMut() -> R) -> f64 {
    let start = Instant::now();
    (0..calls).for_each(|_| _ = black_box(call()));
    start.elapsed().as_nanos() as f64 / f64::from(calls)
}

/// The least first.
fn sorted(mut all: Vec<f64>) -> Vec<f64> {
    all.sort_by(f64::total_cmp);
    all
}

/// Nanoseconds a call of both, timed in turn, so that a machine that slows down slows both: the runs of each, the least first.
fn both<A, B>(mut rust: impl FnMut() -> A, mut port: impl FnMut() -> B) -> [Vec<f64>; 2] {
    let calls = (enough(&mut rust), enough(&mut port));
    let pairs = (0..RUNS).map(|_| (run(calls.0, &mut rust), run(calls.1, &mut port)));
    let (a, b) = pairs.unzip();
    [sorted(a), sorted(b)]
}

/// One line of `bench`: what, at which size of what, nanoseconds for each of how many: the least and the median of both.
fn line<A, B>(what: &str, of: &str, size: usize, each: f64, rust: impl FnMut() -> A, port: impl FnMut() -> B) {
    let [a, b] = both(rust, port);
    let middle = RUNS / 2;
    let of_each = [a[0], a[middle], b[0], b[middle]].map(|ns| format!("{:.3}", ns / each)).join("\t");
    println!("{what}\t{of}\t{size}\t{of_each}\t{:.2}", b[0] / a[0]);
}

/// Everything at several sizes, as a table of tabs. The Rust's builds are timed with the copy that they consume; all
/// other buffers are lent or allocated before, and cleared by neither side.
pub fn all() {
    println!("what\tof\tsize\trust least\trust median\tport least\tport median\tratio");
    let mut r = Random::new(1);
    for bytes in [1_000, 10_000, 65_536] {
        for (name, kind) in &text::KINDS[..3] {
            let s = text::made_of(&mut r, kind, bytes);
            let n = s.len() as f64;
            let what = format!("valid_up_to, {name}");
            line(&what, "bytes", bytes, n, || std::str::from_utf8(black_box(&s)), || port::valid_up_to(black_box(&s)));
        }
    }
    let (u, w) = (large::unigram(&mut r), wordpieces::real(&mut r));
    for tokens in [1_000, 10_000, 30_000] {
        sized(&mut r, &u, &w, tokens, &[10_000]);
    }
    sized(&mut r, &u, &w, 30_000, &[1_000, 100_000]);
    program(&mut r);
}

/// Builds of so many tokens, and the coding of comments and words in them.
fn sized(r: &mut Random, u: &tokie::Unigram, w: &tokie::Wordpiece, tokens: usize, counts: &[usize]) {
    let u = tokie::Unigram { rows: u.rows[..tokens].to_vec(), unknown: 0 };
    let w = tokie::Wordpiece { rows: w.rows[..tokens].to_vec(), ..w.clone() };
    let (lattice, trie) = (Lattice::build(&u), VocabTrie::build(&w));
    let (p, q) = (lattice.parts(), trie.parts());
    if counts == [10_000] {
        let n = tokens as f64;
        let rows = Rows::of(u.rows.iter().map(|(s, x)| (s, Worth::Score(*x))));
        let mut lent = port::Lent::pattern(builds::least(p.edge_at.len()));
        line(
            "build, Unigram",
            "tokens",
            tokens,
            n,
            || Lattice::build(&u),
            || port::build(Kind::Unigram, &rows, &mut lent),
        );
        let rows = Rows::of(w.rows.iter().map(|(s, i)| (s, Worth::Id(*i))));
        let mut lent = port::Lent::pattern(builds::least(q.edge_at.len()));
        line(
            "build, WordPiece",
            "tokens",
            tokens,
            n,
            || VocabTrie::build(&w),
            || port::build(Kind::WordPiece, &rows, &mut lent),
        );
        let sound = runs(|| port::sound_scored(black_box(&p)));
        let nodes = p.edge_at.len() as f64;
        println!("sound_scored\ttokens\t{tokens}\t\t\t{:.3}\t{:.3}\t", sound[0] / nodes, sound[RUNS / 2] / nodes);
    }
    let (tested, words) = (port::Tested::scored(&p), port::Tested::new(&q));
    let given = port::Given { unknown: 0, max_chars: 100, prefix: b"##" };
    let places = 4_096;
    let mut b = port::Scratch {
        start: vec![0; places],
        slot_id: vec![0; places],
        slot_score: vec![0.0; places],
        path: vec![0; places],
        ids: vec![0; places],
    };
    for &count in counts {
        let (of, size) = if tokens == 30_000 && count != 10_000 { ("comments", count) } else { ("tokens", tokens) };
        let comments: Vec<String> = (0..count).map(|_| segments::comment(r)).collect();
        let mut out = Vec::new();
        line(
            "segment",
            of,
            size,
            count as f64,
            || {
                out.clear();
                comments.iter().for_each(|t| lattice.segment_into(t, &mut out));
                out.len()
            },
            || comments.iter().map(|t| tested.segment(0, t, &mut b)).sum::<usize>(),
        );
        let all: Vec<String> = (0..count).map(|_| large::word(r) + &large::word(r)).collect();
        let (mut out, mut ids) = (Vec::new(), vec![0u32; 256]);
        line(
            "encode",
            of,
            size,
            count as f64,
            || {
                out.clear();
                all.iter().for_each(|t| trie.encode_into(t, 100, &mut out));
                out.len()
            },
            || all.iter().map(|t| words.encode(given, t, &mut ids)).sum::<usize>(),
        );
    }
}

/// The whole program's work, pack to printed lines, beside the Rust's tries and ids with the same reading and printing.
/// The port tests the trie once, for all lines, and the lines share one scratch.
fn program(r: &mut Random) {
    let u = large::unigram(r);
    let rows = u.rows[..900].iter().map(|(t, x)| (t.clone().into_bytes(), Worth::Score(*x))).collect();
    let pack = packs::pack(&packs::Made { kind: Kind::Unigram, rows, unknown: 0, max_chars: 0, prefix: Vec::new() });
    for count in [10, 100, 800] {
        let input: String = (0..count).map(|_| segments::comment(r) + "\n").collect();
        let input = &input.as_bytes()[..input.len().min(32_768)];
        line(
            "whole program",
            "lines",
            count,
            count as f64,
            || packs::printed(&pack, input),
            || port::printed(&pack, input),
        );
    }
}

/// How far bytes are text.
pub fn texts() {
    println!("| text | bytes | from_utf8, ns | valid_up_to, ns | ratio |");
    println!("|---|---|---|---|---|");
    let mut r = Random::new(1);
    for (name, kind) in &text::KINDS[..4] {
        for bytes in [16, 64, 256, 1024, 4096, 65536] {
            let s = text::made_of(&mut r, kind, bytes);
            let [a, b] = both(|| std::str::from_utf8(black_box(&s)), || port::valid_up_to(black_box(&s))).map(|runs| runs[0]);
            println!("| {name} | {} | {a:.1} | {b:.1} | {:.2} |", s.len(), b / a);
        }
    }
}

/// The test of soundness on a trie of real size.
pub fn tries() {
    let p = Lattice::build(&large::unigram(&mut Random::new(1))).parts();
    let (nodes, edges) = (p.edge_at.len(), p.byte.len());
    let plain = nanoseconds(|| port::sound(black_box(&p)));
    let scored = nanoseconds(|| port::sound_scored(black_box(&p)));
    println!("| parts | nodes | edges | microseconds | ns a node |");
    println!("|---|---|---|---|---|");
    for (name, ns) in [("WordPiece, `sound`", plain), ("Unigram, `sound_scored`", scored)] {
        println!("| {name} | {nodes} | {edges} | {:.0} | {:.2} |", ns / 1000.0, ns / nodes as f64);
    }
}

/// 10,000 words, core against core: the parts are tested once, outside.
pub fn wordpieces() {
    let mut r = Random::new(1);
    let vocabulary = wordpieces::real(&mut r);
    let trie = VocabTrie::build(&vocabulary);
    let narrow = tokie::narrow_encode(&vocabulary);
    let parts = trie.parts();
    let tested = port::Tested::new(&parts);
    let given = port::Given { unknown: 0, max_chars: 100, prefix: b"##" };
    let kinds: [(&str, Box<dyn Fn(&mut Random) -> String>); 3] = [
        ("in the vocabulary, mostly", Box::new(|r: &mut Random| large::word(r))),
        ("of several pieces", Box::new(|r: &mut Random| large::word(r) + &large::word(r) + &large::word(r))),
        ("with a late miss", Box::new(|r: &mut Random| large::word(r) + &large::word(r) + "€")),
    ];
    println!("| 10,000 words | Rust, ns a word | Rust without wide rows | port | port / Rust | port / Rust without |");
    println!("|---|---|---|---|---|---|");
    for (name, make) in kinds {
        let words: Vec<String> = (0..10_000).map(|_| make(&mut r)).collect();
        let mut out = Vec::new();
        let mut ids = vec![0u32; 256];
        let port = || words.iter().map(|w| tested.encode(given, w, &mut ids)).sum::<usize>();
        let wide = || {
            out.clear();
            words.iter().for_each(|w| trie.encode_into(w, 100, &mut out));
            out.len()
        };
        let [rust, port] = both(wide, port).map(|runs| runs[0]);
        let without = nanoseconds(|| {
            out.clear();
            words.iter().for_each(|w| narrow(w, 100, &mut out));
            out.len()
        });
        let [a, b, c] = [rust, without, port].map(|ns| ns / 10_000.0);
        println!("| {name} | {a:.0} | {b:.0} | {c:.0} | {:.2} | {:.2} |", c / a, c / b);
    }
}

/// 10,000 short comments, core against core; and one long comment of growing length, for how the time grows.
pub fn segments() {
    let mut r = Random::new(1);
    let v = large::unigram(&mut r);
    let lattice = Lattice::build(&v);
    let parts = lattice.parts();
    let tested = port::Tested::scored(&parts);
    let places = 70_000;
    let mut b = port::Scratch {
        start: vec![0; places],
        slot_id: vec![0; places],
        slot_score: vec![0.0; places],
        path: vec![0; places],
        ids: vec![0; places],
    };
    println!("| texts | bytes a text | Rust, ns a text | port, ns a text | ratio | port, ns a byte |");
    println!("|---|---|---|---|---|---|");
    let short: Vec<String> = (0..10_000).map(|_| segments::comment(&mut r)).collect();
    let long = |r: &mut Random, n: usize| -> Vec<String> {
        let mut s = String::new();
        while s.len() < n {
            s += &(large::word(r) + "▁");
        }
        vec![s]
    };
    let rows = [
        ("10,000 short comments", short),
        ("one", long(&mut r, 1_000)),
        ("one", long(&mut r, 8_000)),
        ("one", long(&mut r, 64_000)),
    ];
    for (name, texts) in rows {
        let (n, bytes) = (texts.len() as f64, texts.iter().map(String::len).sum::<usize>() as f64);
        let mut out = Vec::new();
        let rust = || {
            out.clear();
            texts.iter().for_each(|t| lattice.segment_into(t, &mut out));
            out.len()
        };
        let port = || texts.iter().map(|t| tested.segment(v.unknown, t, &mut b)).sum::<usize>();
        let [rust, port] = both(rust, port).map(|runs| runs[0]);
        println!(
            "| {name} | {:.0} | {:.0} | {:.0} | {:.2} | {:.1} |",
            bytes / n,
            rust / n,
            port / n,
            port / rust,
            port / bytes
        );
    }
}

/// Both builds on 1,000, 10,000 and 30,000 tokens. The Rust is given its rows by value, so each of its runs has a copy
/// made before the clock starts; it allocates as it goes. The port's columns are lent once, exactly full; it clears
/// what it uses and judges every row.
pub fn builds() {
    println!("| rows | nodes | Rust, microseconds | port, microseconds | ratio |");
    println!("|---|---|---|---|---|");
    let mut r = Random::new(1);
    let u = large::unigram(&mut r);
    let w = wordpieces::real(&mut r);
    let least = |mut run: Box<dyn FnMut() -> f64>| (0..25).map(|_| run()).fold(f64::INFINITY, f64::min);
    for count in [1_000, 10_000, 30_000] {
        for kind in [Kind::Unigram, Kind::WordPiece] {
            let (name, rows) = match kind {
                Kind::Unigram => ("Unigram", Rows::of(u.rows[..count].iter().map(|(s, x)| (s, Worth::Score(*x))))),
                Kind::WordPiece => ("WordPiece", Rows::of(w.rows[..count].iter().map(|(s, i)| (s, Worth::Id(*i))))),
            };
            let (tu, tw) = (u.rows[..count].to_vec(), w.rows[..count].to_vec());
            let rust = least(match kind {
                Kind::Unigram => Box::new(move || tokie::timed_unigram(tu.clone())),
                Kind::WordPiece => Box::new(move || tokie::timed_wordpiece(tw.clone())),
            });
            let mut roomy = port::Lent::pattern(builds::least(400_000));
            let nodes = port::build(kind, &rows, &mut roomy).expect("the rows are fine").0 as usize;
            let mut lent = port::Lent::pattern(builds::least(nodes));
            let port = nanoseconds(|| port::build(kind, &rows, &mut lent)) / 1000.0;
            println!("| {name}, {count} | {nodes} | {rust:.0} | {port:.0} | {:.2} |", port / rust);
        }
    }
}
