//! Both builds, the compiled port against the Rust, column by column: all short row lists over a small set of tokens,
//! random ones, one of real size, damaged ones, each limit, and each lent column exactly full and one short. The lent
//! columns hold a pattern before each call and are compared whole.

use crate::port::{self, Lent};
use crate::random::Random;
use crate::rows::{Kind, Rows, Worth};
use crate::text::Tally;
use crate::tokie::{Lattice, Parts, Unigram, VocabTrie, Wordpiece};
use crate::{large, small, wordpieces};

/// What the Rust builds of rows without a fault.
fn parts(kind: Kind, rows: &Rows) -> Parts {
    match kind {
        Kind::Unigram => Lattice::build(&Unigram { rows: rows.unigram(), unknown: 0 }).parts(),
        Kind::WordPiece => {
            VocabTrie::build(&Wordpiece { rows: rows.wordpiece(), unknown: 0, prefix: String::new() }).parts()
        }
    }
}

/// How many columns a build of this kind is lent: the last is the score column.
fn columns(kind: Kind) -> usize {
    if kind == Kind::Unigram { 7 } else { 6 }
}

/// The fewest places in each column for n nodes: "N node, N-1 edge or 2N work places".
pub fn least(n: usize) -> [usize; 7] {
    [n, n, n, n - 1, n - 1, 2 * n, n]
}

/// What the lent columns hold afterwards: "ys in front, and all places past the counts are zero".
pub fn holding(p: &Parts, scores: bool, before: &Lent) -> Lent {
    fn filled<T: Copy + Default>(part: &[T], column: &[T]) -> Vec<T> {
        let mut out = vec![T::default(); column.len()];
        out[..part.len()].copy_from_slice(part);
        out
    }
    Lent {
        edge_at: filled(&p.edge_at, &before.edge_at),
        edge_n: filled(&p.edge_n, &before.edge_n),
        id: filled(&p.id, &before.id),
        byte: filled(&p.byte, &before.byte),
        to: filled(&p.to, &before.to),
        work: vec![0; before.work.len()],
        score: if scores { filled(&p.score, &before.score) } else { before.score.clone() },
    }
}

/// One row list, for one kind. Where it has no fault it is built in columns that are longer than needed, each by another
/// number; exactly full; and with each column in turn one short.
fn alike(t: &mut Tally, kind: Kind, rows: &Rows) {
    let built = match rows.fault(kind) {
        None => Ok(parts(kind, rows)),
        Some(refusal) => Err(refusal),
    };
    let n = built.as_ref().map_or(3, |p| p.edge_at.len());
    let full = least(n);
    let mut lengths = vec![std::array::from_fn(|c| full[c] + c * 2 + 1), full];
    for c in 0..columns(kind) {
        if full[c] > 0 {
            let mut short = full;
            short[c] -= 1;
            lengths.push(short);
        }
    }
    lengths.push([0; 7]);
    for l in lengths {
        let enough = (0..columns(kind)).all(|c| l[c] >= full[c]);
        let before = Lent::pattern(l);
        let mut after = before.clone();
        let answer = port::build(kind, rows, &mut after);
        let (right, left) = match &built {
            Ok(p) if enough => (Ok((n as u32, p.unknown_score.to_bits())), holding(p, kind == Kind::Unigram, &before)),
            Ok(_) => (Err((7, None)), before.zero(kind == Kind::Unigram)),
            Err(refusal) => (Err(*refusal), before.clone()),
        };
        t.check(answer == right && after.same(&left), || {
            format!("{kind:?}, columns of {l:?}: {answer:?}, not {right:?}\n    {rows:?}\n    {after:?}\n    {left:?}")
        });
    }
}

fn worth(kind: Kind, r: &mut Random) -> Worth {
    match kind {
        Kind::Unigram => Worth::Score(small::score(r)),
        Kind::WordPiece => Worth::Id(r.below(9) as u32),
    }
}

const KINDS: [Kind; 2] = [Kind::Unigram, Kind::WordPiece];

/// All row lists of up to `most` tokens over a small set: empty, prefixes of each other, of several bytes, sharing lead
/// bytes.
fn exhaustive(seed: u64, most: usize) -> bool {
    let mut t = Tally::default();
    let mut r = Random::new(seed);
    let set = ["", "a", "b", "ab", "aba", "é", "è", "日", "aé"];
    let mut lists: Vec<Vec<&str>> = vec![vec![]];
    let mut from = 0;
    for _ in 0..most {
        let till = lists.len();
        for k in from..till {
            for s in set {
                let mut longer = lists[k].clone();
                longer.push(s);
                lists.push(longer);
            }
        }
        from = till;
    }
    for list in &lists {
        for kind in KINDS {
            alike(&mut t, kind, &Rows::of(list.iter().map(|s| (s, worth(kind, &mut r)))));
        }
    }
    t.say(&format!("builds, all {} row lists of up to {most} of {} tokens", lists.len(), set.len()))
}

/// A list of up to 40 tokens, a third of them with up to 8 characters.
fn random_rows(r: &mut Random, kind: Kind) -> Rows {
    let n = r.below(41);
    let tokens: Vec<String> = (0..n).map(|_| if r.one_in(3) { large::word(r) } else { small::text(r, &[]) }).collect();
    Rows::of(tokens.iter().map(|s| (s, worth(kind, r))).collect::<Vec<_>>())
}

fn random(seed: u64, count: usize) -> bool {
    let mut t = Tally::default();
    let mut r = Random::new(seed);
    for _ in 0..count {
        for kind in KINDS {
            let rows = random_rows(&mut r, kind);
            alike(&mut t, kind, &rows);
        }
    }
    t.say(&format!("builds, {count} random row lists of each kind"))
}

/// Lists with one to three damaged rows: a span past the end, by one and by far; a token above its limit; bytes that are
/// no text; a worth of the other kind; scores and ids that none may have; and lists of unequal length.
fn damaged(seed: u64, count: usize) -> bool {
    let mut t = Tally::default();
    let mut r = Random::new(seed);
    for k in 0..count {
        let kind = KINDS[k % 2];
        let mut rows = random_rows(&mut r, kind);
        rows.tab.extend([b'x'; 1100]);
        rows.push(0, 0, worth(kind, &mut r));
        for _ in 0..1 + r.below(3) {
            let i = r.below(rows.off.len());
            let n = rows.tab.len() as u32;
            match r.below(12) {
                0 => (rows.off[i], rows.len[i]) = (n, 1),
                1 => (rows.off[i], rows.len[i]) = (n, 0),
                2 => (rows.off[i], rows.len[i]) = (n + 1, 0),
                3 => (rows.off[i], rows.len[i]) = (u32::MAX, u32::MAX),
                4 => (rows.off[i], rows.len[i]) = (n - 1024, 1024),
                5 => (rows.off[i], rows.len[i]) = (n - 1025, 1025),
                6 => {
                    rows.tab.push(0x80 + r.below(128) as u8);
                    (rows.off[i], rows.len[i]) = (n - 1, 2);
                }
                7 => rows.scored[i] = !rows.scored[i],
                8 => rows.score[i] = *r.pick(&[f64::NAN, f64::INFINITY, f64::NEG_INFINITY, f64::MAX, f64::MIN]),
                9 => rows.id[i] = u32::MAX - r.below(2) as u32,
                10 => (rows.off[i], rows.len[i]) = (r.below(n as usize) as u32, r.below(6) as u32),
                _ => {
                    let lists = [&mut rows.off, &mut rows.len, &mut rows.id];
                    let list = lists.into_iter().nth(r.below(3)).unwrap();
                    if r.one_in(8) {
                        list.push(0);
                    }
                }
            }
            if rows.off.len() != rows.len.len() || rows.off.len() != rows.id.len() {
                break;
            }
        }
        match r.below(40) {
            0 => _ = rows.scored.pop(),
            1 => _ = rows.score.pop(),
            _ => (),
        }
        alike(&mut t, kind, &rows);
    }
    t.say(&format!("builds, {count} damaged row lists"))
}

/// Each size at its limit and one above.
fn limits(quick: bool) -> bool {
    let mut t = Tally::default();
    let most = 1_048_576;
    let fine = |kind| if kind == Kind::Unigram { Worth::Score(-1.0) } else { Worth::Id(7) };
    for kind in KINDS {
        // rows
        let mut rows = Rows { tab: b"abcdefgh".to_vec(), ..Rows::default() };
        (0..most).for_each(|i| rows.push(i % 8, i / 8 % (9 - i % 8), fine(kind)));
        alike(&mut t, kind, &rows);
        rows.push(0, 0, fine(kind));
        alike(&mut t, kind, &rows);
        // the table
        let mut rows = Rows { tab: vec![b'a'; 16_777_216], ..Rows::default() };
        rows.push(16_777_215, 1, fine(kind));
        rows.push(16_777_216, 0, fine(kind));
        rows.push(16_777_216 - 1024, 1024, fine(kind));
        alike(&mut t, kind, &rows);
        rows.tab.push(b'a');
        alike(&mut t, kind, &rows);
        // a token
        for len in [1024, 1025] {
            let mut rows = Rows { tab: "é".repeat(520).into_bytes(), ..Rows::default() };
            rows.push(0, 2, fine(kind));
            rows.push(len % 2, len, fine(kind));
            rows.push(0, 1040, fine(kind));
            alike(&mut t, kind, &rows);
            rows.off.pop();
            alike(&mut t, kind, &rows);
        }
        if !quick {
            // the most rows, each with the most bytes: 2 ^ 30 bytes are entered
            let mut rows = Rows { tab: vec![b'a'; 1024], ..Rows::default() };
            (0..most).for_each(|_| rows.push(0, 1024, fine(kind)));
            let mut lent = Lent::pattern(least(1025));
            let answer = port::build(kind, &rows, &mut lent);
            let own = if kind == Kind::Unigram { 0 } else { 7 };
            let ids = (0..1025).all(|k| lent.id[k] == if k == 1024 { own } else { u32::MAX });
            t.check(answer.is_ok_and(|a| a.0 == 1025) && ids, || format!("{kind:?}: {answer:?}"));
        }
    }
    t.say("builds, sizes at their limits and one above")
}

fn real(seed: u64) -> bool {
    let mut t = Tally::default();
    let mut r = Random::new(seed);
    let u = large::unigram(&mut r);
    let rows = Rows::of(u.rows.iter().map(|(s, x)| (s, Worth::Score(*x))));
    alike(&mut t, Kind::Unigram, &rows);
    let w = wordpieces::real(&mut r);
    let rows = Rows::of(w.rows.iter().map(|(s, i)| (s, Worth::Id(*i))));
    let n = parts(Kind::WordPiece, &rows).edge_at.len();
    alike(&mut t, Kind::WordPiece, &rows);
    t.say(&format!("builds, 30,000 tokens of each kind ({n} nodes for WordPiece)"))
}

pub fn run(seed: u64, quick: bool) -> bool {
    let (most, count) = if quick { (2, 300) } else { (4, 10_000) };
    [exhaustive(seed, most), random(seed, count), damaged(seed, count * 2), limits(quick), real(seed)]
        .iter()
        .all(|&same| same)
}
