//! Unigram, the compiled `segment` against the Rust: ids, the pieces' ends and the record at every boundary; every lent
//! column compared whole; and the records against an enumeration of all cuttings.

use crate::port::{self, Scratch};
use crate::random::Random;
use crate::text::Tally;
use crate::tokie::{Lattice, Parts, Slot, Unigram};
use crate::{large, small};

/// What the lent columns hold before a call: a pattern, so that a stray or a missing write shows.
fn pattern(slots: [usize; 3], path: usize, ids: usize) -> Scratch {
    let numbers = |n: usize, salt: u32| (0..n as u32).map(|i| salt ^ i).collect::<Vec<u32>>();
    Scratch {
        start: numbers(slots[0], 0xA5A5_0000),
        slot_id: numbers(slots[1], 0x5A5A_0000),
        slot_score: (0..slots[2]).map(|i| 1.5 - i as f64).collect(),
        path: numbers(path, 0xC3C3_0000),
        ids: numbers(ids, 0x3C3C_0000),
    }
}

/// Two scratches to the bit, -0.0 and +0.0 apart.
fn same(a: &Scratch, b: &Scratch) -> bool {
    let bits = |s: &Scratch| s.slot_score.iter().map(|x| x.to_bits()).collect::<Vec<_>>();
    (&a.start, &a.slot_id, &a.path, &a.ids) == (&b.start, &b.slot_id, &b.path, &b.ids) && bits(a) == bits(b)
}

/// The columns after a call that is accepted, from the Rust's own slots, path and ids.
fn expected(lattice: &Lattice, text: &str, before: &Scratch) -> (Scratch, usize) {
    let mut after = before.clone();
    if text.is_empty() {
        return (after, 0);
    }
    let said = lattice.segment(text);
    for j in 0..=text.len() {
        let boundary = j > 0 && text.is_char_boundary(j);
        let (start, id, score): Slot = if boundary { said.slots[j].unwrap() } else { (u32::MAX, u32::MAX, 0.0) };
        (after.start[j], after.slot_id[j], after.slot_score[j]) = (start, id, score);
    }
    after.path[..said.path.len()].copy_from_slice(&said.path);
    after.ids[..said.ids.len()].copy_from_slice(&said.ids);
    (after, said.ids.len())
}

/// One text: in columns longer than needed, exactly enough, and one short in each column in turn.
fn text_alike(t: &mut Tally, parts: &Parts, lattice: &Lattice, unknown: u32, text: &str) {
    let (n, c) = (text.len(), text.chars().count());
    let enough = pattern([n + 1; 3], c, c);
    let mut tried = vec![(pattern([n + 4, n + 1, n + 2], c + 3, c + 2), None), (enough.clone(), None)];
    if n > 0 {
        for k in 0..3 {
            let mut slots = [n + 1; 3];
            slots[k] = n;
            tried.push((pattern(slots, c, c), Some(9)));
        }
        tried.push((pattern([n + 1; 3], c - 1, c), Some(9)));
        tried.push((pattern([n + 1; 3], c, c - 1), Some(10)));
        tried.push((pattern([n + 1; 3], c - 1, c - 1), Some(9)));
    } else {
        // an empty text asks for no place at all
        tried.push((pattern([0; 3], 0, 0), None));
    }
    for (before, refused) in tried {
        let mut b = before.clone();
        let answer = port::segment(parts, unknown, text.as_bytes(), &mut b);
        let (after, right) = match refused {
            Some(number) => (before, Err(number)),
            None => {
                let (after, count) = expected(lattice, text, &before);
                (after, Ok(count))
            }
        };
        t.check(answer == right && same(&b, &after), || {
            format!("{text:?}, unknown {unknown}: {answer:?} {b:?}, not {right:?} {after:?}")
        });
    }
}

/// All texts of up to `most` characters over a small alphabet.
fn texts(most: usize) -> Vec<String> {
    let mut all = vec![String::new()];
    for n in 0..most {
        let longer = all.iter().filter(|s| s.chars().count() == n);
        let longer: Vec<String> = longer.flat_map(|s| ["a", "b", "é"].map(|c| format!("{s}{c}"))).collect();
        all.extend(longer);
    }
    all
}

fn exhaustive(seed: u64, vocabularies: usize, most: usize) -> bool {
    let mut t = Tally::default();
    let mut r = Random::new(seed);
    let all = texts(most);
    for _ in 0..vocabularies {
        let v = small::unigram(&mut r);
        let lattice = Lattice::build(&v);
        let parts = lattice.parts();
        all.iter().for_each(|s| text_alike(&mut t, &parts, &lattice, v.unknown, s));
    }
    t.say(&format!("Unigram, {} texts over {vocabularies} vocabularies", all.len()))
}

/// Random texts on a vocabulary of real size, by the core; every hundredth by the public call too.
fn random(seed: u64, count: usize) -> bool {
    let mut t = Tally::default();
    let mut r = Random::new(seed);
    let v = large::unigram(&mut r);
    let lattice = Lattice::build(&v);
    let parts = lattice.parts();
    let tested = port::Tested::scored(&parts);
    for k in 0..count {
        let text = comment(&mut r);
        let n = text.len();
        let before = pattern([n + 1; 3], n, n);
        let mut b = before.clone();
        let got = tested.segment(v.unknown, &text, &mut b);
        let (after, right) = expected(&lattice, &text, &before);
        t.check(got == right && same(&b, &after), || format!("{text:?}"));
        if k % 100 == 0 {
            text_alike(&mut t, &parts, &lattice, v.unknown, &text);
        }
    }
    t.say("Unigram, random comments over 30,000 tokens")
}

/// A short comment: some words, some of them unknown.
pub fn comment(r: &mut Random) -> String {
    let words: Vec<String> = (0..1 + r.below(6)).map(|_| large::word(r)).collect();
    if r.one_in(5) { words.join(" ") + " €𝄞" } else { words.join("▁") }
}

/// Sound parts that no build makes: targets changed at random, so that nodes are shared, walks turn in circles and
/// strings that are no text are spelled.
fn foreign(seed: u64, count: usize) -> bool {
    let mut t = Tally::default();
    let mut r = Random::new(seed);
    while t.cases < count as u64 {
        let v = small::unigram(&mut r);
        let mut parts = Lattice::build(&v).parts();
        for e in 0..parts.to.len() {
            if r.one_in(3) {
                parts.to[e] = r.below(parts.edge_at.len()) as u32;
            }
        }
        for k in 0..parts.id.len() {
            if r.one_in(4) {
                (parts.id[k], parts.score[k]) = (r.below(6) as u32, *r.pick(&[0.1, -1.0, 2.5, -0.0]));
            }
        }
        let lattice = Lattice::from_parts(&parts, v.unknown);
        let tokens: Vec<&str> = v.rows.iter().map(|row| row.0.as_str()).collect();
        for _ in 0..4 {
            let text = small::text(&mut r, &tokens);
            text_alike(&mut t, &parts, &lattice, v.unknown, &text);
        }
    }
    t.say("Unigram, foreign sound parts")
}

/// The record at j by an enumeration of all cuttings: the greatest left-to-right sum, and of the last pieces of cuttings
/// that have it the earliest start. Written apart from the port and from the Rust's search.
fn best_of_all(parts: &Parts, unknown: u32, text: &str, j: usize) -> Slot {
    let boundaries: Vec<usize> = (0..=j).filter(|&i| text.is_char_boundary(i)).collect();
    let lattice = Lattice::from_parts(parts, unknown);
    let scores: Vec<(u32, f64)> = parts.id.iter().copied().zip(parts.score.iter().copied()).collect();
    let piece = |i: usize, k: usize| -> Option<(u32, f64)> {
        let id = lattice.exact(&text.as_bytes()[i..k]);
        let known = id.map(|id| *scores.iter().find(|s| s.0 == id).unwrap());
        let one = text[i..k].chars().count() == 1;
        known.or(one.then_some((unknown, parts.unknown_score)))
    };
    let mut best: Option<Slot> = None;
    // every set of inner boundaries is a way to cut
    let inner = boundaries.len() - 2;
    'cuttings: for chosen in 0..1u32 << inner {
        let cuts: Vec<usize> = (0..boundaries.len())
            .filter(|&k| k == 0 || k == boundaries.len() - 1 || chosen >> (k - 1) & 1 == 1)
            .map(|k| boundaries[k])
            .collect();
        let (mut sum, mut last) = (0.0, (0, 0));
        for w in cuts.windows(2) {
            let Some((id, score)) = piece(w[0], w[1]) else { continue 'cuttings };
            (sum, last) = (sum + score, (w[0] as u32, id));
        }
        let better = best.is_none_or(|b| sum > b.2 || sum == b.2 && last.0 < b.0);
        if better {
            best = Some((last.0, last.1, sum));
        }
    }
    best.expect("single characters are always a cutting")
}

fn enumeration(seed: u64, count: usize) -> bool {
    let mut t = Tally::default();
    let mut r = Random::new(seed);
    while t.cases < count as u64 {
        let v = small::unigram(&mut r);
        let lattice = Lattice::build(&v);
        let parts = lattice.parts();
        let tokens: Vec<&str> = v.rows.iter().map(|row| row.0.as_str()).collect();
        for _ in 0..6 {
            let text = small::text(&mut r, &tokens);
            let n = text.len();
            let mut b = pattern([n + 1; 3], n, n);
            let accepted = port::segment(&parts, v.unknown, text.as_bytes(), &mut b).is_ok();
            for j in (1..=n).filter(|&j| text.is_char_boundary(j)) {
                let want = best_of_all(&parts, v.unknown, &text, j);
                let got = (b.start[j], b.slot_id[j], b.slot_score[j]);
                let same = (got.0, got.1, got.2.to_bits()) == (want.0, want.1, want.2.to_bits());
                t.check(accepted && same, || format!("{text:?} at {j}: {got:?}, not {want:?}; {v:?}"));
            }
        }
    }
    t.say("Unigram, records against all cuttings")
}

/// The paper's examples 1 to 8: the port gives what the Rust gives, which `compare examples` holds to the paper.
fn examples() -> bool {
    let mut t = Tally::default();
    let unk = ("<unk>", 0.0);
    let vocabularies: [(&[(&str, f64)], u32, &[&str]); 8] = [
        (&[unk, ("a", -1.0), ("b", -1.0), ("ab", -2.0)], 0, &["ab"]),
        (&[unk, ("a", -1.0), ("ab", -2.0), ("bc", -2.0), ("c", -1.0)], 0, &["abc"]),
        (&[unk, ("a", 0.1), ("b", 0.2), ("ab", 0.3)], 0, &["ab"]),
        (&[unk, ("a", -1.0)], 0, &["xya"]),
        (&[("<unk>", 30.0), ("ab", 30.0)], 0, &["ab", "abab"]),
        (&[unk, ("x", -1.0)], 0, &["q<unk>"]),
        (&[unk, ("a", -3.0), ("a", -1.0)], 0, &["a"]),
        (&[("", -50.0), ("a", -1.0)], 7, &["x"]),
    ];
    for (rows, unknown, texts) in vocabularies {
        let rows = rows.iter().map(|&(token, score)| (token.to_string(), score)).collect();
        let lattice = Lattice::build(&Unigram { rows, unknown });
        let parts = lattice.parts();
        texts.iter().for_each(|s| text_alike(&mut t, &parts, &lattice, unknown, s));
    }
    t.say("Unigram, the paper's examples 1 to 8")
}

/// The order of refusals: 1, 8, 4, before 9 and 10.
fn refusals() -> bool {
    let mut t = Tally::default();
    let good = Lattice::build(&Unigram { rows: vec![("ab".into(), -1.0)], unknown: 0 }).parts();
    let mut bad = good.clone();
    bad.unknown_score = f64::INFINITY;
    let long = vec![b'a'; 65_537];
    let ill: &[u8] = &[b'a', 0xC3];
    let texts: [(&[u8], Option<u32>); 5] =
        [(&long, Some(1)), (&long[..65_536], None), (ill, Some(4)), (b"ab", None), (b"", None)];
    for (parts, unsound) in [(&good, None), (&bad, Some(8))] {
        for (text, fault) in texts {
            for room in [0, text.len() + 1] {
                let before = pattern([room; 3], room, room);
                let mut b = before.clone();
                let short = (room == 0 && !text.is_empty()).then_some(9);
                let first = fault.filter(|&f| f == 1).or(unsound).or(fault).or(short);
                let answer = port::segment(parts, 0, text, &mut b);
                let right = first.map_or(answer.is_ok(), |number| answer == Err(number) && same(&b, &before));
                t.check(right, || format!("text of {} bytes, {room} places: {answer:?}", text.len()));
            }
        }
    }
    t.say("Unigram, refusals in their order")
}

pub fn run(seed: u64, quick: bool) -> bool {
    let (vocabularies, most, count) = if quick { (20, 4, 1_000) } else { (300, 7, 100_000) };
    let parts = [
        examples(),
        refusals(),
        exhaustive(seed, vocabularies, most),
        foreign(seed, count),
        enumeration(seed, count),
        random(seed, count),
    ];
    parts.iter().all(|&same| same)
}
