//! Small random cases: vocabularies full of ties, repeated and empty tokens, tokens that are prefixes of each other,
//! characters of one to four bytes, scores that tie, round, overflow, vanish or are -0, and ill-formed text.

use crate::random::Random;
use crate::tokie::{Unigram, Wordpiece};

const CHARACTERS: [&str; 7] = ["a", "b", "a", "b", "é", "日", "😀"];
const OUTSIDE: [&str; 4] = ["x", "q", "ß", "𝄞"];
const SCORES: [f64; 18] = [
    0.1, 0.2, 0.3, -0.1, -0.2, -0.3, -1.0, -2.0, -3.0, 0.0, -0.0, 30.0, 1.0e308, 1.7e308, -1.7e308, 5e-324, -2.2e-308,
    0.7,
];

const HIGH: [f64; 4] = [30.0, 30.0, 31.5, 25.0];

fn string(r: &mut Random, from: &[&str], least: usize, most: usize) -> String {
    (0..least + r.below(most - least + 1)).map(|_| *r.pick(from)).collect()
}

fn token(r: &mut Random) -> String {
    if r.one_in(9) { String::new() } else { string(r, &CHARACTERS, 1, 3) }
}

pub fn score(r: &mut Random) -> f64 {
    if r.one_in(8) {
        let x = f64::from_bits(r.next());
        if x.is_finite() {
            return x;
        }
    }
    *r.pick(&SCORES)
}

/// A text over the characters, or of other characters; or, where there are tokens, some of them end to end.
pub fn text(r: &mut Random, tokens: &[&str]) -> String {
    let all: Vec<&str> = CHARACTERS.iter().chain(&OUTSIDE[..2]).copied().collect();
    if !tokens.is_empty() && r.one_in(2) {
        return string(r, tokens, 1, 2);
    }
    if r.one_in(6) { string(r, &OUTSIDE, 0, 4) } else { string(r, &all, 0, 6) }
}

/// One vocabulary in three has long tokens and high scores alone: an unknown character is then worth more than nothing,
/// and a token loses to unknown characters that spell it, so that a run's own look-up decides.
pub fn unigram(r: &mut Random) -> Unigram {
    let n = r.below(7);
    let high = r.one_in(3);
    let mut rows: Vec<(String, f64)> = Vec::new();
    for _ in 0..n {
        rows.push(if high { (string(r, &CHARACTERS, 2, 3), *r.pick(&HIGH)) } else { (token(r), score(r)) });
    }
    if n > 0 && r.one_in(3) {
        let again = r.pick(&rows).0.clone();
        rows.push((again, score(r)));
    }
    let unknown = if r.one_in(4) { u32::MAX - r.below(2) as u32 } else { r.below(rows.len() + 2) as u32 };
    Unigram { rows, unknown }
}

pub fn wordpiece(r: &mut Random) -> Wordpiece {
    let prefix = *r.pick(&["##", "##", "", "é", "a"]);
    let n = r.below(8);
    let mut rows: Vec<(String, u32)> = Vec::new();
    for _ in 0..n {
        let t = if r.one_in(2) { format!("{prefix}{}", token(r)) } else { token(r) };
        rows.push((t, r.below(9) as u32));
    }
    if n > 0 && r.one_in(3) {
        let again = r.pick(&rows).0.clone();
        rows.push((again, r.below(9) as u32));
    }
    Wordpiece { rows, unknown: r.below(4) as u32, prefix: prefix.to_string() }
}

/// Bytes that are often nearly text: lead bytes of every kind, continuations at the edges of their ranges.
pub fn bytes(r: &mut Random) -> Vec<u8> {
    const LEADS: [u8; 16] =
        [0x00, 0x41, 0x7F, 0x80, 0xBF, 0xC0, 0xC1, 0xC2, 0xDF, 0xE0, 0xE1, 0xED, 0xEF, 0xF0, 0xF4, 0xF5];
    const NEXT: [u8; 10] = [0x80, 0x8F, 0x90, 0x9F, 0xA0, 0xBF, 0x7F, 0xC0, 0x80, 0xBF];
    let mut out = Vec::new();
    for _ in 0..r.below(5) {
        if r.one_in(3) {
            out.extend_from_slice(r.pick(&["é", "日", "😀", "a"]).as_bytes());
            continue;
        }
        out.push(*r.pick(&LEADS));
        for _ in 0..r.below(4) {
            out.push(*r.pick(&NEXT));
        }
    }
    out
}
