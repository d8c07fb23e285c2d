//! A vocabulary of real size, made from syllables: some 30,000 distinct tokens with falling scores, as a trained Unigram
//! vocabulary has them, and comments over it.

use std::collections::HashSet;

use crate::random::Random;
use crate::tokie::Unigram;

const SYLLABLES: [&str; 40] = [
    "the", "mu", "se", "um", "ar", "tist", "light", "co", "lor", "al", "ro", "ma", "in", "er", "ing", "ed", "ly", "re",
    "un", "pre", "is", "to", "na", "per", "con", "ver", "ti", "on", "ex", "hi", "bit", "é", "ü", "ñ", "日", "本", "a",
    "o", "e", "s",
];

/// A word of one to four syllables.
pub fn word(r: &mut Random) -> String {
    (0..1 + r.below(4)).map(|_| *r.pick(&SYLLABLES)).collect()
}

/// The unknown token, single characters, and words, 30,000 tokens in all.
pub fn unigram(r: &mut Random) -> Unigram {
    let mut rows = vec![("<unk>".to_string(), 0.0)];
    let mut seen = HashSet::new();
    let singles = ('a'..='z').chain("éüñ日本 .,!?'".chars()).map(String::from);
    let words = std::iter::repeat_with(|| if r.one_in(3) { format!("▁{}", word(r)) } else { word(r) });
    for token in singles.chain(words) {
        if seen.insert(token.clone()) {
            let rank = rows.len() as f64;
            rows.push((token, -(rank + 2.0).ln() - 1.0));
        }
        if rows.len() == 30_000 {
            break;
        }
    }
    Unigram { rows, unknown: 0 }
}
