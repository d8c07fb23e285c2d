//! WordPiece, the compiled port against the Rust: short words exhaustively over small vocabularies, random words over one
//! of real size, every refusal, and the lent id places compared whole.

use std::collections::HashSet;

use crate::port::{self, Given};
use crate::random::Random;
use crate::text::Tally;
use crate::tokie::{Parts, VocabTrie, Wordpiece};
use crate::{large, small};

/// What the lent places hold before a call.
fn pattern(n: usize) -> Vec<u32> {
    (0..n as u32).map(|i| 0xA5A5_0000 ^ i).collect()
}

/// One word in a trie: the answer and every lent place, in places longer than needed, exactly enough, and one short.
struct Case<'a> {
    parts: &'a Parts,
    trie: &'a VocabTrie,
    given: Given<'a>,
}

impl Case<'_> {
    fn alike(&self, t: &mut Tally, known: &mut u64, word: &str) {
        let characters = word.chars().count();
        let mut expected = self.trie.encode(word, self.given.max_chars);
        if word.is_empty() && !expected.is_empty() {
            // The paper's one known difference: an absent prefix and an empty word
            *known += 1;
            expected.clear();
        }
        for places in [characters + 3, characters, characters.wrapping_sub(1)] {
            if places == usize::MAX {
                continue;
            }
            let before = pattern(places);
            let mut ids = before.clone();
            let answer = port::encode(self.parts, self.given, word.as_bytes(), &mut ids);
            let mut after = before.clone();
            let right = if places < characters { Err(10) } else { Ok(expected.len()) };
            if right.is_ok() {
                after[..expected.len()].copy_from_slice(&expected);
            }
            t.check(answer == right && ids == after, || {
                format!("{word:?} {:?}: {answer:?} {ids:x?}, not {right:?} {expected:?}", self.given)
            });
        }
    }
}

/// All words of up to 6 characters over a small alphabet, for small vocabularies, max_chars 0 to 7, prefixes empty,
/// absent, present and of several bytes.
fn exhaustive(seed: u64, vocabularies: usize) -> bool {
    let (mut t, mut known) = (Tally::default(), 0);
    let mut r = Random::new(seed);
    let alphabet = ["a", "b", "é"];
    let mut words = vec![String::new()];
    for n in 0..6 {
        let longer = words.iter().filter(|w| w.chars().count() == n);
        let longer: Vec<String> = longer.flat_map(|w| alphabet.map(|c| format!("{w}{c}"))).collect();
        words.extend(longer);
    }
    for k in 0..vocabularies {
        let v = small::wordpiece(&mut r);
        let trie = VocabTrie::build(&v);
        let parts = trie.parts();
        let max_chars = if k % 9 == 8 { u32::MAX } else { (k % 9) as u32 };
        let given = Given { unknown: v.unknown, max_chars, prefix: v.prefix.as_bytes() };
        let case = Case { parts: &parts, trie: &trie, given };
        words.iter().for_each(|w| case.alike(&mut t, &mut known, w));
    }
    println!("  the known difference: {known} cases");
    t.say(&format!("WordPiece, {} words over {vocabularies} vocabularies", words.len()))
}

/// A vocabulary of real size: words and continuations.
pub fn real(r: &mut Random) -> Wordpiece {
    let mut seen = HashSet::new();
    let singles = ('a'..='z').chain("éüñ日本".chars()).flat_map(|c| [c.to_string(), format!("##{c}")]);
    let words = std::iter::repeat_with(|| if r.one_in(2) { format!("##{}", large::word(r)) } else { large::word(r) });
    let tokens = singles.chain(words).filter(|t| seen.insert(t.clone())).take(30_000);
    let rows = tokens.enumerate().map(|(i, t)| (t, i as u32 + 1)).collect();
    Wordpiece { rows, unknown: 0, prefix: "##".to_string() }
}

fn random(seed: u64, count: usize) -> bool {
    let (mut t, mut known) = (Tally::default(), 0);
    let mut r = Random::new(seed);
    let trie = VocabTrie::build(&real(&mut r));
    let parts = trie.parts();
    let given = Given { unknown: 0, max_chars: 100, prefix: b"##" };
    let case = Case { parts: &parts, trie: &trie, given };
    let tested = port::Tested::new(&parts);
    for k in 0..count {
        let word = if k % 20 == 0 { large::word(&mut r) + "q€" } else { large::word(&mut r) + &large::word(&mut r) };
        if k % 100 == 0 {
            // the public call tests 80,000 nodes each time
            case.alike(&mut t, &mut known, &word);
        }
        let mut ids = vec![0; word.len() + 2];
        let n = tested.encode(given, &word, &mut ids);
        t.check(ids[..n] == trie.encode(&word, 100), || format!("{word:?}: {:?}", &ids[..n]));
    }
    t.say("WordPiece, random words over 30,000 tokens")
}

/// The paper's examples 9 to 12 and its pack case: the port gives what the Rust gives, which `compare examples` holds to the paper.
fn examples() -> bool {
    let (mut t, mut known) = (Tally::default(), 0);
    let vocabularies: [(&[(&str, u32)], &[(&str, u32)]); 4] = [
        (&[("ab", 1), ("abc", 2), ("##cd", 3)], &[("abcd", 100)]),
        (&[("un", 1), ("##able", 2)], &[("##able", 100), ("unable", 100), ("", 100), ("unx", 100)]),
        (&[("a", 1), ("a", 2)], &[("a", 100)]),
        (&[("éé", 5)], &[("éé", 2), ("éé", 1)]),
    ];
    for (rows, words) in vocabularies {
        let rows = rows.iter().map(|&(token, id)| (token.to_string(), id)).collect();
        let trie = VocabTrie::build(&Wordpiece { rows, unknown: 0, prefix: "##".to_string() });
        let parts = trie.parts();
        for &(word, max_chars) in words {
            let case = Case { parts: &parts, trie: &trie, given: Given { unknown: 0, max_chars, prefix: b"##" } };
            case.alike(&mut t, &mut known, word);
        }
    }
    t.say("WordPiece, the paper's examples 9 to 12 and its case")
}

/// Each refusal, alone and with a later one, and the limits at the number and one above.
fn refusals() -> bool {
    let mut t = Tally::default();
    let good = VocabTrie::build(&Wordpiece { rows: vec![("ab".into(), 1)], unknown: 0, prefix: String::new() }).parts();
    let mut bad = good.clone();
    bad.to[0] = 9;
    let long = vec![b'a'; 65_537];
    let ill: &[u8] = &[0xFF];
    let words: [(&[u8], Option<u32>); 4] = [(&long, Some(1)), (&long[..65_536], None), (ill, Some(4)), (b"ab", None)];
    let prefixes: [(&[u8], Option<u32>); 4] =
        [(&long[..65], Some(1)), (&long[..64], None), (ill, Some(4)), (b"##", None)];
    for (parts, unsound) in [(&good, None), (&bad, Some(8))] {
        for (word, of_word) in words {
            for (prefix, of_prefix) in prefixes {
                for short in [false, true] {
                    let places = if short { word.len() - 1 } else { word.len() };
                    let size = of_word.or(of_prefix).filter(|_| of_word == Some(1) || of_prefix == Some(1)).map(|_| 1);
                    let text = of_word.filter(|&f| f == 4).or(of_prefix.filter(|&f| f == 4));
                    let first = size.or(unsound).or(text).or(short.then_some(10));
                    let before = pattern(places);
                    let mut ids = before.clone();
                    let answer = port::encode(parts, Given { unknown: 0, max_chars: 100, prefix }, word, &mut ids);
                    let same = match first {
                        Some(number) => answer == Err(number) && ids == before,
                        None => answer.is_ok_and(|n| ids[n..] == before[n..]),
                    };
                    t.check(same, || {
                        format!("word of {}, prefix of {}, {places} places: {answer:?}", word.len(), prefix.len())
                    });
                }
            }
        }
    }
    t.say("WordPiece, refusals in their order")
}

pub fn run(seed: u64, quick: bool) -> bool {
    let (vocabularies, count) = if quick { (20, 2_000) } else { (400, 100_000) };
    [examples(), refusals(), exhaustive(seed, vocabularies), random(seed, count)].iter().all(|&same| same)
}
