//! The paper's table of examples and its pack case, on the Rust: it gives what the paper says, and so what `worked` proves of the
//! definitions.

use crate::tokie::{Lattice, Unigram, VocabTrie, Wordpiece};

/// Row 0 is `<unk>` with score 0, the unknown id 0.
fn unigram(rows: &[(&str, f64)]) -> Lattice {
    with_rows(&[&[("<unk>", 0.0)], rows].concat(), 0)
}

fn with_rows(rows: &[(&str, f64)], unknown: u32) -> Lattice {
    Lattice::build(&Unigram { rows: rows.iter().map(|&(t, x)| (t.to_string(), x)).collect(), unknown })
}

fn wordpiece(rows: &[(&str, u32)]) -> VocabTrie {
    let rows = rows.iter().map(|&(t, i)| (t.to_string(), i)).collect();
    VocabTrie::build(&Wordpiece { rows, unknown: 0, prefix: "##".to_string() })
}

pub fn run() -> bool {
    let u = |rows: &[(&str, f64)], text: &str| unigram(rows).segment(text).ids;
    let w = |rows: &[(&str, u32)], word: &str, max_chars: u32| wordpiece(rows).encode(word, max_chars);
    let five = with_rows(&[("<unk>", 30.0), ("ab", 30.0)], 0);
    let seven = unigram(&[("a", -3.0), ("a", -1.0)]).segment("a");
    let eight = with_rows(&[("", -50.0), ("a", -1.0)], 7);
    let case = [("un", 1), ("##able", 2)];
    let gives: Vec<(&str, bool)> = vec![
        ("1", u(&[("a", -1.0), ("b", -1.0), ("ab", -2.0)], "ab") == [3]),
        ("2", u(&[("a", -1.0), ("ab", -2.0), ("bc", -2.0), ("c", -1.0)], "abc") == [1, 3]),
        ("3", u(&[("a", 0.1), ("b", 0.2), ("ab", 0.3)], "ab") == [1, 2]),
        ("4", u(&[("a", -1.0)], "xya") == [0, 1]),
        ("5", five.segment("ab").ids == [1] && five.segment("abab").ids == [0]),
        ("6", u(&[("x", -1.0)], "q<unk>") == [0]),
        ("7", seven.ids == [1] && seven.slots[1].is_some_and(|s| s.2 == -3.0)),
        ("8", eight.segment("x").ids == [7] && eight.parts().unknown_score == -60.0),
        ("9", w(&[("ab", 1), ("abc", 2), ("##cd", 3)], "abcd", 100) == [0]),
        ("10", w(&case, "##able", 100) == [2]),
        ("11", w(&[("a", 1), ("a", 2)], "a", 100) == [2]),
        ("12", w(&[("éé", 5)], "éé", 2) == [5] && w(&[("éé", 5)], "éé", 1) == [0]),
        (
            "the pack case",
            w(&case, "unable", 100) == [1, 2] && w(&case, "", 100).is_empty() && w(&case, "unx", 100) == [0],
        ),
    ];
    let wrong: Vec<&str> = gives.iter().filter(|g| !g.1).map(|g| g.0).collect();
    println!("the paper's examples on the Rust: {} tried, {} different {wrong:?}", gives.len(), wrong.len());
    wrong.is_empty()
}
