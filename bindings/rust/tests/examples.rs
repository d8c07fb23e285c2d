//! The scope's table of examples, 1 to 12, and its pack case, through the safe face.

use soahkimal::{Pack, Record, Refusal, Unigram, WordPiece, print};

/// Row 0 is `<unk>` with score 0, the unknown id 0.
fn unigram(rows: &[(&str, f64)]) -> Unigram {
    Unigram::from_rows(&[&[("<unk>", 0.0)], rows].concat(), 0).unwrap()
}

fn wordpiece(rows: &[(&str, u32)], max_chars: u32) -> WordPiece {
    WordPiece::from_rows(rows, 0, max_chars, b"##").unwrap()
}

/// The rows, a text and its ids.
type Text<'a> = (&'a [(&'a str, f64)], &'a str, &'a [u32]);

#[test]
fn unigram_1_to_6() {
    let table: [Text; 5] = [
        (&[("a", -1.0), ("b", -1.0), ("ab", -2.0)], "ab", &[3]),
        (&[("a", -1.0), ("ab", -2.0), ("bc", -2.0), ("c", -1.0)], "abc", &[1, 3]),
        (&[("a", 0.1), ("b", 0.2), ("ab", 0.3)], "ab", &[1, 2]),
        (&[("a", -1.0)], "xya", &[0, 1]),
        (&[("x", -1.0)], "q<unk>", &[0]),
    ];
    for (rows, text, ids) in table {
        assert_eq!(unigram(rows).segment(text.as_bytes()).unwrap(), ids, "{rows:?} {text}");
    }
    let merged = Unigram::from_rows(&[("<unk>", 30.0), ("ab", 30.0)], 0).unwrap();
    assert_eq!(merged.segment(b"ab").unwrap(), [1]);
    assert_eq!(merged.segment(b"abab").unwrap(), [0]);
}

#[test]
fn unigram_7_the_first_of_repeated_tokens() {
    let cutting = unigram(&[("a", -3.0), ("a", -1.0)]).cut(b"a").unwrap();
    assert_eq!(cutting.ids, [1]);
    assert_eq!(cutting.ends, [1]);
    assert_eq!(cutting.records, [None, Some(Record { start: 0, id: 1, score: -3.0 })]);
}

#[test]
fn unigram_8_an_empty_token() {
    let u = Unigram::from_rows(&[("", -50.0), ("a", -1.0)], 7).unwrap();
    assert_eq!(u.segment(b"x").unwrap(), [7]);
    assert_eq!(u.unknown_score(), -60.0);
}

/// The rows, a word, max_chars and the ids.
type Word<'a> = (&'a [(&'a str, u32)], &'a str, u32, &'a [u32]);

#[test]
fn wordpiece_9_to_12() {
    let table: [Word; 5] = [
        (&[("ab", 1), ("abc", 2), ("##cd", 3)], "abcd", 100, &[0]),
        (&[("un", 1), ("##able", 2)], "##able", 100, &[2]),
        (&[("a", 1), ("a", 2)], "a", 100, &[2]),
        (&[("éé", 5)], "éé", 2, &[5]),
        (&[("éé", 5)], "éé", 1, &[0]),
    ];
    for (rows, word, max_chars, ids) in table {
        assert_eq!(wordpiece(rows, max_chars).encode(word.as_bytes()).unwrap(), ids, "{rows:?} {word} {max_chars}");
    }
}

/// Strings `un##able`, rows (0,2) id 1 and (2,6) id 2, unknown 0, max_chars 100, prefix (2,2).
fn case() -> Vec<u8> {
    let words: [u32; 17] = [2, 2, 36, 68, 8, 0, 100, 2, 2, 0, 2, 1, 0, 2, 6, 2, 0];
    let mut bytes: Vec<u8> = words.into_iter().flat_map(u32::to_le_bytes).collect();
    bytes.extend_from_slice(b"un##able");
    bytes
}

#[test]
fn the_pack_case() -> Result<(), Refusal> {
    let bytes = case();
    assert_eq!(bytes.len(), 76);
    assert_eq!(print(&bytes, b"unable\n\nunx\n"), b"2 1 2\n0\n1 0\n");
    assert_eq!(print(&bytes, b"unable\n\nunx"), b"2 1 2\n0\n1 0\n");
    let pack = Pack::from_bytes(&bytes)?;
    assert_eq!(pack.ids(b"unable")?, [1, 2]);
    assert_eq!(pack.ids(b"")?, []);
    assert_eq!(pack.ids(b"unx")?, [0]);
    let w = pack.into_wordpiece().expect("kind 2");
    assert_eq!((w.unknown(), w.max_chars(), w.prefix()), (0, 100, b"##".as_slice()));
    assert_eq!(w.parts(), wordpiece(&[("un", 1), ("##able", 2)], 100).parts());
    Ok(())
}

/// A Unigram pack is the same vocabulary as its rows.
#[test]
fn a_unigram_pack() -> Result<(), Refusal> {
    let mut bytes: Vec<u8> = [1u32, 2, 36, 68, 3, 7, 0, 0, 0].into_iter().flat_map(u32::to_le_bytes).collect();
    for (off, len, score) in [(0u32, 1u32, -1.0f64), (0, 3, -2.5)] {
        bytes.extend([off.to_le_bytes(), len.to_le_bytes()].concat());
        bytes.extend(score.to_le_bytes());
    }
    bytes.extend_from_slice("aé".as_bytes());
    let u = Pack::from_bytes(&bytes)?.into_unigram().expect("kind 1");
    let same = Unigram::from_rows(&[("a", -1.0), ("aé", -2.5)], 7)?;
    assert_eq!((u.parts(), u.unknown(), u.unknown_score()), (same.parts(), 7, -12.5));
    assert_eq!(u.segment("aaéé".as_bytes())?, [0, 1, 7]);
    assert_eq!(print(&bytes, "aaéé".as_bytes()), b"3 0 1 7\n");
    Ok(())
}
