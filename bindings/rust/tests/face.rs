//! The safe face: every refusal that it can give, limits at their number and one above, empty inputs, memory that
//! grows.

use std::collections::HashSet;

use soahkimal::{Fault, NO_ID, Pack, Parts, Refusal, Unigram, WordPiece, print, text};

fn refused<T>(answer: Result<T, Refusal>) -> (u32, Option<u32>) {
    let r = answer.err().expect("refused");
    (r.fault.number(), r.row)
}

fn unigram() -> Unigram {
    Unigram::from_rows(&[("a", -1.0), ("ab", -3.0)], 9).unwrap()
}

fn wordpiece() -> WordPiece {
    WordPiece::from_rows(&[("a", 1), ("##b", 2)], 9, 100, b"##").unwrap()
}

fn with_prefix(prefix: &[u8]) -> Result<WordPiece, Refusal> {
    WordPiece::from_rows(&[("a", 1)], 0, 100, prefix)
}

#[test]
fn size_1() {
    let at = vec![b'a'; text::MAX_TEXT];
    let above = vec![b'a'; text::MAX_TEXT + 1];
    assert_eq!(unigram().segment(&at).unwrap().len(), 65_536);
    assert_eq!(refused(unigram().segment(&above)), (1, None));
    assert_eq!(refused(unigram().cut(&above)), (1, None));
    assert_eq!(unigram().exact(&at).unwrap(), None);
    assert_eq!(refused(unigram().exact(&above)), (1, None));
    assert_eq!(wordpiece().encode(&at).unwrap(), [9]);
    assert_eq!(refused(wordpiece().encode(&above)), (1, None));
    assert_eq!(refused(wordpiece().exact(&above)), (1, None));
    assert!(with_prefix(&[b'#'; 64]).is_ok());
    assert_eq!(refused(with_prefix(&[b'#'; 65])), (1, None));
}

#[test]
fn size_1_of_rows_and_tables() {
    let rows = vec![("a", 0.5); 1_048_577];
    assert!(Unigram::from_rows(&rows[1..], 0).is_ok());
    assert_eq!(refused(Unigram::from_rows(&rows, 0)), (1, None));
    let table = vec![b'a'; 16_777_217];
    assert!(Unigram::from_spans(&table[1..], &[(0, 1)], &[0.5], 0).is_ok());
    assert_eq!(refused(Unigram::from_spans(&table, &[(0, 1)], &[0.5], 0)), (1, None));
    assert_eq!(refused(Unigram::from_rows(&[(&table, 0.5)], 0)), (1, None));
    // five times a gibibyte, which no u32 counts; nothing of it is copied
    let part = vec![0u8; 1 << 30];
    assert_eq!(refused(Unigram::from_rows(&[(&part, 0.5); 5], 0)), (1, None));
    assert_eq!(refused(WordPiece::from_rows(&[(&part, 1); 5], 0, 100, b"##")), (1, None));
}

#[test]
fn size_1_of_lists_that_differ() {
    for (spans, worths) in [(0, 1), (1, 0), (2, 1), (1, 2)] {
        let (spans, scores, ids) = (vec![(0, 1); spans], vec![0.5; worths], vec![1; worths]);
        assert_eq!(refused(Unigram::from_spans(b"ab", &spans, &scores, 0)), (1, None));
        assert_eq!(refused(WordPiece::from_spans(b"ab", &spans, &ids, 0, 100, b"##")), (1, None));
    }
}

#[test]
fn span_2() {
    for span in [(3, 0), (2, 1), (0, 3), (u32::MAX, u32::MAX), (1, u32::MAX)] {
        assert_eq!(refused(Unigram::from_spans(b"ab", &[(2, 0), span], &[0.5; 2], 0)), (2, Some(1)), "{span:?}");
        assert_eq!(refused(WordPiece::from_spans(b"ab", &[(0, 2), span], &[1; 2], 0, 9, b"")), (2, Some(1)));
        assert_eq!(refused(text::span(b"ab", span.0, span.1)), (2, None));
    }
    assert_eq!(text::span(b"ab", 1, 1), Ok(b"b".as_slice()));
    assert_eq!(text::span(b"ab", 2, 0), Ok(b"".as_slice()));
}

#[test]
fn token_3() {
    let long = "x".repeat(1_025);
    assert!(Unigram::from_rows(&[(&long[1..], 0.5)], 0).is_ok());
    assert_eq!(refused(Unigram::from_rows(&[("a", 0.5), (&long, 0.5)], 0)), (3, Some(1)));
    assert_eq!(refused(WordPiece::from_rows(&[(&long, 1)], 0, 9, b"")), (3, Some(0)));
}

#[test]
fn text_4() {
    let bad: [&[u8]; 5] = [b"\xff", b"\xc3", b"\xed\xa0\x80", b"\xc0\x80", b"\xf4\x90\x80\x80"];
    for s in bad {
        assert_eq!(refused(Unigram::from_rows(&[(b"a".as_slice(), 0.5), (s, 0.5)], 0)), (4, Some(1)));
        assert_eq!(refused(WordPiece::from_rows(&[(s, 1)], 0, 9, b"")), (4, Some(0)));
        assert_eq!(refused(with_prefix(s)), (4, None));
        assert_eq!(refused(unigram().segment(s)), (4, None));
        assert_eq!(refused(unigram().exact(s)), (4, None));
        assert_eq!(refused(wordpiece().encode(s)), (4, None));
        assert_eq!(refused(wordpiece().exact(s)), (4, None));
        assert_eq!(refused(text::span(s, 0, s.len() as u32)), (4, None));
        assert_eq!((text::valid_up_to(s), refused(text::characters(s))), (0, (4, None)));
    }
    // a length above the limit comes before bytes that are no text
    assert_eq!(refused(unigram().segment(&[0xff; 65_537])), (1, None));
    assert_eq!(refused(text::characters(&[0xff; 65_537])), (1, None));
    assert_eq!(text::characters(&[b'a'; 65_536]), Ok(65_536));
}

#[test]
fn score_5_and_id_6() {
    for score in [f64::NAN, -f64::NAN, f64::INFINITY, f64::NEG_INFINITY] {
        assert_eq!(refused(Unigram::from_rows(&[("a", 0.5), ("b", score)], 0)), (5, Some(1)));
    }
    assert!(Unigram::from_rows(&[("a", f64::MAX), ("b", f64::MIN), ("c", -0.0), ("d", 5e-324)], NO_ID).is_ok());
    assert_eq!(refused(WordPiece::from_rows(&[("a", 1), ("b", NO_ID)], 0, 9, b"##")), (6, Some(1)));
    assert!(WordPiece::from_rows(&[("a", NO_ID - 1)], NO_ID, 9, b"##").is_ok());
}

#[test]
fn the_first_bad_row() {
    let rows: [(&[u8], f64); 3] = [(b"a", 0.5), (b"\xff", f64::NAN), (&[b'x'; 1_025], 0.5)];
    assert_eq!(refused(Unigram::from_rows(&rows, 0)), (4, Some(1)));
    // the rows are judged before the prefix
    assert_eq!(refused(WordPiece::from_rows(&[("a", NO_ID)], 0, 9, &[0xff; 65])), (6, Some(0)));
}

#[test]
fn trie_8() {
    let (u, w) = (unigram(), wordpiece());
    let again = |p: &Parts| Unigram::from_parts(p.clone(), 9, u.unknown_score());
    let words = |p: &Parts| WordPiece::from_parts(p.clone(), 9, 100, b"##");
    assert_eq!(again(u.parts()).unwrap().segment(b"ab").unwrap(), u.segment(b"ab").unwrap());
    assert_eq!(words(w.parts()).unwrap().encode(b"ab").unwrap(), [1, 2]);
    let spoilt: [fn(&mut Parts); 8] = [
        |p| *p = Parts::default(),
        |p| p.edge_at.truncate(1),
        |p| p.edge_n.truncate(1),
        |p| p.id.truncate(1),
        |p| p.to.truncate(1),
        |p| p.edge_n[0] = 257,
        |p| p.edge_at[0] = u32::MAX,
        |p| p.to[0] = p.id.len() as u32,
    ];
    for spoil in spoilt {
        let (mut a, mut b) = (u.parts().clone(), w.parts().clone());
        spoil(&mut a);
        spoil(&mut b);
        assert_eq!(refused(again(&a)), (8, None));
        assert_eq!(refused(words(&b)), (8, None));
    }
    for spoil in [|p: &mut Parts| p.score[1] = f64::NAN, |p: &mut Parts| p.score.truncate(1)] {
        let mut parts = u.parts().clone();
        spoil(&mut parts);
        assert_eq!(refused(again(&parts)), (8, None));
    }
    assert_eq!(refused(Unigram::from_parts(u.parts().clone(), 9, f64::INFINITY)), (8, None));
    // the order is that of a word: 1, 8, 4
    assert_eq!(refused(WordPiece::from_parts(Parts::default(), 9, 100, &[0xff; 65])), (1, None));
    assert_eq!(refused(WordPiece::from_parts(Parts::default(), 9, 100, &[0xff; 64])), (8, None));
    assert_eq!(refused(WordPiece::from_parts(w.parts().clone(), 9, 100, &[0xff; 64])), (4, None));
}

/// A WordPiece pack with the strings `ab##` and this prefix, one row.
fn pack(row: [u32; 4], prefix: [u32; 2]) -> Vec<u8> {
    let header = [2, 1, 36, 52, 4, 0, 100, prefix[0], prefix[1]];
    let words = header.into_iter().chain(row);
    words.flat_map(u32::to_le_bytes).chain(*b"ab##").collect()
}

#[test]
fn packs() {
    let good = pack([0, 2, 5, 0], [2, 2]);
    assert_eq!(Pack::from_bytes(&good).unwrap().ids(b"ab").unwrap(), [5]);
    let table: [(Vec<u8>, u32, Option<u32>); 9] = [
        (vec![], 11, None),
        (good[..35].to_vec(), 11, None),
        ([&good[..], b"x"].concat(), 11, None),
        (pack([0, 2, 5, 1], [2, 2]), 11, None),
        (pack([0, 2, 5, 0], [2, 65]), 1, None),
        (pack([3, 2, 5, 0], [2, 2]), 2, Some(0)),
        (pack([0, 2, NO_ID, 0], [2, 2]), 6, Some(0)),
        (pack([0, 2, 5, 0], [3, 2]), 2, None),
        (pack([0, u32::MAX, 5, 0], [2, 2]), 2, Some(0)),
    ];
    for (bytes, number, row) in table {
        assert_eq!(refused(Pack::from_bytes(&bytes)), (number, row), "{bytes:?}");
        assert_eq!(print(&bytes, b"ab\n"), format!("pack refused {number}\n").into_bytes());
    }
    for at in 0..36 {
        // whatever a spoilt header says, there is an answer
        for byte in [0, 1, 0x7f, 0xff] {
            let mut bytes = good.clone();
            bytes[at] = byte;
            drop(Pack::from_bytes(&bytes));
        }
    }
    assert_eq!(print(&good, &[b'\n'; 32_769]), b"input refused 1\n");
    assert_eq!(print(&vec![0; 65_537], b"ab\n"), b"pack refused 1\n");
    assert_eq!(print(&good, b"ab\n\xff\n"), b"1 5\nrefused 4\n");
    assert_eq!(print(&[], &[]), b"pack refused 11\n");
    assert_eq!(print(&good, &[]), b"");
}

#[test]
fn many_lines() {
    let good = pack([0, 2, 5, 0], [2, 2]);
    assert_eq!(print(&good, &[b'\n'; 32_768]), b"0\n".repeat(32_768));
}

#[test]
fn empty_inputs() {
    assert_eq!(unigram().segment(&[]).unwrap(), []);
    let cutting = unigram().cut(&[]).unwrap();
    assert_eq!((cutting.ids, cutting.ends, cutting.records), (vec![], vec![], vec![None]));
    assert_eq!(wordpiece().encode(&[]).unwrap(), []);
    assert_eq!(with_prefix(b"absent").unwrap().encode(&[]).unwrap(), []);
    assert_eq!((unigram().exact(&[]).unwrap(), wordpiece().exact(&[]).unwrap()), (None, None));
    let none: [(&str, f64); 0] = [];
    let bare = Unigram::from_rows(&none, 3).unwrap();
    assert_eq!((bare.parts().id.as_slice(), bare.unknown_score()), ([NO_ID].as_slice(), -10.0));
    assert_eq!((bare.segment(&[]).unwrap(), bare.segment(b"xy").unwrap()), (vec![], vec![3]));
    let none: [(&str, u32); 0] = [];
    let bare = WordPiece::from_rows(&none, 3, 100, &[]).unwrap();
    assert_eq!((bare.encode(&[]).unwrap(), bare.encode(b"xy").unwrap()), (vec![], vec![3]));
    assert_eq!((text::valid_up_to(&[]), text::characters(&[])), (0, Ok(0)));
    assert_eq!((text::is_boundary(&[], 0), text::is_boundary(&[], 1)), (true, false));
    assert_eq!(text::span(&[], 0, 0), Ok([].as_slice()));
}

#[test]
fn cuttings_of_long_characters() {
    let u = Unigram::from_rows(&[("日", -1.0), ("日本", -1.5)], 9).unwrap();
    let c = u.cut("日本é".as_bytes()).unwrap();
    assert_eq!((c.ids, c.ends), (vec![1, 9], vec![6, 8]));
    let at: Vec<usize> = (0..c.records.len()).filter(|&j| c.records[j].is_some()).collect();
    assert_eq!(at, [3, 6, 8]);
    assert_eq!((text::char_len(0xE6), text::char_len(0x97)), (3, 0));
}

/// Fewer nodes than bytes: the columns are as long as the trie.
#[test]
fn parts_are_cut_to_the_trie() {
    let shared = Parts {
        edge_at: vec![0, 1, 3, 3],
        edge_n: vec![1, 2, 0, 0],
        id: vec![NO_ID, NO_ID, 0, 1],
        score: vec![0.0, 0.0, -1.0, -2.0],
        byte: vec![b'a', b'b', b'c'],
        to: vec![1, 2, 3],
    };
    let u = Unigram::from_rows(&[("ab", -1.0), ("ac", -2.0), ("ab", -4.0)], 0).unwrap();
    assert_eq!((u.parts(), u.unknown_score()), (&shared, -14.0));
    let w = WordPiece::from_spans(b"abac", &[(0, 2), (2, 2)], &[0, 1], 0, 9, b"").unwrap();
    assert_eq!(w.parts(), &Parts { score: vec![], ..shared });
}

/// More nodes than the first try has room for, twice over, in a vocabulary and in a pack of the same rows.
#[test]
fn memory_grows() {
    let tokens: Vec<String> = (0..50_000).map(|i| format!("{:05}{:05}", i, 99_999 - i)).collect();
    let rows: Vec<(&str, u32)> = tokens.iter().zip(1..).map(|(t, i)| (t.as_str(), i)).collect();
    let w = WordPiece::from_rows(&rows, 0, 100, b"##").unwrap();
    let nodes = tokens.iter().flat_map(|t| (0..=t.len()).map(|n| &t[..n])).collect::<HashSet<_>>().len();
    assert!(nodes > 2 * 65_536, "{nodes} nodes");
    assert_eq!((w.parts().id.len(), w.parts().to.len(), w.parts().score.len()), (nodes, nodes - 1, 0));
    for (i, token) in tokens.iter().enumerate().step_by(777) {
        assert_eq!(w.encode(token.as_bytes()).unwrap(), [i as u32 + 1]);
    }
    let strings = tokens.concat() + "##";
    let header = [2, 50_000, 36, 36 + 16 * 50_000, strings.len() as u32, 0, 100, strings.len() as u32 - 2, 2];
    let words = header.into_iter().chain((0..50_000).flat_map(|i| [10 * i, 10, i + 1, 0]));
    let bytes: Vec<u8> = words.flat_map(u32::to_le_bytes).chain(strings.bytes()).collect();
    assert_eq!(Pack::from_bytes(&bytes).unwrap().into_wordpiece().unwrap().parts(), w.parts());
    let scored: Vec<(&str, f64)> = rows.iter().map(|&(t, i)| (t, -f64::from(i))).collect();
    let u = Unigram::from_rows(&scored, 0).unwrap();
    assert_eq!((u.parts().score.len(), u.unknown_score()), (nodes, -50_010.0));
    assert_eq!(u.segment(tokens[49_999].as_bytes()).unwrap(), [49_999]);
}

#[test]
fn refusals_in_words() {
    let r = Unigram::from_rows(&[("a", f64::NAN)], 0).unwrap_err();
    assert_eq!(r, Refusal { fault: Fault::Score, row: Some(0) });
    assert_eq!(r.to_string(), "refused 5 at row 0: no score, or one that is not finite");
    assert_eq!(Refusal::from(Fault::Text).to_string(), "refused 4: bytes that are not well-formed UTF-8");
    for (fault, number) in Fault::ALL.into_iter().zip(1..) {
        assert_eq!((fault.number(), Fault::from_number(number)), (number, Some(fault)));
        assert!(!fault.to_string().is_empty());
    }
    assert_eq!((Fault::from_number(0), Fault::from_number(12)), (None, None));
}

#[test]
fn many_threads_share_a_vocabulary() {
    let u = unigram();
    std::thread::scope(|scope| {
        for _ in 0..4 {
            scope.spawn(|| assert_eq!(u.segment(&b"ab".repeat(500)).unwrap(), [1; 500]));
        }
    });
}

/// The bytes of each id: a token's own, and those of a whole run of unknown pieces.
#[test]
fn spans_of_ids() {
    let rows = [("<unk>", 0.0), ("a", -1.0), ("bc", -1.0), ("xy", -9.0)];
    let u = Unigram::from_rows(&rows, 0).unwrap();
    for (text, ids, spans) in [
        ("", vec![], vec![]),
        ("abc", vec![1, 2], vec![0..1, 1..3]),
        ("a??bc", vec![1, 0, 2], vec![0..1, 1..3, 3..5]),
        ("é?a日", vec![0, 1, 0], vec![0..3, 3..4, 4..7]),
    ] {
        let cutting = u.cut(text).unwrap();
        assert_eq!((cutting.ids, cutting.spans), (ids, spans), "{text}");
    }
    for text in ["axybc", "xxyy", "<unk>a<unk>?", "日本bc"] {
        let cutting = u.cut(text).unwrap();
        assert_eq!(cutting.ids.len(), cutting.spans.len(), "{text}");
        assert_eq!(cutting.spans.iter().map(|span| &text[span.clone()]).collect::<String>(), text);
    }
}

/// Texts and words are `&str`, `String` or bytes.
#[test]
fn texts_of_each_type() {
    let (u, w) = (unigram(), wordpiece());
    assert_eq!(u.segment("a").unwrap(), u.segment(b"a").unwrap());
    assert_eq!(w.encode(String::from("a")).unwrap(), w.encode(b"a".to_vec()).unwrap());
    assert_eq!(u.exact("a").unwrap(), u.exact(b"a").unwrap());
}
