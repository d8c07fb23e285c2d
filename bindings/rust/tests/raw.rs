//! The functions as they are: null for empty buffers, buffers of no places, and refusals 7, 9 and 10, which the safe
//! face can't give.

use soahkimal::raw::*;
use std::ptr::{null, null_mut};

const TWO_32: u64 = 1 << 32;

/// A build's answer: the refusal number times 2^32 and no row.
fn refused(number: u64) -> u64 {
    number * TWO_32 + 0xFFFF_FFFF
}

#[rustfmt::skip]
#[test]
fn null_is_an_empty_buffer() {
    unsafe {
        assert_eq!(sk_valid_up_to(null(), 0), 0);
        assert_eq!(sk_characters(null(), 0), 0);
        assert!(sk_is_boundary(null(), 0, 0));
        assert!(!sk_is_boundary(null(), 0, 1));
        assert_eq!(sk_text(null(), 0, 0, 0), 0);
        assert_eq!(sk_text(null(), 0, 0, 1), 2);
        assert_eq!(sk_text_len(null(), 0, 0, 0), 0);
        assert!(!sk_sound(null(), 0, null(), 0, null(), 0, null(), 0, null(), 0));
        assert!(!sk_sound_scored(null(), 0, null(), 0, null(), 0, null(), 0, null(), 0, null(), 0, -10.0));
        let exact = sk_exact(null(), 0, null(), 0, null(), 0, null(), 0, null(), 0, null(), 0, -10.0, null(), 0);
        assert_eq!(exact, TWO_32 + 8);
        let exact = sk_exact_unscored(null(), 0, null(), 0, null(), 0, null(), 0, null(), 0, null(), 0);
        assert_eq!(exact, TWO_32 + 8);
        let encode = sk_encode(null(), 0, null(), 0, null(), 0, null(), 0, null(), 0, 0, 100, null(), 0, null(), 0,
            null_mut(), 0);
        assert_eq!(encode as u64, TWO_32 + 8);
        let segment = sk_segment(null(), 0, null(), 0, null(), 0, null(), 0, null(), 0, null(), 0, 0, -10.0, null(), 0,
            null_mut(), 0, null_mut(), 0, null_mut(), 0, null_mut(), 0, null_mut(), 0);
        assert_eq!(segment as u64, TWO_32 + 8);
        let rows = sk_from_rows(null(), 0, null(), 0, null(), 0, null(), 0, null(), 0, null(), 0,
            null_mut(), 0, null_mut(), 0, null_mut(), 0, null_mut(), 0, null_mut(), 0, null_mut(), 0);
        assert_eq!(rows, refused(7));
        let build = sk_build(null(), 0, null(), 0, null(), 0, null(), 0, null(), 0, null(), 0,
            null_mut(), 0, null_mut(), 0, null_mut(), 0, null_mut(), 0, null_mut(), 0, null_mut(), 0, null_mut(), 0,
            null_mut(), 0);
        assert_eq!(build, refused(7));
        let pack = sk_pack_build(null(), 0,
            null_mut(), 0, null_mut(), 0, null_mut(), 0, null_mut(), 0, null_mut(), 0, null_mut(), 0, null_mut(), 0,
            null_mut(), 0);
        assert_eq!(pack, refused(11));
        assert_eq!(sk_print(null(), 0, null(), 0, null_mut(), 0) as u64, TWO_32);
    }
}

/// The columns that a build without rows is lent, every place 5: one node, no edge, two work places.
#[derive(Debug, PartialEq)]
struct Lent {
    edge_at: [u32; 1],
    edge_n: [u16; 1],
    node_id: [u32; 1],
    node_score: [f64; 1],
    work: [u32; 2],
    unknown: [f64; 2],
}

const FIVES: Lent =
    Lent { edge_at: [5], edge_n: [5], node_id: [5], node_score: [5.0], work: [5, 5], unknown: [5.0, 5.0] };

/// A build without rows that is lent so many places of each column.
#[rustfmt::skip]
fn bare_build([at, n, id, score, work, unknown]: [usize; 6]) -> (u64, Lent) {
    let mut l = FIVES;
    let answer = unsafe {
        sk_build(null(), 0, null(), 0, null(), 0, null(), 0, null(), 0, null(), 0,
            l.edge_at.as_mut_ptr(), at, l.edge_n.as_mut_ptr(), n, l.node_id.as_mut_ptr(), id,
            l.node_score.as_mut_ptr(), score, null_mut(), 0, null_mut(), 0, l.work.as_mut_ptr(), work,
            l.unknown.as_mut_ptr(), unknown)
    };
    (answer, l)
}

/// Each column a place too short is 7. Lent places are zero then, and a place that was not lent is untouched.
#[test]
fn room_7() {
    let zero = || Lent { edge_at: [0], edge_n: [0], node_id: [0], node_score: [0.0], work: [0, 0], ..FIVES };
    assert_eq!(bare_build([0, 1, 1, 1, 2, 2]), (refused(7), Lent { edge_at: [5], ..zero() }));
    assert_eq!(bare_build([1, 0, 1, 1, 2, 2]), (refused(7), Lent { edge_n: [5], ..zero() }));
    assert_eq!(bare_build([1, 1, 0, 1, 2, 2]), (refused(7), Lent { node_id: [5], ..zero() }));
    assert_eq!(bare_build([1, 1, 1, 0, 2, 2]), (refused(7), Lent { node_score: [5.0], ..zero() }));
    assert_eq!(bare_build([1, 1, 1, 1, 1, 2]), (refused(7), Lent { work: [0, 5], ..zero() }));
    assert_eq!(bare_build([0, 0, 0, 0, 0, 0]), (refused(7), FIVES));
    let built = || Lent { node_id: [u32::MAX], ..zero() };
    assert_eq!(bare_build([1, 1, 1, 1, 2, 2]), (1, Lent { unknown: [-10.0, 5.0], ..built() }));
    assert_eq!(bare_build([1, 1, 1, 1, 2, 0]), (1, built()));
}

/// Encodes with a trie of one node, or of none, and no prefix.
#[rustfmt::skip]
fn bare_encode(nodes: usize, word: &[u8], ids: &mut [u32]) -> u64 {
    let (at, n, id) = ([0u32], [0u16], [7u32]);
    let places = if ids.is_empty() { null_mut() } else { ids.as_mut_ptr() };
    let answer = unsafe {
        sk_encode(at.as_ptr(), nodes, n.as_ptr(), nodes, id.as_ptr(), nodes, null(), 0, null(), 0,
            3, 100, null(), 0, word.as_ptr(), word.len(), places, ids.len())
    };
    answer as u64
}

#[test]
fn ids_10() {
    let mut ids = [5u32; 3];
    assert_eq!(bare_encode(1, b"", &mut []), 0);
    assert_eq!(bare_encode(1, b"a", &mut []), TWO_32 + 10);
    assert_eq!(bare_encode(1, "éé".as_bytes(), &mut ids[..1]), TWO_32 + 10);
    assert_eq!(ids, [5; 3]);
    assert_eq!(bare_encode(1, "éé".as_bytes(), &mut ids[..2]), 1);
    assert_eq!(ids, [3, 5, 5]);
    assert_eq!(bare_encode(0, b"", &mut []), TWO_32 + 8);
}

/// How many ids, then start, id and score of the slots, path and ids.
type Segmented = (u64, [u32; 4], [u32; 4], [f64; 4], [u32; 4], [u32; 4]);

/// Cuts a text with the trie of one node and so many slots, path and id places.
#[rustfmt::skip]
fn bare_segment(text: &[u8], [slots, path, ids]: [usize; 3]) -> Segmented {
    let (at, n, id, score) = ([0u32], [0u16], [u32::MAX], [0.0f64]);
    let mut b = untouched(0);
    b.0 = unsafe {
        sk_segment(at.as_ptr(), 1, n.as_ptr(), 1, id.as_ptr(), 1, score.as_ptr(), 1, null(), 0, null(), 0, 9, -10.0,
            text.as_ptr(), text.len(), b.1.as_mut_ptr(), slots, b.2.as_mut_ptr(), slots, b.3.as_mut_ptr(), slots,
            b.4.as_mut_ptr(), path, b.5.as_mut_ptr(), ids) as u64
    };
    b
}

fn untouched(answer: u64) -> Segmented {
    (answer, [5; 4], [5; 4], [5.0; 4], [5; 4], [5; 4])
}

#[test]
fn scratch_9_and_ids_10() {
    assert_eq!(bare_segment(b"", [0, 0, 0]), untouched(0));
    assert_eq!(bare_segment(b"", [4, 4, 4]), untouched(0));
    assert_eq!(bare_segment(b"ab", [2, 2, 2]), untouched(TWO_32 + 9));
    assert_eq!(bare_segment(b"ab", [3, 1, 2]), untouched(TWO_32 + 9));
    assert_eq!(bare_segment(b"ab", [3, 2, 1]), untouched(TWO_32 + 10));
    assert_eq!(bare_segment(b"ab", [0, 0, 0]), untouched(TWO_32 + 9));
    assert_eq!(bare_segment(b"\xff", [0, 0, 0]), untouched(TWO_32 + 4));
    let none = u32::MAX;
    let cut = (1, [none, 0, 1, 5], [none, 9, 9, 5], [0.0, -10.0, -20.0, 5.0], [1, 2, 5, 5], [9, 5, 5, 5]);
    assert_eq!(bare_segment(b"ab", [3, 2, 2]), cut);
    // a path place and an id place for each character are enough
    let one = (1, [none, none, 0, 5], [none, none, 9, 5], [0.0, 0.0, -10.0, 5.0], [2, 5, 5, 5], [9, 5, 5, 5]);
    assert_eq!(bare_segment("é".as_bytes(), [3, 1, 1]), one);
}

#[test]
fn a_buffer_too_short_to_print() {
    let mut out = vec![7u8; 360_459];
    let print = |out: &mut [u8]| unsafe { sk_print(null(), 0, null(), 0, out.as_mut_ptr(), out.len()) as u64 };
    assert_eq!(print(&mut out[1..]), TWO_32);
    assert!(out.iter().all(|&b| b == 7));
    assert_eq!(print(&mut out), 16);
    assert_eq!(&out[..16], b"pack refused 11\n");
}
