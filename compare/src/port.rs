//! The compiled port, over its exported functions. Each is declared once here, and wrapped in a safe function that
//! passes what the parameters' types say.

use crate::rows::{Kind, Refusal, Rows};
use crate::tokie::Parts;

/// Declares an exported function by the types of its parameters: a slice `[T]`, or lent `mut [T]`, is a pointer and a
/// length.
macro_rules! declare {
    ($name:ident($($arg:tt)*) -> $r:ty) => { declare!(@ $name [] ($($arg)*) -> $r); };
    (@ $name:ident [$($done:tt)*] () -> $r:ty) => { unsafe extern "C" { pub fn $name($($done)*) -> $r; } };
    (@ $name:ident [$($done:tt)*] ([$t:ty], $($rest:tt)*) -> $r:ty) => {
        declare!(@ $name [$($done)* _: *const $t, _: usize,] ($($rest)*) -> $r);
    };
    (@ $name:ident [$($done:tt)*] (mut [$t:ty], $($rest:tt)*) -> $r:ty) => {
        declare!(@ $name [$($done)* _: *mut $t, _: usize,] ($($rest)*) -> $r);
    };
    (@ $name:ident [$($done:tt)*] ($t:ty, $($rest:tt)*) -> $r:ty) => {
        declare!(@ $name [$($done)* _: $t,] ($($rest)*) -> $r);
    };
}

#[rustfmt::skip]
mod c {
    declare!(sk_valid_up_to([u8],) -> usize);
    declare!(sk_char_len(u8,) -> usize);
    declare!(sk_is_boundary([u8], usize,) -> bool);
    declare!(sk_characters([u8],) -> usize);
    declare!(sk_text([u8], u32, u32,) -> u32);
    declare!(sk_text_len([u8], u32, u32,) -> usize);
    declare!(sk_sound([u32], [u16], [u32], [u8], [u32],) -> bool);
    declare!(sk_sound_scored([u32], [u16], [u32], [f64], [u8], [u32], f64,) -> bool);
    declare!(sk_exact([u32], [u16], [u32], [f64], [u8], [u32], f64, [u8],) -> u64);
    declare!(sk_exact_unscored([u32], [u16], [u32], [u8], [u32], [u8],) -> u64);
    declare!(sk_encode([u32], [u16], [u32], [u8], [u32], u32, u32, [u8], [u8], mut [u32],) -> usize);
    declare!(sk_encode_checked([u32], [u16], [u32], [u8], [u32], u32, u32, [u8], [u8], mut [u32],) -> usize);
    declare!(sk_segment([u32], [u16], [u32], [f64], [u8], [u32], u32, f64, [u8],
        mut [u32], mut [u32], mut [f64], mut [u32], mut [u32],) -> usize);
    declare!(sk_segment_checked([u32], [u16], [u32], [f64], [u8], [u32], u32, f64, [u8],
        mut [u32], mut [u32], mut [f64], mut [u32], mut [u32],) -> usize);
    declare!(sk_from_rows([u8], [u32], [u32], [bool], [f64], [u32],
        mut [u32], mut [u16], mut [u32], mut [u8], mut [u32], mut [u32],) -> u64);
    declare!(sk_build([u8], [u32], [u32], [bool], [f64], [u32],
        mut [u32], mut [u16], mut [u32], mut [f64], mut [u8], mut [u32], mut [u32], mut [f64],) -> u64);
    declare!(sk_print([u8], [u8], mut [u8],) -> usize);
}

/// A slice as a pointer and a length, in the middle of a call's arguments.
macro_rules! call {
    ($name:ident($($slice:expr),*; $($last:expr),*)) => { call!(@ $name [] $($slice,)*; $($last),*) };
    (@ $name:ident [$($done:expr),*] $slice:expr, $($more:expr,)*; $($last:expr),*) => {
        call!(@ $name [$($done,)* $slice.as_ptr(), $slice.len()] $($more,)*; $($last),*)
    };
    (@ $name:ident [$($done:expr),*] ; $($last:expr),*) => { unsafe { c::$name($($done,)* $($last),*) } };
}

pub fn sound(p: &Parts) -> bool {
    call!(sk_sound(p.edge_at, p.edge_n, p.id, p.byte, p.to;))
}

pub fn sound_scored(p: &Parts) -> bool {
    call!(sk_sound_scored(p.edge_at, p.edge_n, p.id, p.score, p.byte, p.to; p.unknown_score))
}

/// What a look-up answers: the id, none, or the number of the refusal.
pub fn exact(p: &Parts, s: &[u8]) -> Result<Option<u32>, u32> {
    let (at, len) = (s.as_ptr(), s.len());
    lookup(call!(sk_exact(p.edge_at, p.edge_n, p.id, p.score, p.byte, p.to; p.unknown_score, at, len)))
}

pub fn exact_unscored(p: &Parts, s: &[u8]) -> Result<Option<u32>, u32> {
    let (at, len) = (s.as_ptr(), s.len());
    lookup(call!(sk_exact_unscored(p.edge_at, p.edge_n, p.id, p.byte, p.to; at, len)))
}

fn lookup(n: u64) -> Result<Option<u32>, u32> {
    match n.checked_sub(1 << 32) {
        None => Ok(Some(n as u32)),
        Some(0) => Ok(None),
        Some(number) => Err(number as u32),
    }
}

pub fn valid_up_to(s: &[u8]) -> usize {
    unsafe { c::sk_valid_up_to(s.as_ptr(), s.len()) }
}

pub fn char_len(b: u8) -> usize {
    unsafe { c::sk_char_len(b) }
}

pub fn is_boundary(s: &[u8], i: usize) -> bool {
    unsafe { c::sk_is_boundary(s.as_ptr(), s.len(), i) }
}

/// How many characters a text has, or the number of its fault.
pub fn characters(s: &[u8]) -> Result<usize, u32> {
    count(unsafe { c::sk_characters(s.as_ptr(), s.len()) })
}

/// A count, or the number of a refusal.
fn count(n: usize) -> Result<usize, u32> {
    n.checked_sub(1 << 32).map_or(Ok(n), |number| Err(number as u32))
}

/// 0, or the number of the span's fault.
pub fn text(tab: &[u8], off: u32, len: u32) -> u32 {
    unsafe { c::sk_text(tab.as_ptr(), tab.len(), off, len) }
}

/// The length of the part that the span check gives back.
pub fn text_len(tab: &[u8], off: u32, len: u32) -> usize {
    unsafe { c::sk_text_len(tab.as_ptr(), tab.len(), off, len) }
}

/// What `encode` is given beside the parts and the word.
#[derive(Clone, Copy, Debug)]
pub struct Given<'a> {
    pub unknown: u32,
    pub max_chars: u32,
    pub prefix: &'a [u8],
}

/// How many ids, or the number of the refusal.
pub fn encode(p: &Parts, g: Given, word: &[u8], ids: &mut [u32]) -> Result<usize, u32> {
    let (u, m, pre) = (g.unknown, g.max_chars, g.prefix);
    let (w, out) = ((word.as_ptr(), word.len()), (ids.as_mut_ptr(), ids.len()));
    let n = call!(sk_encode(p.edge_at, p.edge_n, p.id, p.byte, p.to; u, m, pre.as_ptr(), pre.len(), w.0, w.1, out.0, out.1));
    count(n)
}

/// The columns that `segment` is lent.
#[derive(Clone, Debug, PartialEq)]
pub struct Scratch {
    pub start: Vec<u32>,
    pub slot_id: Vec<u32>,
    pub slot_score: Vec<f64>,
    pub path: Vec<u32>,
    pub ids: Vec<u32>,
}

/// How many ids, or the number of the refusal.
pub fn segment(p: &Parts, unknown: u32, text: &[u8], b: &mut Scratch) -> Result<usize, u32> {
    let n = call!(sk_segment(p.edge_at, p.edge_n, p.id, p.score, p.byte, p.to;
        unknown, p.unknown_score, text.as_ptr(), text.len(),
        b.start.as_mut_ptr(), b.start.len(), b.slot_id.as_mut_ptr(), b.slot_id.len(),
        b.slot_score.as_mut_ptr(), b.slot_score.len(), b.path.as_mut_ptr(), b.path.len(), b.ids.as_mut_ptr(), b.ids.len()));
    count(n)
}

/// The columns that a build is lent; WordPiece leaves the scores alone.
#[derive(Clone, Debug)]
pub struct Lent {
    pub edge_at: Vec<u32>,
    pub edge_n: Vec<u16>,
    pub id: Vec<u32>,
    pub byte: Vec<u8>,
    pub to: Vec<u32>,
    pub work: Vec<u32>,
    pub score: Vec<f64>,
}

impl Lent {
    /// Columns of these lengths, in the order of the fields, full of a pattern.
    pub fn pattern(l: [usize; 7]) -> Self {
        let words = |n: usize| (0..n as u32).map(|i| 0xA5A5_0000 ^ i).collect::<Vec<u32>>();
        Lent {
            edge_at: words(l[0]),
            edge_n: (0..l[1]).map(|i| 0xA500 ^ i as u16).collect(),
            id: words(l[2]),
            byte: (0..l[3]).map(|i| 0xA5 ^ i as u8).collect(),
            to: words(l[4]),
            work: words(l[5]),
            score: (0..l[6]).map(|i| -1.5 - i as f64).collect(),
        }
    }

    /// Every place zero; the scores where they are lent.
    pub fn zero(&self, scores: bool) -> Self {
        Lent {
            edge_at: vec![0; self.edge_at.len()],
            edge_n: vec![0; self.edge_n.len()],
            id: vec![0; self.id.len()],
            byte: vec![0; self.byte.len()],
            to: vec![0; self.to.len()],
            work: vec![0; self.work.len()],
            score: if scores { vec![0.0; self.score.len()] } else { self.score.clone() },
        }
    }

    /// The same bits in every place.
    pub fn same(&self, other: &Self) -> bool {
        let bits = |l: &Self| l.score.iter().map(|x| x.to_bits()).collect::<Vec<u64>>();
        self.edge_at == other.edge_at
            && self.edge_n == other.edge_n
            && self.id == other.id
            && self.byte == other.byte
            && self.to == other.to
            && self.work == other.work
            && bits(self) == bits(other)
    }
}

/// How many nodes and the unknown score's bits (0.0 for WordPiece); or the number of the refusal and its row.
pub fn build(kind: Kind, rows: &Rows, b: &mut Lent) -> Result<(u32, u64), Refusal> {
    let r = rows;
    let mut unknown_score = [0.0f64; 2];
    let (at, n, id, byte, to, work) = (&mut b.edge_at, &mut b.edge_n, &mut b.id, &mut b.byte, &mut b.to, &mut b.work);
    let answer = match kind {
        Kind::Unigram => call!(sk_build(r.tab, r.off, r.len, r.scored, r.score, r.id;
            at.as_mut_ptr(), at.len(), n.as_mut_ptr(), n.len(), id.as_mut_ptr(), id.len(),
            b.score.as_mut_ptr(), b.score.len(), byte.as_mut_ptr(), byte.len(), to.as_mut_ptr(), to.len(),
            work.as_mut_ptr(), work.len(), unknown_score.as_mut_ptr(), 2)),
        Kind::WordPiece => call!(sk_from_rows(r.tab, r.off, r.len, r.scored, r.score, r.id;
            at.as_mut_ptr(), at.len(), n.as_mut_ptr(), n.len(), id.as_mut_ptr(), id.len(),
            byte.as_mut_ptr(), byte.len(), to.as_mut_ptr(), to.len(), work.as_mut_ptr(), work.len())),
    };
    assert!(unknown_score[1].to_bits() == 0, "one place is written");
    match (answer >> 32, answer as u32) {
        (0, nodes) => Ok((nodes, unknown_score[0].to_bits())),
        (number, u32::MAX) => Err((number as u32, None)),
        (number, row) => Err((number as u32, Some(row))),
    }
}

/// What the program prints. A buffer that is too short is left alone, and so are the places past the text.
pub fn print(pack: &[u8], input: &[u8]) -> Vec<u8> {
    let mut out = vec![0xA5u8; 360_459];
    let short = call!(sk_print(pack, input; out.as_mut_ptr(), 360_458));
    assert!(short == 1 << 32 && out.iter().all(|&b| b == 0xA5), "a short buffer is left alone");
    let n = call!(sk_print(pack, input; out.as_mut_ptr(), out.len()));
    assert!(out[n..].iter().all(|&b| b == 0xA5), "the places past the text are left alone");
    out.truncate(n);
    out
}

/// The same without the trial of a short buffer.
pub fn printed(pack: &[u8], input: &[u8]) -> Vec<u8> {
    let mut out = vec![0u8; 360_459];
    let n = call!(sk_print(pack, input; out.as_mut_ptr(), out.len()));
    out.truncate(n);
    out
}

/// The cores behind the calls, for parts that were tested once.
pub struct Tested<'a>(&'a Parts);

impl<'a> Tested<'a> {
    pub fn new(p: &'a Parts) -> Self {
        assert!(sound(p));
        Tested(p)
    }

    /// Parts with sound scores too.
    pub fn scored(p: &'a Parts) -> Self {
        assert!(sound_scored(p));
        Tested(p)
    }

    /// The text is not empty, and text, so that what is left to test is the room.
    pub fn segment(&self, unknown: u32, text: &str, b: &mut Scratch) -> usize {
        let n = text.len();
        assert!((1..=65_536).contains(&n) && b.path.len() >= n && b.ids.len() >= n);
        assert!(b.start.len() > n && b.slot_id.len() > n && b.slot_score.len() > n);
        let p = self.0;
        call!(sk_segment_checked(p.edge_at, p.edge_n, p.id, p.score, p.byte, p.to;
            unknown, p.unknown_score, text.as_ptr(), n,
            b.start.as_mut_ptr(), b.start.len(), b.slot_id.as_mut_ptr(), b.slot_id.len(),
            b.slot_score.as_mut_ptr(), b.slot_score.len(), b.path.as_mut_ptr(), b.path.len(), b.ids.as_mut_ptr(), b.ids.len()))
    }

    /// The word is text, so that what is left to test is the room.
    pub fn encode(&self, g: Given, word: &str, ids: &mut [u32]) -> usize {
        assert!(word.len() <= ids.len() && word.len() <= 65_536 && g.prefix.len() <= 64);
        let p = self.0;
        let (u, m, pre) = (g.unknown, g.max_chars, g.prefix);
        let (w, out) = ((word.as_ptr(), word.len()), (ids.as_mut_ptr(), ids.len()));
        call!(sk_encode_checked(p.edge_at, p.edge_n, p.id, p.byte, p.to; u, m, pre.as_ptr(), pre.len(), w.0, w.1, out.0, out.1))
    }
}
