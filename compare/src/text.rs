//! Text, the compiled port against Rust's own: `std::str::from_utf8`, `chars().count()`, `is_char_boundary`, and tokie's
//! span check.

use std::str;
use std::sync::Mutex;

use crate::random::Random;
use crate::{port, small, tokie};

/// Counts cases and differences; the first difference is shown.
#[derive(Default)]
pub struct Tally {
    pub cases: u64,
    pub different: u64,
}

/// What was said so far, for the table at the end of `compare all`.
pub static SAID: Mutex<Vec<(String, u64, u64)>> = Mutex::new(Vec::new());

impl Tally {
    pub fn check(&mut self, same: bool, about: impl FnOnce() -> String) {
        self.cases += 1;
        if !same {
            self.different += 1;
            if self.different <= 3 {
                println!("  DIFFERENT: {}", about());
            }
        }
    }

    pub fn say(&self, what: &str) -> bool {
        println!("{what}: {} cases, {} differences", self.cases, self.different);
        SAID.lock().unwrap().push((what.to_string(), self.cases, self.different));
        self.different == 0
    }
}

/// How far the bytes are text, by Rust's library.
fn valid_up_to(s: &[u8]) -> usize {
    str::from_utf8(s).map_or_else(|e| e.valid_up_to(), |t| t.len())
}

/// One byte list: how far it is text; and, where it is, its characters and boundaries.
fn bytes_alike(t: &mut Tally, s: &[u8]) {
    t.check(port::valid_up_to(s) == valid_up_to(s), || format!("valid_up_to {s:02x?}"));
    let text = str::from_utf8(s);
    let count = match text {
        _ if 65_536 < s.len() => Err(1),
        Ok(text) => Ok(text.chars().count()),
        Err(_) => Err(4),
    };
    t.check(port::characters(s) == count, || format!("characters {s:02x?}"));
    let Ok(text) = text else { return };
    for i in 0..=s.len() + 1 {
        t.check(port::is_boundary(s, i) == text.is_char_boundary(i), || format!("is_boundary {s:02x?} {i}"));
    }
}

/// Every lead byte with every second byte, alone and before bytes that do and do not continue it.
fn leads() -> bool {
    let mut t = Tally::default();
    for a in 0..=255u8 {
        bytes_alike(&mut t, &[a]);
        for b in 0..=255u8 {
            for rest in [&[][..], &[0x80], &[0xBF], &[0x80, 0x80], &[0xBF, 0xBF, 0x41], &[0x7F], &[0x80, 0xC0]] {
                bytes_alike(&mut t, &[&[a, b], rest].concat());
            }
        }
    }
    t.say("every lead byte with every second byte")
}

/// Every lead byte with every second byte amid long text of each kind, where characters are passed by blocks, at each place
/// of a block.
fn amid(seed: u64, places: usize) -> bool {
    let mut t = Tally::default();
    let mut r = Random::new(seed);
    for (_, kind) in &KINDS[..3] {
        for place in 0..places {
            let (before, after) = (made_of(&mut r, kind, 64 + place), made_of(&mut r, kind, 40));
            for a in 0x7F..=255u8 {
                for b in (0..=255u8).step_by(if places < 32 { 5 } else { 1 }) {
                    for rest in [&[][..], &[0x80], &[0xBF, 0x80]] {
                        let s = [&before[..], &[a, b], rest, &after].concat();
                        t.check(port::valid_up_to(&s) == valid_up_to(&s), || format!("valid_up_to {s:02x?}"));
                    }
                }
            }
        }
    }
    t.say("every lead byte with every second byte amid long text")
}

/// Every scalar value, each of its truncations, and each of its bytes changed; every surrogate.
fn scalars() -> bool {
    let mut t = Tally::default();
    let mut buffer = [0u8; 4];
    let mut count = 0;
    for c in '\0'..=char::MAX {
        count += 1;
        let s = c.encode_utf8(&mut buffer).as_bytes();
        t.check(port::valid_up_to(s) == s.len() && port::characters(s) == Ok(1), || format!("{c:?}"));
        t.check(port::char_len(s[0]) == s.len(), || format!("char_len {c:?}"));
        for n in 1..s.len() {
            t.check(port::valid_up_to(&s[..n]) == 0, || format!("{c:?} cut at {n}"));
        }
    }
    t.check(count == 1_112_064, || format!("{count} scalar values"));
    for u in 0xD800..=0xDFFFu32 {
        let s = [0xE0 | (u >> 12) as u8, 0x80 | (u >> 6 & 0x3F) as u8, 0x80 | (u & 0x3F) as u8];
        t.check(port::valid_up_to(&s) == 0 && valid_up_to(&s) == 0, || format!("surrogate {u:04x}"));
    }
    t.say("all 1,112,064 scalar values with every truncation, and all surrogates")
}

/// A text of some length made of characters of some kind.
pub fn made_of(r: &mut Random, characters: &[&str], bytes: usize) -> Vec<u8> {
    let mut s = Vec::with_capacity(bytes + 4);
    while s.len() < bytes {
        s.extend_from_slice(r.pick(characters).as_bytes());
    }
    s
}

pub const KINDS: [(&str, &[&str]); 5] = [
    ("ASCII", &["a", "e", " ", "t", "N", ".", "7"]),
    ("Latin", &["a", "e", " ", "é", "t", "ß", "n", "s"]),
    ("CJK", &["日", "本", "語", "の", "展"]),
    ("emoji", &["😀", "🎨", "👍", "🖼"]),
    ("mixed", &["aaaaaaaaaaaaaaaaaaaaaaaa", "é", "日", "😀", " the museum was open "]),
];

/// Long texts, good ones and ones with a byte changed, cut or put in, and nearly-text bytes.
fn random(seed: u64, count: usize) -> bool {
    let mut t = Tally::default();
    let mut r = Random::new(seed);
    for _ in 0..count {
        bytes_alike(&mut t, &small::bytes(&mut r));
        let (kind, length) = (r.pick(&KINDS).1, r.below(200));
        let mut s = made_of(&mut r, kind, length);
        bytes_alike(&mut t, &s);
        for _ in 0..3 {
            let at = r.below(s.len() + 1);
            match r.below(3) {
                0 if at < s.len() => s[at] = r.next() as u8,
                1 => s.truncate(at),
                _ => s.insert(at, *r.pick(&[0x80, 0xBF, 0xC2, 0xE0, 0xED, 0xF0, 0xF4, 0xFF])),
            }
            bytes_alike(&mut t, &s);
        }
    }
    t.say("random and damaged texts")
}

/// The span check: small tables with spans around their ends and at the largest numbers; the table at its limit and one
/// above.
fn spans(seed: u64, count: usize) -> bool {
    let mut t = Tally::default();
    let mut r = Random::new(seed);
    let mut alike = |table: &[u8], off: u32, len: u32| {
        let (number, given) = match tokie::span(table, off, len) {
            _ if table.len() > 16_777_216 => (1, 0),
            Ok(part) => (0, part.len()),
            Err(number) => (number, 0),
        };
        let same = port::text(table, off, len) == number && port::text_len(table, off, len) == given;
        t.check(same, || format!("span {off} {len} of {} bytes, {number}", table.len()));
    };
    for _ in 0..count {
        let table = small::bytes(&mut r);
        let n = table.len() as u32;
        for off in [0, 1, n / 2, n, n + 1, u32::MAX] {
            for len in [0, 1, n.saturating_sub(off), n, n + 1, u32::MAX, u32::MAX - n] {
                alike(&table, off, len);
            }
        }
    }
    let large = vec![b'a'; 16_777_217];
    for (off, len) in [(0, 16_777_216), (0, 16_777_217), (16_777_216, 0), (16_777_216, 1), (16_777_215, 1), (0, 0)] {
        alike(&large[..16_777_216], off, len);
        alike(&large, off, len);
    }
    t.say("spans")
}

pub fn run(seed: u64, quick: bool) -> bool {
    let (count, places) = if quick { (300, 8) } else { (20_000, 40) };
    // every part is run, also after one that differs
    [leads(), amid(seed, places), scalars(), random(seed, count), spans(seed, count)].iter().all(|&same| same)
}
