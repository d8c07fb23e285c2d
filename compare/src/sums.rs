//! Sums and comparisons of Rust's own f64, which the program `sums` replays: crates/sums/stdin.
//! A line has the bits of a, of b and of a + b in 16 hexadecimal digits each, and 1 where a < b, else 0. a and b are
//! finite.

use std::fmt::Write;
use std::fs;
use std::path::Path;

struct Source(u64);

impl Source {
    // xorshift64*, from a fixed seed: every run writes the same lines
    fn next(&mut self) -> u64 {
        self.0 ^= self.0 >> 12;
        self.0 ^= self.0 << 25;
        self.0 ^= self.0 >> 27;
        self.0.wrapping_mul(0x2545_f491_4f6c_dd1d)
    }

    fn below(&mut self, n: u64) -> u64 {
        self.next() % n
    }

    // a double with that exponent field
    fn with_exponent(&mut self, field: u64) -> f64 {
        let sign = self.next() & (1 << 63);
        let digits = self.next() & ((1 << 52) - 1);
        f64::from_bits(sign | (field << 52) | digits)
    }

    // any finite double
    fn finite(&mut self) -> f64 {
        let field = self.below(2047);
        self.with_exponent(field)
    }
}

// half the distance of a's neighbours, and up to two steps beside it: ties, and what is just off a tie
fn near_tie(s: &mut Source) -> (f64, f64) {
    let field = 60 + s.below(1900);
    let a = s.with_exponent(field);
    let half = f64::from_bits((field - 53) << 52);
    let b = f64::from_bits(half.to_bits() + s.below(5) - 2);
    (a, if s.below(2) == 0 { b } else { -b })
}

// a number and nearly its negative
fn cancelling(s: &mut Source) -> (f64, f64) {
    let a = s.finite();
    let magnitude = a.abs().to_bits().saturating_add(s.below(9)).saturating_sub(4);
    let b = f64::from_bits(magnitude.min(f64::MAX.to_bits()));
    (a, if a < 0.0 { b } else { -b })
}

fn pair(kind: u64, s: &mut Source) -> (f64, f64) {
    match kind {
        0 => (s.finite(), s.finite()),
        // exponents so near that both have a part in the sum
        1 => {
            let field = 55 + s.below(1991);
            let other = field - s.below(55);
            (s.with_exponent(field), s.with_exponent(other))
        }
        2 => near_tie(s),
        3 => cancelling(s),
        // subnormals and the normals just above them
        4 => {
            let (x, y) = (s.below(3), s.below(3));
            (s.with_exponent(x), s.with_exponent(y))
        }
        // sums around the largest double
        5 => {
            let (x, y) = (2046 - s.below(2), 2046 - s.below(60));
            (s.with_exponent(x), s.with_exponent(y))
        }
        // such as a vocabulary's scores
        _ => {
            let (x, y) = (s.below(200_000), s.below(200_000));
            (x as f64 / -10_000.0, y as f64 / -10_000.0)
        }
    }
}

/// The lines, the same in every run.
pub fn lines() -> String {
    let edges = [
        0.0,
        1.0,
        10.0,
        f64::from_bits(1),
        f64::from_bits((1 << 52) - 1),
        f64::MIN_POSITIVE,
        f64::EPSILON,
        f64::EPSILON / 2.0,
        9_007_199_254_740_992.0,
        9_007_199_254_740_991.0,
        f64::MAX,
        // half a gap of the largest, and the double below it
        f64::from_bits(0x7c90_0000_0000_0000),
        f64::from_bits(0x7c8f_ffff_ffff_ffff),
    ];
    let mut pairs = Vec::new();
    for x in edges {
        for y in edges {
            pairs.extend([(x, y), (x, -y), (-x, y), (-x, -y)]);
        }
    }
    let mut s = Source(0x9e37_79b9_7f4a_7c15);
    while pairs.len() < 4096 {
        let kind = s.below(7);
        pairs.push(pair(kind, &mut s));
    }
    let mut out = String::new();
    for (a, b) in pairs {
        assert!(a.is_finite() && b.is_finite());
        let sum = a + b;
        writeln!(out, "{:016x} {:016x} {:016x} {}", a.to_bits(), b.to_bits(), sum.to_bits(), u8::from(a < b)).unwrap();
    }
    out
}

/// The stored lines are these.
pub fn stored(root: &Path) -> bool {
    let same = fs::read_to_string(root.join("crates/sums/stdin")).is_ok_and(|stored| stored == lines());
    println!("the stored sums are {}the Rust's", if same { "" } else { "NOT " });
    same
}
