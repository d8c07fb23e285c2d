//! Tries, the compiled port against an independent test of soundness, written from the paper's list, and against the Rust's
//! look-up. Every single fault is tried in every position of small tries.

use crate::port;
use crate::random::Random;
use crate::small;
use crate::text::Tally;
use crate::tokie::{Lattice, Parts};

/// The paper's list, sentence by sentence: "1 to 4,294,967,295 nodes; columns of equal length; each node's edges lie inside the
/// edge part, at most 256, bytes strictly rising; each target is a node".
fn sound(p: &Parts) -> bool {
    let nodes = p.edge_at.len();
    let level = [p.edge_n.len(), p.id.len()].iter().all(|&n| n == nodes) && p.to.len() == p.byte.len();
    let edges_of = |k: usize| p.byte.get(p.edge_at[k] as usize..).and_then(|from| from.get(..p.edge_n[k] as usize));
    let node = |k| edges_of(k).is_some_and(|bytes| bytes.len() <= 256 && bytes.windows(2).all(|w| w[0] < w[1]));
    (1..=u32::MAX as usize).contains(&nodes)
        && level
        && (0..nodes).all(node)
        && p.to.iter().all(|&to| (to as usize) < nodes)
}

/// "for Unigram, node scores and the unknown score are finite"
fn sound_scored(p: &Parts) -> bool {
    let finite = p.score.iter().chain([&p.unknown_score]).all(|x| x.is_finite());
    sound(p) && p.score.len() == p.edge_at.len() && finite
}

/// One set of parts: both tests, and both look-ups of some strings.
fn parts_alike(t: &mut Tally, p: &Parts, strings: &[&[u8]]) {
    let (plain, scored) = (sound(p), sound_scored(p));
    t.check(port::sound(p) == plain, || format!("sound is {plain}: {p:?}"));
    t.check(port::sound_scored(p) == scored, || format!("sound_scored is {scored}: {p:?}"));
    for s in strings {
        let refused = |sound: bool| match () {
            _ if s.len() > 65_536 => Some(1),
            _ if !sound => Some(8),
            _ => std::str::from_utf8(s).is_err().then_some(4),
        };
        let found = || if plain { walked(p, s) } else { None };
        let (a, b) =
            (refused(scored).map_or_else(|| Ok(found()), Err), refused(plain).map_or_else(|| Ok(found()), Err));
        t.check(port::exact(p, s) == a, || format!("exact {s:02x?} is {a:?}: {p:?}"));
        t.check(port::exact_unscored(p, s) == b, || format!("exact_unscored {s:02x?} is {b:?}: {p:?}"));
        if a == Ok(found()) && scored {
            let lattice = Lattice::from_parts(p, 0);
            t.check(lattice.exact(s) == found(), || format!("the Rust's exact {s:02x?}: {p:?}"));
        }
    }
}

/// The id of a string, edge by edge.
fn walked(p: &Parts, s: &[u8]) -> Option<u32> {
    let step = |k: usize, b: u8| {
        let at = p.edge_at[k] as usize;
        (at..at + p.edge_n[k] as usize).find(|&e| p.byte[e] == b).map(|e| p.to[e] as usize)
    };
    let node = s.iter().try_fold(0, |k, &b| step(k, b))?;
    Some(p.id[node]).filter(|&id| id != u32::MAX)
}

/// The parts with one thing changed, for each thing that there is to change.
fn changed(r: &mut Random, p: &Parts) -> Vec<Parts> {
    let mut out = Vec::new();
    let mut with = |change: &dyn Fn(&mut Parts)| {
        let mut q = p.clone();
        change(&mut q);
        out.push(q);
    };
    let (nodes, edges) = (p.edge_at.len() as u32, p.byte.len() as u32);
    for k in 0..p.edge_at.len() {
        for at in [
            0,
            edges,
            edges + 1,
            edges.wrapping_sub(1),
            u32::MAX,
            p.edge_at[k].wrapping_add(1),
            p.edge_at[k].wrapping_sub(1),
        ] {
            with(&|q| q.edge_at[k] = at);
        }
        for n in [0, 1, 255, 256, 257, u16::MAX, p.edge_n[k] + 1, p.edge_n[k].wrapping_sub(1)] {
            with(&|q| q.edge_n[k] = n);
        }
        for x in [f64::NAN, f64::INFINITY, f64::NEG_INFINITY, f64::MAX, -0.0] {
            with(&|q| q.score[k] = x);
        }
        with(&|q| q.id[k] = u32::MAX);
        with(&|q| q.id[k] = 7);
    }
    for e in 0..p.byte.len() {
        for b in [0, 255, p.byte[e].wrapping_add(1), p.byte[e].wrapping_sub(1), p.byte[e.saturating_sub(1)]] {
            with(&|q| q.byte[e] = b);
        }
        for to in [0, nodes - 1, nodes, nodes + 1, u32::MAX, r.below(nodes as usize) as u32] {
            with(&|q| q.to[e] = to);
        }
    }
    for x in [f64::NAN, f64::INFINITY, f64::NEG_INFINITY, f64::MIN] {
        with(&|q| q.unknown_score = x);
    }
    // one place more or less in one column, and none at all
    with(&|q| q.edge_at.push(0));
    with(&|q| q.edge_n.push(0));
    with(&|q| q.id.push(0));
    with(&|q| q.score.push(0.0));
    with(&|q| q.byte.push(0));
    with(&|q| q.to.push(0));
    with(&|q| _ = q.edge_at.pop());
    with(&|q| _ = q.edge_n.pop());
    with(&|q| _ = q.id.pop());
    with(&|q| _ = q.score.pop());
    with(&|q| _ = q.byte.pop());
    with(&|q| _ = q.to.pop());
    with(&|q| (q.edge_at, q.edge_n, q.id, q.score) = (vec![], vec![], vec![], vec![]));
    with(&|q| (q.byte, q.to) = (vec![], vec![]));
    out
}

/// A root with n edges to itself, by rising bytes as far as there are bytes: 256 edges are sound, 257 are not.
fn wide(n: usize) -> Parts {
    Parts {
        edge_at: vec![0],
        edge_n: vec![n as u16],
        id: vec![3],
        score: vec![0.0],
        byte: (0..n).map(|b| b.min(255) as u8).collect(),
        to: vec![0; n],
        unknown_score: -10.0,
    }
}

pub fn run(seed: u64, quick: bool) -> bool {
    let mut t = Tally::default();
    let mut r = Random::new(seed);
    for _ in 0..if quick { 40 } else { 2_000 } {
        let v = small::unigram(&mut r);
        let p = Lattice::build(&v).parts();
        let tokens: Vec<&str> = v.rows.iter().map(|row| row.0.as_str()).collect();
        let (text, bytes) = (small::text(&mut r, &tokens), small::bytes(&mut r));
        let strings = [text.as_bytes(), tokens.first().map_or(&b"ab"[..], |t| t.as_bytes()), &bytes, &[]];
        parts_alike(&mut t, &p, &strings);
        for q in changed(&mut r, &p) {
            parts_alike(&mut t, &q, &strings[..2]);
        }
    }
    for n in [0, 1, 255, 256, 257, 300] {
        parts_alike(&mut t, &wide(n), &[b"", b"a", &[0xFF], "é".as_bytes()]);
    }
    let long = vec![b'a'; 65_537];
    parts_alike(&mut t, &wide(256), &[&long, &long[..65_536]]);
    t.say("tries: soundness and look-up, sound parts and each single fault")
}
