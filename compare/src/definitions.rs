//! The definitions tried against the Rust: small random cases with the Rust's answers, written as a crate of theorems
//! that the checker proves by computing, in a temporary folder beside what is proved already. A wrong definition shows
//! as a theorem that is refused, named by its case.

use std::fmt::Write as _;
use std::path::{Path, PathBuf};
use std::process::Command;
use std::{env, fs};

use crate::random::Random;
use crate::small;
use crate::tokie::{self, Lattice, Parts, VocabTrie};

const HEADER: &str = "-- Cases with the Rust's answers; each theorem is proved by computing.
use mathlib.Core.Path.{◌≡◌, refl}
use mathlib.Core.Bool.{true}
use mathlib.Core.List.{List, [], ◌∷◌}
use Rattle.std.specs.Prelude.{None}
use Rattle.doubles.specs.Double.{of_pattern}
use Rattle.rows.specs.Rows.{score, id}
use Rattle.worked.specs.Example.{all_of}
use Rattle.worked.proofs.Opened.{opened}
use Rattle.trial.proofs.Trial.{UnigramTrial, WordpieceTrial, SpanTrial, slot, identical, all_identical, same_trie, same_slot, same_slots, said_agrees, unigram_agrees, wordpiece_agrees, span_agrees}
";

const OPENED: &str =
    "opened identical all_identical same_trie same_slot same_slots said_agrees unigram_agrees wordpiece_agrees span_agrees";

fn list<T>(xs: impl IntoIterator<Item = T>, show: impl Fn(T) -> String) -> String {
    let mut out = String::from("(");
    for x in xs {
        write!(out, "{} ∷ ", show(x)).unwrap();
    }
    out + "[])"
}

fn numbers<T: Copy + Into<u64>>(xs: &[T]) -> String {
    list(xs, |&x| x.into().to_string())
}

fn trie(p: &Parts) -> String {
    let columns = [numbers(&p.edge_at), numbers(&p.edge_n), numbers(&p.id), numbers(&p.byte), numbers(&p.to)];
    let [at, n, id, byte, to] = columns;
    format!("record {{ edge_at = {at}; edge_n = {n}; id = {id}; byte = {byte}; to = {to} }}")
}

fn entry(token: &str, worth: String) -> String {
    format!("record {{ token = {}; worth = {worth} }}", numbers(token.as_bytes()))
}

/// One theorem: `value` agrees by the test `test`.
fn theorem(out: &mut String, name: &str, kind: &str, test: &str, value: &str) {
    writeln!(out, "\n{name} : {kind}\n{name} = {value}\n").unwrap();
    writeln!(out, "{name}-agrees : {test} {name} ≡ true\nunfolding {OPENED} {name}\n{name}-agrees = refl").unwrap();
}

/// Cases written so far: how many texts, words and spans, and what each theorem is about.
#[derive(Default)]
struct Written {
    text: String,
    cases: usize,
    known_difference: usize,
    about: Vec<(String, String)>,
}

fn write_unigram(w: &mut Written, r: &mut Random, k: usize) {
    let v = small::unigram(r);
    let lattice = Lattice::build(&v);
    let parts = lattice.parts();
    let tokens: Vec<&str> = v.rows.iter().map(|row| row.0.as_str()).collect();
    let texts: Vec<String> = (0..4).map(|_| small::text(r, &tokens)).collect();
    let said = list(&texts, |s| {
        let a = lattice.segment(s);
        let slots = list(&a.slots, |slot| match slot {
            None => "None".to_string(),
            Some((start, id, score)) => format!("slot {start} {id} {}", score.to_bits()),
        });
        let (text, path, ids) = (numbers(s.as_bytes()), numbers(&a.path), numbers(&a.ids));
        format!("record {{ text = {text}; slots = {slots}; path = {path}; ids = {ids} }}")
    });
    let entries = list(&v.rows, |(t, x)| entry(t, format!("score (of_pattern {})", x.to_bits())));
    let scores = list(&parts.score, |x| x.to_bits().to_string());
    let value = format!(
        "record {{ entries = {entries}; unknown = {}; trie = {}; score = {scores}; unknown_score = {}; said = {said} }}",
        v.unknown,
        trie(&parts),
        parts.unknown_score.to_bits()
    );
    let name = format!("unigram{k}");
    theorem(&mut w.text, &name, "UnigramTrial", "unigram_agrees", &value);
    w.about.push((name, format!("{v:?} {texts:?}")));
    w.cases += texts.len();
}

fn write_wordpiece(w: &mut Written, r: &mut Random, k: usize) {
    let v = small::wordpiece(r);
    let built = VocabTrie::build(&v);
    let tokens: Vec<&str> = v.rows.iter().map(|row| row.0.as_str()).collect();
    let mut words = Vec::new();
    for _ in 0..4 {
        let (word, max_chars) = (small::text(r, &tokens), if r.one_in(3) { r.below(8) as u32 } else { 100 });
        let ids = built.encode(&word, max_chars);
        if word.is_empty() && !ids.is_empty() {
            // The paper's one known difference: an absent prefix and an empty word
            w.known_difference += 1;
        } else {
            words.push((word, max_chars, ids));
        }
    }
    let said = list(&words, |(word, max_chars, ids)| {
        format!("record {{ word = {}; max_chars = {max_chars}; ids = {} }}", numbers(word.as_bytes()), numbers(ids))
    });
    let entries = list(&v.rows, |(t, i)| entry(t, format!("id {i}")));
    let (prefix, parts) = (numbers(v.prefix.as_bytes()), trie(&built.parts()));
    let value = format!(
        "record {{ entries = {entries}; unknown = {}; prefix = {prefix}; trie = {parts}; words = {said} }}",
        v.unknown
    );
    let name = format!("wordpiece{k}");
    theorem(&mut w.text, &name, "WordpieceTrial", "wordpiece_agrees", &value);
    w.about.push((name, format!("{v:?} {words:?}")));
    w.cases += words.len();
}

fn write_spans(w: &mut Written, r: &mut Random, k: usize) {
    let mut about = String::new();
    let mut cases = Vec::new();
    for _ in 0..10 {
        let table = small::bytes(r);
        let off = if r.one_in(9) { u32::MAX - r.below(2) as u32 } else { r.below(table.len() + 2) as u32 };
        let len = if r.one_in(9) { u32::MAX } else { r.below(table.len() + 2) as u32 };
        let (off, len) = if r.one_in(2) { (0, table.len() as u32) } else { (off, len) };
        let fault = tokie::span(&table, off, len).err().unwrap_or(0);
        write!(about, "{table:02x?} {off} {len}: {fault}; ").unwrap();
        cases.push(format!("record {{ table = {}; off = {off}; len = {len}; fault = {fault} }}", numbers(&table)));
    }
    let name = format!("spans{k}");
    theorem(&mut w.text, &name, "List SpanTrial", "all_of span_agrees", &list(&cases, |c| c.clone()));
    w.cases += cases.len();
    w.about.push((name, about));
}

/// Writes the cases of a seed, some `count` of them: a third of each kind.
fn write_cases(seed: u64, count: usize) -> Written {
    let mut w = Written { text: HEADER.to_string(), ..Written::default() };
    let mut r = Random::new(seed);
    let mut k = 0;
    while w.cases < count {
        write_unigram(&mut w, &mut r, k);
        write_wordpiece(&mut w, &mut r, k);
        if k % 3 == 0 {
            write_spans(&mut w, &mut r, k);
        }
        k += 1;
    }
    w
}

/// A folder with copies of the repository's crates, of which the checker knows what is proved, and the crate `trial`.
fn lay_out(root: &Path, folder: &Path, cases: &str) {
    let crates = fs::read_to_string(root.join("crates.txt")).expect("the repository has crates.txt");
    let lines = crates.lines().filter_map(|l| l.split('#').next()?.split_once(':'));
    let names: Vec<&str> = lines.filter_map(|l| l.0.split_whitespace().next()).collect();
    for name in &names {
        let to = folder.join("crates").join(name);
        fs::create_dir_all(&to).unwrap();
        for part in ["src", "specs", "proofs"] {
            let from = root.join("crates").join(name).join(part);
            if from.is_dir() {
                let copied = Command::new("cp").arg("-r").arg(from).arg(&to).status();
                assert!(copied.is_ok_and(|s| s.success()), "{name} is copied");
            }
        }
    }
    fs::create_dir_all(folder.join("crates/trial/src")).unwrap();
    fs::create_dir_all(folder.join("crates/trial/proofs")).unwrap();
    let below = "refusal text doubles trie rows build cutting unigram wordpiece coder pack worked";
    fs::write(folder.join("crates.txt"), format!("{crates}\ntrial: {below}\n")).unwrap();
    let source = "// The definitions tried against the Rust.\n#![tactic(auto)]\n";
    fs::write(folder.join("crates/trial/src/lib.rt"), source).unwrap();
    fs::write(folder.join("crates/trial/proofs/Lib.antt"), "pub mod Trial\npub mod Cases\n").unwrap();
    fs::write(folder.join("crates/trial/proofs/Trial.antt"), include_str!("trial.txt")).unwrap();
    fs::write(folder.join("crates/trial/proofs/Cases.antt"), cases).unwrap();
}

/// Tries the cases of a seed. True where the checker proves every theorem.
pub fn try_seed(root: &Path, seed: u64, count: usize) -> bool {
    let w = write_cases(seed, count);
    let folder: PathBuf = env::temp_dir().join(format!("trial-{}-{seed}", std::process::id()));
    let _ = fs::remove_dir_all(&folder);
    lay_out(root, &folder, &w.text);
    let began = std::time::Instant::now();
    let run = Command::new("rt").arg("check").current_dir(folder.join("crates/trial")).output().expect("rt is on the path");
    let said = String::from_utf8_lossy(&run.stdout).into_owned() + &String::from_utf8_lossy(&run.stderr);
    let agrees = run.status.success() && said.lines().any(|l| l.starts_with("logic=proved"));
    let verdict = if agrees { "0 differences" } else { "DIFFERENT" };
    let (cases, theorems, apart, seconds) = (w.cases, w.about.len(), w.known_difference, began.elapsed().as_secs());
    println!(
        "definitions, seed {seed}: {cases} cases in {theorems} theorems, {verdict} ({apart} of the known difference left out; {seconds} s)"
    );
    if !agrees {
        let mut named = 0;
        for (name, about) in &w.about {
            if said.contains(&format!("`{name}-agrees`")) {
                println!("  {name}: {about}");
                named += 1;
            }
        }
        if named == 0 {
            println!("{said}");
        }
        println!("  left in {}", folder.display());
    } else {
        fs::remove_dir_all(&folder).unwrap();
    }
    agrees
}
