//! Compares the port and its definitions with the Rust of tokie, run unchanged.
//!
//!   compare examples                           the paper's examples on the Rust
//!   compare sums [--print]                     the stored sums are the Rust's; or prints them
//!   compare slices [--print]                   the stored row lists are the Rust's and the paper's; or prints them
//!   compare definitions [SEED..] [--cases N]   small random cases, the definitions computed by the checker
//!
//! Built with the feature `port`, which links the compiled port:
//!
//!   compare text [SEED] [--quick]              RFC 3629 against Rust's library, spans against tokie's
//!   compare tries [SEED] [--quick]             soundness against an independent test, look-ups against tokie's
//!   compare wordpieces [SEED] [--quick]        `encode` against tokie's
//!   compare segments [SEED] [--quick]          `segment` against tokie's, records against all cuttings
//!   compare builds [SEED] [--quick]            both builds against tokie's, column by column
//!   compare packs [SEED] [--quick]             packs and what the program prints; the program itself
//!   compare packs --print                      prints the cases that `replay` replays
//!   compare print PACK < COMMENTS              what the Rust and the paper give for a pack and comments
//!   compare all [SEED] [--quick]               all of these but `definitions`, and a table at the end
//!   compare bench                              times at several sizes, one line each, for tools/draw_times.py
//!   compare bench-text, bench-tries, bench-wordpieces, bench-segments, bench-builds   times
//!
//! Run from anywhere; the repository is the folder above this package.

#![cfg_attr(not(feature = "port"), allow(dead_code))]

#[cfg(feature = "port")]
mod bench;
#[cfg(feature = "port")]
mod builds;
mod definitions;
mod examples;
mod large;
#[cfg(feature = "port")]
mod packs;
#[cfg(feature = "port")]
mod port;
mod random;
mod rows;
#[cfg(feature = "port")]
mod segments;
mod slices;
mod small;
mod sums;
#[cfg(feature = "port")]
mod text;
mod tokie;
#[cfg(feature = "port")]
mod tries;
#[cfg(feature = "port")]
mod wordpieces;

use std::path::Path;
use std::process::ExitCode;

fn main() -> ExitCode {
    let root = Path::new(env!("CARGO_MANIFEST_DIR")).parent().expect("the package stands in the repository");
    let args: Vec<String> = std::env::args().skip(1).collect();
    #[cfg(feature = "port")]
    let (seed, quick) = (args.get(1).and_then(|w| w.parse().ok()).unwrap_or(1), args.iter().any(|w| w == "--quick"));
    let agrees = match args.first().map(String::as_str) {
        Some("examples") => examples::run(),
        Some("sums") if args.get(1).is_some_and(|w| w == "--print") => {
            print!("{}", sums::lines());
            true
        }
        Some("sums") => sums::stored(root),
        Some("slices") if args.get(1).is_some_and(|w| w == "--print") => {
            std::io::Write::write_all(&mut std::io::stdout(), &slices::stored_bytes()).is_ok()
        }
        Some("slices") => slices::stored(root),
        Some("definitions") => definitions_command(root, &args[1..]),
        #[cfg(feature = "port")]
        Some("text") => text::run(seed, quick),
        #[cfg(feature = "port")]
        Some("tries") => tries::run(seed, quick),
        #[cfg(feature = "port")]
        Some("wordpieces") => wordpieces::run(seed, quick),
        #[cfg(feature = "port")]
        Some("segments") => segments::run(seed, quick),
        #[cfg(feature = "port")]
        Some("all") => all(root, seed, quick),
        #[cfg(feature = "port")]
        Some("print") if args.len() == 2 => {
            let pack = std::fs::read(&args[1]).unwrap_or_default();
            let mut input = Vec::new();
            std::io::Read::read_to_end(&mut std::io::stdin(), &mut input).expect("standard input is read");
            std::io::Write::write_all(&mut std::io::stdout(), &packs::printed(&pack, &input)).is_ok()
        }
        #[cfg(feature = "port")]
        Some("bench") => {
            bench::all();
            true
        }
        #[cfg(feature = "port")]
        Some("builds") => builds::run(seed, quick),
        #[cfg(feature = "port")]
        Some("packs") if args.get(1).is_some_and(|w| w == "--print") => {
            std::io::Write::write_all(&mut std::io::stdout(), &packs::stored_bytes()).is_ok()
        }
        #[cfg(feature = "port")]
        Some("packs") => packs::run(root, seed, quick),
        #[cfg(feature = "port")]
        Some("bench-builds") => {
            bench::builds();
            true
        }
        #[cfg(feature = "port")]
        Some("bench-segments") => {
            bench::segments();
            true
        }
        #[cfg(feature = "port")]
        Some("bench-wordpieces") => {
            bench::wordpieces();
            true
        }
        #[cfg(feature = "port")]
        Some("bench-text") => {
            bench::texts();
            true
        }
        #[cfg(feature = "port")]
        Some("bench-tries") => {
            bench::tries();
            true
        }
        _ => {
            eprintln!(
                "usage: compare examples | sums [--print] | slices [--print] | definitions [SEED..] [--cases N] | text [SEED] [--quick] | tries [SEED] [--quick] | wordpieces [SEED] [--quick] | segments [SEED] [--quick] | builds [SEED] [--quick] | packs [SEED] [--quick] [--print] | print PACK | all [SEED] [--quick] | bench | bench-text | bench-tries | bench-wordpieces | bench-segments | bench-builds"
            );
            return ExitCode::from(2);
        }
    };
    if agrees { ExitCode::SUCCESS } else { ExitCode::FAILURE }
}

/// Every comparison over the compiled port, and a table of them: in minutes, with --quick in seconds.
#[cfg(feature = "port")]
fn all(root: &Path, seed: u64, quick: bool) -> bool {
    let each: [(&str, &dyn Fn() -> bool); 9] = [
        ("the paper's examples", &examples::run),
        ("the stored sums", &|| sums::stored(root)),
        ("the stored row lists", &|| slices::stored(root)),
        ("text", &|| text::run(seed, quick)),
        ("tries", &|| tries::run(seed, quick)),
        ("builds", &|| builds::run(seed, quick)),
        ("WordPiece", &|| wordpieces::run(seed, quick)),
        ("Unigram", &|| segments::run(seed, quick)),
        ("packs and the program", &|| packs::run(root, seed, quick)),
    ];
    let began = std::time::Instant::now();
    let mut same = true;
    for (k, (name, run)) in each.iter().enumerate() {
        eprintln!("[{} of {}, {} s] {name}", k + 1, each.len(), began.elapsed().as_secs());
        same &= run();
    }
    println!("\n| compared (seed {seed}) | cases | differences |\n|---|---|---|");
    let said = text::SAID.lock().unwrap();
    said.iter().for_each(|(what, cases, different)| println!("| {what} | {cases} | {different} |"));
    let (cases, different) = said.iter().fold((0, 0), |n, row| (n.0 + row.1, n.1 + row.2));
    println!("| in all, {} s | {cases} | {different} |", began.elapsed().as_secs());
    same
}

fn definitions_command(root: &Path, args: &[String]) -> bool {
    let mut seeds: Vec<u64> = Vec::new();
    let mut cases = 300;
    let mut words = args.iter();
    while let Some(word) = words.next() {
        if word == "--cases" {
            cases = words.next().and_then(|n| n.parse().ok()).expect("--cases takes a number");
        } else {
            seeds.push(word.parse().expect("a seed is a number"));
        }
    }
    if seeds.is_empty() {
        seeds.push(1);
    }
    seeds.iter().all(|&seed| definitions::try_seed(root, seed, cases))
}
