//! Prints the ids of each line of standard input, in the vocabulary of a pack: `cargo run --example ids -- vocab.pack < comments.txt`.

use soahkimal::Pack;
use std::env;
use std::error::Error;
use std::fs;
use std::io::{self, BufRead};

fn main() -> Result<(), Box<dyn Error>> {
    let path = env::args().nth(1).ok_or("which pack?")?;
    let pack = Pack::from_bytes(&fs::read(path)?)?;
    for line in io::stdin().lock().split(b'\n') {
        match pack.ids(line?) {
            Ok(ids) => println!("{ids:?}"),
            Err(refusal) => println!("{refusal}"),
        }
    }
    Ok(())
}
