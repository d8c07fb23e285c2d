//! Which part of a text each id covers: `cargo run --example spans`.

use soahkimal::{Refusal, Unigram};

fn main() -> Result<(), Refusal> {
    let rows = [("<unk>", 0.0), ("light", -2.0), ("the", -1.5), (" ", -1.0)];
    let unigram = Unigram::from_rows(&rows, 0)?;
    let text = "the light!? ";
    let cutting = unigram.cut(text)?;
    for (id, span) in cutting.ids.iter().zip(cutting.spans) {
        println!("{id}\t{:?}", &text[span]);
    }
    Ok(())
}
