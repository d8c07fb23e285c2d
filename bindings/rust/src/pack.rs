//! The pack file, and what the program `ids` prints.

use crate::rows;
use crate::trie;
use crate::{Refusal, Unigram, WordPiece};

/// A vocabulary from a pack, of either kind.
#[derive(Clone, Debug)]
pub enum Pack {
    /// A pack of kind 1.
    Unigram(Unigram),
    /// A pack of kind 2.
    WordPiece(WordPiece),
}

/// The header's words.
const KIND: usize = 0;
const STRINGS_OFFSET: usize = 3;
const UNKNOWN: usize = 5;
const MAX_CHARS: usize = 6;
const PREFIX_OFFSET: usize = 7;
const PREFIX_LENGTH: usize = 8;

const HEADER: usize = 36;
const ROW: usize = 16;

/// The k-th little-endian word; 0 where the bytes end before it.
fn word(bytes: &[u8], k: usize) -> u32 {
    bytes.get(4 * k..4 * k + 4).map_or(0, |b| u32::from_le_bytes([b[0], b[1], b[2], b[3]]))
}

/// The most nodes that the rows can need, if the layout is right: nothing was tested so far.
fn most_nodes(bytes: &[u8]) -> usize {
    let rows = bytes.get(HEADER..word(bytes, STRINGS_OFFSET) as usize).unwrap_or_default();
    rows::most_nodes(rows.chunks_exact(ROW).map(|row| word(row, 1)))
}

impl Pack {
    /// The vocabulary of a pack's bytes. Refused 11; 1; at the first bad row 2, 3, 4, then 5 or 6; 2, 4 for the prefix, with no row.
    pub fn from_bytes(bytes: &[u8]) -> Result<Self, Refusal> {
        let mut unknown_score = [0.0];
        let parts = trie::build(most_nodes(bytes), true, |p, work| unsafe {
            call!(sk_pack_build([bytes],
                [mut p.edge_at], [mut p.edge_n], [mut p.id], [mut p.score], [mut p.byte], [mut p.to], [mut work],
                [mut unknown_score]))
        })?;
        // The pack is accepted: the kind is 1 or 2, and the prefix lies inside the strings.
        let unknown = word(bytes, UNKNOWN);
        if word(bytes, KIND) == 1 {
            return Ok(Pack::Unigram(Unigram::built(parts, unknown, unknown_score[0])));
        }
        let strings = &bytes[word(bytes, STRINGS_OFFSET) as usize..];
        let prefix = &strings[word(bytes, PREFIX_OFFSET) as usize..][..word(bytes, PREFIX_LENGTH) as usize];
        Ok(Pack::WordPiece(WordPiece::built(parts, unknown, word(bytes, MAX_CHARS), prefix)))
    }

    /// The ids of a text or word. Refused 1, 4.
    pub fn ids(&self, text: impl AsRef<[u8]>) -> Result<Vec<u32>, Refusal> {
        match self {
            Pack::Unigram(u) => u.segment(text),
            Pack::WordPiece(w) => w.encode(text),
        }
    }

    /// The Unigram vocabulary, if it is one.
    pub fn into_unigram(self) -> Option<Unigram> {
        if let Pack::Unigram(u) = self { Some(u) } else { None }
    }

    /// The WordPiece vocabulary, if it is one.
    pub fn into_wordpiece(self) -> Option<WordPiece> {
        if let Pack::WordPiece(w) = self { Some(w) } else { None }
    }
}

/// The bytes that are enough for any output of the program.
const PRINT_ROOM: usize = 360_459;

/// All that the program `ids` prints for a pack and an input. The call needs about 230,000 bytes of stack.
pub fn print(pack: &[u8], input: impl AsRef<[u8]>) -> Vec<u8> {
    let input = input.as_ref();
    let mut out = vec![0; PRINT_ROOM];
    let n = unsafe { call!(sk_print([pack], [input], [mut out])) };
    out.truncate(n);
    out
}
