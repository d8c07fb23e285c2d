//! What text is: RFC 3629.

use crate::refusal;
use crate::{Fault, Refusal};

/// The most bytes of a text or word.
pub const MAX_TEXT: usize = 65_536;

/// The length of the longest prefix made of whole well-formed characters.
pub fn valid_up_to(s: &[u8]) -> usize {
    unsafe { call!(sk_valid_up_to([s])) }
}

/// How many bytes the character has that this byte begins; 0 where it begins none.
pub fn char_len(b: u8) -> usize {
    unsafe { call!(sk_char_len(b)) }
}

/// Whether a character begins at i, or the text ends there.
pub fn is_boundary(s: &[u8], i: usize) -> bool {
    unsafe { call!(sk_is_boundary([s], i)) }
}

/// How many characters a text has. Refused 1, 4: what is no text is not taken for an empty one.
pub fn characters(s: &[u8]) -> Result<usize, Refusal> {
    refusal::count(unsafe { call!(sk_characters([s])) })
}

/// The `len` bytes of the table from `off` on, which are text. Refused 1 (the table), 2, 4.
pub fn span(table: &[u8], off: u32, len: u32) -> Result<&[u8], Refusal> {
    match Fault::from_number(unsafe { call!(sk_text([table], off, len)) }) {
        None => Ok(&table[off as usize..][..len as usize]),
        Some(fault) => Err(fault.into()),
    }
}

/// What the `_checked` calls ask of a text. Refused 1, 4: between them comes only 8, which a trie held here never is.
pub(crate) fn test(s: &[u8]) -> Result<(), Refusal> {
    if s.len() > MAX_TEXT {
        return Err(Fault::Size.into());
    }
    if valid_up_to(s) < s.len() {
        return Err(Fault::Text.into());
    }
    Ok(())
}
