//! Why a call refuses, and how the library's numbers become answers.

use std::error::Error;
use std::fmt;

/// What is wrong, in the order of the refusal numbers, 1 to 11.
#[derive(Clone, Copy, Debug, PartialEq, Eq, Hash, PartialOrd, Ord)]
pub enum Fault {
    /// Rows, table, text, word or prefix above its limit; or lists of one row set that differ in length.
    Size = 1,
    /// Offset + length passes the end of the string table.
    Span,
    /// A token above 1,024 bytes.
    Token,
    /// A token, text, word or prefix is not well-formed UTF-8.
    Text,
    /// A Unigram row's score is a NaN or an infinity.
    Score,
    /// A WordPiece row has the id 4,294,967,295.
    Id,
    /// Too few places for a trie.
    Room,
    /// Trie parts that are not sound.
    Trie,
    /// Too few slots or path places.
    Scratch,
    /// Too few id places.
    Ids,
    /// The pack's header or layout is wrong.
    Pack,
}

impl Fault {
    /// Every fault, in the order of the numbers.
    pub const ALL: [Fault; 11] = [
        Fault::Size,
        Fault::Span,
        Fault::Token,
        Fault::Text,
        Fault::Score,
        Fault::Id,
        Fault::Room,
        Fault::Trie,
        Fault::Scratch,
        Fault::Ids,
        Fault::Pack,
    ];

    /// The refusal number, 1 to 11.
    pub fn number(self) -> u32 {
        self as u32
    }

    /// The fault with this number.
    pub fn from_number(number: u32) -> Option<Fault> {
        Fault::ALL.into_iter().find(|f| f.number() == number)
    }
}

impl fmt::Display for Fault {
    fn fmt(&self, f: &mut fmt::Formatter) -> fmt::Result {
        f.write_str(match self {
            Fault::Size => "a size above its limit, or lists that differ in length",
            Fault::Span => "a span that passes the end of the string table",
            Fault::Token => "a token above 1,024 bytes",
            Fault::Text => "bytes that are not well-formed UTF-8",
            Fault::Score => "no score, or one that is not finite",
            Fault::Id => "no id, or the id 4,294,967,295",
            Fault::Room => "too few places for the trie",
            Fault::Trie => "trie parts that are not sound",
            Fault::Scratch => "too few slots or path places",
            Fault::Ids => "too few id places",
            Fault::Pack => "a pack with a wrong header or layout",
        })
    }
}

/// Why a call refused, and for a build at which row, where one is to blame.
#[derive(Clone, Copy, Debug, PartialEq, Eq, Hash)]
pub struct Refusal {
    /// What is wrong.
    pub fault: Fault,
    /// The row that is to blame.
    pub row: Option<u32>,
}

impl fmt::Display for Refusal {
    fn fmt(&self, f: &mut fmt::Formatter) -> fmt::Result {
        match self.row {
            None => write!(f, "refused {}: {}", self.fault.number(), self.fault),
            Some(row) => write!(f, "refused {} at row {row}: {}", self.fault.number(), self.fault),
        }
    }
}

impl Error for Refusal {}

impl From<Fault> for Refusal {
    fn from(fault: Fault) -> Self {
        Refusal { fault, row: None }
    }
}

fn fault(number: u64) -> Fault {
    u32::try_from(number).ok().and_then(Fault::from_number).expect("a refusal number is 1 to 11")
}

/// The answer of a build: how many nodes.
pub(crate) fn nodes(answer: u64) -> Result<usize, Refusal> {
    match (answer >> 32, answer as u32) {
        (0, nodes) => Ok(nodes as usize),
        (number, u32::MAX) => Err(fault(number).into()),
        (number, row) => Err(Refusal { fault: fault(number), row: Some(row) }),
    }
}

/// The answer of a look-up: the id, if there is one.
pub(crate) fn found(answer: u64) -> Result<Option<u32>, Refusal> {
    match answer.checked_sub(1 << 32) {
        None => Ok(Some(answer as u32)),
        Some(0) => Ok(None),
        Some(number) => Err(fault(number).into()),
    }
}

/// A count: of ids, or of characters.
pub(crate) fn count(answer: usize) -> Result<usize, Refusal> {
    match answer.checked_sub(1 << 32) {
        None => Ok(answer),
        Some(number) => Err(fault(number as u64).into()),
    }
}
