//! WordPiece: the longest token first.

use crate::Refusal;
use crate::refusal;
use crate::rows::{self, Columns};
use crate::text;
use crate::trie::{self, Parts};

/// A WordPiece vocabulary. Its parts are sound, and its prefix is text within its limit.
#[derive(Clone, Debug)]
pub struct WordPiece {
    parts: Parts,
    unknown: u32,
    max_chars: u32,
    prefix: Vec<u8>,
}

impl WordPiece {
    /// The vocabulary of these tokens and ids. Pieces after a word's first begin with the prefix. Refused 1; at the
    /// first bad row 3, 4, 6; then 1, 4 for the prefix.
    pub fn from_rows<T: AsRef<[u8]>>(
        rows: &[(T, u32)],
        unknown: u32,
        max_chars: u32,
        prefix: impl AsRef<[u8]>,
    ) -> Result<Self, Refusal> {
        let (tab, spans) = rows::table(rows)?;
        let ids: Vec<u32> = rows.iter().map(|row| row.1).collect();
        Self::from_spans(&tab, &spans, &ids, unknown, max_chars, prefix)
    }

    /// The same with tokens as spans (offset, length) of a string table. Refused 1, also where the lists differ in
    /// length; at the first bad row 2, 3, 4, 6; then 1, 4 for the prefix.
    pub fn from_spans(
        table: &[u8],
        spans: &[(u32, u32)],
        ids: &[u32],
        unknown: u32,
        max_chars: u32,
        prefix: impl AsRef<[u8]>,
    ) -> Result<Self, Refusal> {
        let c = Columns::with_ids(spans, ids);
        let parts = trie::build(c.most_nodes(), false, |p, work| unsafe {
            call!(sk_from_rows([table], [c.off], [c.len], [c.scored], [c.score], [c.id],
                [mut p.edge_at], [mut p.edge_n], [mut p.id], [mut p.byte], [mut p.to], [mut work]))
        })?;
        Self::from_parts(parts, unknown, max_chars, prefix)
    }

    /// A trie that was built before; scores in it are dropped. Refused 1 for the prefix, 8, 4 for the prefix.
    pub fn from_parts(parts: Parts, unknown: u32, max_chars: u32, prefix: impl AsRef<[u8]>) -> Result<Self, Refusal> {
        let prefix = prefix.as_ref();
        let (p, word, mut ids) = (&parts, [0u8; 0], [0u32; 0]);
        // an empty word is refused for its trie or its prefix only
        refusal::count(unsafe {
            call!(sk_encode([p.edge_at], [p.edge_n], [p.id], [p.byte], [p.to],
                unknown, max_chars, [prefix], [word], [mut ids]))
        })?;
        Ok(Self::built(parts, unknown, max_chars, prefix))
    }

    /// The parts are those that a build has left, or were tested, and so was the prefix.
    pub(crate) fn built(parts: Parts, unknown: u32, max_chars: u32, prefix: &[u8]) -> Self {
        WordPiece { parts: parts.unscored(), unknown, max_chars, prefix: prefix.to_vec() }
    }

    /// The ids of a word. Refused 1, 4. An empty word has none.
    pub fn encode(&self, word: impl AsRef<[u8]>) -> Result<Vec<u32>, Refusal> {
        let word = word.as_ref();
        text::test(word)?;
        let (p, mut ids) = (&self.parts, vec![0; word.len()]);
        // SAFETY: the parts are sound, the word was tested, and there is a place for each byte.
        let n = unsafe {
            call!(sk_encode_checked([p.edge_at], [p.edge_n], [p.id], [p.byte], [p.to],
                self.unknown, self.max_chars, [self.prefix], [word], [mut ids]))
        };
        ids.truncate(n);
        Ok(ids)
    }

    /// The id of a text that is a token. Refused 1, 4.
    pub fn exact(&self, text: impl AsRef<[u8]>) -> Result<Option<u32>, Refusal> {
        self.parts.exact(text.as_ref())
    }

    /// The unknown id.
    pub fn unknown(&self) -> u32 {
        self.unknown
    }

    /// The most characters of a word that is not unknown as a whole.
    pub fn max_chars(&self) -> u32 {
        self.max_chars
    }

    /// What stands before every piece of a word but the first.
    pub fn prefix(&self) -> &[u8] {
        &self.prefix
    }

    /// The trie, without scores.
    pub fn parts(&self) -> &Parts {
        &self.parts
    }
}
