//! Row lists as the library is lent them.

use crate::{Fault, Refusal};

/// The columns of a row list, beside its string table.
pub(crate) struct Columns {
    pub off: Vec<u32>,
    pub len: Vec<u32>,
    pub scored: Vec<bool>,
    pub score: Vec<f64>,
    pub id: Vec<u32>,
}

impl Columns {
    /// Lists of two lengths make columns of two lengths, which the library refuses with 1.
    pub fn scored(spans: &[(u32, u32)], scores: &[f64]) -> Self {
        let n = scores.len();
        Columns { scored: vec![true; n], score: scores.to_vec(), id: vec![0; n], ..Self::spans(spans) }
    }

    pub fn with_ids(spans: &[(u32, u32)], ids: &[u32]) -> Self {
        let n = ids.len();
        Columns { scored: vec![false; n], score: vec![0.0; n], id: ids.to_vec(), ..Self::spans(spans) }
    }

    fn spans(spans: &[(u32, u32)]) -> Self {
        let (off, len) = spans.iter().copied().unzip();
        Columns { off, len, scored: vec![], score: vec![], id: vec![] }
    }

    /// The most nodes that these rows can need.
    pub fn most_nodes(&self) -> usize {
        most_nodes(self.len.iter().copied())
    }
}

/// A node for each byte of each token, and the root.
pub(crate) fn most_nodes(lengths: impl Iterator<Item = u32>) -> usize {
    lengths.fold(1, |n: usize, len| n.saturating_add(len as usize))
}

/// A string table and its spans.
pub(crate) type Table = (Vec<u8>, Vec<(u32, u32)>);

/// The tokens end to end. A table that passes what a u32 can count is above its limit: 1.
pub(crate) fn table<T: AsRef<[u8]>, W>(rows: &[(T, W)]) -> Result<Table, Refusal> {
    let total = rows.iter().fold(0, |n: usize, (token, _)| n.saturating_add(token.as_ref().len()));
    if u32::try_from(total).is_err() {
        return Err(Fault::Size.into());
    }
    let mut tab = Vec::with_capacity(total);
    let spans = rows.iter().map(|(token, _)| push(&mut tab, token.as_ref())).collect::<Result<_, _>>()?;
    Ok((tab, spans))
}

/// The span of a token at the table's end. `as_ref` may answer differently from one call to the next, so that the sizes
/// are tested here once more.
fn push(tab: &mut Vec<u8>, token: &[u8]) -> Result<(u32, u32), Refusal> {
    let size = |n: usize| u32::try_from(n).map_err(|_| Refusal::from(Fault::Size));
    let span = (size(tab.len())?, size(token.len())?);
    tab.extend_from_slice(token);
    Ok(span)
}
