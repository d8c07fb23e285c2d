//! Unigram: a text's best cutting.

use crate::rows::{self, Columns};
use crate::text;
use crate::trie::{self, Parts};
use crate::{Fault, NO_ID, Refusal};
use std::ops::Range;

/// A Unigram vocabulary. Its parts are sound.
#[derive(Clone, Debug)]
pub struct Unigram {
    parts: Parts,
    unknown: u32,
    unknown_score: f64,
}

/// What stands at an offset: the last piece of the best cutting that ends there, and that cutting's score.
#[derive(Clone, Copy, Debug, PartialEq)]
pub struct Record {
    /// Where the piece starts.
    pub start: u32,
    /// The piece's id.
    pub id: u32,
    /// The score of the cutting.
    pub score: f64,
}

/// A text's ids and how they came about.
#[derive(Clone, Debug, PartialEq)]
pub struct Cutting {
    /// The ids, in order.
    pub ids: Vec<u32>,
    /// The bytes that each id covers: those of its piece, or of all pieces of a run of unknown ones that became one id.
    pub spans: Vec<Range<usize>>,
    /// Where the pieces end, before unknown ones are merged.
    pub ends: Vec<u32>,
    /// For each offset from 0 to the text's length its record; none at 0 and inside a character.
    pub records: Vec<Option<Record>>,
}

/// The places that cutting a text of so many bytes needs.
struct Scratch {
    start: Vec<u32>,
    slot_id: Vec<u32>,
    slot_score: Vec<f64>,
    path: Vec<u32>,
    ids: Vec<u32>,
}

impl Scratch {
    fn new(bytes: usize) -> Self {
        Scratch {
            start: vec![NO_ID; bytes + 1],
            slot_id: vec![NO_ID; bytes + 1],
            slot_score: vec![0.0; bytes + 1],
            path: vec![0; bytes],
            ids: vec![0; bytes],
        }
    }

    /// A piece never starts at the largest u32: that is the mark of an empty slot.
    fn record(&self, j: usize) -> Option<Record> {
        let record = Record { start: self.start[j], id: self.slot_id[j], score: self.slot_score[j] };
        (record.start != NO_ID).then_some(record)
    }

    /// The bytes of each id: neighbouring pieces with the unknown id are one.
    fn spans(&self, ends: &[u32], unknown: u32) -> Vec<Range<usize>> {
        let mut spans: Vec<Range<usize>> = Vec::with_capacity(ends.len());
        let (mut at, mut was_unknown) = (0, false);
        for end in ends.iter().map(|&end| end as usize) {
            let is_unknown = self.slot_id[end] == unknown;
            match spans.last_mut() {
                Some(run) if is_unknown && was_unknown => run.end = end,
                _ => spans.push(at..end),
            }
            (at, was_unknown) = (end, is_unknown);
        }
        spans
    }

    /// The path up to the piece that ends the text.
    fn ends(&self, bytes: usize) -> Vec<u32> {
        let last = self.path.iter().position(|&end| end as usize == bytes);
        last.map_or(vec![], |last| self.path[..=last].to_vec())
    }
}

impl Unigram {
    /// The vocabulary of these tokens and scores; a row's id is its index. Refused 1; at the first bad row 3, 4, 5.
    pub fn from_rows<T: AsRef<[u8]>>(rows: &[(T, f64)], unknown: u32) -> Result<Self, Refusal> {
        let (tab, spans) = rows::table(rows)?;
        let scores: Vec<f64> = rows.iter().map(|row| row.1).collect();
        Self::from_spans(&tab, &spans, &scores, unknown)
    }

    /// The same with tokens as spans (offset, length) of a string table. Refused 1, also where the lists differ in
    /// length; at the first bad row 2, 3, 4, 5.
    pub fn from_spans(table: &[u8], spans: &[(u32, u32)], scores: &[f64], unknown: u32) -> Result<Self, Refusal> {
        let c = Columns::scored(spans, scores);
        let mut unknown_score = [0.0];
        let parts = trie::build(c.most_nodes(), true, |p, work| unsafe {
            call!(sk_build([table], [c.off], [c.len], [c.scored], [c.score], [c.id],
                [mut p.edge_at], [mut p.edge_n], [mut p.id], [mut p.score], [mut p.byte], [mut p.to], [mut work],
                [mut unknown_score]))
        })?;
        Ok(Self::built(parts, unknown, unknown_score[0]))
    }

    /// A trie that was built before. Refused 8 where it is not sound.
    pub fn from_parts(parts: Parts, unknown: u32, unknown_score: f64) -> Result<Self, Refusal> {
        let p = &parts;
        let sound = unsafe {
            call!(sk_sound_scored([p.edge_at], [p.edge_n], [p.id], [p.score], [p.byte], [p.to], unknown_score))
        };
        if sound { Ok(Self::built(parts, unknown, unknown_score)) } else { Err(Fault::Trie.into()) }
    }

    /// The parts are those that a build has left, or were tested: they are sound.
    pub(crate) fn built(parts: Parts, unknown: u32, unknown_score: f64) -> Self {
        Unigram { parts, unknown, unknown_score }
    }

    /// The ids of a text. Refused 1, 4. An empty text has none.
    pub fn segment(&self, text: impl AsRef<[u8]>) -> Result<Vec<u32>, Refusal> {
        Ok(self.work(text.as_ref())?.ids)
    }

    /// The ids of a text with its pieces and records. Refused 1, 4.
    pub fn cut(&self, text: impl AsRef<[u8]>) -> Result<Cutting, Refusal> {
        let text = text.as_ref();
        let b = self.work(text)?;
        let records = (0..=text.len()).map(|j| b.record(j)).collect();
        let ends = b.ends(text.len());
        Ok(Cutting { spans: b.spans(&ends, self.unknown), ends, records, ids: b.ids })
    }

    /// The columns as the library leaves them, the ids cut to their number.
    fn work(&self, text: &[u8]) -> Result<Scratch, Refusal> {
        text::test(text)?;
        let (p, mut b) = (&self.parts, Scratch::new(text.len()));
        // SAFETY: the parts are sound, the text was tested, there are more slots than bytes, and a place for each byte
        let n = unsafe {
            call!(sk_segment_checked([p.edge_at], [p.edge_n], [p.id], [p.score], [p.byte], [p.to],
                self.unknown, self.unknown_score, [text],
                [mut b.start], [mut b.slot_id], [mut b.slot_score], [mut b.path], [mut b.ids]))
        };
        b.ids.truncate(n);
        Ok(b)
    }

    /// The id of a text that is a token. Refused 1, 4.
    pub fn exact(&self, text: impl AsRef<[u8]>) -> Result<Option<u32>, Refusal> {
        self.parts.exact(text.as_ref())
    }

    /// The unknown id.
    pub fn unknown(&self) -> u32 {
        self.unknown
    }

    /// The lowest score of all rows minus 10.
    pub fn unknown_score(&self) -> f64 {
        self.unknown_score
    }

    /// The trie.
    pub fn parts(&self) -> &Parts {
        &self.parts
    }
}
