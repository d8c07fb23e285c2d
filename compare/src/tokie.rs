//! The Rust of tokie, as build.rs brings it in, and its answers to cases.

include!(concat!(env!("OUT_DIR"), "/modules.rs"));

/// A slot of the Rust: start, id, score.
pub type Slot = (u32, u32, f64);

/// A Unigram vocabulary: its rows and the unknown id.
#[derive(Clone, Debug)]
pub struct Unigram {
    pub rows: Vec<(String, f64)>,
    pub unknown: u32,
}

/// The parts of a trie. WordPiece has no scores: they are 0 there.
#[derive(Clone, Debug)]
pub struct Parts {
    pub edge_at: Vec<u32>,
    pub edge_n: Vec<u16>,
    pub id: Vec<u32>,
    pub score: Vec<f64>,
    pub byte: Vec<u8>,
    pub to: Vec<u32>,
    pub unknown_score: f64,
}

/// What `segment` leaves: the slot at each position that it filled, the pieces' ends before merging, the ids.
pub struct Segmented {
    pub slots: Vec<Option<Slot>>,
    pub path: Vec<u32>,
    pub ids: Vec<u32>,
}

pub struct Lattice(unigram::Lattice);

impl Lattice {
    pub fn build(v: &Unigram) -> Self {
        Lattice(unigram::Lattice::build(v.rows.clone(), v.unknown))
    }

    pub fn parts(&self) -> Parts {
        let nodes: Vec<_> = self.0.nodes().collect();
        Parts {
            edge_at: nodes.iter().map(|n| n.0).collect(),
            edge_n: nodes.iter().map(|n| n.1).collect(),
            id: nodes.iter().map(|n| n.2).collect(),
            score: nodes.iter().map(|n| n.3).collect(),
            byte: self.0.edges().map(|e| e.0).collect(),
            to: self.0.edges().map(|e| e.1).collect(),
            unknown_score: self.0.unk_score(),
        }
    }

    /// A lattice over any parts, which the Rust does not test: they must be sound.
    pub fn from_parts(p: &Parts, unknown: u32) -> Self {
        let node = |k: usize| (p.edge_at[k], p.edge_n[k], p.id[k], p.score[k]);
        let nodes = (0..p.edge_at.len()).map(node).collect();
        let edges = (0..p.byte.len()).map(|e| (p.byte[e], p.to[e])).collect();
        Lattice(unigram::Lattice::from_parts(nodes, edges, unknown, p.unknown_score))
    }

    pub fn exact(&self, text: &[u8]) -> Option<u32> {
        self.0.exact_of(text)
    }

    /// The ids alone, after what `out` holds.
    pub fn segment_into(&self, text: &str, out: &mut Vec<u32>) {
        self.0.segment(text.as_bytes(), out);
    }

    pub fn segment(&self, text: &str) -> Segmented {
        let mut ids = Vec::new();
        self.0.segment(text.as_bytes(), &mut ids);
        if text.is_empty() {
            return Segmented { slots: vec![None], path: Vec::new(), ids };
        }
        Segmented { slots: unigram::slots_of_last(text.len()), path: unigram::path_of_last(), ids }
    }
}

/// A WordPiece vocabulary, with what `encode` is given beside the word.
#[derive(Clone, Debug)]
pub struct Wordpiece {
    pub rows: Vec<(String, u32)>,
    pub unknown: u32,
    pub prefix: String,
}

pub struct VocabTrie {
    trie: wordpiece::VocabTrie,
    unknown: u32,
    prefix: String,
}

impl VocabTrie {
    pub fn build(v: &Wordpiece) -> Self {
        VocabTrie {
            trie: wordpiece::VocabTrie::from_rows(v.rows.clone()),
            unknown: v.unknown,
            prefix: v.prefix.clone(),
        }
    }

    pub fn parts(&self) -> Parts {
        let nodes = self.trie.node_parts();
        let edges = self.trie.edge_parts();
        Parts {
            edge_at: nodes.iter().map(|n| n.0).collect(),
            edge_n: nodes.iter().map(|n| n.1).collect(),
            id: nodes.iter().map(|n| n.2).collect(),
            score: vec![0.0; nodes.len()],
            byte: edges.iter().map(|e| e.0).collect(),
            to: edges.iter().map(|e| e.1).collect(),
            unknown_score: 0.0,
        }
    }

    /// The ids of a word. the paper's one known difference: on an empty word with an absent prefix the Rust gives one unknown
    /// id, and the port none.
    pub fn encode(&self, word: &str, max_chars: u32) -> Vec<u32> {
        let mut ids = Vec::new();
        self.encode_into(word, max_chars, &mut ids);
        ids
    }

    /// The same, after what `out` holds.
    pub fn encode_into(&self, word: &str, max_chars: u32, out: &mut Vec<u32>) {
        self.trie.encode(word, self.unknown, max_chars as usize, &self.prefix, out);
    }
}

/// What the span check answers: the part, or the number that the paper gives the fault.
pub fn span(table: &[u8], off: u32, len: u32) -> Result<&str, u32> {
    file::text_of(table, off, len).map_err(|said| if said.contains("not utf-8") { 4 } else { 2 })
}

/// `encode` of the Rust without its wide rows: for one benchmark.
#[allow(dead_code)]
pub fn narrow_encode(v: &Wordpiece) -> impl Fn(&str, u32, &mut Vec<u32>) {
    let trie = narrow::VocabTrie::from_rows(v.rows.clone());
    let (unknown, prefix) = (v.unknown, v.prefix.clone());
    move |word, max_chars, out| trie.encode(word, unknown, max_chars as usize, &prefix, out)
}

/// Microseconds that the Rust takes to build these rows.
#[allow(dead_code)]
pub fn timed_unigram(rows: Vec<(String, f64)>) -> f64 {
    let start = std::time::Instant::now();
    let built = std::hint::black_box(unigram::Lattice::build(rows, 0));
    let taken = start.elapsed();
    drop(built);
    taken.as_nanos() as f64 / 1000.0
}

#[allow(dead_code)]
pub fn timed_wordpiece(rows: Vec<(String, u32)>) -> f64 {
    let start = std::time::Instant::now();
    let built = std::hint::black_box(wordpiece::VocabTrie::from_rows(rows));
    let taken = start.elapsed();
    drop(built);
    taken.as_nanos() as f64 / 1000.0
}
