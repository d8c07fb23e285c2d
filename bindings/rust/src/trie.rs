//! The parts of a trie, and the memory of a build.

use crate::refusal;
use crate::text;
use crate::{Fault, Refusal};

/// A trie in columns. Node 0 is the root; the edges stand node after node.
#[derive(Clone, Debug, Default, PartialEq)]
pub struct Parts {
    /// Each node's first edge.
    pub edge_at: Vec<u32>,
    /// How many edges each node has.
    pub edge_n: Vec<u16>,
    /// The id of the token that ends at a node, or [`NO_ID`](crate::NO_ID).
    pub id: Vec<u32>,
    /// Its score. Unigram only: the parts of a WordPiece trie have none.
    pub score: Vec<f64>,
    /// Each edge's byte.
    pub byte: Vec<u8>,
    /// The node that each edge leads to.
    pub to: Vec<u32>,
}

impl Parts {
    /// Places for so many nodes, at least one, and their edges.
    fn zero(nodes: usize, scored: bool) -> Self {
        Parts {
            edge_at: vec![0; nodes],
            edge_n: vec![0; nodes],
            id: vec![0; nodes],
            score: vec![0.0; if scored { nodes } else { 0 }],
            byte: vec![0; nodes - 1],
            to: vec![0; nodes - 1],
        }
    }

    /// The places that a build of so many nodes has filled.
    fn cut(mut self, nodes: usize) -> Self {
        shrink(&mut self.edge_at, nodes);
        shrink(&mut self.edge_n, nodes);
        shrink(&mut self.id, nodes);
        shrink(&mut self.score, nodes);
        shrink(&mut self.byte, nodes - 1);
        shrink(&mut self.to, nodes - 1);
        self
    }

    /// The id of a text that is a token, in parts that are sound. Refused 1, 4.
    pub(crate) fn exact(&self, s: &[u8]) -> Result<Option<u32>, Refusal> {
        text::test(s)?;
        // SAFETY: the parts are sound
        refusal::found(unsafe {
            call!(sk_exact_checked([self.edge_at], [self.edge_n], [self.id], [self.byte], [self.to], [s]))
        })
    }

    /// The same without scores.
    pub(crate) fn unscored(self) -> Self {
        Parts { score: vec![], ..self }
    }
}

fn shrink<T>(column: &mut Vec<T>, n: usize) {
    column.truncate(n);
    column.shrink_to_fit();
}

/// The nodes that a first try of a build has room for.
const FIRST_ROOM: usize = 65_536;

/// What a build leaves that is lent node, edge and work places. It is tried with little room first, and with twice as
/// much after each refusal 7, up to the most nodes that there can be. Any other refusal comes before 7, so that little
/// room is enough for it.
pub(crate) fn build(
    most: usize,
    scored: bool,
    mut try_in: impl FnMut(&mut Parts, &mut Vec<u32>) -> u64,
) -> Result<Parts, Refusal> {
    let mut room = most.min(FIRST_ROOM);
    loop {
        let (mut parts, mut work) = (Parts::zero(room, scored), vec![0; 2 * room]);
        match refusal::nodes(try_in(&mut parts, &mut work)) {
            Ok(nodes) => return Ok(parts.cut(nodes)),
            Err(r) if r.fault == Fault::Room && room < most => room = most.min(2 * room),
            Err(r) => return Err(r),
        }
    }
}
