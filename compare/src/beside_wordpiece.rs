// Read out beside `VocabTrie`: its parts. (Plain comments: this text is included at the end of a copy of wordpiece.rs.)

impl VocabTrie {
    pub(crate) fn node_parts(&self) -> Vec<(u32, u16, u32)> {
        self.nodes.iter().map(|n| (n.edge_at, n.edge_n, n.id)).collect()
    }

    pub(crate) fn edge_parts(&self) -> Vec<(u8, u32)> {
        self.edges.iter().map(|e| (e.byte, e.to)).collect()
    }
}
