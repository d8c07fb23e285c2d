//! The exported functions as they are. What each answers, refuses and writes stands in `include/soahkimal.h`, beside
//! the same declaration, and so does what a caller must keep.

#[rustfmt::skip]
unsafe extern "C" {
    pub fn sk_valid_up_to(
        s: *const u8, s_length: usize,
    ) -> usize;

    pub fn sk_char_len(
        b: u8,
    ) -> usize;

    pub fn sk_is_boundary(
        s: *const u8, s_length: usize,
        i: usize,
    ) -> bool;

    pub fn sk_characters(
        s: *const u8, s_length: usize,
    ) -> usize;

    pub fn sk_text(
        tab: *const u8, tab_length: usize,
        off: u32,
        len: u32,
    ) -> u32;

    pub fn sk_text_len(
        tab: *const u8, tab_length: usize,
        off: u32,
        len: u32,
    ) -> usize;

    pub fn sk_build(
        tab: *const u8, tab_length: usize,
        off: *const u32, off_length: usize,
        len: *const u32, len_length: usize,
        scored: *const bool, scored_length: usize,
        score: *const f64, score_length: usize,
        id: *const u32, id_length: usize,
        edge_at: *mut u32, edge_at_length: usize,
        edge_n: *mut u16, edge_n_length: usize,
        node_id: *mut u32, node_id_length: usize,
        node_score: *mut f64, node_score_length: usize,
        byte: *mut u8, byte_length: usize,
        to: *mut u32, to_length: usize,
        work: *mut u32, work_length: usize,
        unknown_score: *mut f64, unknown_score_length: usize,
    ) -> u64;

    pub fn sk_from_rows(
        tab: *const u8, tab_length: usize,
        off: *const u32, off_length: usize,
        len: *const u32, len_length: usize,
        scored: *const bool, scored_length: usize,
        score: *const f64, score_length: usize,
        id: *const u32, id_length: usize,
        edge_at: *mut u32, edge_at_length: usize,
        edge_n: *mut u16, edge_n_length: usize,
        node_id: *mut u32, node_id_length: usize,
        byte: *mut u8, byte_length: usize,
        to: *mut u32, to_length: usize,
        work: *mut u32, work_length: usize,
    ) -> u64;

    pub fn sk_pack_build(
        bytes: *const u8, bytes_length: usize,
        edge_at: *mut u32, edge_at_length: usize,
        edge_n: *mut u16, edge_n_length: usize,
        node_id: *mut u32, node_id_length: usize,
        node_score: *mut f64, node_score_length: usize,
        byte: *mut u8, byte_length: usize,
        to: *mut u32, to_length: usize,
        work: *mut u32, work_length: usize,
        unknown_score: *mut f64, unknown_score_length: usize,
    ) -> u64;

    pub fn sk_sound(
        edge_at: *const u32, edge_at_length: usize,
        edge_n: *const u16, edge_n_length: usize,
        id: *const u32, id_length: usize,
        byte: *const u8, byte_length: usize,
        to: *const u32, to_length: usize,
    ) -> bool;

    pub fn sk_sound_scored(
        edge_at: *const u32, edge_at_length: usize,
        edge_n: *const u16, edge_n_length: usize,
        id: *const u32, id_length: usize,
        score: *const f64, score_length: usize,
        byte: *const u8, byte_length: usize,
        to: *const u32, to_length: usize,
        unknown_score: f64,
    ) -> bool;

    pub fn sk_exact(
        edge_at: *const u32, edge_at_length: usize,
        edge_n: *const u16, edge_n_length: usize,
        id: *const u32, id_length: usize,
        score: *const f64, score_length: usize,
        byte: *const u8, byte_length: usize,
        to: *const u32, to_length: usize,
        unknown_score: f64,
        s: *const u8, s_length: usize,
    ) -> u64;

    pub fn sk_exact_unscored(
        edge_at: *const u32, edge_at_length: usize,
        edge_n: *const u16, edge_n_length: usize,
        id: *const u32, id_length: usize,
        byte: *const u8, byte_length: usize,
        to: *const u32, to_length: usize,
        s: *const u8, s_length: usize,
    ) -> u64;

    pub fn sk_segment(
        edge_at: *const u32, edge_at_length: usize,
        edge_n: *const u16, edge_n_length: usize,
        id: *const u32, id_length: usize,
        score: *const f64, score_length: usize,
        byte: *const u8, byte_length: usize,
        to: *const u32, to_length: usize,
        unknown: u32,
        unknown_score: f64,
        text: *const u8, text_length: usize,
        start: *mut u32, start_length: usize,
        slot_id: *mut u32, slot_id_length: usize,
        slot_score: *mut f64, slot_score_length: usize,
        path: *mut u32, path_length: usize,
        ids: *mut u32, ids_length: usize,
    ) -> usize;

    pub fn sk_segment_checked(
        edge_at: *const u32, edge_at_length: usize,
        edge_n: *const u16, edge_n_length: usize,
        id: *const u32, id_length: usize,
        score: *const f64, score_length: usize,
        byte: *const u8, byte_length: usize,
        to: *const u32, to_length: usize,
        unknown: u32,
        unknown_score: f64,
        text: *const u8, text_length: usize,
        start: *mut u32, start_length: usize,
        slot_id: *mut u32, slot_id_length: usize,
        slot_score: *mut f64, slot_score_length: usize,
        path: *mut u32, path_length: usize,
        ids: *mut u32, ids_length: usize,
    ) -> usize;

    pub fn sk_exact_checked(
        edge_at: *const u32, edge_at_length: usize,
        edge_n: *const u16, edge_n_length: usize,
        id: *const u32, id_length: usize,
        byte: *const u8, byte_length: usize,
        to: *const u32, to_length: usize,
        s: *const u8, s_length: usize,
    ) -> u64;

    pub fn sk_encode(
        edge_at: *const u32, edge_at_length: usize,
        edge_n: *const u16, edge_n_length: usize,
        id: *const u32, id_length: usize,
        byte: *const u8, byte_length: usize,
        to: *const u32, to_length: usize,
        unknown: u32,
        max_chars: u32,
        prefix: *const u8, prefix_length: usize,
        word: *const u8, word_length: usize,
        ids: *mut u32, ids_length: usize,
    ) -> usize;

    pub fn sk_encode_checked(
        edge_at: *const u32, edge_at_length: usize,
        edge_n: *const u16, edge_n_length: usize,
        id: *const u32, id_length: usize,
        byte: *const u8, byte_length: usize,
        to: *const u32, to_length: usize,
        unknown: u32,
        max_chars: u32,
        prefix: *const u8, prefix_length: usize,
        word: *const u8, word_length: usize,
        ids: *mut u32, ids_length: usize,
    ) -> usize;

    pub fn sk_print(
        pack: *const u8, pack_length: usize,
        input: *const u8, input_length: usize,
        out: *mut u8, out_length: usize,
    ) -> usize;
}
