/* Soahkimal for C: a comment's token ids. Link with crates/exports/out/libexports.a, which `rt lib` in crates/exports writes.
 *
 * What a caller must keep. Nothing tests these, and the proofs rest on them.
 * - A buffer is a pointer and the number of its elements, not of its bytes. The pointer has at least that many elements
 *   behind it and is aligned for them. It may be null where the number is 0.
 * - A buffer that is not const is lent: while the call runs it overlaps no other buffer of the call.
 * - A bool, also each one in a buffer, is the byte 0 or 1.
 *
 * Everything else is tested. Each call without `_checked` answers for any bytes, lengths and doubles, and a bad input
 * is refused under one number. Calls keep nothing: no heap, no global state, no pointer after the return. So calls from
 * many threads are safe as long as their lent buffers are apart.
 *
 * The columns of a trie, in the order in which every call takes them:
 *   edge_at, edge_n, id (for Unigram also score)   one place a node: first edge, number of edges, id, score
 *   byte, to                                       one place an edge: its byte, its target
 * After a build of N nodes, pass them on with the lengths N for nodes and N - 1 for edges. */
#ifndef SOAHKIMAL_H
#define SOAHKIMAL_H

#include <stdbool.h>
#include <stddef.h>
#include <stdint.h>

#ifdef __cplusplus
static_assert(sizeof(size_t) == 8 && sizeof(bool) == 1, "size_t has 64 bits and bool is a byte");
extern "C" {
#else
_Static_assert(sizeof(size_t) == 8 && sizeof(bool) == 1, "size_t has 64 bits and bool is a byte");
#endif

/* ---- Refusal numbers and sizes */

enum sk_fault {
    SK_FINE = 0,
    SK_SIZE = 1,    /* rows, table, text, word or prefix above its limit; or the row columns differ in length */
    SK_SPAN = 2,    /* offset + length passes the end of the string table */
    SK_TOKEN = 3,   /* a token above 1,024 bytes */
    SK_TEXT = 4,    /* a token, text, word or prefix is not well-formed UTF-8 */
    SK_SCORE = 5,   /* a Unigram row has no score, or a NaN or an infinity */
    SK_ID = 6,      /* a WordPiece row has no id, or the id 4,294,967,295 */
    SK_ROOM = 7,    /* for N nodes: fewer than N node, N - 1 edge or 2N work places in any lent column */
    SK_TRIE = 8,    /* the trie's columns are not sound */
    SK_SCRATCH = 9, /* for a text that is not empty: fewer slots than bytes + 1, or fewer path places than characters */
    SK_IDS = 10,    /* fewer id places than characters */
    SK_PACK = 11    /* the pack's header or layout is wrong */
};

/* Each limit is accepted at the number and refused one above. */
#define SK_MAX_ROWS 1048576u
#define SK_MAX_TABLE 16777216u
#define SK_MAX_TOKEN 1024u
#define SK_MAX_TEXT 65536u
#define SK_MAX_PREFIX 64u

/* No id, no start, no row. */
#define SK_NONE UINT32_MAX

/* The bytes that are enough for any output of sk_print. */
#define SK_PRINT_ROOM 360459u

/* ---- Answers
 *
 * A count or an id is below 2^32. A count's refusal is 2^32 + number; a look-up without an id is 2^32.
 * A build's refusal is number * 2^32 + row, with SK_NONE for the row where it names none. */

#define SK_ABSENT (UINT64_C(1) << 32)

/* The refusal number of sk_characters, sk_segment, sk_encode, sk_exact or sk_exact_unscored; 0 where there is none. */
static inline uint32_t SK_REFUSED(uint64_t answer) { return answer < SK_ABSENT ? 0 : (uint32_t)(answer - SK_ABSENT); }

/* Whether a look-up found an id, which then is the answer. */
static inline bool SK_FOUND(uint64_t answer) { return answer < SK_ABSENT; }

/* The refusal number of sk_build, sk_from_rows or sk_pack_build; 0 where the answer is the number of nodes. */
static inline uint32_t SK_BUILD_REFUSED(uint64_t answer) { return (uint32_t)(answer >> 32); }

/* The row that a refused build names; SK_NONE where it names none. */
static inline uint32_t SK_BUILD_ROW(uint64_t answer) { return (uint32_t)answer; }

/* ---- Text (RFC 3629) */

/* The length of the longest prefix made of whole well-formed characters. The bytes are text exactly when it is
 * s_length. */
size_t sk_valid_up_to(
    const uint8_t *s, size_t s_length);

/* How many bytes the character has that this byte begins; 0 where it begins none. */
size_t sk_char_len(
    uint8_t b);

/* Whether a character begins at i, or the text ends there: i is the length, or below it and the byte is not 80-BF. */
bool sk_is_boundary(
    const uint8_t *s, size_t s_length,
    size_t i);

/* How many characters a text has. Refused 1, 4: an empty text has 0, and what is no text is refused. */
size_t sk_characters(
    const uint8_t *s, size_t s_length);

/* Whether the len bytes of the table from off on are text: 0, or refused 1 (the table), 2, 4. */
uint32_t sk_text(
    const uint8_t *tab, size_t tab_length,
    uint32_t off,
    uint32_t len);

/* len where sk_text answers 0; 0 for a refused span. */
size_t sk_text_len(
    const uint8_t *tab, size_t tab_length,
    uint32_t off,
    uint32_t len);

/* ---- Builds
 *
 * Row i is the len[i] bytes of the table from off[i] on. Where scored[i] is true its worth is score[i], else id[i]; the
 * other place is not looked at. Unigram asks for scores (a row's id is its index), WordPiece for ids.
 *
 * Refused, in this order: 1; at the first bad row 2, 3, 4, then 5 (Unigram) or 6 (WordPiece), with that row; 7.
 * Lent memory: after success the columns hold the trie, the work places and all places past the counts are zero; after
 * 7 every lent node, edge and work place is zero; any other refusal writes nothing.
 * N is at most 1 + the bytes of all tokens. */

/* The Unigram trie of the rows: the number of nodes. Its unknown score is written to unknown_score[0] if there is such
 * a place; after a refusal, 7 too, these places are unchanged. */
uint64_t sk_build(
    const uint8_t *tab, size_t tab_length,
    const uint32_t *off, size_t off_length,
    const uint32_t *len, size_t len_length,
    const bool *scored, size_t scored_length,
    const double *score, size_t score_length,
    const uint32_t *id, size_t id_length,
    uint32_t *edge_at, size_t edge_at_length,
    uint16_t *edge_n, size_t edge_n_length,
    uint32_t *node_id, size_t node_id_length,
    double *node_score, size_t node_score_length,
    uint8_t *byte, size_t byte_length,
    uint32_t *to, size_t to_length,
    uint32_t *work, size_t work_length,
    double *unknown_score, size_t unknown_score_length);

/* The WordPiece trie of the rows: the number of nodes. */
uint64_t sk_from_rows(
    const uint8_t *tab, size_t tab_length,
    const uint32_t *off, size_t off_length,
    const uint32_t *len, size_t len_length,
    const bool *scored, size_t scored_length,
    const double *score, size_t score_length,
    const uint32_t *id, size_t id_length,
    uint32_t *edge_at, size_t edge_at_length,
    uint16_t *edge_n, size_t edge_n_length,
    uint32_t *node_id, size_t node_id_length,
    uint8_t *byte, size_t byte_length,
    uint32_t *to, size_t to_length,
    uint32_t *work, size_t work_length);

/* The trie of a pack: the number of nodes. Kind (1 Unigram, 2 WordPiece), unknown id, max_chars, prefix offset and
 * prefix length are the words 0, 5, 6, 7 and 8 of its header, little-endian; the prefix's offset counts from the
 * strings, which begin at the byte that word 3 names. A Unigram pack's unknown score is written as by sk_build; a
 * WordPiece pack leaves those places unchanged.
 * Refused, in this order: 11; 1 (the prefix's length too); at the first bad row 2, 3, 4, then 5 or 6, with that row; 2
 * for a prefix outside the strings, 4 for one that is no text, with no row; 7.
 * Lent memory as above. Either kind needs N score places, and after a WordPiece pack they are all zero. */
uint64_t sk_pack_build(
    const uint8_t *bytes, size_t bytes_length,
    uint32_t *edge_at, size_t edge_at_length,
    uint16_t *edge_n, size_t edge_n_length,
    uint32_t *node_id, size_t node_id_length,
    double *node_score, size_t node_score_length,
    uint8_t *byte, size_t byte_length,
    uint32_t *to, size_t to_length,
    uint32_t *work, size_t work_length,
    double *unknown_score, size_t unknown_score_length);

/* ---- Tries
 *
 * Sound columns: 1 to 4,294,967,295 nodes; node columns of one length, edge columns of one length; each node's edges
 * inside the edge columns, at most 256, bytes strictly rising; each target a node; for Unigram, node scores and the
 * unknown score finite. What a build leaves is sound. */

/* Whether the columns of a WordPiece trie are sound. */
bool sk_sound(
    const uint32_t *edge_at, size_t edge_at_length,
    const uint16_t *edge_n, size_t edge_n_length,
    const uint32_t *id, size_t id_length,
    const uint8_t *byte, size_t byte_length,
    const uint32_t *to, size_t to_length);

/* Whether the columns of a Unigram trie and its unknown score are sound. */
bool sk_sound_scored(
    const uint32_t *edge_at, size_t edge_at_length,
    const uint16_t *edge_n, size_t edge_n_length,
    const uint32_t *id, size_t id_length,
    const double *score, size_t score_length,
    const uint8_t *byte, size_t byte_length,
    const uint32_t *to, size_t to_length,
    double unknown_score);

/* The id of a text in a Unigram trie: the id, or SK_ABSENT. Refused 1, 8, 4. */
uint64_t sk_exact(
    const uint32_t *edge_at, size_t edge_at_length,
    const uint16_t *edge_n, size_t edge_n_length,
    const uint32_t *id, size_t id_length,
    const double *score, size_t score_length,
    const uint8_t *byte, size_t byte_length,
    const uint32_t *to, size_t to_length,
    double unknown_score,
    const uint8_t *s, size_t s_length);

/* The same in a WordPiece trie. */
uint64_t sk_exact_unscored(
    const uint32_t *edge_at, size_t edge_at_length,
    const uint16_t *edge_n, size_t edge_n_length,
    const uint32_t *id, size_t id_length,
    const uint8_t *byte, size_t byte_length,
    const uint32_t *to, size_t to_length,
    const uint8_t *s, size_t s_length);

/* The same in a trie of either kind that was tested and found sound, for a text that was tested: at most 65,536 bytes, and
 * sk_valid_up_to gives its length. The id, or SK_ABSENT. */
uint64_t sk_exact_checked(
    const uint32_t *edge_at, size_t edge_at_length,
    const uint16_t *edge_n, size_t edge_n_length,
    const uint32_t *id, size_t id_length,
    const uint8_t *byte, size_t byte_length,
    const uint32_t *to, size_t to_length,
    const uint8_t *s, size_t s_length);

/* ---- Ids
 *
 * An empty text or word has no ids. Each call below without `_checked` tests the whole trie, which takes time for each
 * node: for many texts test once and use `_checked`. */

/* The ids of a text by its best Unigram cutting: how many. Refused 1, 8, 4, 9, 10.
 * After success: ids in order, the places past them unchanged; the first places of path hold the end offsets of the
 * pieces before unknown ones are merged, up to text_length, the rest is unchanged; slot j holds the start, id and score
 * of the record at offset j, or SK_NONE, SK_NONE and 0 for offset 0 and inside a character; slots past text_length are
 * unchanged. What the places held before has no effect. A refusal writes nothing, and so does an empty text. */
size_t sk_segment(
    const uint32_t *edge_at, size_t edge_at_length,
    const uint16_t *edge_n, size_t edge_n_length,
    const uint32_t *id, size_t id_length,
    const double *score, size_t score_length,
    const uint8_t *byte, size_t byte_length,
    const uint32_t *to, size_t to_length,
    uint32_t unknown,
    double unknown_score,
    const uint8_t *text, size_t text_length,
    uint32_t *start, size_t start_length,
    uint32_t *slot_id, size_t slot_id_length,
    double *slot_score, size_t slot_score_length,
    uint32_t *path, size_t path_length,
    uint32_t *ids, size_t ids_length);

/* The same without a test and without a refusal. Before the call all of this has been tested, or the call is undefined:
 * sk_sound_scored is true of the trie; text_length is at most SK_MAX_TEXT and sk_valid_up_to(text) is text_length; unless
 * the text is empty each slot column has more than text_length places; path and ids have a place for each character
 * (text_length is enough). An empty text writes nothing here too. */
size_t sk_segment_checked(
    const uint32_t *edge_at, size_t edge_at_length,
    const uint16_t *edge_n, size_t edge_n_length,
    const uint32_t *id, size_t id_length,
    const double *score, size_t score_length,
    const uint8_t *byte, size_t byte_length,
    const uint32_t *to, size_t to_length,
    uint32_t unknown,
    double unknown_score,
    const uint8_t *text, size_t text_length,
    uint32_t *start, size_t start_length,
    uint32_t *slot_id, size_t slot_id_length,
    double *slot_score, size_t slot_score_length,
    uint32_t *path, size_t path_length,
    uint32_t *ids, size_t ids_length);

/* The WordPiece ids of a word: how many. Refused 1, 8, 4 (the word, then the prefix), 10.
 * After success the ids in order; places past them are unchanged, also after a late miss. A refusal writes nothing. */
size_t sk_encode(
    const uint32_t *edge_at, size_t edge_at_length,
    const uint16_t *edge_n, size_t edge_n_length,
    const uint32_t *id, size_t id_length,
    const uint8_t *byte, size_t byte_length,
    const uint32_t *to, size_t to_length,
    uint32_t unknown,
    uint32_t max_chars,
    const uint8_t *prefix, size_t prefix_length,
    const uint8_t *word, size_t word_length,
    uint32_t *ids, size_t ids_length);

/* The same without a test and without a refusal. Before the call all of this has been tested, or the call is undefined:
 * sk_sound is true of the trie; sk_valid_up_to(word) is word_length; ids have a place for each character (word_length
 * is enough). To answer as sk_encode does, test the sizes and the prefix too. */
size_t sk_encode_checked(
    const uint32_t *edge_at, size_t edge_at_length,
    const uint16_t *edge_n, size_t edge_n_length,
    const uint32_t *id, size_t id_length,
    const uint8_t *byte, size_t byte_length,
    const uint32_t *to, size_t to_length,
    uint32_t unknown,
    uint32_t max_chars,
    const uint8_t *prefix, size_t prefix_length,
    const uint8_t *word, size_t word_length,
    uint32_t *ids, size_t ids_length);

/* ---- The program */

/* All that the program `ids` prints for a pack and an input, from the front of out: how many bytes. The
 * places past them are unchanged. A refused pack or input is printed as such. SK_ABSENT, and nothing
 * written, where out_length is below SK_PRINT_ROOM. The call needs about 230,000 bytes of stack. */
size_t sk_print(
    const uint8_t *pack, size_t pack_length,
    const uint8_t *input, size_t input_length,
    uint8_t *out, size_t out_length);

#ifdef __cplusplus
}
#endif

#endif
