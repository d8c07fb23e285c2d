/* The calls at their edges: null with length 0, buffers of no places, each kind of answer. Prints each check that
 * fails, and ends with status 0 exactly when none does. */
#include <stdio.h>
#include <string.h>

#include "soahkimal.h"

static int checks, wrong;

#define CHECK(holds)                                            \
    do {                                                        \
        checks++;                                               \
        if (!(holds)) {                                         \
            wrong++;                                            \
            printf("line %d is wrong: %s\n", __LINE__, #holds); \
        }                                                       \
    } while (0)

/* An empty buffer. */
#define NO NULL, 0
/* A text without its closing zero. */
#define TEXT(s) (const uint8_t *)(s), strlen(s)

static const uint64_t two_32 = UINT64_C(1) << 32;

static void empty_buffers(void) {
    uint64_t answer;
    CHECK(sk_valid_up_to(NO) == 0 && sk_characters(NO) == 0);
    CHECK(sk_is_boundary(NO, 0) && !sk_is_boundary(NO, 1));
    CHECK(sk_text(NO, 0, 0) == SK_FINE && sk_text(NO, 0, 1) == SK_SPAN && sk_text_len(NO, 0, 0) == 0);
    CHECK(!sk_sound(NO, NO, NO, NO, NO) && !sk_sound_scored(NO, NO, NO, NO, NO, NO, -10.0));
    CHECK(SK_REFUSED(sk_exact(NO, NO, NO, NO, NO, NO, -10.0, NO)) == SK_TRIE);
    CHECK(SK_REFUSED(sk_exact_unscored(NO, NO, NO, NO, NO, NO)) == SK_TRIE);
    CHECK(SK_REFUSED(sk_encode(NO, NO, NO, NO, NO, 0, 100, NO, NO, NO)) == SK_TRIE);
    CHECK(SK_REFUSED(sk_segment(NO, NO, NO, NO, NO, NO, 0, -10.0, NO, NO, NO, NO, NO, NO)) == SK_TRIE);
    answer = sk_from_rows(NO, NO, NO, NO, NO, NO, NO, NO, NO, NO, NO, NO);
    CHECK(SK_BUILD_REFUSED(answer) == SK_ROOM && SK_BUILD_ROW(answer) == SK_NONE);
    answer = sk_build(NO, NO, NO, NO, NO, NO, NO, NO, NO, NO, NO, NO, NO, NO);
    CHECK(SK_BUILD_REFUSED(answer) == SK_ROOM && SK_BUILD_ROW(answer) == SK_NONE);
    answer = sk_pack_build(NO, NO, NO, NO, NO, NO, NO, NO, NO);
    CHECK(SK_BUILD_REFUSED(answer) == SK_PACK && SK_BUILD_ROW(answer) == SK_NONE);
    CHECK(sk_print(NO, NO, NO) == two_32);
}

static void text(void) {
    CHECK(sk_valid_up_to(TEXT("a\xc3\xa9\xff")) == 3);
    CHECK(sk_char_len('a') == 1 && sk_char_len(0xc3) == 2 && sk_char_len(0xf4) == 4 && sk_char_len(0x80) == 0);
    CHECK(sk_is_boundary(TEXT("\xc3\xa9"), 2) && !sk_is_boundary(TEXT("\xc3\xa9"), 1));
    CHECK(sk_characters(TEXT("a\xc3\xa9")) == 2 && SK_REFUSED(sk_characters(TEXT("a\xff"))) == SK_TEXT);
    CHECK(sk_text(TEXT("a\xff"), 0, 1) == SK_FINE && sk_text(TEXT("a\xff"), 0, 2) == SK_TEXT);
    CHECK(sk_text_len(TEXT("ab"), 1, 1) == 1 && sk_text_len(TEXT("ab"), 1, 2) == 0);
}

/* The trie without rows: one node. */
static void bare_trie(void) {
    uint32_t at[1] = {5}, id[1] = {5}, work[2] = {5, 5}, ids[2] = {5, 5}, start[2], slot_id[2], path[1];
    uint16_t n[1] = {5};
    double score[1] = {5}, slot_score[2];
    CHECK(sk_build(NO, NO, NO, NO, NO, NO, at, 1, n, 1, id, 1, score, 1, NO, NO, work, 2, NO) == 1);
    CHECK(at[0] == 0 && n[0] == 0 && id[0] == SK_NONE && score[0] == 0 && work[0] == 0 && work[1] == 0);
    CHECK(sk_sound(at, 1, n, 1, id, 1, NO, NO) && sk_sound_scored(at, 1, n, 1, id, 1, score, 1, NO, NO, -10.0));
    CHECK(sk_exact(at, 1, n, 1, id, 1, score, 1, NO, NO, -10.0, NO) == SK_ABSENT);
    CHECK(!SK_FOUND(SK_ABSENT) && SK_REFUSED(SK_ABSENT) == SK_FINE);
#define MODEL at, 1, n, 1, id, 1, score, 1, NO, NO, 9, -10.0
#define SLOTS start, 2, slot_id, 2, slot_score, 2
    CHECK(sk_segment(MODEL, NO, NO, NO, NO, NO, NO) == 0);
    CHECK(SK_REFUSED(sk_segment(MODEL, TEXT("a"), NO, NO, NO, NO, NO)) == SK_SCRATCH);
    CHECK(SK_REFUSED(sk_segment(MODEL, TEXT("a"), SLOTS, NO, ids, 1)) == SK_SCRATCH);
    CHECK(SK_REFUSED(sk_segment(MODEL, TEXT("a"), SLOTS, path, 1, NO)) == SK_IDS);
    CHECK(sk_segment(MODEL, TEXT("a"), SLOTS, path, 1, ids, 1) == 1);
    CHECK(ids[0] == 9 && ids[1] == 5 && path[0] == 1 && start[0] == SK_NONE && start[1] == 0 && slot_score[1] == -10.0);
    /* the trie is sound, as tested above; an empty text writes nothing, and asks for no places */
    start[0] = path[0] = ids[0] = 6;
    CHECK(sk_segment_checked(MODEL, NO, NO, NO, NO, NO, NO) == 0);
    CHECK(sk_segment_checked(MODEL, NO, SLOTS, path, 1, ids, 1) == 0 && start[0] == 6 && path[0] == 6 && ids[0] == 6);
    /* the text is ASCII, and the places are enough */
    CHECK(sk_segment_checked(MODEL, TEXT("b"), SLOTS, path, 1, ids, 1) == 1 && ids[0] == 9 && ids[1] == 5);
    CHECK(sk_encode(at, 1, n, 1, id, 1, NO, NO, 3, 100, NO, NO, NO) == 0);
    CHECK(SK_REFUSED(sk_encode(at, 1, n, 1, id, 1, NO, NO, 3, 100, NO, TEXT("a"), NO)) == SK_IDS);
    CHECK(sk_encode(at, 1, n, 1, id, 1, NO, NO, 3, 100, NO, TEXT("a"), ids, 2) == 1 && ids[0] == 3 && ids[1] == 5);
}

/* un 1, ##able 2, in a trie of 9 nodes with a place too few first. */
static void wordpiece(void) {
    static const uint32_t off[2] = {0, 2}, len[2] = {2, 6}, row_id[2] = {1, 2};
    static const bool scored[2] = {false, false};
    static const double no_scores[2] = {0, 0};
    uint32_t at[9], id[9], to[8], work[18], ids[6] = {5, 5, 5, 5, 5, 5};
    uint16_t n[9];
    uint8_t byte[8];
#define ROWS TEXT("un##able"), off, 2, len, 2, scored, 2, no_scores, 2, row_id, 2
#define TRIE at, 9, n, 9, id, 9, byte, 8, to, 8
    CHECK(SK_BUILD_REFUSED(sk_from_rows(ROWS, at, 9, n, 9, id, 9, byte, 8, to, 7, work, 18)) == SK_ROOM);
    CHECK(SK_BUILD_REFUSED(sk_from_rows(ROWS, at, 9, n, 9, id, 9, byte, 8, to, 8, work, 17)) == SK_ROOM);
    CHECK(sk_from_rows(ROWS, TRIE, work, 18) == 9);
    CHECK(sk_exact_unscored(TRIE, TEXT("un")) == 1 && sk_exact_unscored(TRIE, TEXT("u")) == SK_ABSENT);
    CHECK(sk_encode(TRIE, 0, 100, TEXT("##"), TEXT("unable"), ids, 6) == 2);
    CHECK(ids[0] == 1 && ids[1] == 2 && ids[2] == 5);
    CHECK(sk_encode(TRIE, 0, 100, TEXT("##"), TEXT("unx"), ids, 6) == 1 && ids[0] == 0 && ids[1] == 2);
    CHECK(SK_REFUSED(sk_encode(TRIE, 0, 100, TEXT("\xff"), TEXT("un"), ids, 6)) == SK_TEXT);
    /* the trie is sound, as tested here; the word is ASCII, and each byte has a place */
    CHECK(sk_sound(TRIE) && sk_encode_checked(TRIE, 0, 100, TEXT("##"), TEXT("unable"), ids, 6) == 2 && ids[0] == 1);
    CHECK(sk_encode_checked(TRIE, 0, 100, NO, NO, NO) == 0);
    CHECK(sk_exact_checked(TRIE, TEXT("un")) == 1 && sk_exact_checked(TRIE, TEXT("u")) == SK_ABSENT);
}

/* The pack of the same vocabulary, and what the program prints for it. */
static void pack(void) {
    static const uint8_t bytes[76] = {
        2, 0, 0, 0, 2, 0, 0, 0, 36, 0, 0, 0, 68, 0, 0, 0, 8, 0, 0, 0, 0, 0, 0, 0, 100, 0, 0, 0, 2, 0, 0, 0, 2, 0, 0, 0,
        0, 0, 0, 0, 2, 0, 0, 0, 1, 0, 0, 0, 0, 0, 0, 0,
        2, 0, 0, 0, 6, 0, 0, 0, 2, 0, 0, 0, 0, 0, 0, 0,
        'u', 'n', '#', '#', 'a', 'b', 'l', 'e',
    };
    static uint8_t out[SK_PRINT_ROOM];
    uint32_t at[9], id[9], to[8], work[18], ids[6];
    uint16_t n[9];
    double score[9] = {1, 1, 1, 1, 1, 1, 1, 1, 1}, unknown_score[1] = {5};
    uint8_t byte[8];
#define NODES at, 9, n, 9, id, 9
#define EDGES byte, 8, to, 8
    CHECK(SK_BUILD_REFUSED(sk_pack_build(bytes, 76, NODES, NO, EDGES, work, 18, NO)) == SK_ROOM);
    CHECK(SK_BUILD_REFUSED(sk_pack_build(bytes, 75, NODES, score, 9, EDGES, work, 18, NO)) == SK_PACK);
    CHECK(sk_pack_build(bytes, 76, NODES, score, 9, EDGES, work, 18, unknown_score, 1) == 9);
    CHECK(score[0] == 0 && score[8] == 0 && unknown_score[0] == 5);
    CHECK(sk_encode(TRIE, 0, 100, TEXT("##"), TEXT("unable"), ids, 6) == 2 && ids[0] == 1 && ids[1] == 2);
    CHECK(sk_print(bytes, 76, TEXT("unable\n\nunx\n"), out, SK_PRINT_ROOM - 1) == two_32 && out[0] == 0);
    CHECK(sk_print(bytes, 76, TEXT("unable\n\nunx\n"), out, SK_PRINT_ROOM) == 12);
    CHECK(!memcmp(out, "2 1 2\n0\n1 0\n", 12));
    CHECK(sk_print(bytes, 76, NO, out, SK_PRINT_ROOM) == 0);
    CHECK(sk_print(NO, NO, out, SK_PRINT_ROOM) == 16 && !memcmp(out, "pack refused 11\n", 16));
}

int main(void) {
    empty_buffers();
    text();
    bare_trie();
    wordpiece();
    pack();
    printf("%d checks, %d wrong\n", checks, wrong);
    return wrong != 0;
}
