/* Builds a small Unigram vocabulary from rows, codes comments with it and prints their ids. */
#include <math.h>
#include <stdio.h>
#include <string.h>

#include "soahkimal.h"

enum { ROWS = 6, NODES = 32, TEXT = 64 };

/* The rows: tokens in one string table, a span and a score for each. Row 0 is the unknown token. */
static const char table[] = "<unk>the bird birdssong";
static const uint32_t off[ROWS] = {0, 5, 8, 9, 14, 19};
static const uint32_t len[ROWS] = {5, 3, 1, 4, 5, 4};
static const bool scored[ROWS] = {true, true, true, true, true, true};
static double score[ROWS] = {0.0, -2.0, -1.0, -3.5, -4.5, -5.0};
static const uint32_t no_ids[ROWS];

/* The trie: N node places, N - 1 edge places and, for the build only, 2N work places. */
static uint32_t edge_at[NODES], node_id[NODES], to[NODES], work[2 * NODES];
static uint16_t edge_n[NODES];
static double node_score[NODES], unknown_score[1];
static uint8_t byte[NODES];

static uint64_t build(void) {
    return sk_build((const uint8_t *)table, strlen(table), off, ROWS, len, ROWS, scored, ROWS, score, ROWS,
                    no_ids, ROWS, edge_at, NODES, edge_n, NODES, node_id, NODES, node_score, NODES,
                    byte, NODES, to, NODES, work, 2 * NODES, unknown_score, 1);
}

/* One comment, in a trie of so many nodes: its ids, or why it is refused. */
static void code(size_t nodes, const char *comment) {
    static uint32_t start[TEXT + 1], slot_id[TEXT + 1], path[TEXT], ids[TEXT];
    static double slot_score[TEXT + 1];
    size_t answer = sk_segment(edge_at, nodes, edge_n, nodes, node_id, nodes, node_score, nodes, byte, nodes - 1,
                               to, nodes - 1, 0, unknown_score[0], (const uint8_t *)comment, strlen(comment),
                               start, TEXT + 1, slot_id, TEXT + 1, slot_score, TEXT + 1, path, TEXT, ids, TEXT);
    if (SK_REFUSED(answer)) {
        printf("refused %u\n", SK_REFUSED(answer));
        return;
    }
    printf("%zu ids:", answer);
    for (size_t i = 0; i < answer; i++) printf(" %u", ids[i]);
    printf("\n");
}

static void report(uint64_t answer) {
    if (!SK_BUILD_REFUSED(answer)) {
        printf("%llu nodes, unknown score %g\n", (unsigned long long)answer, unknown_score[0]);
    } else if (SK_BUILD_ROW(answer) == SK_NONE) {
        printf("the build is refused %u\n", SK_BUILD_REFUSED(answer));
    } else {
        printf("the build is refused %u at row %u\n", SK_BUILD_REFUSED(answer), SK_BUILD_ROW(answer));
    }
}

int main(void) {
    uint64_t answer = build();
    report(answer);
    if (SK_BUILD_REFUSED(answer)) return 1;

    code((size_t)answer, "the birdsong");
    code((size_t)answer, "the otter");
    code((size_t)answer, "");
    code((size_t)answer, "bird\xff");
    code((size_t)answer, "a comment that is longer than the slots that are lent for it here");

    score[3] = INFINITY;
    report(build());
    return 0;
}
