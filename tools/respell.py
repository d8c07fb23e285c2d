"""Respells the definitions and laws of this repository, once: words in snake case, as the toolchain's library has them.

  python3 tools/respell.py [FOLDER]

It turns each word of the table below in the .rt, .antt and .edit files of FOLDER/crates, whatever prime or number ends it.
Where the new word was that of something else in a crate, that one is turned first.
"""

import os
import re
import sys

# a folder, and what stands there under a word that is wanted for a definition
FIRST = {
    "crates/sliced/proofs": {"row_is": "row_same"},
    "crates/pack/proofs": {"row_is": "row_same"},
    "crates/build/proofs": {"no_room": "no_room_by"},
    "crates/wordpiece/proofs": {"no_room": "no_room_by"},
    "crates/rows/proofs": {"too_large": "too_large_found"},
}

TABLE = """
    afterOffer after_offer
    afterOffers after_offers
    allEdges all_edges
    allFinite all_finite
    allHeld all_held
    anyBelow any_below
    badFrom bad_from
    bestPieces best_pieces
    buildFault build_fault
    builtAnswer built_answer
    codeAnswer code_answer
    codeNumber code_number
    codedLine coded_line
    columnsFault columns_fault
    columnsFor columns_for
    columnsWas columns_was
    contentFault content_fault
    countFault count_fault
    countIn count_in
    countNumber count_number
    countsOf counts_of
    doubleAt double_at
    edgeAt edge_at
    edgeN edge_n
    edgesFrom edges_from
    edgesOf edges_of
    encodeFault encode_fault
    endsFrom ends_from
    endsHere ends_here
    exampleModel example_model
    faultIn fault_in
    faultOf fault_of
    filledScores filled_scores
    firstBad first_bad
    firstPlaces first_places
    firstRow first_row
    followedIn followed_in
    foundAfter found_after
    foundBy found_by
    foundIf found_if
    foundIn found_in
    foundSince found_since
    fromRowsNumber from_rows_number
    getD-inside get_or-inside
    getD-map-inside get_or-map-inside
    getD-map-of get_or-map-of
    getD-zeros get_or-zeros
    goesOn goes_on
    headerOf header_of
    heldIn held_in
    idFrom id_from
    idIn id_in
    idOfWorth id_of_worth
    inputBytes input_bytes
    isDouble is_double
    kindHolds kind_holds
    kindIn kind_in
    kindLaidOut kind_laid_out
    kindTold kind_told
    knownTo known_to
    laidOut laid_out
    largeHeader large_header
    lastId last_id
    length-edgeAt length-edge_at
    length-edgeN length-edge_n
    lengthsOf lengths_of
    lentAfter lent_after
    lentMemory lent_memory
    lentPlaces lent_places
    linesAfter lines_after
    linesPrinted lines_printed
    linkedWork linked_work
    longestTo longest_to
    lookupAnswer lookup_answer
    lookupFault lookup_fault
    lookupNumber lookup_number
    lowerOf lower_of
    lowestOf lowest_of
    markedIds marked_ids
    maxChars max_chars
    maxInput max_input
    maxOutput max_output
    maxPack max_pack
    maxPrefix max_prefix
    maxRows max_rows
    maxTable max_table
    maxText max_text
    maxToken max_token
    memoryIs memory_is
    memoryNow memory_now
    memoryWas memory_was
    minusTen minus_ten
    modelIn model_in
    modelNow model_now
    modelOf model_of
    nearestMultiple nearest_multiple
    noRoom no_room
    noRule no_rule
    noScoredRoom no_scored_room
    nodeScore node_score_of
    nodesOf nodes_of
    notANumber not_a_number
    ofPattern of_pattern
    offeredAll offered_all
    orFirst or_first
    orLast or_last
    orUnknown or_unknown
    outputOf output_of
    packBytes pack_bytes
    packFault pack_fault
    packJudged pack_judged
    packNumber pack_number
    packScore pack_score
    partFault part_fault
    partId part_id
    partsNow parts_now
    pathLeft path_left
    pieceHere piece_here
    pieceTo piece_to
    piecesFrom pieces_from
    placesIs places_is
    placesWas places_was
    plusZero plus_zero
    prefixFault prefix_fault
    printedBytes printed_bytes
    printedIds printed_ids
    printedRefusal printed_refusal
    putFine put_fine
    putRow put_row
    putRows put_rows
    reasonIn reason_in
    reasonNumber reason_number
    recordsFrom records_from
    reportOf report_of
    restFrom rest_from
    roomOf room_of
    rowAt row_at
    rowFault row_fault
    rowIs row_is
    rowPiece row_piece
    rowPlaces row_places
    rowScore row_score
    rowStart row_start
    rowsJudged rows_judged
    rulesFrom rules_from
    runId run_id
    runIds run_ids
    scoreAt score_at
    scoreIs score_is
    scoreOf score_of
    scorePlaces score_places
    scoredColumns scored_columns
    scoredMemoryIs scored_memory_is
    scoredMemoryWas scored_memory_was
    scoredWas scored_was
    scoresIn scores_in
    scoresIs scores_is
    scoresOf scores_of
    scoresWas scores_was
    scratchIs scratch_is
    scratchNow scratch_now
    scratchOf scratch_of
    scratchWas scratch_was
    secondHigh second_high
    secondLow second_low
    segmentFault segment_fault
    shortFor short_for
    shortScratch short_scratch
    sizeFault size_fault
    slotAt slot_at
    slotIds slot_ids
    slotsIs slots_is
    slotsLeft slots_left
    slotsNow slots_now
    slotsWas slots_was
    soundEdges sound_edges
    soundIn sound_in
    soundModel sound_model
    soundNode sound_node
    soundParts sound_parts
    soundScored sound_scored
    spacedOne spaced_one
    spanFault span_fault
    standsAt stands_at
    stepsAt steps_at
    stringsOf strings_of
    sumFinite sum_finite
    targetsOf targets_of
    textFault text_fault
    theKind the_kind
    tokenOf token_of
    tokensOf tokens_of
    toldFor told_for
    toldNumber told_number
    toldScore told_score
    tooLarge too_large
    trieIn trie_in
    trieOf trie_of
    unigramHolds unigram_holds
    unigramModel unigram_model
    unigramOf unigram_of
    unigramScores unigram_scores
    unigramTrie unigram_trie
    unknownScore unknown_score
    unlessFault unless_fault
    untilLf until_lf
    validIn valid_in
    validUpTo valid_up_to
    valueIn value_in
    vocabularyIn vocabulary_in
    vocabularyNow vocabulary_now
    vocabularyOf vocabulary_of
    wellFormed well_formed
    withCutting with_cutting
    withFirst with_first
    withIds with_ids
    withPlaces with_places
    withScores with_scores
    wordpieceHolds wordpiece_holds
    wordpieceOf wordpiece_of
    wordpieceTrie wordpiece_trie
    worthAt worth_at
    worthFault worth_fault
    worthIs worth_is
    writesIn writes_in
    zeroRows zero_rows
    zeroScores zero_scores
"""

WORD = re.compile(r"[A-Za-z_][\w→≢≡-]*")
ENDING = re.compile(r"[₀-₉']*$")


def turned(text, table):
    def one(match):
        word = match[0]
        stem = ENDING.sub("", word)
        return table[stem] + word[len(stem) :] if stem in table else word

    return WORD.sub(one, text)


def main(top):
    table = dict(line.split() for line in TABLE.split("\n") if line.strip())
    for folder, _, files in os.walk(os.path.join(top, "crates")):
        for file in sorted(files):
            if not file.endswith((".rt", ".antt", ".edit")):
                continue
            path = os.path.join(folder, file)
            with open(path, encoding="utf-8") as opened:
                old = opened.read()
            new = old
            for where, first in FIRST.items():
                if os.path.relpath(path, top).startswith(where + "/"):
                    new = turned(new, first)
            new = turned(new, table)
            if new != old:
                with open(path, "w", encoding="utf-8") as opened:
                    opened.write(new)


if __name__ == "__main__":
    main(sys.argv[1] if len(sys.argv) > 1 else ".")
