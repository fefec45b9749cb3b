/* A stand-in for the library: it answers what the environment says, and writes down which buffers it was given. */
#include "tirfolma.h"

#include <stdio.h>
#include <stdlib.h>

struct buffer {
    const char *name;
    const uint32_t *words;
    size_t count;
    bool written;
};

/* Writes the buffers down, with their lengths and first words. Those for writing overlap no other. */
static void note(const char *function, const struct buffer *all, size_t count, const size_t *number) {
    FILE *file = fopen(getenv("STAND_IN_NOTES"), "a");
    fprintf(file, "%s", function);
    for (size_t i = 0; i < count; i++) {
        fprintf(file, " %s:%zu", all[i].name, all[i].count);
        if (!all[i].written && all[i].count > 0) {
            fprintf(file, ":%u", all[i].words[0]);
        }
        for (size_t j = 0; all[i].written && j < count; j++) {
            if (i != j && all[i].words < all[j].words + all[j].count && all[j].words < all[i].words + all[i].count) {
                fprintf(file, " OVERLAP");
            }
        }
    }
    if (number != NULL) {
        fprintf(file, " number:%zu", *number);
    }
    fprintf(file, "\n");
    fclose(file);
}

/* Fills a buffer with the numbers of a variable; false where there is none. */
static bool fill(const char *variable, uint32_t *words, size_t count) {
    char *text = getenv(variable);
    if (text == NULL) {
        return false;
    }
    for (size_t i = 0; i < count && *text != '\0'; i++) {
        words[i] = (uint32_t)strtoull(text, &text, 10);
        while (*text == ' ') {
            text++;
        }
    }
    return true;
}

bool tirfolma_audit(
    const uint32_t *board, size_t board_words,
    const uint32_t *verdicts, size_t verdict_words,
    const uint32_t *roll, size_t roll_words,
    uint32_t *index, size_t index_words,
    uint32_t *ballots, size_t ballot_words,
    uint32_t *answer, size_t answer_words) {
    const struct buffer all[] = {
        {"board", board, board_words, false}, {"verdicts", verdicts, verdict_words, false},
        {"roll", roll, roll_words, false},    {"index", index, index_words, true},
        {"ballots", ballots, ballot_words, true}, {"answer", answer, answer_words, true}};
    note("audit", all, sizeof all / sizeof *all, NULL);
    fill("STAND_IN_INDEX", index, index_words);
    fill("STAND_IN_BALLOTS", ballots, ballot_words);
    /* A second audit may have an answer of its own. */
    static bool again = false;
    bool second = again && getenv("STAND_IN_SECOND") != NULL;
    again = true;
    return fill(second ? "STAND_IN_SECOND" : "STAND_IN_AUDIT", answer, answer_words);
}

bool tirfolma_compare(
    const uint32_t *kept, size_t kept_words,
    const uint32_t *kept_verdicts, size_t kept_verdict_words,
    const uint32_t *kept_roll, size_t kept_roll_words,
    const uint32_t *later, size_t later_words,
    const uint32_t *later_verdicts, size_t later_verdict_words,
    const uint32_t *later_roll, size_t later_roll_words,
    size_t main_number,
    uint32_t *kept_index, size_t kept_index_words,
    uint32_t *kept_ballots, size_t kept_ballot_words,
    uint32_t *later_index, size_t later_index_words,
    uint32_t *later_ballots, size_t later_ballot_words,
    uint32_t *answer, size_t answer_words) {
    const struct buffer all[] = {
        {"kept", kept, kept_words, false},
        {"kept_verdicts", kept_verdicts, kept_verdict_words, false},
        {"kept_roll", kept_roll, kept_roll_words, false},
        {"later", later, later_words, false},
        {"later_verdicts", later_verdicts, later_verdict_words, false},
        {"later_roll", later_roll, later_roll_words, false},
        {"kept_index", kept_index, kept_index_words, true},
        {"kept_ballots", kept_ballots, kept_ballot_words, true},
        {"later_index", later_index, later_index_words, true},
        {"later_ballots", later_ballots, later_ballot_words, true},
        {"answer", answer, answer_words, true}};
    note("compare", all, sizeof all / sizeof *all, &main_number);
    return fill("STAND_IN_COMPARE", answer, answer_words);
}

bool tirfolma_ancestry(
    const uint32_t *board, size_t board_words,
    const uint32_t *verdicts, size_t verdict_words,
    const uint32_t *roll, size_t roll_words,
    size_t item_number,
    uint32_t *index, size_t index_words,
    uint32_t *ballots, size_t ballot_words,
    uint32_t *list, size_t list_words,
    uint32_t *answer, size_t answer_words) {
    const struct buffer all[] = {
        {"board", board, board_words, false}, {"verdicts", verdicts, verdict_words, false},
        {"roll", roll, roll_words, false},    {"index", index, index_words, true},
        {"ballots", ballots, ballot_words, true}, {"list", list, list_words, true},
        {"answer", answer, answer_words, true}};
    note("ancestry", all, sizeof all / sizeof *all, &item_number);
    fill("STAND_IN_INDEX", index, index_words);
    fill("STAND_IN_LIST", list, list_words);
    return fill("STAND_IN_ANCESTRY", answer, answer_words);
}

bool tirfolma_receipts(
    const uint32_t *board, size_t board_words,
    const uint32_t *verdicts, size_t verdict_words,
    const uint32_t *roll, size_t roll_words,
    const uint32_t *receipts, size_t receipt_words,
    uint32_t *index, size_t index_words,
    uint32_t *ballots, size_t ballot_words,
    uint32_t *answers, size_t answers_words,
    uint32_t *answer, size_t answer_words) {
    const struct buffer all[] = {
        {"board", board, board_words, false},     {"verdicts", verdicts, verdict_words, false},
        {"roll", roll, roll_words, false},        {"receipts", receipts, receipt_words, false},
        {"index", index, index_words, true},      {"ballots", ballots, ballot_words, true},
        {"answers", answers, answers_words, true}, {"answer", answer, answer_words, true}};
    note("receipts", all, sizeof all / sizeof *all, NULL);
    fill("STAND_IN_ANSWERS", answers, answers_words);
    return fill("STAND_IN_RECEIPTS", answer, answer_words);
}

bool tirfolma_notes(
    const uint32_t *board, size_t board_words,
    const uint32_t *verdicts, size_t verdict_words,
    const uint32_t *roll, size_t roll_words,
    const uint32_t *notes, size_t note_words,
    uint32_t *index, size_t index_words,
    uint32_t *ballots, size_t ballot_words,
    uint32_t *answer, size_t answer_words) {
    const struct buffer all[] = {
        {"board", board, board_words, false},     {"verdicts", verdicts, verdict_words, false},
        {"roll", roll, roll_words, false},        {"notes", notes, note_words, false},
        {"index", index, index_words, true},      {"ballots", ballots, ballot_words, true},
        {"answer", answer, answer_words, true}};
    note("notes", all, sizeof all / sizeof *all, NULL);
    fill("STAND_IN_INDEX", index, index_words);
    return fill("STAND_IN_HELD", answer, answer_words);
}

bool tirfolma_plan(const uint32_t *board, size_t board_words, uint32_t *answer, size_t answer_words) {
    const struct buffer all[] = {{"board", board, board_words, false}, {"answer", answer, answer_words, true}};
    note("plan", all, sizeof all / sizeof *all, NULL);
    return fill("STAND_IN_PLAN", answer, answer_words);
}
