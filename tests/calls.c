/* Calls the static library from C: accepted, refused, proposed, short slices, slices of length 0. Prints nothing where all is as expected. */
#include "rangecheck.h"
#include <stdio.h>
#include <string.h>

static int bad;
static void expect(int ok, const char *what) {
    if (!ok) {
        bad = 1;
        printf("calls.c: %s\n", what);
    }
}

static int says(struct rangecheck_answer a, uint32_t number, uint64_t place, uint64_t count) {
    return a.number == number && a.place == place && a.count == count;
}

/* Document 01's example: two tasks, one variable, and an assignment of 5 to it; its proposal. */
static const int32_t bare[24] = {2, 1, 0, 3, 1, 2, 1, 0, 1, 0, 0, 1, 0, 0, 0, 0, 0, 0, 0, 0, 0, 5, 0, 0};
static const int32_t rows[18] = {3, 1, 0, 1, 0, 0, 0, 0, 0, 0, 0, 5, 0, 5, 0, 5, 5, 5};
/* One task that divides 10 by its variable, which is 0; the point after it is never reached. */
static const int32_t divides[27] = {1, 1, 0, 2, 3, 2, 0, 1, 0, 2, 1, 0, 0, 0, 0, 0, 10, 0, 0, 2, 0, 0, 0, 7, 0, 1, 0};
static const int32_t unreached[10] = {2, 1, 0, 0, 0, -1, 0, 0, 0, 0};

static void checks(void) {
    int32_t alarms[6] = {9, 9, 9, 9, 9, 9}, came[6] = {9, 9, 9, 9, 9, 9}, want[6] = {2, RANGECHECK_ZERO, 9, 9, 9, 9}, word = 7;
    int32_t narrow[18];
    expect(says(rangecheck_check(bare, 24, rows, 18, alarms, 6), 0, 0, 0), "accepted");
    expect(memcmp(alarms, came, sizeof came) == 0, "no alarm is written");

    memcpy(narrow, rows, sizeof rows);
    narrow[16] = 4;
    expect(says(rangecheck_check(bare, 24, narrow, 18, alarms, 6), 15, 2, 0), "refused 15 at 2");
    expect(says(rangecheck_check(bare, 23, rows, 18, alarms, 6), 1, 23, 0), "refused 1 at 23");
    expect(says(rangecheck_check(bare, 24, rows, 17, alarms, 6), 7, 17, 0), "refused 7 at 17");

    expect(says(rangecheck_check(divides, 27, unreached, 10, alarms, 1), 17, 2, 0), "refused 17 at 2");
    expect(memcmp(alarms, came, sizeof came) == 0, "a refusal changes no buffer");
    expect(says(rangecheck_check(divides, 27, unreached, 10, alarms, 6), 0, 0, 1), "accepted with an alarm");
    expect(memcmp(alarms, want, sizeof want) == 0, "the alarm is written, and later words are kept");

    expect(says(rangecheck_check(&word, 0, &word, 0, alarms, 0), 1, 0, 0), "an empty table");
    expect(says(rangecheck_check(bare, 24, &word, 0, alarms, 0), 7, 0, 0), "an empty proposal");
    expect(says(rangecheck_check(bare, 24, rows, 18, alarms, 0), 0, 0, 0), "an empty buffer for no alarm");
}

static int proposed(struct rangecheck_proposed a, uint32_t number, uint64_t place, uint64_t words, uint64_t passes) {
    return a.number == number && a.place == place && a.words == words && a.passes == passes;
}

/* One task that locks its mutex on one side of a test only: two walks bring different held sets to point 2. */
static const int32_t joins[31] = {1, 1, 1, 3, 3, 3, 0, 2, 2, 1, 2, 3, 0, 2, 0, 0, 0, 0, 0, 0, 0, 0, 0, 0, 0, 0, 0, 16, 0, 1, 0};

static void proposes(void) {
    static int32_t words[RANGECHECK_PROPOSAL_WORDS], came[RANGECHECK_PROPOSAL_WORDS];
    int32_t rising[33], alarms[2] = {9, 9}, five = 5, word = 7;
    const int32_t falling[3] = {0, 5, 5};
    for (size_t k = 0; k < RANGECHECK_PROPOSAL_WORDS; k++)
        words[k] = came[k] = -77;
    for (int32_t k = 0; k < 33; k++)
        rising[k] = 5 * k;

    expect(proposed(rangecheck_propose(bare, 23, &five, 1, words, 28), 1, 23, 0, 0), "a table refused by the proposer");
    expect(proposed(rangecheck_propose(bare, 23, falling, 3, words, 0), 1, 23, 0, 0), "the table's refusal before the thresholds'");
    expect(proposed(rangecheck_propose(bare, 24, falling, 3, words, 28), 19, 2, 0, 0), "a threshold that isn't above the one before");
    expect(proposed(rangecheck_propose(bare, 24, rising, 33, words, 28), 19, 32, 0, 0), "a threshold after the 32nd");
    expect(proposed(rangecheck_propose(bare, 24, falling, 3, words, 27), 19, 2, 0, 0), "the thresholds' refusal before the buffer's");
    expect(proposed(rangecheck_propose(bare, 24, &five, 1, words, 27), 20, 28, 0, 0), "a buffer one word short");
    expect(proposed(rangecheck_propose(bare, 24, &five, 1, words, 0), 20, 28, 0, 0), "a buffer of no words");
    expect(proposed(rangecheck_propose(joins, 31, &word, 0, words, 29), 20, 30, 0, 0), "the buffer's refusal before that of the walks");
    expect(proposed(rangecheck_propose(joins, 31, &word, 0, words, 30), 18, 2, 0, 0), "two walks that bring different held sets");
    expect(proposed(rangecheck_propose(&word, 0, &word, 0, words, 28), 1, 0, 0, 0), "the proposer on an empty table");
    expect(memcmp(words, came, sizeof came) == 0, "a refusal changes no word of the proposal");

    expect(proposed(rangecheck_propose(bare, 24, &five, 1, words, 28), 0, 0, 18, 2), "proposed in just the room that is asked for");
    expect(memcmp(words, rows, sizeof rows) == 0, "the proposal is written");
    expect(memcmp(words + 18, came + 18, sizeof came - sizeof rows) == 0, "words past the proposal are kept");
    expect(says(rangecheck_check(bare, 24, words, 18, alarms, 2), 0, 0, 0), "what is proposed is accepted");
    expect(proposed(rangecheck_propose(bare, 24, rising, 32, words, RANGECHECK_PROPOSAL_WORDS), 0, 0, 18, 2), "proposed by 32 thresholds");
    expect(memcmp(words, rows, sizeof rows) == 0, "an end goes to the nearest threshold");
    expect(proposed(rangecheck_propose(bare, 24, &word, 0, words, RANGECHECK_PROPOSAL_WORDS), 0, 0, 18, 2), "proposed by no threshold");
    expect(words[16] == INT32_MAX, "an end that no threshold covers goes to MAX");
    expect(says(rangecheck_check(bare, 24, words, 18, alarms, 2), 0, 0, 0), "what is proposed by no threshold is accepted");

    expect(proposed(rangecheck_propose(divides, 27, &word, 0, words, RANGECHECK_PROPOSAL_WORDS), 0, 0, 10, 1), "proposed in one pass");
    expect(memcmp(words, unreached, sizeof unreached) == 0, "a point that no pass reaches is marked");
    expect(says(rangecheck_check(divides, 27, words, 10, alarms, 2), 0, 0, 1), "what is proposed is accepted with an alarm");
    expect(alarms[0] == 2 && alarms[1] == RANGECHECK_ZERO, "the alarm of what is proposed");
}

static void fill(int64_t *words, size_t n) {
    for (size_t k = 0; k < n; k++)
        words[k] = -77;
}

static int all(const int64_t *words, size_t n, int64_t z) {
    for (size_t k = 0; k < n; k++)
        if (words[k] != z)
            return 0;
    return 1;
}

static void runs(void) {
    const int32_t schedule[3] = {0, 0, 1};
    int64_t s[50], want[48] = {0};
    int32_t word = 7;
    fill(s, 50);
    want[RANGECHECK_POINTS] = 1;
    want[RANGECHECK_POINTS + 1] = 2;
    want[RANGECHECK_VALUES] = 5;
    want[RANGECHECK_STOP_NODES] = want[RANGECHECK_STOP_NODES + 1] = -1;
    expect(says(rangecheck_run(bare, 24, schedule, 3, s, 50), 0, 0, 0), "played");
    expect(memcmp(s, want, sizeof want) == 0, "the last state");
    expect(all(s + 48, 2, -77), "later words are kept");

    fill(s, 50);
    expect(says(rangecheck_run(bare, 24, schedule, 3, s, 47), RANGECHECK_SHORT, RANGECHECK_STATE_WORDS, 0), "an answer one word short");
    expect(says(rangecheck_run(bare, 24, schedule, 3, s, 0), RANGECHECK_SHORT, 48, 0), "an answer of no words");
    expect(says(rangecheck_run(bare, 23, schedule, 3, s, 47), 1, 23, 0), "the table's refusal before the answer's");
    expect(says(rangecheck_run(bare, 23, schedule, 3, s, 48), 1, 23, 0), "a table refused");
    expect(says(rangecheck_run(&word, 0, &word, 0, s, 50), 1, 0, 0), "an empty table");
    expect(all(s, 50, -77), "a refusal changes no word of the answer");

    want[RANGECHECK_POINTS] = 0;
    want[RANGECHECK_VALUES] = 0;
    expect(says(rangecheck_run(bare, 24, &word, 0, s, 48), 0, 0, 0), "an empty schedule");
    expect(memcmp(s, want, sizeof want) == 0, "the starting state");

    expect(says(rangecheck_run(divides, 27, schedule, 3, s, 48), 0, 0, 0), "played into an error");
    expect(s[RANGECHECK_STOP_NODES] == 2 && s[RANGECHECK_STOP_KINDS] == RANGECHECK_ZERO, "stopped by the division");
}

int main(void) {
    checks();
    proposes();
    runs();
    return bad;
}
