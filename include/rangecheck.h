/* The proved check, proposer and run of librangecheck_c.a, which `tools/tower build` makes in target/staticlib.

   All three functions take any words whatever: nothing need be checked before a call, and they always come back. They keep nothing between calls and
   touch no memory but what they are lent, so that several threads may call them. docs/FORMAT.md says what the words mean.

   A slice is a pointer and a number of words, in two arguments. What is lent to be written may not overlap what is lent to be read. A slice of
   length 0 takes any aligned pointer that is not null.

   A check's time grows with the number of words, but for conditions of one shape that docs/FORMAT.md names ('What formulas give'): each level of it doubles
   the time. A proposer goes over the points as often as its passes, of which there are mostly few. Hand tables that come from elsewhere to a process that
   can be stopped.

   Call from a thread with 2 MB of stack or more. How deep a call goes depends on how deep the table's formulas are nested: 1024 nodes within one another
   were measured to take 0.8 MB. That is no part of what is proved. */
#ifndef RANGECHECK_H
#define RANGECHECK_H
#include <stddef.h>
#include <stdint.h>

/* The version of the whole repository, which stands here alone: 1, the last request of document 02 that is in it, and what was mended since. */
#define RANGECHECK_VERSION "1.4.0"

#ifdef __cplusplus
extern "C" {
#endif

/* What a call says; 0 for what isn't given. */
struct rangecheck_answer {
    uint32_t number; /* 0, or the number of the first broken rule: 1 to 17, or RANGECHECK_SHORT of a run */
    uint64_t place;  /* its smallest place */
    uint64_t count;  /* of the alarms, in an accepted check */
};

/* Kinds of alarms, and of stops in a run. */
enum { RANGECHECK_NONE = 0, RANGECHECK_OVERFLOW = 1, RANGECHECK_ZERO = 2 };

/* Words that hold any alarm list. */
enum { RANGECHECK_ALARM_WORDS = 4096 };

/* What the proposer says; 0 for what isn't given. */
struct rangecheck_proposed {
    uint32_t number; /* 0, or the number of the first broken rule: 1 to 6, or 18 to 20 */
    uint64_t place;  /* its smallest place */
    uint64_t words;  /* of the proposal that was written */
    uint64_t passes; /* made over the points; the last one changed nothing */
};

/* Words that hold any proposal that is made here. One that is written by hand can have more entries, and 11268 words. */
#define RANGECHECK_PROPOSAL_WORDS 9988

/* The number of refusal 31 of a run: the answer slice is shorter than RANGECHECK_STATE_WORDS, which is its place. */
enum { RANGECHECK_SHORT = 31 };

/* The words of a state, and where each part of it begins. Slots past the table's sizes are 0. */
enum {
    RANGECHECK_POINTS = 0,      /* 8: each task's point */
    RANGECHECK_VALUES = 8,      /* 16: each variable */
    RANGECHECK_OWNERS = 24,     /* 8: each mutex's owner, or -1 */
    RANGECHECK_STOP_NODES = 32, /* 8: the node at which each task stopped, or -1 */
    RANGECHECK_STOP_KINDS = 40, /* 8: the kind of its error, or 0 */
    RANGECHECK_STATE_WORDS = 48
};

/* Checks a proposal against a table. Accepted, with number 0: the alarms stand at the front of their buffer in pairs of a node and a kind, by
   node, then kind, `count` pairs, and later words keep their contents. Refused by 1 to 17: the buffer is as it came. 17 is a buffer that is
   too short, and its place is the words needed; RANGECHECK_ALARM_WORDS are always enough. */
struct rangecheck_answer rangecheck_check(const int32_t *table, size_t table_len, const int32_t *proposal, size_t proposal_len, int32_t *alarms,
                                          size_t alarms_len);

/* Makes a proposal for a table, one that the check accepts. Pass by pass it widens ranges until nothing changes, and an end that must move goes to the nearest
   threshold that covers it, or to MIN or MAX. Made, with number 0: `words` words of it stand at the front of their buffer, and later words keep their
   contents. Refused by 1 to 6, as the check refuses a table, then by 19, a threshold that isn't above the one before it or comes after the 32nd, then by 20,
   a buffer that is shorter than a proposal with one entry a point, whose words are its place, then by 18, a point to which two walks over the instructions
   bring different held sets: the buffer is as it came. RANGECHECK_PROPOSAL_WORDS are always enough. */
struct rangecheck_proposed rangecheck_propose(const int32_t *table, size_t table_len, const int32_t *thresholds, size_t thresholds_len, int32_t *proposal,
                                              size_t proposal_len);

/* Plays a table by a schedule. Played, with number 0: the last state stands in the first RANGECHECK_STATE_WORDS words of the answer, and later
   words keep their contents. Refused by 1 to 6, as the check refuses a table, or then by RANGECHECK_SHORT, an answer of fewer words: the answer is
   as it came. */
struct rangecheck_answer rangecheck_run(const int32_t *table, size_t table_len, const int32_t *schedule, size_t schedule_len, int64_t *answer,
                                        size_t answer_len);

#ifdef __cplusplus
}
#endif
#endif
