/* Prints the alarms of a table and a proposal, in a file of little-endian words: the table's length, the proposal's, the table, the proposal.

       cc -Iinclude examples/alarms.c target/staticlib/librangecheck_c.a -o target/alarms && target/alarms examples/nested.bin

   One line for each: the node and what can go wrong there. The status is 0 if the proposal is accepted, 1 if it is refused, and 2 if the file can't
   be read or the list can't be written. */
#include "rangecheck.h"
#include <stdio.h>
#include <stdlib.h>

/* One word; whether it came. */
static int read_word(FILE *file, int32_t *word) {
    unsigned char b[4];
    if (fread(b, 1, 4, file) != 4)
        return 0;
    uint32_t bits = b[0] | (uint32_t)b[1] << 8 | (uint32_t)b[2] << 16 | (uint32_t)b[3] << 24;
    *word = bits < 0x80000000u ? (int32_t)bits : -(int32_t)(0xffffffffu - bits) - 1;
    return 1;
}

/* So many words, or null. One more is asked for, because a slice of length 0 wants a pointer too. */
static int32_t *read_words(FILE *file, int32_t count) {
    int32_t *words = count < 0 ? NULL : malloc(((size_t)count + 1) * sizeof *words);
    for (int32_t k = 0; words != NULL && k < count; k++)
        if (!read_word(file, &words[k])) {
            free(words);
            return NULL;
        }
    return words;
}

static int print_alarms(const int32_t *table, int32_t table_len, const int32_t *proposal, int32_t proposal_len) {
    static int32_t alarms[RANGECHECK_ALARM_WORDS];
    struct rangecheck_answer a =
        rangecheck_check(table, (size_t)table_len, proposal, (size_t)proposal_len, alarms, RANGECHECK_ALARM_WORDS);
    if (a.number != 0) {
        fprintf(stderr, "refused by rule %lu at %llu\n", (unsigned long)a.number, (unsigned long long)a.place);
        return 1;
    }
    for (size_t k = 0; k < a.count; k++)
        printf("node %ld %s\n", (long)alarms[2 * k], alarms[2 * k + 1] == RANGECHECK_ZERO ? "zero" : "overflow");
    return fflush(stdout) == 0 && !ferror(stdout) ? 0 : 2;
}

int main(int argc, char **argv) {
    if (argc != 2) {
        fprintf(stderr, "usage: alarms FILE\n");
        return 2;
    }
    FILE *file = fopen(argv[1], "rb");
    int32_t lengths[2], *table = NULL, *proposal = NULL;
    if (file != NULL && read_word(file, &lengths[0]) && read_word(file, &lengths[1])) {
        table = read_words(file, lengths[0]);
        proposal = table == NULL ? NULL : read_words(file, lengths[1]);
    }
    int status = 2;
    if (proposal != NULL)
        status = print_alarms(table, lengths[0], proposal, lengths[1]);
    else
        fprintf(stderr, "%s can't be read\n", argv[1]);
    free(table);
    free(proposal);
    if (file != NULL)
        fclose(file);
    return status;
}
