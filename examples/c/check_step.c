/* Checks the step of the README's example against three rules, with tags in bytes. */
#include <inttypes.h>
#include <stdio.h>

#include "weldrika.h"

/* The cells of five headers, and room for the terms that rule 3 builds. */
static uint8_t tags[WELDRIKA_CELLS] = {
    1,                  /*  0: the sort Bool */
    21, 0, 0,           /*  1: the variable v1 */
    23, 0, 0, 0, 0,     /*  4: (forall ((v1 Bool)) v1) */
    23, 0, 0, 0, 0,     /*  9: (forall ((v1 Bool)) (forall ((v1 Bool)) v1)) */
    39, 0, 0, 0,        /* 14: the two are equal */
};
static uint32_t values[WELDRIKA_CELLS] = {
    0,                  /* a header's value is the number of cells after it */
    2, 0, 1,            /* sort, name */
    4, 0, 1, 1, 0,      /* sort, body, and a pair: name and sort */
    4, 0, 4, 1, 0,
    3, 0, 9, 4,         /* sort, operands */
};
static const size_t used = 18;
static const uint32_t conclusion[] = {14};

int main(void)
{
    uint32_t table[WELDRIKA_TABLE];
    weldrika_built_in_table(table);
    for (uint32_t rule = WELDRIKA_QNT_JOIN; rule <= WELDRIKA_QNT_CNF; rule++) {
        uint32_t answer[WELDRIKA_ANSWER];
        weldrika_check_u8(tags, WELDRIKA_CELLS, values, WELDRIKA_CELLS, table, WELDRIKA_TABLE, used, rule, conclusion, 1, answer);
        printf("rule %" PRIu32 ": %s, %" PRIu32 " %" PRIu32 " %" PRIu32 "\n", rule,
            answer[0] == WELDRIKA_ACCEPTED ? "accepted" : "refused", answer[0], answer[1], answer[2]);
    }
    return 0;
}
