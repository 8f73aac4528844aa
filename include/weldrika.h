/*
 * Weldrika: checks of the quantifier steps of Alethe proofs, over a packed pool of terms. Link libweldrika.a, which
 * `rt lib` in crates/weldrika writes. README.md has the form of a pool and of a step file, the rules and the answers.
 *
 * Every call ends, with an answer, whatever the numbers are that its arrays hold, and whatever lengths, counts and places it is
 * given. It asks of its caller only that:
 *   - each pointer is aligned and not null, also where its length is 0, and as many elements can be read there, or written if it
 *     is not const, as the length after it says, or the array bound;
 *   - an array that is not const overlaps no other array of the call, and no other thread uses it during the call; none writes a
 *     const one;
 *   - the stack has room: 8 MB are enough for the deepest terms tried, and 1.5 MB are not.
 * A length is in elements. No call allocates memory, touches anything but its arrays and its stack, or keeps a pointer.
 *
 * A pool is tags and values, two arrays of one length, of which the first n cells are used. Each call on a pool stands here twice,
 * for tags in bytes (_u8) and tags in 32 bits (_u32), with the same answers. `table` has the sort rules of the operators:
 * weldrika_built_in_table gives the built-in one.
 *
 * An answer is written as three numbers: the code (0 is acceptance), and two numbers that it carries, 0 where none is named.
 * Every call on a pool begins with the pool check. With answer 30 it changes nothing else, and no call changes a cell below n.
 */
#ifndef WELDRIKA_H
#define WELDRIKA_H

#include <stdbool.h>
#include <stddef.h>
#include <stdint.h>

#ifdef __cplusplus
extern "C" {
#endif

/* Sizes of arrays, in elements. */
#define WELDRIKA_ANSWER 3           /* numbers of an answer */
#define WELDRIKA_TABLE 135          /* entries of a table of sort rules */
#define WELDRIKA_CELLS 8192         /* cells of a pool, at most */
#define WELDRIKA_LITERALS 8192      /* of a clause list, at most: the least length of `literals` */
#define WELDRIKA_CLAUSES 2048       /* of a clause list, at most: the least length of `ends` */
#define WELDRIKA_STEPS 256          /* steps of a file, at most */
#define WELDRIKA_STEP_FILE 67592    /* bytes of a step file, at most */
#define WELDRIKA_TEXT 11264         /* bytes of the text that answers a step file: the least length of `out` */

/* The rules, by their codes. */
enum {
    WELDRIKA_QNT_JOIN = 1,
    WELDRIKA_QNT_RM_UNUSED = 2,
    WELDRIKA_QNT_CNF = 3,
    WELDRIKA_MINISCOPE_DISTRIBUTE = 4,
    WELDRIKA_MINISCOPE_SPLIT = 5,
    WELDRIKA_MINISCOPE_ITE = 6
};

/* The codes of answers, and the numbers that each carries. */
enum {
    WELDRIKA_ACCEPTED = 0,
    WELDRIKA_NOT_ONE_TERM = 1,          /* the conclusion is not one place: how many it is */
    WELDRIKA_WRONG_FORM = 2,            /* a term has another form than the rule's: its place */
    WELDRIKA_NO_QUANTIFIER = 3,         /* a quantifier is wanted: the place found */
    WELDRIKA_OTHER_QUANTIFIER = 4,      /* another quantifier is wanted: both tags */
    WELDRIKA_TERMS_DIFFER = 5,          /* both places */
    WELDRIKA_LISTS_DIFFER = 6,          /* binding lists: the places of both quantifiers */
    WELDRIKA_NOT_JOINED = 7,            /* the right list is not the left ones joined: both places */
    WELDRIKA_NEW_VARIABLE = 8,          /* a variable on the right that the left does not offer: its name */
    WELDRIKA_MISSING_VARIABLE = 9,      /* a variable that the right must bind: its name */
    WELDRIKA_NO_CLAUSE = 10,            /* the right body is no clause of the left: its place */
    WELDRIKA_OPERAND_COUNTS = 11,       /* the sides have different numbers of operands: wanted, found */
    WELDRIKA_STILL_FREE = 12,           /* a variable is still free on the right: its name, the term's place */
    WELDRIKA_EMPTY_OR = 13,             /* an `or` without operands is reached */
    WELDRIKA_ILL_FORMED = 14,           /* the pool's first bad header: its place, 0 if n is 0 */
    WELDRIKA_REPEATED = 15,             /* the first header that repeats an earlier one: its place */
    WELDRIKA_WRONG_SORT = 16,           /* the first term that states a sort that its operands do not give: its place */
    WELDRIKA_NO_TERM = 17,              /* the place is no term's: it */
    WELDRIKA_UNKNOWN_RULE = 18,         /* no rule has this code: it */
    WELDRIKA_BAD_ARRAYS = 30,           /* tags and values differ in length, n passes them or 8,192, a lent array is too short */
    WELDRIKA_NO_ROOM = 31,              /* new terms would take the count past the arrays or 8,192 */
    WELDRIKA_TOO_MANY_CLAUSES = 32,     /* over 2,048 clauses or 8,192 literals */
    WELDRIKA_BAD_TABLE = 40,            /* the table has not 135 entries: 135; or an entry that is not allowed: which */
    WELDRIKA_NOT_BOOL = 41              /* the entry of Not, Implies, And, Or or Equals is not Bool: which */
};

/* ---- Step files */

/* Writes the text that answers a step file to the front of out, under the built-in table, and gives its length. The text has a
 * line for each step, its number and its answer; a file that cannot be read has one line, `0 30 0 0` or `0 14 0 0`. The rest of out is
 * as it was. An out of under 11,264 bytes is left as it was, and 0 is given. What holds of an accepted step stands at weldrika_check. */
size_t weldrika_answer_file(const uint8_t *input, size_t input_length, uint8_t *out, size_t out_length);

/* The same under a table. One that would not load answers every step, with 40 or 41. */
size_t weldrika_answer_file_by(const uint8_t *input, size_t input_length, const uint32_t *table, size_t table_length, uint8_t *out,
    size_t out_length);

/* ---- Tables of sort rules */

/* Writes the built-in table. An entry is the sort of the operator's terms: 0 Bool, 1 Int, 2 Real, 3 String, 4 RegLan, 5 the first
 * operand's, 6 the second's, 7 one that none of these describes. */
void weldrika_built_in_table(uint32_t table[WELDRIKA_TABLE]);

/* Accepted, the table holds the entries; refused (40, 41) it is as it was. 7 is allowed only where the built-in table has it. */
void weldrika_load_table(const uint32_t *entries, size_t entries_length, uint32_t table[WELDRIKA_TABLE],
    uint32_t answer[WELDRIKA_ANSWER]);

/* ---- Calls on a pool */

/* The pool check: 30, 40, 41, 14, 15, 16 in this order, or 0. */
void weldrika_check_pool_u8(const uint8_t *tags, size_t tags_length, const uint32_t *values, size_t values_length, const uint32_t *table,
    size_t table_length, size_t n, uint32_t answer[WELDRIKA_ANSWER]);
void weldrika_check_pool_u32(const uint32_t *tags, size_t tags_length, const uint32_t *values, size_t values_length,
    const uint32_t *table, size_t table_length, size_t n, uint32_t answer[WELDRIKA_ANSWER]);

/* The sort of the term at t. Accepted, the first number is the sort's place. Refusals: the pool check's, 17. */
void weldrika_sort_of_term_u8(const uint8_t *tags, size_t tags_length, const uint32_t *values, size_t values_length,
    const uint32_t *table, size_t table_length, size_t n, uint32_t t, uint32_t answer[WELDRIKA_ANSWER]);
void weldrika_sort_of_term_u32(const uint32_t *tags, size_t tags_length, const uint32_t *values, size_t values_length,
    const uint32_t *table, size_t table_length, size_t n, uint32_t t, uint32_t answer[WELDRIKA_ANSWER]);

/* The free variables of the term at t. Accepted, marks is 1 at the place of each, and 0 elsewhere; refused, all 0, but as it was at
 * 30. Refusals: the pool check's (30 also where marks is shorter than n), 17. */
void weldrika_free_vars_u8(const uint8_t *tags, size_t tags_length, const uint32_t *values, size_t values_length, const uint32_t *table,
    size_t table_length, size_t n, uint32_t t, uint8_t *marks, size_t marks_length, uint32_t answer[WELDRIKA_ANSWER]);
void weldrika_free_vars_u32(const uint32_t *tags, size_t tags_length, const uint32_t *values, size_t values_length,
    const uint32_t *table, size_t table_length, size_t n, uint32_t t, uint8_t *marks, size_t marks_length,
    uint32_t answer[WELDRIKA_ANSWER]);

/* The normal form of the term at t. In every reading it has the term's value, or at polarity false the negated one. Accepted, the
 * numbers are its place and the new count; the new terms stand from n on, all cells past them are 0, and the pool so left passes the
 * pool check. Refused, but for 30, all cells from n on are 0. Refusals: the pool check's, 17, 31. */
void weldrika_normal_form_u8(uint8_t *tags, size_t tags_length, uint32_t *values, size_t values_length, const uint32_t *table,
    size_t table_length, size_t n, uint32_t t, bool polarity, uint32_t answer[WELDRIKA_ANSWER]);
void weldrika_normal_form_u32(uint32_t *tags, size_t tags_length, uint32_t *values, size_t values_length, const uint32_t *table,
    size_t table_length, size_t n, uint32_t t, bool polarity, uint32_t answer[WELDRIKA_ANSWER]);

/* The clause list of the term at t: that of its normal form with foralls taken out. Accepted, the numbers are its clauses and its
 * literals, and the new count is given back. literals has the places of the literals, clause by clause; ends has for each clause how many
 * literals there are up to its last; what is past them is 0. The cells are left as by weldrika_normal_form. If no forall is reached
 * in the term, its clauses together have its value in every reading. Refused, 0 is given back, and but for 30 literals, ends and all cells
 * from n on are 0. Refusals: the pool check's (30 also for under 8,192 literals or 2,048 ends), 17, 31, 13, 32. */
uint32_t weldrika_clause_list_u8(uint8_t *tags, size_t tags_length, uint32_t *values, size_t values_length, const uint32_t *table,
    size_t table_length, size_t n, uint32_t t, uint32_t *literals, size_t literals_length, uint32_t *ends, size_t ends_length,
    uint32_t answer[WELDRIKA_ANSWER]);
uint32_t weldrika_clause_list_u32(uint32_t *tags, size_t tags_length, uint32_t *values, size_t values_length, const uint32_t *table,
    size_t table_length, size_t n, uint32_t t, uint32_t *literals, size_t literals_length, uint32_t *ends, size_t ends_length,
    uint32_t answer[WELDRIKA_ANSWER]);

/* The check of a step: its rule, and its conclusion as a list of one place. It accepts exactly the conclusions of the rule, rule 3
 * within the limits 31, 13 and 32; and what it accepts is true in every reading, under the premises of docs/PROMISES.md. Rule 3
 * builds terms from n on to answer, and leaves all cells from n on 0 with every answer but 30; no other rule changes a cell.
 * Refusals: the pool check's, 18, 1, 17, and then those of the rule. */
void weldrika_check_u8(uint8_t *tags, size_t tags_length, uint32_t *values, size_t values_length, const uint32_t *table,
    size_t table_length, size_t n, uint32_t rule, const uint32_t *conclusion, size_t conclusion_length,
    uint32_t answer[WELDRIKA_ANSWER]);
void weldrika_check_u32(uint32_t *tags, size_t tags_length, uint32_t *values, size_t values_length, const uint32_t *table,
    size_t table_length, size_t n, uint32_t rule, const uint32_t *conclusion, size_t conclusion_length,
    uint32_t answer[WELDRIKA_ANSWER]);

#ifdef __cplusplus
}
#endif

#endif
