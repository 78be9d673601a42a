/* Sogbayile: binder surgery on Event-B forms. The static library libsogbayile.a, for C on x86-64 Linux.
 *
 *   cd crates/sogbayile && rt lib        proves the crate and writes out/libsogbayile.a there
 *
 * ROWS. A form is a row of 32-bit words in prefix order; every row is passed as a pointer and its number of
 * words. Quantifiers with annotations have the tags 861, 862 (for 851, 852) and 871 to 873 (for 801 to 803): after
 * each declared name stands 0, or 1 and an expression, which stands outside the quantifier. A pointer is never
 * null, also where the number is 0, and is aligned for its words. A row that is written (out, work, starts, ends)
 * overlaps no other row of the same call.
 *
 * ANSWERS. Each call answers one number of 64 bits. The upper 32 bits are 0 for an answer and the number of
 * the refusal else. The lower 32 bits are
 *   - for an answer the length of what was written, 0 for a check and an offer;
 *   - for a refusal by 2 the position p: the words before word p, counted from 0, can go on to a row of the kind
 *     asked for within the limits, and with word p they cannot; where words ran out, p is the number of words. It
 *     counts over the form, or over the list where the form is right and the list is at fault;
 *   - for every other refusal 0.
 * An answer stands at the start of out; the words of out past its length are as they were. After a refusal all
 * of out is as it was. sgb_lift alone reads its upper 32 bits otherwise, and has no position.
 *
 * OWNERSHIP. All rows are the caller's. The library allocates nothing and keeps no pointer, has no state, and
 * may be called from several threads with rows of their own. A work row may hold anything before and after.
 *
 * STACK. As measured on long and deep rows, answered and refused (bench/stack.py), a call takes up to 360 KB of the
 * caller's stack: sgb_point 360 KB, sgb_member 262, sgb_named 201, sgb_fill 163, sgb_free 131, sgb_dangling 97,
 * sgb_prune 66, the others less than 49; on rows without annotations sgb_point 231, sgb_named 201, sgb_member 143,
 * sgb_fill and sgb_free 131, sgb_dangling 97, the others less than 49. sgb_run takes what the command's own call
 * takes. Where memcpy and its like are bound only by the first call, that call takes some 3 KB more.
 *
 * REFUSALS, in the order in which they are tested: 15, then 1 and 2 for each row (the form first, then the
 * list), 3, 4, 5, 6, 9, 7, 14; for offers 1, 2, 5, 10, 11, 12, 13.
 *
 * The gate holds the declarations and numbers of the commands against their proved table. Nothing checks the other
 * declarations against the library; rust/ and c/ call each of them in their tests. */
#ifndef SOGBAYILE_H
#define SOGBAYILE_H

#include <stddef.h>
#include <stdint.h>

#ifdef __cplusplus
extern "C" {
#endif

enum {
    SGB_TOO_LONG = 1,         /* a row longer than 8,192 words */
    SGB_NOT_A_FORM = 2,       /* a row that is not exactly one form, or list, within the limits; or no predicate where
                                 one is needed; or a tag 2 in a named row; the lower 32 bits are the position */
    SGB_NOT_QUANTIFIED = 3,   /* fill or prune of what is not 851, 852, 861 or 862 */
    SGB_BAD_NAMES = 4,        /* a name listed twice, a name over 65,535, over 32 names */
    SGB_BAD_COUNT = 5,        /* more places than declarations; over 32 declarations, for a set or a check of places */
    SGB_CAPTURE = 6,          /* a dangling index would come below its depth */
    SGB_OUTSIDE_LIMITS = 7,   /* a result outside the row limits */
    SGB_NO_COMMAND = 8,       /* a number that is no command's, in sgb_run */
    SGB_NOTHING_TO_DO = 9,    /* nothing to rewrite */
    SGB_NO_EQUALITY = 10,     /* an offer that is not 101 with a bound side */
    SGB_NO_TARGET = 11,       /* a target not below the number of declarations */
    SGB_USES_TARGET = 12,     /* a replacement with a dangling index not above its target */
    SGB_PLACE_FILLED = 13,    /* the place is filled */
    SGB_OUT_SHORT = 14,       /* the output row is shorter than the result */
    SGB_WORK_SHORT = 15       /* the work row is under 16,384 words */
};

#define SGB_MAX_WORDS 8192    /* of a row; an output row of this length is never too short */
#define SGB_WORK_WORDS 16384  /* of a work row of free, fill, point and member */
#define SGB_PLACES 32         /* of a set of places */

/* The number of the refusal, or 0; the length, where the number is 0; the position of a refusal by 2, and else 0. */
static inline uint32_t sgb_number(uint64_t answer) { return (uint32_t)(answer >> 32); }
static inline uint32_t sgb_length(uint64_t answer) { return (uint32_t)answer; }
static inline uint32_t sgb_position(uint64_t answer)
{
    return sgb_number(answer) == SGB_NOT_A_FORM ? (uint32_t)answer : 0;
}

/* Whether a row is exactly one form (of either kind, an expression, a predicate) within the limits. 1, 2. */
uint64_t sgb_check(const uint32_t *row, size_t row_len);
uint64_t sgb_check_expression(const uint32_t *row, size_t row_len);
uint64_t sgb_check_predicate(const uint32_t *row, size_t row_len);

/* Whether a row is a list: of names (1, 4); of a name and an expression in turn (1, 2, 4); of 0, or 1 and an
 * expression, for each of n declarations, of which places may be missing at the end (1, 2, 5). */
uint64_t sgb_check_names(const uint32_t *row, size_t row_len);
uint64_t sgb_check_pairs(const uint32_t *row, size_t row_len);
uint64_t sgb_check_places(const uint32_t *row, size_t row_len, uint32_t n);

/* Writes the indices that dangle in the form, each once, in rising order. 1, 2, 14. */
uint64_t sgb_dangling(const uint32_t *row, size_t row_len, uint32_t *out, size_t out_len);

/* Adds the offset to each dangling index. 1, 2, 6, 7, 14. */
uint64_t sgb_shift(const uint32_t *row, size_t row_len, int32_t offset, uint32_t *out, size_t out_len);

/* The form shifted up by the depth. The upper 32 bits of the answer say where it is: SGB_LIFT_BASE, all of base,
 * where the depth is 0 or nothing dangles; SGB_LIFT_WORK, at the start of work; SGB_LIFT_NONE, where shift would
 * refuse the base by 1 or 2, or the copy by 7 or 14 with work as its output. The lower 32 bits are the length.
 * The work row is as it was, but for the copy. */
enum { SGB_LIFT_NONE = 0, SGB_LIFT_BASE = 1, SGB_LIFT_WORK = 2 };
uint64_t sgb_lift(const uint32_t *base, size_t base_len, uint32_t depth, uint32_t *work, size_t work_len);

/* Puts the expressions of the list (name, expression, name, expression ..), lifted by the depth, for the free
 * names of the list. 15, 1, 2, 4, 7, 14. */
uint64_t sgb_free(const uint32_t *list, size_t list_len, const uint32_t *row, size_t row_len,
                  uint32_t *work, size_t work_len, uint32_t *out, size_t out_len);

/* Makes the names indices that dangle, the last name index 0. 1, 2, 4, 7, 14. */
uint64_t sgb_bind(const uint32_t *names, size_t names_len, const uint32_t *row, size_t row_len,
                  uint32_t *out, size_t out_len);

/* Puts the expressions of the list for the declarations of the quantified predicate. For each declaration the list has 0
 * (it is kept, with its annotation), or 1 and the expression. Declarations whose places are missing at the end of the
 * list are kept. 15, 1, 2, 3, 5, 7, 14. */
uint64_t sgb_fill(const uint32_t *list, size_t list_len, const uint32_t *row, size_t row_len,
                  uint32_t *work, size_t work_len, uint32_t *out, size_t out_len);

/* Drops the declarations that the body never uses, with their annotations; an annotation is no use. 1, 2, 3, 9, 7, 14. */
uint64_t sgb_prune(const uint32_t *row, size_t row_len, uint32_t *out, size_t out_len);

/* Reduces a quantified predicate by the first equality that its body offers. 15, 1, 2, 9, 7, 14. */
uint64_t sgb_point(const uint32_t *row, size_t row_len, uint32_t *work, size_t work_len,
                   uint32_t *out, size_t out_len);

/* Turns an element of a comprehension (107 with 803 or 873 on its right) into an existence, filled as far as its
 * equalities fix it. 15, 1, 2, 9, 7, 14. */
uint64_t sgb_member(const uint32_t *row, size_t row_len, uint32_t *work, size_t work_len,
                   uint32_t *out, size_t out_len);

/* Reads a form in which each occurrence is a name. Those that an enclosing declaration bears become indices, the innermost
 * first and, within one quantifier, the last first; the others stay free. The names of an annotation are looked up outside
 * its quantifier. A row with a tag 2 is refused by 2, at the first such tag or where it breaks before it. 1, 2, 14. */
uint64_t sgb_named(const uint32_t *row, size_t row_len, uint32_t *out, size_t out_len);

/* Any of the commands by its number, as its own call answers; one that takes no offset, no list or no work row does not
 * look at it. A number that is no command's is refused by 8. */
enum {
    SGB_SHIFT = 1,
    SGB_FREE = 2,
    SGB_BIND = 3,
    SGB_FILL = 4,
    SGB_PRUNE = 5,
    SGB_POINT = 6,
    SGB_MEMBER = 7,
    SGB_NAMED = 8
};
uint64_t sgb_run(uint32_t number, int32_t offset, const uint32_t *list, size_t list_len,
                 const uint32_t *row, size_t row_len, uint32_t *work, size_t work_len,
                 uint32_t *out, size_t out_len);

/* A set of places for n declarations: for each, the first declaration's first, where its replacement starts and
 * ends in the row that was offered. An end of 0 is a free place. n and the two arrays are the whole set.
 * sgb_places empties the arrays; over 32 declarations are refused by 5. */
uint64_t sgb_places(size_t n, size_t starts[SGB_PLACES], size_t ends[SGB_PLACES]);

/* Offers a predicate row to the set. A refusal (1, 2, 5, 10, 11, 12, 13) leaves the set as it was. */
uint64_t sgb_offer(size_t n, size_t starts[SGB_PLACES], size_t ends[SGB_PLACES],
                   const uint32_t *row, size_t row_len);

#ifdef __cplusplus
}
#endif

#endif
