/* Loqshyber for a C host: the prices of a contraction plan, the greedy plan, the plan by bisection, a plan improved, a plan sliced, and the text
 * of a file's plan.
 *
 * Each function but loqshyber_plan returns 0, or the number of the refusal. Each list is a pointer and a length in its own units. The pointer is not null, and is aligned
 * as C has it for the list's type; for an empty list any such pointer will do. No list that is written overlaps another. A list that is
 * written and is shorter than stated is refused 7, but by loqshyber_plan; one that is longer keeps its places past the stated ones. A tree that is changed
 * where it stands is read first: one that has not just n - 1 nodes is refused 8. */
#ifndef LOQSHYBER_H
#define LOQSHYBER_H

#include <stddef.h>
#include <stdint.h>

/* The refusals. Of a file's own the first that its bytes meet decides; of all others the lowest, but for 12 and 13, which come as the run meets them. */
#define LOQSHYBER_TRUNCATED 1      /* a field of the file, or the file before its outputs, ends early */
#define LOQSHYBER_WRONG_TAG 2      /* a tag that is not allowed at its place */
#define LOQSHYBER_TOO_LARGE 3      /* over 128 leaves, 256 indices, 32 indices of a leaf or 32 outputs; over 255 passes; an imbalance over 1000; a target field not of one byte */
#define LOQSHYBER_OVERWEIGHT 4     /* a weight above 8 */
#define LOQSHYBER_OUT_OF_RANGE 5   /* an index that is not below the number of indices */
#define LOQSHYBER_REPEATED 6       /* an index twice in a leaf or in the outputs */
#define LOQSHYBER_SHORT_BUFFER 7   /* a list to be written, or the workspace, is shorter than stated */
#define LOQSHYBER_INVALID_TREE 8   /* a tree that is not valid for this number of leaves, or of odd length */
#define LOQSHYBER_INVALID_FLAGS 9  /* more flags than indices, or a flag over 1 */
#define LOQSHYBER_TOTAL_BEYOND 10  /* improvement and slicing: the total is 2^53 or more */
#define LOQSHYBER_DANGLING 11      /* improvement, and slicing with it: an index that just one leaf names, and that is no output */
#define LOQSHYBER_TABLE_TOO_WIDE 12 /* greedy, and bisection's small ends: a scored pair has a table, or makes one, of over 40 bits */
#define LOQSHYBER_DRAWS_EXHAUSTED 13 /* bisection: a draw is due and no word is left */

/* loqshyber_price reads a network file with its tree, and flags if it has them, and writes the plan's listing to `out`.
 * It refuses 1 to 9; a file of two leaves or more without a tree is refused 8. After a refusal `out` is as it was.
 *
 * The listing, every number high byte first:
 *   steps        2 bytes
 *   total        1 byte (0: exact, 1: beyond), 8 bytes (the total; 0 if beyond)
 *   widest       1 byte (0: none, 1: bits), 2 bytes (size bits; 0 if none)
 *   slice bits   2 bytes
 *   each step    10 bytes: node, left, right, work bits, size bits, 2 bytes each
 * that is LOQSHYBER_HEAD + LOQSHYBER_STEP * steps bytes, and LOQSHYBER_MOST at most. Bytes of `out` past them stay as they were. */
#define LOQSHYBER_HEAD 16
#define LOQSHYBER_STEP 10
#define LOQSHYBER_MOST (LOQSHYBER_HEAD + LOQSHYBER_STEP * 127)

uint32_t loqshyber_price(const uint8_t *file, size_t file_length, uint8_t *out, size_t out_length);

/* loqshyber_tree_cost prices a tree of a network in memory. It refuses 3 to 9. With n leaves there are n - 1 steps and 2n - 1 nodes
 * (none without leaves): leaves are 0 to n - 1, inner node j is n + j.
 *
 * What is read:
 *   weights      the weight of each index
 *   leg_counts   how many indices each leaf has
 *   legs         LOQSHYBER_LEGS places a leaf, of which the leaf's indices are the first; a place past the end counts as 0
 *   outputs      the output indices
 *   flags        1 for each index that is sliced; an index past the end is not
 *   tree         the left and the right child of each inner node
 * What is written, from the front, after an answer, so many places of each; after a refusal all but `ws` is as it was:
 *   ws           LOQSHYBER_WORDS words, 0 afterwards; after refusals 3 to 7 as they were
 *   sets         LOQSHYBER_SET words a node: the indices that it lists; index i is binary digit i % 64, lowest first, of word i / 64
 *   sizes        a number a node: its size bits
 *   works        a number a node: its work bits, 0 for a leaf
 *   steps        5 numbers a step: node, left, right, work bits, size bits
 *   answer       LOQSHYBER_ANSWER numbers: 0 and the total, or 1 and 0 if it is beyond; 0 without leaves, else one more than the widest
 *                table's size bits; the slice bits */
#define LOQSHYBER_LEGS 32
#define LOQSHYBER_WORDS 4096
#define LOQSHYBER_SET 4
#define LOQSHYBER_ANSWER 4

uint32_t loqshyber_tree_cost(const uint8_t *weights, size_t weights_length, const uint8_t *leg_counts, size_t leg_counts_length,
    const uint16_t *legs, size_t legs_length, const uint16_t *outputs, size_t outputs_length, const uint8_t *flags, size_t flags_length,
    const uint16_t *tree, size_t tree_length, uint64_t *ws, size_t ws_length, uint64_t *sets, size_t sets_length,
    uint16_t *sizes, size_t sizes_length, uint16_t *works, size_t works_length, uint16_t *steps, size_t steps_length,
    uint64_t *answer, size_t answer_length);

/* loqshyber_greedy plans a network in memory, which is read as above: the greedy plan (alpha 1, temperature 0).
 *
 * What is written:
 *   tree         the left and the right child of each inner node, n - 1 nodes from the front; after a refusal `tree` is as it was
 *   ws           LOQSHYBER_WORDS words, 0 afterwards; after refusals 3 to 7 as they were
 * It refuses 3 to 7 for what it is lent, and 12 where two tables that share an index are scored and one of them, or the table that they make,
 * is over 40 bits. */
uint32_t loqshyber_greedy(const uint8_t *weights, size_t weights_length, const uint8_t *leg_counts, size_t leg_counts_length,
    const uint16_t *legs, size_t legs_length, const uint16_t *outputs, size_t outputs_length, uint16_t *tree, size_t tree_length,
    uint64_t *ws, size_t ws_length);

/* loqshyber_bisection plans a network in memory, which is read as above, by recursive bisection: the leaves are halved by a partition of their hypergraph,
 * each half again, down to at most `cutoff` leaves (less than 2 counts as 2), which are planned as loqshyber_greedy plans.
 *
 *   draws        the words that stand for a random generator's; a draw takes one, from the front on
 *   imbalance    0 to 1000, in thousandths: a side of n leaves may have n / 2 and so much of n / 2 more, but at least n / 2 + 1, and no more than 95 of a hundred
 *                where that is more than n / 2 + 1; less than 1 counts as 1, more than 900 as 900
 * What is written:
 *   tree         the left and the right child of each inner node, n - 1 nodes from the front; after a refusal `tree` is as it was
 *   ws           LOQSHYBER_BISECTION_WORDS words, 0 afterwards; after refusals 3 to 7 as they were
 *   answer       LOQSHYBER_TAKEN number: how many words of `draws` were taken; after a refusal as it was
 * It refuses 3 to 7 for what it is lent, 12 as loqshyber_greedy does, and 13 where a draw is due and no word is left. */
#define LOQSHYBER_BISECTION_WORDS 32768
#define LOQSHYBER_TAKEN 1

uint32_t loqshyber_bisection(const uint8_t *weights, size_t weights_length, const uint8_t *leg_counts, size_t leg_counts_length,
    const uint16_t *legs, size_t legs_length, const uint16_t *outputs, size_t outputs_length, const uint64_t *draws, size_t draws_length,
    uint16_t *tree, size_t tree_length, uint64_t *ws, size_t ws_length, uint64_t *answer, size_t answer_length, size_t imbalance, size_t cutoff);

/* loqshyber_reconfigure improves a tree of a network in memory, which is read as above with its flags: `passes` passes over its nodes, of which the last is the
 * first that rebuilds nothing. The part of the tree below a node, down to at most `k` tables (3 to 12: less counts as 3, more as 12), is rebuilt where
 * a cheaper tree over these tables is found. The total never rises.
 *
 *   passes       0 to 255
 *   limit        the most size bits of a table that a rebuild makes; LOQSHYBER_NO_LIMIT or more: no limit. A table that stands at the top of a part is made
 *                whatever its size.
 * What is written:
 *   tree         improved where it stands; after a refusal `tree` is as it was
 *   ws           LOQSHYBER_IMPROVE_WORDS(k) words, 0 afterwards; after refusals 3 to 7 as they were. The macro takes a k of 3 to 12
 *   answer       LOQSHYBER_COUNTS numbers: rebuilds, and splits tried; after a refusal as it was
 * It refuses 3 to 9 for what it is lent, 10 where the tree's total with these flags is beyond, and 11 for an index that is no output and stands in just one leaf. */
#define LOQSHYBER_NO_LIMIT 65536
#define LOQSHYBER_IMPROVE_WORDS(k) (4096 + ((size_t)8 << (k)))
#define LOQSHYBER_COUNTS 2

uint32_t loqshyber_reconfigure(const uint8_t *weights, size_t weights_length, const uint8_t *leg_counts, size_t leg_counts_length,
    const uint16_t *legs, size_t legs_length, const uint16_t *outputs, size_t outputs_length, const uint8_t *flags, size_t flags_length,
    uint16_t *tree, size_t tree_length, uint64_t *ws, size_t ws_length, uint64_t *answer, size_t answer_length,
    size_t k, size_t passes, uint32_t limit);

/* loqshyber_slice_tree slices a tree of a network in memory, which is read as above: from no flag on, one index after another is flagged, the one
 * after which the work of all slices together is least, until no table is over `target` size bits or no table over it has an index that may be flagged (no output, weight over 0).
 *
 *   improving    0: the tree is left as it is; else after each choice one pass of improvement follows, with k = 8 and the widest table's size bits, or
 *                the target where it is larger, as the limit
 * What is written:
 *   tree         with improvement improved where it stands; after a refusal `tree` is as it was
 *   flags        a number an index: 1 if it is sliced, else 0; after a refusal as they were
 *   ws           LOQSHYBER_SLICE_WORDS(improving) words, 0 afterwards; after refusals 3 to 7 as they were
 *   answer       LOQSHYBER_COUNTS numbers: rebuilds, and splits tried, over all passes; after a refusal as it was
 * It refuses 3 to 8 for what it is lent, 10 where the unsliced total is beyond, and with improvement 11 for an index that is no output and stands in just one
 * leaf; 10 and 11 even if nothing need be sliced. */
#define LOQSHYBER_SLICE_WORDS(improving) ((improving) ? LOQSHYBER_IMPROVE_WORDS(8) : (size_t)LOQSHYBER_WORDS)

uint32_t loqshyber_slice_tree(const uint8_t *weights, size_t weights_length, const uint8_t *leg_counts, size_t leg_counts_length,
    const uint16_t *legs, size_t legs_length, const uint16_t *outputs, size_t outputs_length, uint16_t *tree, size_t tree_length,
    uint8_t *flags, size_t flags_length, uint64_t *ws, size_t ws_length, uint64_t *answer, size_t answer_length, uint32_t improving, uint16_t target);

/* loqshyber_plan is the program `plan`: it reads a network file, takes its tree or greedy's, improves it (k = 8, four passes, the file's flags), slices it
 * to the file's target, if there is one, and writes the text of the plan, or `refused` and the number, to the front of `out`. It returns the text's
 * length, at most LOQSHYBER_TEXT bytes; a shorter `out` gets the text's front. */
#define LOQSHYBER_TEXT 131072

size_t loqshyber_plan(const uint8_t *file, size_t file_length, uint8_t *out, size_t out_length);

#endif
