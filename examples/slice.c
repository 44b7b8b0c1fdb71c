/* slice: slices a tree of a network in memory to a target, and prints the counts, the flags and the tree's children, or the number of the refusal. */
#include "loqshyber.h"
#include <inttypes.h>
#include <stdio.h>

enum { INDICES = 3, LEAVES = 3, PLACES = 2 * (LEAVES - 1) };

static uint64_t ws[LOQSHYBER_SLICE_WORDS(1)];

/* three tables in a row, joined from the left; the first index is an output */
static void slice_row(size_t outputs_length, size_t words, uint32_t improving, uint16_t target)
{
    static const uint8_t weights[INDICES] = {1, 2, 1};
    static const uint8_t leg_counts[LEAVES] = {2, 2, 1};
    static const uint16_t legs[LEAVES][LOQSHYBER_LEGS] = {{0, 1}, {1, 2}, {2}};
    static const uint16_t outputs[] = {0};
    uint16_t tree[PLACES] = {0, 1, 3, 2};
    uint8_t flags[INDICES];
    uint64_t answer[LOQSHYBER_COUNTS];
    uint32_t refusal = loqshyber_slice_tree(weights, INDICES, leg_counts, LEAVES, legs[0], LEAVES * LOQSHYBER_LEGS, outputs, outputs_length,
        tree, PLACES, flags, INDICES, ws, words, answer, LOQSHYBER_COUNTS, improving, target);
    if (refusal != 0) {
        printf("refused %" PRIu32 "\n", refusal);
        return;
    }
    printf("improved %" PRIu64 " splits %" PRIu64 " flags", answer[0], answer[1]);
    for (int j = 0; j < INDICES; j++)
        printf(" %d", flags[j]);
    printf(" tree");
    for (int i = 0; i < PLACES; i++)
        printf(" %d", tree[i]);
    printf("\n");
}

int main(void)
{
    slice_row(1, LOQSHYBER_SLICE_WORDS(0), 0, 3);
    slice_row(1, LOQSHYBER_SLICE_WORDS(0), 0, 2);
    slice_row(1, LOQSHYBER_SLICE_WORDS(1), 1, 2);
    slice_row(1, LOQSHYBER_SLICE_WORDS(0), 1, 2);
    slice_row(0, LOQSHYBER_SLICE_WORDS(0), 0, 2);
    slice_row(0, LOQSHYBER_SLICE_WORDS(1), 1, 2);
    return 0;
}
