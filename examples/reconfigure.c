/* reconfigure: improves trees of a network in memory, and prints the counts and the tree's children, or the number of the refusal. */
#include "loqshyber.h"
#include <inttypes.h>
#include <stdio.h>

enum { LEAVES = 3, PLACES = 2 * (LEAVES - 1), K = 8 };

static uint64_t ws[LOQSHYBER_IMPROVE_WORDS(K)];

/* three tables in a row, joined from the left; the first index is an output */
static void improve_row(size_t outputs_length, size_t passes, uint32_t limit)
{
    static const uint8_t weights[] = {1, 2, 1};
    static const uint8_t leg_counts[LEAVES] = {2, 2, 1};
    static const uint16_t legs[LEAVES][LOQSHYBER_LEGS] = {{0, 1}, {1, 2}, {2}};
    static const uint16_t outputs[] = {0};
    static const uint8_t flags[] = {0};
    uint16_t tree[PLACES] = {0, 1, 3, 2};
    uint64_t answer[LOQSHYBER_COUNTS];
    uint32_t refusal = loqshyber_reconfigure(weights, sizeof weights, leg_counts, LEAVES, legs[0], LEAVES * LOQSHYBER_LEGS, outputs, outputs_length,
        flags, sizeof flags, tree, PLACES, ws, sizeof ws / sizeof ws[0], answer, LOQSHYBER_COUNTS, K, passes, limit);
    if (refusal != 0) {
        printf("refused %" PRIu32 "\n", refusal);
        return;
    }
    printf("improved %" PRIu64 " splits %" PRIu64 " tree", answer[0], answer[1]);
    for (int i = 0; i < PLACES; i++)
        printf(" %d", tree[i]);
    printf("\n");
}

int main(void)
{
    improve_row(1, 4, LOQSHYBER_NO_LIMIT);
    improve_row(1, 1, LOQSHYBER_NO_LIMIT);
    improve_row(1, 4, 0);
    improve_row(1, 256, LOQSHYBER_NO_LIMIT);
    improve_row(0, 4, LOQSHYBER_NO_LIMIT);
    return 0;
}
