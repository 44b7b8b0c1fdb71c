/* bisection: plans a network in memory by bisection, and prints how many words were taken and the plan's children, or the number of the refusal. */
#include "loqshyber.h"
#include <inttypes.h>
#include <stdio.h>

enum { INDICES = 11, LEAVES = 7, PLACES = 2 * (LEAVES - 1), DRAWS = 381 };

static uint64_t ws[LOQSHYBER_BISECTION_WORDS];
static uint64_t draws[DRAWS];

/* seven tables in a row, each with an index of the one before it; two indices are outputs. A plan of it takes 381 words. */
static void bisect_row(size_t draws_length, size_t places, size_t answer_length, size_t imbalance)
{
    static const uint8_t weights[INDICES] = {1, 2, 0, 0, 1, 0, 0, 2, 0, 0, 0};
    static const uint8_t leg_counts[LEAVES] = {2, 2, 2, 2, 2, 2, 2};
    static const uint16_t legs[LEAVES][LOQSHYBER_LEGS] = {{1, 0}, {2, 1}, {3, 2}, {4, 3}, {5, 4}, {6, 5}, {7, 6}};
    static const uint16_t outputs[] = {4, 5};
    uint16_t tree[PLACES];
    uint64_t answer[LOQSHYBER_TAKEN];
    uint32_t refusal = loqshyber_bisection(weights, INDICES, leg_counts, LEAVES, legs[0], LEAVES * LOQSHYBER_LEGS, outputs, 2, draws, draws_length,
        tree, places, ws, LOQSHYBER_BISECTION_WORDS, answer, answer_length, imbalance, 2);
    if (refusal != 0) {
        printf("refused %" PRIu32 "\n", refusal);
        return;
    }
    printf("taken %" PRIu64 " plan", answer[0]);
    for (int i = 0; i < PLACES; i++)
        printf(" %d", tree[i]);
    printf("\n");
}

int main(void)
{
    for (uint64_t k = 0; k < DRAWS; k++)
        draws[k] = (k + 1) * UINT64_C(4412228920214618113);
    bisect_row(DRAWS, PLACES, LOQSHYBER_TAKEN, 180);
    bisect_row(DRAWS - 1, PLACES, LOQSHYBER_TAKEN, 180);
    bisect_row(DRAWS, PLACES - 1, LOQSHYBER_TAKEN, 180);
    bisect_row(DRAWS, PLACES, 0, 180);
    bisect_row(DRAWS, PLACES, LOQSHYBER_TAKEN, 1001);
    return 0;
}
