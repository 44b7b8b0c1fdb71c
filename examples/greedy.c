/* greedy: plans networks in memory, and prints each plan's children, or the number of the refusal. */
#include "loqshyber.h"
#include <inttypes.h>
#include <stdio.h>

enum { LEAVES = 3, PLACES = 2 * (LEAVES - 1) };

static uint64_t ws[LOQSHYBER_WORDS];
static uint16_t tree[PLACES];

static void print_plan(uint32_t refusal, int places)
{
    if (refusal != 0) {
        printf("refused %" PRIu32 "\n", refusal);
        return;
    }
    printf("plan");
    for (int i = 0; i < places; i++)
        printf(" %d", tree[i]);
    printf("\n");
}

/* three tables in a row, the first index an output */
static void plan_row(size_t places)
{
    static const uint8_t weights[] = {1, 2, 1};
    static const uint8_t leg_counts[LEAVES] = {2, 2, 1};
    static const uint16_t legs[LEAVES][LOQSHYBER_LEGS] = {{0, 1}, {1, 2}, {2}};
    static const uint16_t outputs[] = {0};
    print_plan(loqshyber_greedy(weights, sizeof weights, leg_counts, LEAVES, legs[0], LEAVES * LOQSHYBER_LEGS, outputs, 1, tree, places, ws,
                   LOQSHYBER_WORDS),
        PLACES);
}

/* two tables that share an index; all indices are outputs, so what they make has 33 bits and those of `last` */
static void plan_wide(uint8_t last)
{
    const uint8_t weights[] = {8, 8, 8, 8, last, 1};
    static const uint8_t leg_counts[] = {3, 4};
    static const uint16_t legs[2][LOQSHYBER_LEGS] = {{0, 1, 5}, {2, 3, 4, 5}};
    static const uint16_t outputs[] = {0, 1, 2, 3, 4, 5};
    print_plan(loqshyber_greedy(weights, sizeof weights, leg_counts, 2, legs[0], 2 * LOQSHYBER_LEGS, outputs, 6, tree, 2, ws, LOQSHYBER_WORDS), 2);
}

int main(void)
{
    plan_row(PLACES);
    plan_row(PLACES - 1);
    plan_wide(7);
    plan_wide(8);
    return 0;
}
