/* memory: prices one tree of a network in memory, as it is and with one thing wrong in each of its parts, and prints what comes of it. */
#include "loqshyber.h"
#include <inttypes.h>
#include <stdio.h>

enum { LEAVES = 3, NODES = 2 * LEAVES - 1, STEPS = LEAVES - 1, INDICES = 3 };

static uint8_t weights[257] = {1, 2, 1};
static const uint8_t leg_counts[LEAVES] = {2, 2, 1};
static uint16_t legs[LEAVES][LOQSHYBER_LEGS] = {{0, 1}, {1, 2}, {2}};
static uint16_t outputs[] = {0};
static uint8_t flags[] = {0, 1};
static uint16_t tree[STEPS][2] = {{2, 1}, {3, 0}};

static uint64_t ws[LOQSHYBER_WORDS];
static uint64_t sets[NODES * LOQSHYBER_SET];
static uint16_t sizes[NODES], works[NODES], steps[STEPS * 5];
static uint64_t answer[LOQSHYBER_ANSWER];

static uint32_t priced(size_t indices, size_t answer_length)
{
    for (int i = 0; i < LOQSHYBER_WORDS; i++)
        ws[i] = 1;
    return loqshyber_tree_cost(weights, indices, leg_counts, LEAVES, legs[0], LEAVES * LOQSHYBER_LEGS, outputs, 1, flags, sizeof flags,
        tree[0], STEPS * 2, ws, LOQSHYBER_WORDS, sets, NODES * LOQSHYBER_SET, sizes, NODES, works, NODES, steps, STEPS * 5, answer, answer_length);
}

/* the number, what the workspace holds, and whether any list was written, all of them being 0 before */
static void told(uint32_t number)
{
    uint64_t words = 0, written = 0;
    for (int i = 0; i < LOQSHYBER_WORDS; i++)
        words += ws[i];
    for (int i = 0; i < NODES * LOQSHYBER_SET; i++)
        written |= sets[i];
    for (int v = 0; v < NODES; v++)
        written |= sizes[v] | works[v];
    for (int i = 0; i < STEPS * 5; i++)
        written |= steps[i];
    for (int i = 0; i < LOQSHYBER_ANSWER; i++)
        written |= answer[i];
    if (number == 0)
        printf("answered");
    else
        printf("refused %" PRIu32, number);
    printf(", workspace %s, lists %s\n", words == 0 ? "zero" : words == LOQSHYBER_WORDS ? "kept" : "other", written ? "written" : "kept");
}

static void damaged16(uint16_t *place, uint16_t wrong)
{
    uint16_t right = *place;
    *place = wrong;
    told(priced(INDICES, LOQSHYBER_ANSWER));
    *place = right;
}

static void damaged8(uint8_t *place, uint8_t wrong)
{
    uint8_t right = *place;
    *place = wrong;
    told(priced(INDICES, LOQSHYBER_ANSWER));
    *place = right;
}

int main(void)
{
    told(priced(sizeof weights, LOQSHYBER_ANSWER));
    damaged8(&weights[1], 9);
    damaged16(&outputs[0], INDICES);
    damaged16(&legs[0][1], 0);
    told(priced(INDICES, LOQSHYBER_ANSWER - 1));
    damaged16(&tree[0][0], 3);
    damaged8(&flags[1], 2);
    told(priced(INDICES, LOQSHYBER_ANSWER));
    for (int v = 0; v < NODES; v++)
        printf("node %d set %" PRIu64 " size %d work %d\n", v, sets[v * LOQSHYBER_SET], sizes[v], works[v]);
    for (int i = 0; i < STEPS * 5; i += 5)
        printf("step %d %d %d %d %d\n", steps[i], steps[i + 1], steps[i + 2], steps[i + 3], steps[i + 4]);
    for (int i = 0; i < LOQSHYBER_ANSWER; i++)
        printf("answer %" PRIu64 "\n", answer[i]);
    return 0;
}
