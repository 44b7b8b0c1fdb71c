/* prices: reads a network file from standard input and prints the prices of its plan, or the number of the refusal. */
#include "loqshyber.h"
#include <inttypes.h>
#include <stdio.h>

/* No accepted file is longer, and a longer file is refused by its first bytes. */
enum { INPUT = 131072 };

static uint8_t file[INPUT];
static uint8_t listing[LOQSHYBER_MOST];

static uint64_t number(const uint8_t *bytes, int count)
{
    uint64_t value = 0;
    for (int i = 0; i < count; i++)
        value = value << 8 | bytes[i];
    return value;
}

static void print_step(const uint8_t *step)
{
    printf("step");
    for (int i = 0; i < LOQSHYBER_STEP; i += 2)
        printf(" %" PRIu64, number(step + i, 2));
    printf("\n");
}

int main(void)
{
    size_t length = fread(file, 1, INPUT, stdin);
    uint32_t refusal = loqshyber_price(file, length, listing, sizeof listing);
    if (refusal != 0) {
        printf("refused %" PRIu32 "\n", refusal);
        return 0;
    }
    uint64_t steps = number(listing, 2);
    for (uint64_t i = 0; i < steps; i++)
        print_step(listing + LOQSHYBER_HEAD + LOQSHYBER_STEP * i);
    if (listing[2] == 0)
        printf("total %" PRIu64 "\n", number(listing + 3, 8));
    else
        printf("total beyond\n");
    if (listing[11] == 0)
        printf("widest -\n");
    else
        printf("widest %" PRIu64 "\n", number(listing + 12, 2));
    printf("bits %" PRIu64 "\n", number(listing + 14, 2));
    return 0;
}
