/* plan: reads a network file from standard input and prints the text of its plan, or of its refusal; and whether a buffer that is too short gets the text's front. */
#include "loqshyber.h"
#include <stdio.h>
#include <string.h>

enum { INPUT = 131072, SHORT = 20 };

static uint8_t file[INPUT];
static uint8_t text[LOQSHYBER_TEXT];

int main(void)
{
    uint8_t front[SHORT + 1];
    size_t length = fread(file, 1, INPUT, stdin);
    size_t written = loqshyber_plan(file, length, text, LOQSHYBER_TEXT);
    fwrite(text, 1, written, stdout);
    front[SHORT] = 0xa5;
    size_t again = loqshyber_plan(file, length, front, SHORT);
    size_t held = written < SHORT ? written : SHORT;
    printf("a short buffer: %s\n", again == written && front[SHORT] == 0xa5 && memcmp(front, text, held) == 0 ? "same" : "other");
    return 0;
}
