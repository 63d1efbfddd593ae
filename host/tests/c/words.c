/*
 * Prints the words that sheets need, by the header: each sheet comes on standard input as its length
 * in decimal, byte 10 and its bytes.
 */
#include <inttypes.h>
#include <stdio.h>

#include "yukhtsami.h"

static uint8_t sheet[YUKHTSAMI_LONGEST_SHEET];

int main(void)
{
    size_t length;

    while (scanf("%zu", &length) == 1) {
        if (getchar() != '\n' || length > sizeof sheet || fread(sheet, 1, length, stdin) != length)
            return 1;
        printf("%" PRIu64 "\n", yukhtsami_words_needed(sheet, length));
    }
    return 0;
}
