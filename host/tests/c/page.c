/*
 * Asks for the page of a sheet with a byte too little and with just enough, and prints the refusal, the
 * number of the refusal of too many pages, what was given, and the page.
 */
#include <stdio.h>
#include <stdlib.h>

#include "yukhtsami.h"

int main(void)
{
    static const char text[] = "kind=unify\nfuel=1\n";
    static uint8_t page[YUKHTSAMI_PAGE_BYTES];
    const uint8_t *sheet = (const uint8_t *)text;
    const size_t length = sizeof text - 1;
    const size_t words = (size_t)yukhtsami_words_needed(sheet, length);
    uint32_t *work = (uint32_t *)calloc(words, sizeof *work);
    struct yukhtsami_reply reply;

    if (!work || YUKHTSAMI_MOST_PAGES != 9999)
        return 1;
    reply = yukhtsami_page(sheet, length, work, words, page, sizeof page - 1);
    printf("%u %zu\n", (unsigned)reply.refusal, reply.written);
    printf("%u\n", (unsigned)YUKHTSAMI_TOO_MANY_PAGES);
    reply = yukhtsami_page(sheet, length, work, words, page, sizeof page);
    printf("%u %zu\n", (unsigned)reply.refusal, reply.written);
    fwrite(page, 1, reply.written, stdout);
    free(work);
    return 0;
}
