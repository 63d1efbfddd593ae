/*
 * Lends nothing, with null pointers where the length is 0, and prints the refusals of each call: of the
 * empty sheet, of a sheet without work area, and of a sheet without output.
 */
#include <stdio.h>
#include <stdlib.h>

#include "yukhtsami.h"

typedef struct yukhtsami_reply call(const uint8_t *, size_t, uint32_t *, size_t, uint8_t *, size_t);

static void print(struct yukhtsami_reply reply)
{
    printf("%u %zu\n", (unsigned)reply.refusal, reply.written);
}

int main(void)
{
    static const char text[] = "kind=unify\nfuel=1\n";
    static call *const calls[] = {yukhtsami_answer, yukhtsami_page};
    const uint8_t *sheet = (const uint8_t *)text;
    const size_t length = sizeof text - 1;
    const uint64_t needed = yukhtsami_words_needed(sheet, length);
    uint32_t *work = (uint32_t *)calloc((size_t)needed, sizeof *work);
    size_t i;

    if (!work)
        return 1;
    for (i = 0; i < sizeof calls / sizeof *calls; i++) {
        print(calls[i](NULL, 0, NULL, 0, NULL, 0));
        print(calls[i](sheet, length, NULL, 0, NULL, 0));
        print(calls[i](sheet, length, work, (size_t)needed, NULL, 0));
    }
    free(work);
    return 0;
}
