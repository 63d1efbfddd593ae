/*
 * Answers the sheet on standard input. From the root of the repository:
 *
 *   host/link
 *   gcc -std=c11 -Iinclude examples/c/answer.c target/staticlib/libyukhtsami.a -o answer
 *   ./answer < FILE
 *
 * The exit status is the refusal's number, or 71 without memory and 74 where reading or writing fails.
 */
#include <stdio.h>
#include <stdlib.h>

#include "yukhtsami.h"

enum { NO_MEMORY = 71, NO_IO = 74 };

/* One byte more than the longest sheet, so that a longer one is seen to be too long. */
static uint8_t sheet[YUKHTSAMI_LONGEST_SHEET + 1];

static int fail(const char *message, int status)
{
    fprintf(stderr, "answer: %s\n", message);
    return status;
}

/* Prints an answer, or the number of a refusal. */
static int print(struct yukhtsami_reply reply, const uint8_t *output)
{
    if (reply.refusal != YUKHTSAMI_ANSWERED) {
        fprintf(stderr, "answer: refusal %d\n", (int)reply.refusal);
        return (int)reply.refusal;
    }
    if (fwrite(output, 1, reply.written, stdout) != reply.written || fflush(stdout) != 0)
        return fail("standard output cannot be written", NO_IO);
    return 0;
}

/* Calls with an output that grows until the answer fits. */
static int call(size_t length, uint32_t *work, size_t words)
{
    struct yukhtsami_reply reply = {YUKHTSAMI_SHORT_OUTPUT, 0};
    uint8_t *output = NULL;
    size_t room = 16384;
    int status;

    for (;;) {
        output = malloc(room);
        if (!output)
            return fail("no memory for the output", NO_MEMORY);
        reply = yukhtsami_answer(sheet, length, work, words, output, room);
        if (reply.refusal != YUKHTSAMI_SHORT_OUTPUT || room > SIZE_MAX / 4)
            break;
        free(output);
        room *= 4;
    }
    status = print(reply, output);
    free(output);
    return status;
}

static int answer(size_t length)
{
    /* Without a work area a sheet is refused with 1, 2 or 3 on its own account, or else with 11. */
    const struct yukhtsami_reply first = yukhtsami_answer(sheet, length, NULL, 0, NULL, 0);
    const uint64_t needed = yukhtsami_words_needed(sheet, length);
    uint32_t *work;
    int status;

    if (first.refusal != YUKHTSAMI_SHORT_WORK_AREA)
        return print(first, NULL);
    work = needed <= SIZE_MAX ? calloc((size_t)needed, sizeof *work) : NULL;
    if (!work)
        return fail("no memory for the work area", NO_MEMORY);
    status = call(length, work, (size_t)needed);
    free(work);
    return status;
}

int main(void)
{
    const size_t length = fread(sheet, 1, sizeof sheet, stdin);

    if (ferror(stdin))
        return fail("standard input cannot be read", NO_IO);
    return answer(length);
}
