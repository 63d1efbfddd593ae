/*
 * Yukhtsami for C and C++: a call that answers a sheet of terms, and one that lays the answer out in
 * pages. What sheets, answers, pages and refusals are is told in docs/SHEET.md. Link with
 * target/staticlib/libyukhtsami.a, which `host/link` writes; examples/c/answer.c is a whole program.
 */
#ifndef YUKHTSAMI_H
#define YUKHTSAMI_H

#include <stddef.h>
#include <stdint.h>

#ifdef __cplusplus
extern "C" {
#endif

/* The most bytes that a sheet may have. */
#define YUKHTSAMI_LONGEST_SHEET 65536

/* The bytes of a page: 50 lines of 72 characters, each ended by byte 10. */
#define YUKHTSAMI_PAGE_BYTES 3650
/* The most pages that an answer is laid out in. */
#define YUKHTSAMI_MOST_PAGES 9999

/* The seven refusals. The first that applies in the order 1, 2, 3, 11, 4, 13, 12 is given. */
enum yukhtsami_refusal {
    YUKHTSAMI_ANSWERED = 0,          /* no refusal */
    YUKHTSAMI_TOO_LONG = 1,          /* the sheet has over 65,536 bytes */
    YUKHTSAMI_FOREIGN_BYTE = 2,      /* a byte of the sheet is none of 10, 32 to 126 */
    YUKHTSAMI_LINE_OUT_OF_PLACE = 3, /* the lines are not those of a sheet */
    YUKHTSAMI_UNREADABLE_TERM = 4,   /* a `left`, `right` or `term` is no term */
    YUKHTSAMI_SHORT_WORK_AREA = 11,  /* fewer words are lent than the sheet needs */
    YUKHTSAMI_SHORT_OUTPUT = 12,     /* the answer, or its pages, are longer than the output */
    YUKHTSAMI_TOO_MANY_PAGES = 13    /* of yukhtsami_page alone: over 9,999 pages would be needed */
};

/* What a call gives: the refusal's number, 0 for none, and the count of bytes written. */
struct yukhtsami_reply {
    uint32_t refusal;
    size_t written;
};

/*
 * Answers a sheet.
 *
 * sheet, sheet_len    the bytes of the sheet; they are only read
 * work, work_len      the work area and the count of its words (not bytes)
 * output, output_len  the output and the count of its bytes
 *
 * What is asked of the caller: each pointer is to so many bytes or words of memory that may be read
 * and, but for the sheet, written; work is aligned as a uint32_t is; and no two of the three overlap.
 * A pointer whose length is 0 is not followed and may be NULL. Whatever the bytes of the sheet,
 * whatever the work area and the output hold and however short they are, the call ends with an
 * answer or a refusal.
 *
 * What a call leaves:
 *
 *   0, an answer     The first `written` bytes of the output are the answer, without a zero byte
 *                    after it; the later bytes are as they were. The needed words of the work area
 *                    are zero, the later words as they were.
 *   4, 13, 12        `written` is 0 and the output is as it was. The needed words of the work area
 *                    are zero, the later words as they were.
 *   1, 2, 3, 11      `written` is 0, and output and work area are as they were.
 *
 * A stack of 2 MiB serves every sheet. The call keeps no state and allocates nothing: it may be made
 * on several threads at once, each with its own work area and output (a sheet may be shared).
 */
struct yukhtsami_reply yukhtsami_answer(const uint8_t *sheet, size_t sheet_len,
                                        uint32_t *work, size_t work_len,
                                        uint8_t *output, size_t output_len);

/*
 * Answers a sheet like yukhtsami_answer, with the answer laid out in pages of YUKHTSAMI_PAGE_BYTES
 * bytes: each begins with the line `PAGE` and its number, the key of a line stands from column 1, its
 * text in columns 10 to 72 and, where it is longer, below, and the last page is filled with blank
 * lines. The answer is never held beside them.
 *
 * What is asked and what is left is as for yukhtsami_answer, with the pages for the answer; 12 is given
 * where the output is shorter than the pages, and 13 where they would be over YUKHTSAMI_MOST_PAGES,
 * whatever the length of the output.
 */
struct yukhtsami_reply yukhtsami_page(const uint8_t *sheet, size_t sheet_len,
                                      uint32_t *work, size_t work_len,
                                      uint8_t *output, size_t output_len);

/*
 * The words of work area that a sheet needs: 65,536 * (C + 16) + 16 * B, where C is the count of
 * colons and B of bytes. For `kind=complete` C is raised by twice the count of `(` in the `term`
 * line. A small sheet needs about 4 MiB; the most that a sheet can need is over 2^32 words, so the
 * count is in 64 bits, and a caller should test that it fits a size_t. On bytes that are refused
 * with 1, 2 or 3 the number says nothing.
 */
static inline uint64_t yukhtsami_words_needed(const uint8_t *sheet, size_t sheet_len)
{
    static const char complete[] = "kind=complete\n";
    const size_t head = sizeof complete - 1;
    uint64_t count = 16;
    size_t same = 0;
    size_t i;

    for (i = 0; i < sheet_len; i++)
        count += sheet[i] == 58; /* a colon */
    while (same < head && same < sheet_len && sheet[same] == (uint8_t)complete[same])
        same++;
    if (same == head)
        for (i = head; i < sheet_len && sheet[i] != 10; i++)
            count += sheet[i] == 40 ? 2 : 0; /* an opening bracket */
    return 65536 * count + 16 * (uint64_t)sheet_len;
}

#ifdef __cplusplus
}
#endif

#endif
