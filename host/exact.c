// Calls the library on every record of a list, under valgrind or by itself: the sheet, the work area
// and the output are blocks of exactly the lent sizes, and the last two are not initialised. Each
// call has a thread with 2 MiB of stack, of which it tells the most that was used, or with `each` what
// each call used (not under valgrind).
// Ends with 1 where a reply is not the list's.
#define _GNU_SOURCE
#include <pthread.h>
#include <stdint.h>
#include <stdio.h>
#include <stdlib.h>
#include <string.h>
#include <sys/mman.h>
#include <valgrind/memcheck.h>

#include "../include/yukhtsami.h"

#define STACK (2u << 20)
#define PART 4096u
#define PAINT 0xa5

struct call {
    char kind[8];
    uint8_t *sheet, *output;
    uint32_t *work;
    size_t length, words, room;
    struct yukhtsami_reply gave;
};

static void *called(void *argument) {
    struct call *c = argument;
    c->gave = (strcmp(c->kind, "pages") ? yukhtsami_answer : yukhtsami_page)(
        c->sheet, c->length, c->work, c->words, c->output, c->room);
    return NULL;
}

static uint8_t *stack;
static size_t most_used;
static char most_by[256];
static int each;

static void need(int fine, const char *what) {
    if (fine) return;
    fprintf(stderr, "%s\n", what);
    exit(2);
}

// A stack with a page below it that may not be touched, painted so that what is used can be told.
static void paint(pthread_attr_t *small) {
    if (!stack) {
        void *found = mmap(NULL, PART + STACK, PROT_READ | PROT_WRITE, MAP_PRIVATE | MAP_ANONYMOUS, -1, 0);
        need(found != MAP_FAILED && !mprotect(found, PART, PROT_NONE), "no memory for a stack");
        stack = (uint8_t *)found + PART;
    }
    memset(stack, PAINT, STACK);
    need(!pthread_attr_setstack(small, stack, STACK), "no thread with a small stack");
}

static void note_used(const char *label) {
    size_t left = 0;
    while (left < STACK && stack[left] == PAINT) left++;
    if (each) printf("%8zu %s\n", STACK - left, label);
    if (STACK - left <= most_used) return;
    most_used = STACK - left;
    snprintf(most_by, sizeof most_by, "%s", label);
}

static void on_small_stack(struct call *c, const char *label) {
    pthread_attr_t small;
    pthread_t thread;
    need(!pthread_attr_init(&small), "no thread with a small stack");
    if (!RUNNING_ON_VALGRIND) paint(&small);
    else need(!pthread_attr_setstacksize(&small, STACK), "no thread with a small stack");
    need(!pthread_create(&thread, &small, called, c) && !pthread_join(thread, NULL), "no thread");
    pthread_attr_destroy(&small);
    if (!RUNNING_ON_VALGRIND) note_used(label);
}

// Whether these bytes were never written. Outside valgrind nothing tells, and the answer is yes.
static int unwritten(const uint8_t *from, size_t count) {
    uint8_t bits[PART];
    if (!RUNNING_ON_VALGRIND) return 1;
    for (size_t done = 0; done < count; done += PART) {
        size_t part = count - done < PART ? count - done : PART;
        if (VALGRIND_GET_VBITS(from + done, bits, part) != 1) return 0;
        for (size_t i = 0; i < part; i++)
            if (bits[i] != 0xff) return 0;
    }
    return 1;
}

// Whether a refusal leaves the work area as it was.
static int untouched(uint32_t refusal) {
    return refusal == YUKHTSAMI_TOO_LONG || refusal == YUKHTSAMI_FOREIGN_BYTE ||
           refusal == YUKHTSAMI_LINE_OUT_OF_PLACE || refusal == YUKHTSAMI_SHORT_WORK_AREA;
}

// Whether the needed words are zero, or none where the call must leave them, and the rest unwritten.
static int work_right(const struct call *c) {
    uint64_t needed = yukhtsami_words_needed(c->sheet, c->length);
    uint64_t cleared = untouched(c->gave.refusal) ? 0 : needed;
    if (cleared > c->words) return 0;
    for (size_t i = 0; i < cleared; i++)
        if (c->work[i] != 0) return 0;
    return unwritten((const uint8_t *)(c->work + cleared), 4 * (c->words - cleared));
}

// A block of just so many bytes.
static void *block(size_t bytes) {
    void *found = malloc(bytes ? bytes : 1);
    if (!found) exit(2);
    if (!bytes) VALGRIND_MAKE_MEM_NOACCESS(found, 1);
    return found;
}

static void *taken(FILE *list, size_t bytes) {
    void *found = block(bytes);
    if (fread(found, 1, bytes, list) != bytes) exit(2);
    return found;
}

// The record whose first line was read; whether the call was as it says.
static int right(FILE *list, struct call *c, const char *label, uint32_t refusal, size_t written) {
    c->sheet = taken(list, c->length);
    uint8_t *answer = taken(list, written);
    c->work = block(4 * c->words);
    c->output = block(c->room);
    on_small_stack(c, label);
    int same = c->gave.refusal == refusal && c->gave.written == written &&
               !memcmp(c->output, answer, written) &&
               unwritten(c->output + written, c->room - written) && work_right(c);
    free(c->sheet);
    free(answer);
    free(c->work);
    free(c->output);
    return (fgetc(list) == '\n') & same;
}

int main(int words, char **word) {
    FILE *list = words == 2 || words == 3 ? fopen(word[1], "r") : NULL;
    char line[512], label[256];
    size_t records = 0, wrong = 0, written;
    uint32_t refusal;
    if (!list) {
        fprintf(stderr, "usage: exact LIST [each]\n");
        return 2;
    }
    each = words == 3;
    while (fgets(line, sizeof line, list)) {
        struct call c = {0};
        if (line[0] == '#') continue;
        if (sscanf(line, "%7s %zu %zu %u %zu %zu %255s", c.kind, &c.words, &c.room, &refusal, &c.length,
                   &written, label) != 7 || (strcmp(c.kind, "pages") && strcmp(c.kind, "sheet")))
            return 2;
        records++;
        if (!right(list, &c, label, refusal, written)) {
            printf("%s: not as listed\n", label);
            wrong++;
        }
    }
    fclose(list);
    printf("%zu calls, %zu not as listed\n", records, wrong);
    if (most_used) printf("most stack: %zu bytes of %u, by %s\n", most_used, STACK, most_by);
    return wrong != 0 || records == 0;
}
