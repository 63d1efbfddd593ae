// Which blocks of the library's machine code are reached. The first byte of each block is replaced
// by a breakpoint; where one is reached its byte is put back, and the block is counted for good.
#define _GNU_SOURCE
#include <signal.h>
#include <stdint.h>
#include <stdio.h>
#include <stdlib.h>
#include <sys/mman.h>
#include <ucontext.h>
#include <unistd.h>

#define MOST 65536
#define BREAKPOINT 0xcc

extern char yukhtsami_answer[];

// libFuzzer reads here what the input at hand reached, and clears it before the next.
__attribute__((used, section("__libfuzzer_extra_counters"))) volatile uint8_t blocks_now[MOST];

static struct block {
    uint8_t *at;
    uint8_t first;
    uint8_t reached;
} blocks[MOST];
static size_t known, reached;

static int by_place(const void *left, const void *right) {
    const struct block *l = left, *r = right;
    return (l->at > r->at) - (l->at < r->at);
}

static void on_breakpoint(int number, siginfo_t *info, void *context) {
    ucontext_t *machine = context;
    struct block asked = {.at = (uint8_t *)machine->uc_mcontext.gregs[REG_RIP] - 1};
    struct block *found = bsearch(&asked, blocks, known, sizeof *blocks, by_place);
    (void)info;
    if (!found) {
        signal(number, SIG_DFL);
        return;
    }
    *found->at = found->first;
    machine->uc_mcontext.gregs[REG_RIP] -= 1;
    reached += !found->reached;
    found->reached = 1;
    blocks_now[found - blocks] = 1;
}

static int make_writable(void) {
    uintptr_t page = (uintptr_t)sysconf(_SC_PAGESIZE);
    uintptr_t start = (uintptr_t)blocks[0].at & ~(page - 1);
    uintptr_t end = ((uintptr_t)blocks[known - 1].at & ~(page - 1)) + page;
    return mprotect((void *)start, end - start, PROT_READ | PROT_WRITE | PROT_EXEC);
}

// Plants the blocks of a file of places, one to a line, counted from the exported function. The
// number of blocks; 0 where this fails.
size_t blocks_planted(const char *file) {
    FILE *places = fopen(file, "r");
    long place;
    if (!places) return 0;
    while (known < MOST && fscanf(places, "%ld", &place) == 1)
        blocks[known++].at = (uint8_t *)yukhtsami_answer + place;
    fclose(places);
    qsort(blocks, known, sizeof *blocks, by_place);
    struct sigaction action = {.sa_sigaction = on_breakpoint, .sa_flags = SA_SIGINFO | SA_ONSTACK};
    if (!known || make_writable() || sigaction(SIGTRAP, &action, NULL)) return 0;
    for (size_t i = 0; i < known; i++) {
        blocks[i].first = *blocks[i].at;
        *blocks[i].at = BREAKPOINT;
    }
    return known;
}

size_t blocks_reached(void) { return reached; }

// Writes the places of the blocks that were not reached.
void blocks_missed(const char *file) {
    FILE *out = fopen(file, "w");
    if (!out) return;
    for (size_t i = 0; i < known; i++)
        if (!blocks[i].reached) fprintf(out, "%ld\n", (long)(blocks[i].at - (uint8_t *)yukhtsami_answer));
    fclose(out);
}
