/*
 * Coverage of the proved code itself. A static library has nothing that a compiler could instrument, so a breakpoint stands at the
 * start of each basic block of it. The first call that comes there has the byte put back and the block's counter set; libFuzzer reads
 * the counters after each input. The blocks are in the file that FUZZ_BLOCKS names, which scripts/fuzz makes: on each line the
 * distance from siting_report, ascending, and a name.
 */
#define _GNU_SOURCE
#include <signal.h>
#include <stdio.h>
#include <stdlib.h>
#include <sys/mman.h>
#include <ucontext.h>

#include "siting.h"

#define MOST 8192
#define PAGE 4096

static struct {
    uint8_t *at;
    uint8_t byte;
    uint8_t seen;
    char name[80];
} block[MOST];
static size_t blocks;

/* libFuzzer clears these before each input */
__attribute__((used, section("__libfuzzer_extra_counters"))) static uint8_t counter[MOST];

static void fail(const char *what)
{
    fprintf(stderr, "fuzz/blocks.c: %s\n", what);
    exit(2);
}

static void reached(int number, siginfo_t *info, void *context)
{
    greg_t *registers = ((ucontext_t *)context)->uc_mcontext.gregs;
    uint8_t *at = (uint8_t *)registers[REG_RIP] - 1;
    size_t low = 0, high = blocks;

    (void)number, (void)info;
    while (low < high) {
        size_t middle = (low + high) / 2;
        if (block[middle].at < at)
            low = middle + 1;
        else
            high = middle;
    }
    if (low == blocks || block[low].at != at)
        abort();
    *at = block[low].byte;
    block[low].seen = 1;
    counter[low] = 1;
    registers[REG_RIP] = (greg_t)at;
}

void blocks_watch(void)
{
    struct sigaction action = { .sa_sigaction = reached, .sa_flags = SA_SIGINFO };
    const char *name = getenv("FUZZ_BLOCKS");
    FILE *file = name ? fopen(name, "r") : NULL;
    long distance;

    if (!file)
        fail("no file FUZZ_BLOCKS");
    while (blocks < MOST && fscanf(file, "%ld %79s", &distance, block[blocks].name) == 2)
        block[blocks++].at = (uint8_t *)siting_report + distance;
    fclose(file);
    if (blocks == 0 || blocks == MOST)
        fail("no blocks, or too many");
    uintptr_t start = (uintptr_t)block[0].at & ~(uintptr_t)(PAGE - 1);
    if (mprotect((void *)start, (uintptr_t)block[blocks - 1].at + 1 - start, PROT_READ | PROT_WRITE | PROT_EXEC) != 0)
        fail("mprotect");
    if (sigaction(SIGTRAP, &action, NULL) != 0)
        fail("sigaction");
    for (size_t i = 0; i < blocks; i++) {
        block[i].byte = *block[i].at;
        *block[i].at = 0xcc;
    }
}

void blocks_print(void)
{
    size_t seen = 0;

    for (size_t i = 0; i < blocks; i++)
        seen += block[i].seen;
    printf("%zu of the %zu basic blocks of the proved code were reached\n", seen, blocks);
    for (size_t i = 0; i < blocks; i++)
        if (!block[i].seen)
            printf("not reached: %s\n", block[i].name);
}
