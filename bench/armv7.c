/*
 * One call on ARMv7, or all that comes before it: the difference in instructions is the call's own. A region of 512 blocks with an active table, in which
 * page 7 reads and writes block 13. bench/arm counts.
 *
 *   armv7                   prints the names of the calls
 *   armv7 NUMBER skip       does what comes before a call, and then calls a function that does nothing
 *   armv7 NUMBER call       does the same with the call in its place, and its arguments
 */
#include "pagemon.h"
#include "signature.h"

#include <stdio.h>
#include <stdlib.h>
#include <string.h>

enum { BLOCKS = 512, TABLE = 0, PAGES = 4, NEW_TABLE = 8, NEW_PAGES = 5, CODE = 12, DATA = 13, LARGE = 16, SECTION = 256 };
enum { READS = PAGEMON_READ, WRITES = PAGEMON_READ | PAGEMON_WRITE, EXECUTES = PAGEMON_READ | PAGEMON_EXECUTE };

static uint8_t memory[BLOCKS * PAGEMON_BLOCK_BYTES] __attribute__((aligned(PAGEMON_BLOCK_BYTES)));
static uint8_t ledger[PAGEMON_LEDGER_BYTES(BLOCKS)] __attribute__((aligned(8))), golden[PAGEMON_DIGEST_BYTES] __attribute__((aligned(8)));
static uint8_t registers[PAGEMON_REGISTERS_BYTES] __attribute__((aligned(8)));
static uint32_t hashed;
static uint8_t byte;

#define REGION memory, sizeof memory, ledger, sizeof ledger
#define IMAGE golden, sizeof golden
#define REGISTERS registers, sizeof registers

static uint32_t nothing(void) { return 0; }
static uint32_t begin(void) { return pagemon_begin(REGION, 0); }
static uint32_t create_l1(void) { return pagemon_create_l1(REGION, IMAGE, NEW_TABLE, &hashed); }
static uint32_t create_l2(void) { return pagemon_create_l2(REGION, IMAGE, NEW_PAGES, &hashed); }
static uint32_t free_l2(void) { return pagemon_free_l2(REGION, NEW_PAGES); }
static uint32_t map_reads(void) { return pagemon_map_l2(REGION, IMAGE, PAGES, 5, CODE, READS, &hashed); }
static uint32_t map_writes(void) { return pagemon_map_l2(REGION, IMAGE, PAGES, 5, CODE, WRITES, &hashed); }
static uint32_t map_executes(void) { return pagemon_map_l2(REGION, IMAGE, PAGES, 5, CODE, EXECUTES, &hashed); }
static uint32_t map_large(void) { return pagemon_map_large(REGION, IMAGE, PAGES, 16, LARGE, WRITES, &hashed); }
static uint32_t map_section(void) { return pagemon_map_l1(REGION, IMAGE, TABLE, 1, SECTION, WRITES, &hashed); }
static uint32_t link(void) { return pagemon_link(REGION, TABLE, 2, PAGES, 1); }
static uint32_t unmap_l2(void) { return pagemon_unmap_l2(REGION, PAGES, 5); }
static uint32_t unmap_large(void) { return pagemon_unmap_large(REGION, PAGES, 16); }
static uint32_t unmap_section(void) { return pagemon_unmap_l1(REGION, TABLE, 1); }
static uint32_t switch_table(void) { return pagemon_switch(REGION, TABLE); }
static uint32_t read(void) { return pagemon_read(REGION, REGISTERS, 0x7123, &byte); }
static uint32_t write(void) { return pagemon_write(REGION, REGISTERS, 0x7123, 1); }
static uint32_t read_fault(void) { return pagemon_read(REGION, REGISTERS, 0x8000, &byte) == PAGEMON_FAULT_ENTRY ? 0 : 1; }
static uint32_t forget(void) { return pagemon_forget(REGION, CODE, 1); }
static uint32_t acknowledge(void) { return pagemon_acknowledge(REGISTERS, &byte); }
static uint32_t digest(void) { return signature_block_digest(memory, PAGEMON_BLOCK_BYTES, 0, golden), 0; }

static uint32_t map_and_unmap(void) { return map_executes() || unmap_l2(); }

/* A table whose entries all read the same block. */
static uint32_t fill(void)
{
    const uint32_t word = PAGEMON_PAGE_WORD(CODE, READS, PAGEMON_KIND_WRITE_BACK);
    for (uint32_t i = 0; i < PAGEMON_L2_ENTRIES; i++)
        memcpy(memory + NEW_PAGES * PAGEMON_BLOCK_BYTES + 4 * i, &word, 4);
    return 0;
}

static uint32_t fill_and_create(void) { return fill() || create_l2(); }

static const struct row {
    const char *name;
    uint32_t (*before)(void), (*call)(void);
} rows[] = {
    {"begin of 512 blocks", nothing, begin},
    {"create L1, empty", nothing, create_l1},
    {"create L2, empty", nothing, create_l2},
    {"create L2, 1,024 read-only pages", fill, create_l2},
    {"free L2, 1,024 read-only pages", fill_and_create, free_l2},
    {"map L1 to write", nothing, map_section},
    {"map L2 to read", nothing, map_reads},
    {"map L2 to write", nothing, map_writes},
    {"map L2 to execute, one block hashed", nothing, map_executes},
    {"map L2 to execute, marked", map_and_unmap, map_executes},
    {"map large to write", nothing, map_large},
    {"link", nothing, link},
    {"unmap L1, a writable section", map_section, unmap_section},
    {"unmap L2, a writable page", map_writes, unmap_l2},
    {"unmap large, writable", map_large, unmap_large},
    {"switch", nothing, switch_table},
    {"read", nothing, read},
    {"write", nothing, write},
    {"read refused with 22", nothing, read_fault},
    {"forget of one block", nothing, forget},
    {"acknowledge", nothing, acknowledge},
    {"digest of a block", nothing, digest},
};

static uint32_t start(void)
{
    signature_block_digest(memory + CODE * PAGEMON_BLOCK_BYTES, PAGEMON_BLOCK_BYTES, CODE, golden);
    return begin() || pagemon_create_l1(REGION, IMAGE, TABLE, &hashed) || pagemon_create_l2(REGION, IMAGE, PAGES, &hashed)
           || pagemon_link(REGION, TABLE, 0, PAGES, 0) || switch_table() || pagemon_map_l2(REGION, IMAGE, PAGES, 7, DATA, WRITES, &hashed);
}

int main(int words, char **word)
{
    const size_t count = sizeof rows / sizeof rows[0];
    if (words != 3) {
        for (size_t i = 0; i < count; i++)
            puts(rows[i].name);
        return 0;
    }
    const struct row *row = &rows[strtoul(word[1], 0, 10) % count];
    uint32_t (*volatile last)(void) = word[2][0] == 'c' ? row->call : nothing;
    return start() || row->before() || last();
}
