/*
 * Two routines of a decoder, each signed, and loaded in each other's places (docs/RULES.md, signature 6). Their contents are known, but not there:
 * neither can be executed until it lies where it was signed. The same holds for a region that begins elsewhere.
 */
#include "pagemon.h"
#include "signature.h"

#include <stdio.h>
#include <string.h>

enum { BLOCKS = 16, FIRST = 0x100, NEXT = 0x200 };
enum { TABLE = 0, PAGES = 4, ONE = 8, TWO = 9 }; /* counted from the region's start */

static uint8_t memory[BLOCKS * PAGEMON_BLOCK_BYTES], ledger[PAGEMON_LEDGER_BYTES(BLOCKS)], golden[2 * PAGEMON_DIGEST_BYTES];
static uint8_t registers[PAGEMON_REGISTERS_BYTES];

#define REGION memory, sizeof memory, ledger, sizeof ledger
#define REGISTERS registers, sizeof registers

static int failures = 0;

static uint8_t *block(uint32_t position)
{
    return memory + position * PAGEMON_BLOCK_BYTES;
}

/* The image is made for blocks, not for contents: each digest has the number of its block in it. */
static void sign(uint32_t first)
{
    signature_block_digest(block(ONE), PAGEMON_BLOCK_BYTES, first + ONE, golden);
    signature_block_digest(block(TWO), PAGEMON_BLOCK_BYTES, first + TWO, golden + PAGEMON_DIGEST_BYTES);
}

/* A region with an active table that has nothing in it. */
static void start(uint32_t first)
{
    uint32_t hashed = 0;
    memset(block(TABLE), 0, (PAGES - TABLE + 1) * PAGEMON_BLOCK_BYTES);
    failures += pagemon_begin(REGION, first) || pagemon_create_l1(REGION, golden, sizeof golden, first + TABLE, &hashed)
                || pagemon_create_l2(REGION, golden, sizeof golden, first + PAGES, &hashed)
                || pagemon_link(REGION, first + TABLE, 0, first + PAGES, 0) || pagemon_switch(REGION, first + TABLE);
}

static void map(const char *what, uint32_t first, uint32_t position, uint32_t expected)
{
    uint32_t hashed = 0, rights = PAGEMON_READ | PAGEMON_EXECUTE;
    uint32_t answer = pagemon_map_l2(REGION, golden, sizeof golden, first + PAGES, position, first + position, rights, &hashed);
    printf("  %-46s %2u\n", what, (unsigned)answer);
    failures += answer != expected;
}

static void fetch(const char *what, uint32_t position, uint8_t expected)
{
    uint8_t byte = 0;
    uint32_t answer = pagemon_fetch(REGION, REGISTERS, position * PAGEMON_BLOCK_BYTES, &byte);
    printf("  %-46s %2u, 0x%02X\n", what, (unsigned)answer, (unsigned)byte);
    failures += answer != PAGEMON_ACCEPTED || byte != expected;
}

int main(void)
{
    memset(block(ONE), 0x1E, PAGEMON_BLOCK_BYTES);
    memset(block(TWO), 0x2F, PAGEMON_BLOCK_BYTES);
    sign(FIRST);

    puts("each in its place");
    start(FIRST);
    map("map the first routine to execute", FIRST, ONE, PAGEMON_ACCEPTED);
    map("map the second", FIRST, TWO, PAGEMON_ACCEPTED);
    fetch("fetch from the first", ONE, 0x1E);

    puts("each in the other's place");
    memset(block(ONE), 0x2F, PAGEMON_BLOCK_BYTES);
    memset(block(TWO), 0x1E, PAGEMON_BLOCK_BYTES);
    start(FIRST);
    map("map the first block to execute", FIRST, ONE, PAGEMON_UNSIGNED);
    map("map the second block", FIRST, TWO, PAGEMON_UNSIGNED);

    puts("in their places, in a region 256 blocks further on");
    memset(block(ONE), 0x1E, PAGEMON_BLOCK_BYTES);
    memset(block(TWO), 0x2F, PAGEMON_BLOCK_BYTES);
    start(NEXT);
    map("map the first routine to execute", NEXT, ONE, PAGEMON_UNSIGNED);
    sign(NEXT);
    start(NEXT); /* another image takes another begin */
    map("the same, with an image made for this region", NEXT, ONE, PAGEMON_ACCEPTED);
    return failures != 0;
}
