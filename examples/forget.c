/*
 * Why a hypervisor forgets what it lets the guest write (docs/RULES.md, box). The guest's processor writes without a call, so that no mark is
 * cleared by it. The same requests are made of two hypervisors: one forgets nothing, and the guest executes bytes that nobody signed; the other
 * does its duty, and the block is hashed again and refused. Last, the duty after a create.
 */
#include "pagemon.h"
#include "signature.h"

#include <stdbool.h>
#include <stdio.h>
#include <string.h>

enum { BLOCKS = 16, TABLE = 0, PAGES = 4, NEW_PAGES = 5, CODE = 8, PAGE = 5, GOOD = 0x1E, BAD = 0x2F };
enum { WRITES = PAGEMON_READ | PAGEMON_WRITE, EXECUTES = PAGEMON_READ | PAGEMON_EXECUTE };

static uint8_t memory[BLOCKS * PAGEMON_BLOCK_BYTES], ledger[PAGEMON_LEDGER_BYTES(BLOCKS)], golden[PAGEMON_DIGEST_BYTES];
static uint8_t registers[PAGEMON_REGISTERS_BYTES];

#define REGION memory, sizeof memory, ledger, sizeof ledger
#define REGISTERS registers, sizeof registers

static int failures = 0;

static void expect(const char *what, uint32_t answer, uint32_t expected)
{
    printf("  %-46s %2u\n", what, (unsigned)answer);
    failures += answer != expected;
}

static uint32_t hashed = 0;

static void expect_hashed(const char *what, uint32_t answer, uint32_t expected, uint32_t expected_hashed)
{
    printf("  %-46s %2u, %u hashed\n", what, (unsigned)answer, (unsigned)hashed);
    failures += answer != expected || hashed != expected_hashed;
}

static void expect_map(const char *what, uint32_t rights, uint32_t expected, uint32_t expected_hashed)
{
    uint32_t answer = pagemon_map_l2(REGION, golden, sizeof golden, PAGES, PAGE, CODE, rights, &hashed);
    expect_hashed(what, answer, expected, expected_hashed);
}

/* Code that is known to be good, and an active table that leads to it by a page. */
static void start(void)
{
    memset(memory, 0, sizeof memory);
    memset(memory + CODE * PAGEMON_BLOCK_BYTES, GOOD, PAGEMON_BLOCK_BYTES);
    signature_block_digest(memory + CODE * PAGEMON_BLOCK_BYTES, PAGEMON_BLOCK_BYTES, CODE, golden);
    failures += pagemon_begin(REGION, 0) || pagemon_create_l1(REGION, golden, sizeof golden, TABLE, &hashed)
                || pagemon_create_l2(REGION, golden, sizeof golden, PAGES, &hashed) || pagemon_link(REGION, TABLE, 0, PAGES, 0)
                || pagemon_switch(REGION, TABLE);
}

/* A store of the guest through its own mapping: nobody is told. */
static void the_processor_writes(void)
{
    memory[CODE * PAGEMON_BLOCK_BYTES] = BAD;
}

static void requests(bool forgets)
{
    uint8_t byte = 0;
    start();
    expect_map("map to execute", EXECUTES, PAGEMON_ACCEPTED, 1);
    expect("unmap", pagemon_unmap_l2(REGION, PAGES, PAGE), PAGEMON_ACCEPTED);
    expect_map("map to write", WRITES, PAGEMON_ACCEPTED, 0);
    if (forgets) {
        expect("forget", pagemon_forget(REGION, CODE, 1), PAGEMON_ACCEPTED);
    }
    the_processor_writes();
    expect("unmap, after the processor has written", pagemon_unmap_l2(REGION, PAGES, PAGE), PAGEMON_ACCEPTED);
    if (forgets) {
        expect_map("map to execute: not signed", EXECUTES, PAGEMON_UNSIGNED, 0);
        return;
    }
    expect_map("map to execute: the mark is believed", EXECUTES, PAGEMON_ACCEPTED, 0);
    expect("the guest fetches what nobody signed", pagemon_fetch(REGION, REGISTERS, PAGE * PAGEMON_BLOCK_BYTES, &byte), PAGEMON_ACCEPTED);
    failures += byte != BAD;
}

static uint32_t word(uint32_t block, uint32_t index)
{
    const uint8_t *at = memory + block * PAGEMON_BLOCK_BYTES + 4 * index;
    return at[0] | (uint32_t)at[1] << 8 | (uint32_t)at[2] << 16 | (uint32_t)at[3] << 24;
}

/* Forgets the blocks to which the entries of a new L2 block give write: those with AP 011, of pages and of large pages. */
static uint32_t forget_written(uint32_t block)
{
    uint32_t answer = PAGEMON_ACCEPTED;
    for (uint32_t index = 0; index < PAGEMON_L2_ENTRIES && answer == PAGEMON_ACCEPTED; index++) {
        uint32_t entry = word(block, index);
        uint32_t target = entry & 2 ? entry >> 12 : 16 * (entry >> 16) + index % 16;
        if ((entry & 3) != 0 && (entry & 0x230) == 0x030)
            answer = pagemon_forget(REGION, target, 1);
    }
    return answer;
}

/* The guest has written a table by which it can write the code. */
static void requests_by_create(void)
{
    const uint32_t entry = CODE << 12 | 0x03F;
    start();
    for (int i = 0; i < 4; i++) {
        memory[NEW_PAGES * PAGEMON_BLOCK_BYTES + i] = (uint8_t)(entry >> 8 * i);
    }
    expect_map("map to execute", EXECUTES, PAGEMON_ACCEPTED, 1);
    expect("unmap", pagemon_unmap_l2(REGION, PAGES, PAGE), PAGEMON_ACCEPTED);
    expect_hashed("create a table that writes", pagemon_create_l2(REGION, golden, sizeof golden, NEW_PAGES, &hashed), PAGEMON_ACCEPTED, 0);
    expect("forget what it writes", forget_written(NEW_PAGES), PAGEMON_ACCEPTED);
    expect("link it", pagemon_link(REGION, TABLE, 1, NEW_PAGES, 0), PAGEMON_ACCEPTED);
    the_processor_writes();
    expect("take the link away, after a write", pagemon_unmap_l1(REGION, TABLE, 1), PAGEMON_ACCEPTED);
    expect("free it", pagemon_free_l2(REGION, NEW_PAGES), PAGEMON_ACCEPTED);
    expect_map("map to execute: not signed", EXECUTES, PAGEMON_UNSIGNED, 0);
}

int main(void)
{
    printf("without forget\n");
    requests(false);
    printf("with forget\n");
    requests(true);
    printf("with forget, after a create\n");
    requests_by_create();
    return failures != 0;
}
