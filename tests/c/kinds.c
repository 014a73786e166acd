/* Memory kinds as C code sees them: the values of the header, what begin takes and stores, and the words that maps write. */
#include "pagemon.h"

#include <stdbool.h>
#include <stdio.h>
#include <string.h>

enum { BLOCKS = 272, FIRST = 0x100, TABLE = 0x200, PAGES = 0x204, FRAME = 0x208, LARGE = 0x110 };
enum { READS = PAGEMON_READ, WRITES = PAGEMON_READ | PAGEMON_WRITE };

static int failures = 0;

static void expect(bool holds, const char *what)
{
    if (!holds) {
        printf("kinds.c: %s\n", what);
        failures++;
    }
}

static uint8_t memory[BLOCKS * PAGEMON_BLOCK_BYTES], ledger[PAGEMON_LEDGER_BYTES(BLOCKS)], kinds[PAGEMON_KINDS_BYTES + 1];
static uint8_t registers[PAGEMON_REGISTERS_BYTES];

#define REGION memory, sizeof memory, ledger, sizeof ledger
#define REGISTERS registers, sizeof registers
#define NO_IMAGE NULL, 0

/* In an initializer, as a hypervisor has them. */
static const uint8_t chosen[PAGEMON_KINDS_BYTES] = {
    PAGEMON_KIND_TO_BYTES(PAGEMON_KIND_WRITE_BACK),
    PAGEMON_KIND_TO_BYTES(PAGEMON_KIND_UNCACHED),
    PAGEMON_KIND_TO_BYTES(PAGEMON_KIND_DEVICE),
    PAGEMON_KIND_TO_BYTES(PAGEMON_KIND_STRONGLY_ORDERED),
    PAGEMON_KIND_TO_BYTES(PAGEMON_KIND_WRITE_THROUGH | PAGEMON_KIND_SHARED),
    PAGEMON_KIND_TO_BYTES(PAGEMON_KIND_WRITE_ALLOCATE | PAGEMON_KIND_NOT_GLOBAL),
    PAGEMON_KIND_TO_BYTES(PAGEMON_KIND(7, 1, 1, 1, 1)),
    PAGEMON_KIND_TO_BYTES(PAGEMON_KIND(5, 0, 1, 0, 1)),
};

/* The same in seven bits: B, C, three of TEX, S, nG. */
static const uint8_t bytes[PAGEMON_KINDS_BYTES] = {0x03, 0, 0x04, 0, 0x01, 0, 0x00, 0, 0x22, 0, 0x47, 0, 0x7F, 0, 0x55, 0};

static void values(void)
{
    const uint8_t two[] = {PAGEMON_KIND_TO_BYTES(0xA55Au)};
    expect(memcmp(chosen, bytes, sizeof bytes) == 0, "the bytes of the kinds");
    expect(sizeof two == 2 && two[0] == 0x5A && two[1] == 0xA5, "the lower byte first");
    expect(PAGEMON_KIND(8, 2, 2, 2, 2) == 0 && PAGEMON_KIND(9, 3, 3, 3, 3) == 0x67, "bits that are cut off");
    expect(PAGEMON_KIND(0, 0, 1, 0, 0) == 1 && PAGEMON_KIND(0, 1, 0, 0, 0) == 2, "B and C");
    expect(PAGEMON_KIND(1, 0, 0, 0, 0) == 4 && PAGEMON_KIND(4, 0, 0, 0, 0) == 16, "TEX");
    expect(PAGEMON_KIND(0, 0, 0, 1, 0) == 32 && PAGEMON_KIND(0, 0, 0, 0, 1) == 64, "S and nG");
    expect(PAGEMON_KINDS_AT + PAGEMON_KINDS_BYTES == PAGEMON_LEDGER_HEAD_BYTES, "the head of the ledger");
}

static uint32_t begin(size_t length)
{
    return pagemon_begin_kinds(REGION, kinds, length, FIRST);
}

/* Refused, with the ledger as it was. */
static void expect_misfit(size_t length, const char *what)
{
    static uint8_t before[sizeof ledger];
    memcpy(before, ledger, sizeof ledger);
    expect(begin(length) == PAGEMON_MISFIT, what);
    expect(memcmp(ledger, before, sizeof ledger) == 0, "a refused begin changed the ledger");
}

static void begins(void)
{
    memcpy(kinds, chosen, sizeof chosen);
    memset(ledger, 0xFF, sizeof ledger);
    expect_misfit(PAGEMON_KINDS_BYTES - 1, "15 bytes");
    expect_misfit(PAGEMON_KINDS_BYTES + 1, "17 bytes");
    expect_misfit(0, "no bytes");
    expect(pagemon_begin_kinds(REGION, NULL, 0, FIRST) == PAGEMON_MISFIT, "no bytes at NULL");
    for (size_t number = 0; number < PAGEMON_KINDS; number++) {
        uint8_t *kind = kinds + 2 * number;
        kind[0] |= 0x80;
        expect_misfit(PAGEMON_KINDS_BYTES, "an eighth bit");
        kind[0] = chosen[2 * number], kind[1] = 1;
        expect_misfit(PAGEMON_KINDS_BYTES, "a ninth bit");
        kind[1] = 0;
    }
    expect(begin(PAGEMON_KINDS_BYTES) == PAGEMON_ACCEPTED, "begin");
    expect(memcmp(ledger + PAGEMON_KINDS_AT, bytes, sizeof bytes) == 0, "the kinds in the ledger");
    expect(memcmp(kinds, bytes, sizeof bytes) == 0, "the kinds that were lent");
}

/* What the last map gave beside its answer. */
static uint32_t hashed;

/* Four bytes of memory, as they stand there. */
static bool stands(uint32_t block, size_t index, uint8_t first, uint8_t second, uint8_t third, uint8_t fourth)
{
    const uint8_t *at = memory + (size_t)(block - FIRST) * PAGEMON_BLOCK_BYTES + 4 * index;
    return at[0] == first && at[1] == second && at[2] == third && at[3] == fourth;
}

static uint32_t map_page(uint32_t index, uint32_t rights, uint32_t kind_number)
{
    return pagemon_map_l2_kind(REGION, NO_IMAGE, PAGES, index, FRAME, rights, kind_number, &hashed);
}

static void maps(void)
{
    uint8_t byte = 0;
    expect(pagemon_create_l1(REGION, NO_IMAGE, TABLE, &hashed) == PAGEMON_ACCEPTED, "create L1");
    expect(pagemon_create_l2(REGION, NO_IMAGE, PAGES, &hashed) == PAGEMON_ACCEPTED, "create L2");
    expect(pagemon_link(REGION, TABLE, 0, PAGES, 0) == PAGEMON_ACCEPTED, "link");
    expect(pagemon_switch(REGION, TABLE) == PAGEMON_ACCEPTED, "switch");
    expect(map_page(5, WRITES, 1) == PAGEMON_ACCEPTED, "a page that is not cached");
    expect(stands(PAGES, 5, 0x73, 0x80, 0x20, 0x00), "the word of a page that is not cached");
    expect(map_page(6, READS, 6) == PAGEMON_ACCEPTED, "a page with all bits of a kind");
    expect(stands(PAGES, 6, 0xEF, 0x8D, 0x20, 0x00), "the word of a page with all bits of a kind");
    expect(map_page(7, WRITES, PAGEMON_KINDS) == PAGEMON_BEYOND_TABLE, "kind 8");
    expect(map_page(7, WRITES, 0xFFFFFFFF) == PAGEMON_BEYOND_TABLE, "kind 0xFFFFFFFF");
    expect(stands(PAGES, 7, 0, 0, 0, 0), "a refused map wrote");
    expect(pagemon_map_large_kind(REGION, NO_IMAGE, PAGES, 16, LARGE, READS, 5, &hashed) == PAGEMON_ACCEPTED, "a large page");
    for (size_t index = 16; index < 32; index++) {
        expect(stands(PAGES, index, 0x2D, 0x98, 0x11, 0x00), "a word of a large page");
    }
    expect(pagemon_map_l1_kind(REGION, NO_IMAGE, TABLE, 1, FIRST, READS, 7, &hashed) == PAGEMON_ACCEPTED, "a section");
    expect(stands(TABLE, 1, 0x16, 0x58, 0x12, 0x00), "the word of a section");
    expect(pagemon_map_l2(REGION, NO_IMAGE, PAGES, 8, FRAME, READS, &hashed) == PAGEMON_ACCEPTED, "a page without a kind");
    expect(stands(PAGES, 8, 0x2F, 0x80, 0x20, 0x00), "the word of a page without a kind");
    expect(pagemon_write(REGION, REGISTERS, 0x5123, 65) == PAGEMON_ACCEPTED, "write");
    expect(pagemon_read(REGION, REGISTERS, 0x6123, &byte) == PAGEMON_ACCEPTED && byte == 65, "read");
    expect(pagemon_write(REGION, REGISTERS, 0x6123, 66) == PAGEMON_RIGHT_LACKING, "write where only read is given");
    expect(pagemon_fetch(REGION, REGISTERS, 0x5123, &byte) == PAGEMON_RIGHT_LACKING, "fetch where only read and write are given");
    expect(memcmp(ledger + PAGEMON_KINDS_AT, bytes, sizeof bytes) == 0, "a call that changed the kinds");
}

/* A ledger with an unlawful kind serves no call but begin. */
static void a_spoilt_ledger(void)
{
    for (size_t number = 0; number < PAGEMON_KINDS; number++) {
        uint8_t *high = ledger + PAGEMON_KINDS_AT + 2 * number + 1;
        *high = 1;
        expect(map_page(9, READS, 0) == PAGEMON_MISFIT, "a map with an unlawful kind in the ledger");
        expect(pagemon_switch(REGION, TABLE) == PAGEMON_MISFIT, "a switch with an unlawful kind in the ledger");
        *high = 0;
    }
    ledger[PAGEMON_KINDS_AT] = 0x80;
    expect(pagemon_begin(REGION, FIRST) == PAGEMON_ACCEPTED, "begin without kinds");
    for (size_t number = 0; number < PAGEMON_KINDS; number++) {
        const uint8_t *kind = ledger + PAGEMON_KINDS_AT + 2 * number;
        expect(kind[0] == PAGEMON_KIND_WRITE_BACK && kind[1] == 0, "a kind of begin without kinds");
    }
}

int main(void)
{
    values();
    begins();
    maps();
    a_spoilt_ledger();
    printf("kinds.c: %s\n", failures == 0 ? "ok" : "failed");
    return failures != 0;
}
