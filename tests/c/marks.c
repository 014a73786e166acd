/* Marks as C code sees them: what is hashed once, what clears a mark, which marks are believed, and the number that create and map give. */
#include "pagemon.h"
#include "signature.h"

#include <stdbool.h>
#include <stdio.h>
#include <string.h>

enum { BLOCKS = 16, FIRST = 0x100, TABLE = FIRST, PAGES = FIRST + 4, NEW_PAGES = FIRST + 5, CODE = FIRST + 8, OTHER = FIRST + 9 };
enum { READS = PAGEMON_READ, WRITES = PAGEMON_READ | PAGEMON_WRITE, EXECUTES = PAGEMON_READ | PAGEMON_EXECUTE };

static int failures = 0;

static void expect(bool holds, const char *what)
{
    if (!holds) {
        printf("marks.c: %s\n", what);
        failures++;
    }
}

static uint8_t memory[BLOCKS * PAGEMON_BLOCK_BYTES], ledger[PAGEMON_LEDGER_BYTES(BLOCKS)], golden[PAGEMON_DIGEST_BYTES];
static uint8_t registers[PAGEMON_REGISTERS_BYTES];

#define REGION memory, sizeof memory, ledger, sizeof ledger
#define REGISTERS registers, sizeof registers
#define IMAGE golden, sizeof golden

static uint8_t *block(uint32_t number)
{
    return memory + (size_t)(number - FIRST) * PAGEMON_BLOCK_BYTES;
}

static uint8_t *mark_place(uint32_t number)
{
    return ledger + PAGEMON_LEDGER_HEAD_BYTES + PAGEMON_LEDGER_RECORD_BYTES * (size_t)(number - FIRST) + 16;
}

static uint32_t mark(uint32_t number)
{
    const uint8_t *at = mark_place(number);
    return at[0] | (uint32_t)at[1] << 8 | (uint32_t)at[2] << 16 | (uint32_t)at[3] << 24;
}

static void put_word(uint8_t *at, uint32_t value)
{
    for (int i = 0; i < 4; i++) {
        at[i] = (uint8_t)(value >> 8 * i);
    }
}

/* The number stands between two others, and holds something else before the call. */
static uint32_t numbers[3];

static void expect_given(uint32_t answer, uint32_t expected, uint32_t hashed, const char *what)
{
    expect(answer == expected, what);
    expect(numbers[1] == hashed, what);
    expect(numbers[0] == 0xC5C5C5C5 && numbers[2] == 0xC5C5C5C5, "a word beside the number");
    memset(numbers, 0xC5, sizeof numbers);
}

static uint32_t map(uint32_t index, uint32_t target, uint32_t rights)
{
    return pagemon_map_l2(REGION, IMAGE, PAGES, index, target, rights, &numbers[1]);
}

static void start(void)
{
    memset(numbers, 0xC5, sizeof numbers);
    memset(memory, 0, sizeof memory);
    memset(ledger, 0xFF, sizeof ledger);
    memset(block(CODE), 0x1E, PAGEMON_BLOCK_BYTES);
    signature_block_digest(block(CODE), PAGEMON_BLOCK_BYTES, CODE, golden);
    expect(pagemon_begin(REGION, FIRST) == PAGEMON_ACCEPTED, "begin");
    for (uint32_t number = FIRST; number < FIRST + BLOCKS; number++) {
        expect(mark(number) == 0, "a mark that begin left");
    }
    expect_given(pagemon_create_l1(REGION, IMAGE, TABLE, &numbers[1]), PAGEMON_ACCEPTED, 0, "create L1");
    expect_given(pagemon_create_l2(REGION, IMAGE, PAGES, &numbers[1]), PAGEMON_ACCEPTED, 0, "create L2");
    expect(pagemon_link(REGION, TABLE, 0, PAGES, 0) == PAGEMON_ACCEPTED, "link");
    expect(pagemon_switch(REGION, TABLE) == PAGEMON_ACCEPTED, "switch");
}

static void hashed_once(void)
{
    start();
    expect_given(map(5, CODE, EXECUTES), PAGEMON_ACCEPTED, 1, "the first map to execute");
    expect(mark(CODE) == PAGEMON_MARKED, "the mark of the block hashed");
    expect_given(map(6, CODE, EXECUTES), PAGEMON_ACCEPTED, 0, "the second map to execute");
    expect_given(map(7, CODE, WRITES), PAGEMON_CLASH, 0, "a refused map");
    expect_given(map(7, OTHER, EXECUTES), PAGEMON_UNSIGNED, 0, "a map that hashes and is refused");
    expect(mark(CODE) == PAGEMON_MARKED && mark(OTHER) == 0, "marks after refusals");
    expect(pagemon_unmap_l2(REGION, PAGES, 5) == PAGEMON_ACCEPTED && pagemon_unmap_l2(REGION, PAGES, 6) == PAGEMON_ACCEPTED, "unmap");
    expect_given(map(5, CODE, READS), PAGEMON_ACCEPTED, 0, "a map to read");
    expect(mark(CODE) == PAGEMON_MARKED, "a mark that nothing cleared");
}

/* The guest's write, by the byte that stands there; and forget. */
static void hashed_again(void)
{
    start();
    expect_given(map(5, CODE, EXECUTES), PAGEMON_ACCEPTED, 1, "map to execute");
    expect(pagemon_unmap_l2(REGION, PAGES, 5) == PAGEMON_ACCEPTED, "unmap");
    expect_given(map(5, CODE, WRITES), PAGEMON_ACCEPTED, 0, "map to write");
    expect(pagemon_write(REGION, REGISTERS, 0x5FFF, 0x1E) == PAGEMON_ACCEPTED && mark(CODE) == 0, "write");
    expect(pagemon_unmap_l2(REGION, PAGES, 5) == PAGEMON_ACCEPTED, "unmap");
    expect_given(map(5, CODE, EXECUTES), PAGEMON_ACCEPTED, 1, "map to execute after a write");
    expect(pagemon_forget(REGION, CODE - 1, 1) == PAGEMON_ACCEPTED && mark(CODE) == PAGEMON_MARKED, "forget of the block before");
    expect(pagemon_forget(REGION, FIRST, BLOCKS) == PAGEMON_ACCEPTED && mark(CODE) == 0, "forget");
    expect_given(map(6, CODE, EXECUTES), PAGEMON_ACCEPTED, 1, "map to execute after forget");
}

/* A ledger from elsewhere: only exactly 1 is believed, and it is believed of any bytes. */
static void believed(void)
{
    static const uint32_t others[] = {0, 2, 0x101, 0x80000001, 0xFFFFFFFF};
    start();
    for (size_t i = 0; i < sizeof others / sizeof others[0]; i++) {
        put_word(mark_place(OTHER), others[i]);
        expect_given(map(7, OTHER, EXECUTES), PAGEMON_UNSIGNED, 0, "a mark that is not 1");
        expect(mark(OTHER) == others[i], "the mark after a refusal");
    }
    put_word(mark_place(OTHER), PAGEMON_MARKED);
    expect_given(map(7, OTHER, EXECUTES), PAGEMON_ACCEPTED, 0, "a mark of 1");
}

/* 1,024 pages of one block, by a new table: one is hashed. */
static void create(void)
{
    start();
    for (uint32_t index = 0; index < PAGEMON_L2_ENTRIES; index++) {
        put_word(block(NEW_PAGES) + 4 * index, CODE << 12 | 0x02E);
    }
    expect_given(pagemon_create_l2(REGION, IMAGE, NEW_PAGES, &numbers[1]), PAGEMON_ACCEPTED, 1, "create");
    expect(mark(CODE) == PAGEMON_MARKED && mark(NEW_PAGES) == 0, "marks after create");
    expect(pagemon_free_l2(REGION, NEW_PAGES) == PAGEMON_ACCEPTED && mark(CODE) == PAGEMON_MARKED, "free");
    expect_given(pagemon_create_l2(REGION, IMAGE, NEW_PAGES, &numbers[1]), PAGEMON_ACCEPTED, 0, "create again");
    expect_given(pagemon_create_l2(REGION, IMAGE, NEW_PAGES, &numbers[1]), PAGEMON_WRONG_TYPE, 0, "create a third time");
}

int main(void)
{
    hashed_once();
    hashed_again();
    believed();
    create();
    printf("marks.c: %s\n", failures == 0 ? "ok" : "failed");
    return failures != 0;
}
