/* The monitor library as C code links it: the sample list of calls (program 7), and buffers that are refused. */
#include "pagemon.h"

#include <stdbool.h>
#include <stdio.h>
#include <string.h>

enum { BLOCKS = 16, GUARD = 32, CANARY = 0xC5 };

static int failures = 0;

static void expect(bool holds, const char *what)
{
    if (!holds) {
        printf("pagemon.c: %s\n", what);
        failures++;
    }
}

/* What the last create or map gave beside its answer; something else before it. Nothing is executed here. */
static uint32_t hashed = 0xA7A7A7A7;

static void expect_answer(uint32_t answer, uint32_t expected, const char *what)
{
    if (answer != expected) {
        printf("pagemon.c: %s answered %u, expected %u\n", what, (unsigned)answer, (unsigned)expected);
        failures++;
    }
}

/* The answer of a create or map, which has hashed nothing. */
static void expect_unhashed(uint32_t answer, uint32_t expected, const char *what)
{
    expect_answer(answer, expected, what);
    expect(hashed == 0, what);
    hashed = 0xA7A7A7A7;
}

/* Memory, ledger and fault registers between canaries, and no golden image. */
static uint8_t memory_place[GUARD + BLOCKS * PAGEMON_BLOCK_BYTES + GUARD];
static uint8_t ledger_place[GUARD + PAGEMON_LEDGER_BYTES(BLOCKS) + GUARD];
static uint8_t registers_place[GUARD + PAGEMON_REGISTERS_BYTES + GUARD];
static uint8_t *const memory = memory_place + GUARD;
static uint8_t *const ledger = ledger_place + GUARD;
static uint8_t *const registers = registers_place + GUARD;
static const uint8_t golden[1];

static const size_t memory_length = BLOCKS * PAGEMON_BLOCK_BYTES;
static const size_t ledger_length = PAGEMON_LEDGER_BYTES(BLOCKS);
static const size_t registers_length = PAGEMON_REGISTERS_BYTES;

static void zeros(void)
{
    memset(memory_place, CANARY, sizeof memory_place);
    memset(ledger_place, CANARY, sizeof ledger_place);
    memset(registers_place, CANARY, sizeof registers_place);
    memset(memory, 0, memory_length);
    memset(ledger, 0, ledger_length);
    memset(registers, 0, registers_length);
}

static bool canaries(const uint8_t *place, size_t length)
{
    for (size_t i = 0; i < GUARD; i++) {
        if (place[i] != CANARY || place[GUARD + length + i] != CANARY) {
            return false;
        }
    }
    return true;
}

static uint32_t word(const uint8_t *at)
{
    return at[0] | (uint32_t)at[1] << 8 | (uint32_t)at[2] << 16 | (uint32_t)at[3] << 24;
}

static void sample(void)
{
    uint8_t byte = 0xA7;
    zeros();
    expect_answer(pagemon_begin(memory, memory_length, ledger, ledger_length, 0), PAGEMON_ACCEPTED, "begin");
    expect_unhashed(pagemon_create_l1(memory, memory_length, ledger, ledger_length, golden, 0, 0, &hashed), PAGEMON_ACCEPTED, "create L1");
    expect_answer(pagemon_switch(memory, memory_length, ledger, ledger_length, 0), PAGEMON_ACCEPTED, "switch");
    expect_unhashed(pagemon_create_l2(memory, memory_length, ledger, ledger_length, golden, 0, 4, &hashed), PAGEMON_ACCEPTED, "create L2");
    expect_answer(pagemon_link(memory, memory_length, ledger, ledger_length, 0, 0, 4, 0), PAGEMON_ACCEPTED, "link");
    expect_unhashed(pagemon_map_l2(memory, memory_length, ledger, ledger_length, golden, 0, 4, 5, 8, PAGEMON_READ | PAGEMON_WRITE, &hashed),
                    PAGEMON_ACCEPTED, "map L2");
    expect_answer(pagemon_write(memory, memory_length, ledger, ledger_length, registers, registers_length, 0x5000, 65), PAGEMON_ACCEPTED, "write");
    expect_answer(pagemon_read(memory, memory_length, ledger, ledger_length, registers, registers_length, 0x5000, &byte), PAGEMON_ACCEPTED, "read");
    expect(byte == 65, "the byte read is not 65");
    byte = 0xA7;
    expect_answer(pagemon_fetch(memory, memory_length, ledger, ledger_length, registers, registers_length, 0x5000, &byte), PAGEMON_RIGHT_LACKING,
                  "fetch");
    expect(byte == 0, "a refused fetch gave another byte than 0");
    expect_unhashed(pagemon_map_l2(memory, memory_length, ledger, ledger_length, golden, 0, 4, 6, 8, PAGEMON_READ | PAGEMON_EXECUTE, &hashed),
                    PAGEMON_CLASH, "map L2 to execute");
    expect_answer(pagemon_free_l2(memory, memory_length, ledger, ledger_length, 4), PAGEMON_IN_USE, "free L2");
}

/* What the sample leaves: two words of tables, the byte written, types and counters, and what the fetch told. */
static void left_by_sample(void)
{
    const uint8_t *records = ledger + PAGEMON_LEDGER_HEAD_BYTES;
    expect(word(memory) == 0x00004001, "the link's word");
    expect(word(memory + 4 * PAGEMON_BLOCK_BYTES + 4 * 5) == 0x0000803F, "the page's word");
    expect(memory[8 * PAGEMON_BLOCK_BYTES] == 65, "the byte written");
    expect(word(ledger) == 0 && word(ledger + 4) == 0, "B and active");
    for (uint32_t block = 0; block < BLOCKS; block++) {
        const uint8_t *record = records + PAGEMON_LEDGER_RECORD_BYTES * block;
        uint32_t type = block < 4 ? PAGEMON_TYPE_L1 : block == 4 ? PAGEMON_TYPE_L2 : PAGEMON_TYPE_DATA;
        expect(word(record) == type, "a type");
        expect(word(record + 4) == (block == 8), "a w");
        expect(word(record + 8) == 0, "an x");
        expect(word(record + 12) == (block == 4), "an l");
        expect(word(record + 16) == 0, "a mark");
    }
    expect(word(registers + PAGEMON_DFSR) == 0 && word(registers + PAGEMON_DFAR) == 0, "DFSR and DFAR");
    expect(word(registers + PAGEMON_IFSR) == 0x00F && word(registers + PAGEMON_IFAR) == 0x5000, "IFSR and IFAR");
    expect(registers[PAGEMON_PENDING] == 1, "the pending byte");
    expect(canaries(memory_place, memory_length), "a byte outside of memory was changed");
    expect(canaries(ledger_place, ledger_length), "a byte outside of the ledger was changed");
    expect(canaries(registers_place, registers_length), "a byte outside of the fault registers was changed");
}

/* A large page over all blocks, which can be read at the indices 16 to 31, and its calls. */
static void a_large_page(void)
{
    const uint8_t *run = memory + 4 * PAGEMON_BLOCK_BYTES + 4 * 16;
    uint8_t byte = 0xA7;
    expect_unhashed(pagemon_map_large(memory, memory_length, ledger, ledger_length, golden, 0, 4, 16, 0, PAGEMON_READ | PAGEMON_WRITE, &hashed),
                    PAGEMON_UNFIT_TARGET, "map large over tables to write");
    expect_unhashed(pagemon_map_large(memory, memory_length, ledger, ledger_length, golden, 0, 4, 0, 0, PAGEMON_READ, &hashed), PAGEMON_WRONG_ENTRY,
                    "map large over a page");
    expect_unhashed(pagemon_map_large(memory, memory_length, ledger, ledger_length, golden, 0, 4, 16, 0, PAGEMON_READ, &hashed), PAGEMON_ACCEPTED,
                    "map large");
    for (size_t i = 0; i < PAGEMON_LARGE_BLOCKS; i++) {
        expect(word(run + 4 * i) == 0x0000802D, "a large page's word");
    }
    expect_answer(pagemon_read(memory, memory_length, ledger, ledger_length, registers, registers_length, 0x18000, &byte), PAGEMON_ACCEPTED,
                  "read by a large page");
    expect(byte == 65, "the byte read by a large page is not 65");
    expect_answer(pagemon_unmap_l2(memory, memory_length, ledger, ledger_length, 4, 24), PAGEMON_WRONG_ENTRY, "unmap L2 of a large page");
    expect_answer(pagemon_unmap_large(memory, memory_length, ledger, ledger_length, 4, 24), PAGEMON_MISALIGNED, "unmap large at index 24");
    expect_answer(pagemon_unmap_large(memory, memory_length, ledger, ledger_length, 4, 16), PAGEMON_ACCEPTED, "unmap large");
    for (size_t i = 0; i < PAGEMON_LARGE_BLOCKS; i++) {
        expect(word(run + 4 * i) == 0, "a word of a large page that is gone");
    }
}

/* The calls that the sample leaves out. */
static void the_other_calls(void)
{
    uint8_t pending = 0xA7;
    expect_answer(pagemon_acknowledge(registers, registers_length, &pending), PAGEMON_ACCEPTED, "acknowledge");
    expect(pending == 1 && registers[PAGEMON_PENDING] == 0, "the pending byte given and left");
    expect_unhashed(pagemon_map_l1(memory, memory_length, ledger, ledger_length, golden, 0, 0, 1, 0, PAGEMON_READ, &hashed), PAGEMON_UNFIT_TARGET,
                    "map L1");
    expect_answer(pagemon_unmap_l2(memory, memory_length, ledger, ledger_length, 4, 5), PAGEMON_ACCEPTED, "unmap L2");
    expect_answer(pagemon_unmap_l1(memory, memory_length, ledger, ledger_length, 0, 0), PAGEMON_ACCEPTED, "unmap L1");
    expect_answer(pagemon_free_l2(memory, memory_length, ledger, ledger_length, 4), PAGEMON_ACCEPTED, "free L2");
    expect_answer(pagemon_free_l1(memory, memory_length, ledger, ledger_length, 0), PAGEMON_IN_USE, "free L1 of the active table");
    expect_unhashed(pagemon_create_l1(memory, memory_length, ledger, ledger_length, golden, 0, 12, &hashed), PAGEMON_ACCEPTED, "create L1");
    expect_answer(pagemon_switch(memory, memory_length, ledger, ledger_length, 12), PAGEMON_ACCEPTED, "switch");
    expect_answer(pagemon_free_l1(memory, memory_length, ledger, ledger_length, 0), PAGEMON_ACCEPTED, "free L1");
    expect_answer(pagemon_forget(memory, memory_length, ledger, ledger_length, 0, BLOCKS), PAGEMON_ACCEPTED, "forget");
    expect_answer(pagemon_forget(memory, memory_length, ledger, ledger_length, 0, BLOCKS + 1), PAGEMON_OUTSIDE_REGION, "forget too many");
    expect_answer(pagemon_forget(memory, memory_length, ledger, ledger_length, 0xFFFFFFFF, 0), PAGEMON_ACCEPTED, "forget nothing");
}

static void bad_buffers(void)
{
    uint8_t byte = 0xA7;
    zeros();
    expect_answer(pagemon_begin(memory, memory_length - 1, ledger, ledger_length, 0), PAGEMON_MISFIT, "a memory that is no whole blocks");
    expect_answer(pagemon_begin(memory, memory_length, ledger, ledger_length - 1, 0), PAGEMON_MISFIT, "a short ledger");
    expect_answer(pagemon_begin(memory, memory_length, ledger, ledger_length, 255), PAGEMON_MISFIT, "a B of 255");
    expect_unhashed(pagemon_map_l2(memory, memory_length, ledger, ledger_length, golden, 1, 4, 5, 8, PAGEMON_READ, &hashed), PAGEMON_MISFIT,
                    "a golden image of one byte");
    expect_unhashed(pagemon_map_large(memory, memory_length, ledger, ledger_length, golden, 1, 4, 16, 0, PAGEMON_READ, &hashed), PAGEMON_MISFIT,
                    "a golden image of one byte for a large page");
    expect_answer(pagemon_read(memory, 0, ledger, 0, registers, registers_length, 0, &byte), PAGEMON_MISFIT, "no memory");
    expect(byte == 0, "a refused read gave another byte than 0");
    expect_answer(pagemon_forget(memory, memory_length, ledger, ledger_length - 1, 0, 1), PAGEMON_MISFIT, "forget with a short ledger");
    expect_answer(pagemon_write(memory, memory_length, ledger, ledger_length, registers, registers_length - 1, 0, 0), PAGEMON_MISFIT,
                  "write with short fault registers");
    byte = 0xA7;
    expect_answer(pagemon_acknowledge(registers, registers_length - 1, &byte), PAGEMON_MISFIT, "acknowledge of short fault registers");
    expect(byte == 0, "a refused acknowledge gave another byte than 0");
}

int main(void)
{
    sample();
    left_by_sample();
    a_large_page();
    left_by_sample();
    the_other_calls();
    bad_buffers();
    printf("pagemon.c: %s\n", failures == 0 ? "ok" : "failed");
    return failures != 0;
}
