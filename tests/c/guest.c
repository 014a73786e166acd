/* Begin, switch and the guest's accesses as C code links them. The tables and their types are put down by hand. */
#include "pagemon.h"

#include <stdbool.h>
#include <stdio.h>
#include <string.h>

enum { BLOCKS = 16, FIRST = 0x100 };

static int failures = 0;

static void expect(bool holds, const char *what)
{
    if (!holds) {
        printf("guest.c: %s\n", what);
        failures++;
    }
}

static uint8_t memory[BLOCKS * PAGEMON_BLOCK_BYTES];
static uint8_t ledger[PAGEMON_LEDGER_BYTES(BLOCKS)];
static uint8_t registers[PAGEMON_REGISTERS_BYTES];

#define REGION memory, sizeof memory, ledger, sizeof ledger
#define REGISTERS registers, sizeof registers

static uint32_t word(const uint8_t *at)
{
    return at[0] | (uint32_t)at[1] << 8 | (uint32_t)at[2] << 16 | (uint32_t)at[3] << 24;
}

static void put_word(uint8_t *at, uint32_t value)
{
    for (int i = 0; i < 4; i++) {
        at[i] = (uint8_t)(value >> 8 * i);
    }
}

static uint8_t *mark(uint32_t block)
{
    return ledger + PAGEMON_LEDGER_HEAD_BYTES + PAGEMON_LEDGER_RECORD_BYTES * block + 16;
}

static void begin(void)
{
    memset(ledger, 0x77, sizeof ledger);
    expect(pagemon_begin(REGION, FIRST + 1) == PAGEMON_MISFIT, "begin with an odd B");
    expect(word(ledger) == 0x77777777, "a refused begin changed the ledger");
    expect(pagemon_begin(REGION, FIRST) == PAGEMON_ACCEPTED, "begin");
    expect(word(ledger) == FIRST && word(ledger + 4) == PAGEMON_NO_TABLE, "B and active");
    for (size_t at = PAGEMON_LEDGER_HEAD_BYTES; at < sizeof ledger; at++) {
        expect(ledger[at] == 0, "a byte of a record");
    }
}

static void switches(void)
{
    for (uint32_t block = 4; block < 8; block++) {
        expect(pagemon_switch(REGION, FIRST + 4) == PAGEMON_WRONG_TYPE, "switch to data");
        put_word(ledger + PAGEMON_LEDGER_HEAD_BYTES + PAGEMON_LEDGER_RECORD_BYTES * block, PAGEMON_TYPE_L1);
    }
    expect(pagemon_switch(REGION, FIRST + 13) == PAGEMON_OUTSIDE_REGION, "switch outside");
    expect(pagemon_switch(REGION, FIRST + 5) == PAGEMON_MISALIGNED, "switch to an odd block");
    expect(pagemon_switch(REGION, FIRST + 4) == PAGEMON_ACCEPTED, "switch");
    expect(word(ledger + 4) == FIRST + 4, "active");
}

static uint32_t read_byte(uint32_t address, uint8_t *byte)
{
    *byte = 0xA7;
    return pagemon_read(REGION, REGISTERS, address, byte);
}

static uint32_t fetch_byte(uint32_t address, uint8_t *byte)
{
    *byte = 0xA7;
    return pagemon_fetch(REGION, REGISTERS, address, byte);
}

/* L1 index 0x123 leads to table 2 of block 8, whose entry 0x45 is a page to write and 0x46 a page to execute. */
static void accesses(void)
{
    uint8_t byte;
    uint8_t *table = memory + 4 * PAGEMON_BLOCK_BYTES, *pages = memory + 8 * PAGEMON_BLOCK_BYTES;
    expect(read_byte(0x12345678, &byte) == PAGEMON_FAULT_ENTRY && byte == 0, "read at a fault");
    put_word(table + 4 * 0x123, (FIRST + 8) * 4096u + 2 * 1024 + 1);
    put_word(pages + 4 * (512 + 0x45), (FIRST + 10) * 4096u + 0x03F);
    put_word(pages + 4 * (512 + 0x46), (FIRST + 11) * 4096u + 0x02E);
    put_word(pages + 4 * (512 + 0x47), (FIRST + BLOCKS) * 4096u + 0x02E);
    for (uint32_t block = 9; block <= 11; block++) {
        put_word(mark(block), PAGEMON_MARKED);
    }
    expect(pagemon_write(REGION, REGISTERS, 0x12345678, 0x1C3) == PAGEMON_ACCEPTED, "write");
    expect(word(mark(9)) == PAGEMON_MARKED && word(mark(10)) == 0 && word(mark(11)) == PAGEMON_MARKED, "the mark of the block written");
    expect(memory[10 * PAGEMON_BLOCK_BYTES + 0x678] == 0xC3, "the byte written");
    expect(read_byte(0x12345678, &byte) == PAGEMON_ACCEPTED && byte == 0xC3, "read");
    expect(fetch_byte(0x12345678, &byte) == PAGEMON_RIGHT_LACKING && byte == 0, "fetch without the right");
    memory[11 * PAGEMON_BLOCK_BYTES] = 0x99;
    expect(fetch_byte(0x12346000, &byte) == PAGEMON_ACCEPTED && byte == 0x99, "fetch");
    expect(pagemon_write(REGION, REGISTERS, 0x12346000, 1) == PAGEMON_RIGHT_LACKING, "write without the right");
    expect(memory[11 * PAGEMON_BLOCK_BYTES] == 0x99, "a refused write stored");
    expect(word(mark(11)) == PAGEMON_MARKED, "a refused write cleared a mark");
    expect(read_byte(0x12347000, &byte) == PAGEMON_BROKEN_WALK && byte == 0, "read outside the region");
    put_word(ledger + 4, PAGEMON_NO_TABLE);
    expect(read_byte(0x12345678, &byte) == PAGEMON_NO_ACTIVE_TABLE && byte == 0, "read without a table");
}

int main(void)
{
    begin();
    switches();
    accesses();
    printf("guest.c: %s\n", failures == 0 ? "ok" : "failed");
    return failures != 0;
}
