/*
 * The fault registers as C code sees them: the places and macros of the header held against what each access tells, the bytes around them, every other
 * number of bytes, and acknowledge.
 */
#include "pagemon.h"

#include <stdbool.h>
#include <stdio.h>
#include <string.h>

enum { BLOCKS = 272, FIRST = 0x100, TABLE = 0x200, PAGES = 0x204, DATA = 0x208, LARGE = 0x110, GUARD = 32, CANARY = 0xC5, OLD = 0x3A };
enum { NOTHING = 0, READS = PAGEMON_READ, WRITES = PAGEMON_READ | PAGEMON_WRITE };

static int failures = 0;

static void expect(bool holds, const char *what, uint32_t number)
{
    if (!holds) {
        printf("registers.c: %s 0x%X\n", what, (unsigned)number);
        failures++;
    }
}

static uint8_t memory[BLOCKS * PAGEMON_BLOCK_BYTES], ledger[PAGEMON_LEDGER_BYTES(BLOCKS)];
static uint8_t place[GUARD + PAGEMON_REGISTERS_BYTES + GUARD], *const registers = place + GUARD;

#define REGION memory, sizeof memory, ledger, sizeof ledger
#define NO_IMAGE NULL, 0

static void header(void)
{
    static const struct {
        uint32_t status, code, level;
        bool is_write, is_translation, is_permission;
    } words[] = {
        {0x005, PAGEMON_TRANSLATION_L1, 1, false, true, false}, {0x007, PAGEMON_TRANSLATION_L2, 2, false, true, false},
        {0x00D, PAGEMON_PERMISSION_L1, 1, false, false, true},  {0x00F, PAGEMON_PERMISSION_L2, 2, false, false, true},
        {0x805, PAGEMON_TRANSLATION_L1, 1, true, true, false},  {0x807, PAGEMON_TRANSLATION_L2, 2, true, true, false},
        {0x80D, PAGEMON_PERMISSION_L1, 1, true, false, true},   {0x80F, PAGEMON_PERMISSION_L2, 2, true, false, true},
    };
    for (size_t i = 0; i < sizeof words / sizeof words[0]; i++) {
        uint32_t status = words[i].status;
        expect(PAGEMON_STATUS_CODE(status) == words[i].code, "the code of", status);
        expect(PAGEMON_STATUS_LEVEL(status) == words[i].level, "the level of", status);
        expect(PAGEMON_STATUS_IS_WRITE(status) == words[i].is_write, "a write, by", status);
        expect(PAGEMON_STATUS_IS_TRANSLATION(status) == words[i].is_translation, "a translation fault, by", status);
        expect(PAGEMON_STATUS_IS_PERMISSION(status) == words[i].is_permission, "a permission fault, by", status);
    }
    /* No fault yet; codes of ARM's that no call tells, of which one has the highest bit; and the domain's bits. */
    expect(PAGEMON_STATUS_CODE(0u) == 0 && !PAGEMON_STATUS_IS_TRANSLATION(0u) && !PAGEMON_STATUS_IS_PERMISSION(0u), "the status", 0);
    expect(PAGEMON_STATUS_CODE(0x406u) == 0x16 && !PAGEMON_STATUS_IS_TRANSLATION(0x405u), "the status", 0x406);
    expect(!PAGEMON_STATUS_IS_TRANSLATION(0x008u) && !PAGEMON_STATUS_IS_PERMISSION(0x009u), "the status", 0x008);
    expect(PAGEMON_STATUS_CODE(0x8F7u) == PAGEMON_TRANSLATION_L2, "the status", 0x8F7);
    expect(PAGEMON_DFSR == 0 && PAGEMON_DFAR == 4 && PAGEMON_IFSR == 8 && PAGEMON_IFAR == 12 && PAGEMON_PENDING == 16, "places", 0);
    expect(PAGEMON_PENDING + 1 == PAGEMON_REGISTERS_BYTES, "bytes", PAGEMON_REGISTERS_BYTES);
    expect(PAGEMON_REGISTER(((const uint8_t[]){0, 0x78, 0x56, 0x34, 0xF2}), 1) == 0xF2345678, "a word", 0);
}

/* Sections to read at L1 index 1 and without rights at 3, and in the L2 table at index 0 a page of each sort and such large pages. */
static void start(void)
{
    uint32_t hashed = 0;
    bool set_up = pagemon_begin(REGION, FIRST) == PAGEMON_ACCEPTED && pagemon_create_l1(REGION, NO_IMAGE, TABLE, &hashed) == PAGEMON_ACCEPTED
                  && pagemon_create_l2(REGION, NO_IMAGE, PAGES, &hashed) == PAGEMON_ACCEPTED
                  && pagemon_link(REGION, TABLE, 0, PAGES, 0) == PAGEMON_ACCEPTED && pagemon_switch(REGION, TABLE) == PAGEMON_ACCEPTED
                  && pagemon_map_l1(REGION, NO_IMAGE, TABLE, 1, FIRST, READS, &hashed) == PAGEMON_ACCEPTED
                  && pagemon_map_l1(REGION, NO_IMAGE, TABLE, 3, FIRST, NOTHING, &hashed) == PAGEMON_ACCEPTED
                  && pagemon_map_l2(REGION, NO_IMAGE, PAGES, 5, DATA, NOTHING, &hashed) == PAGEMON_ACCEPTED
                  && pagemon_map_l2(REGION, NO_IMAGE, PAGES, 6, DATA, READS, &hashed) == PAGEMON_ACCEPTED
                  && pagemon_map_l2(REGION, NO_IMAGE, PAGES, 7, DATA, WRITES, &hashed) == PAGEMON_ACCEPTED
                  && pagemon_map_large(REGION, NO_IMAGE, PAGES, 16, LARGE, READS, &hashed) == PAGEMON_ACCEPTED
                  && pagemon_map_large(REGION, NO_IMAGE, PAGES, 32, LARGE, NOTHING, &hashed) == PAGEMON_ACCEPTED;
    expect(set_up, "set up", 0);
}

enum access { READ, WRITE, FETCH };

/* An access with so many bytes of fault registers. A refused one gives the byte 0. */
static uint32_t access_with(enum access access, uint32_t address, size_t length)
{
    uint8_t byte = 0xA7;
    uint32_t answer = access == READ    ? pagemon_read(REGION, registers, length, address, &byte)
                      : access == WRITE ? pagemon_write(REGION, registers, length, address, 0x41)
                                        : pagemon_fetch(REGION, registers, length, address, &byte);
    expect(access == WRITE || answer == PAGEMON_ACCEPTED || byte == 0, "a byte with the refusal", answer);
    return answer;
}

/* Fault registers that hold one byte everywhere, between canaries. */
static void fill(uint8_t content)
{
    memset(place, CANARY, sizeof place);
    memset(registers, content, PAGEMON_REGISTERS_BYTES);
}

static void expect_canaries(uint32_t number)
{
    for (size_t i = 0; i < GUARD; i++) {
        expect(place[i] == CANARY && place[GUARD + PAGEMON_REGISTERS_BYTES + i] == CANARY, "a byte beside the fault registers of", number);
    }
}

static void expect_untouched(uint8_t content, uint32_t number)
{
    for (size_t i = 0; i < PAGEMON_REGISTERS_BYTES; i++) {
        expect(registers[i] == content, "a byte was changed with", number);
    }
    expect_canaries(number);
}

static const struct fault {
    enum access access;
    uint32_t address, answer, code;
} faults[] = {
    {READ, 0x00200000, PAGEMON_FAULT_ENTRY, PAGEMON_TRANSLATION_L1},    {WRITE, 0xFFFFFFFF, PAGEMON_FAULT_ENTRY, PAGEMON_TRANSLATION_L1},
    {FETCH, 0xFFFFFFFF, PAGEMON_FAULT_ENTRY, PAGEMON_TRANSLATION_L1},   {READ, 0x00000000, PAGEMON_FAULT_ENTRY, PAGEMON_TRANSLATION_L2},
    {WRITE, 0x00008FFF, PAGEMON_FAULT_ENTRY, PAGEMON_TRANSLATION_L2},   {FETCH, 0x00000000, PAGEMON_FAULT_ENTRY, PAGEMON_TRANSLATION_L2},
    {WRITE, 0x00123456, PAGEMON_RIGHT_LACKING, PAGEMON_PERMISSION_L1},  {FETCH, 0x001FFFFF, PAGEMON_RIGHT_LACKING, PAGEMON_PERMISSION_L1},
    {READ, 0x00345678, PAGEMON_RIGHT_LACKING, PAGEMON_PERMISSION_L1},   {READ, 0x00020004, PAGEMON_RIGHT_LACKING, PAGEMON_PERMISSION_L2},
    {READ, 0x00005ABC, PAGEMON_RIGHT_LACKING, PAGEMON_PERMISSION_L2},   {WRITE, 0x00006001, PAGEMON_RIGHT_LACKING, PAGEMON_PERMISSION_L2},
    {FETCH, 0x00007002, PAGEMON_RIGHT_LACKING, PAGEMON_PERMISSION_L2},  {WRITE, 0x00010000, PAGEMON_RIGHT_LACKING, PAGEMON_PERMISSION_L2},
    {FETCH, 0x0001FFFF, PAGEMON_RIGHT_LACKING, PAGEMON_PERMISSION_L2},
};

/* What the header's macros read from the bytes that this fault left; the other two registers hold what they held. */
static void expect_told(const struct fault *fault, uint32_t old)
{
    uint32_t status_at = fault->access == FETCH ? PAGEMON_IFSR : PAGEMON_DFSR, address_at = fault->access == FETCH ? PAGEMON_IFAR : PAGEMON_DFAR;
    uint32_t other_status = fault->access == FETCH ? PAGEMON_DFSR : PAGEMON_IFSR, other_address = fault->access == FETCH ? PAGEMON_DFAR : PAGEMON_IFAR;
    uint32_t status = PAGEMON_REGISTER(registers, status_at), at = fault->address;
    expect(PAGEMON_STATUS_CODE(status) == fault->code, "another code of a fault at", at);
    expect(PAGEMON_STATUS_IS_WRITE(status) == (fault->access == WRITE), "a write told, or not, of a fault at", at);
    expect(PAGEMON_STATUS_IS_TRANSLATION(status) == (fault->answer == PAGEMON_FAULT_ENTRY), "another sort of fault at", at);
    expect(PAGEMON_STATUS_IS_PERMISSION(status) == (fault->answer == PAGEMON_RIGHT_LACKING), "another sort of fault at", at);
    expect((status & ~0x80Fu) == 0, "more bits of a fault at", at);
    expect(PAGEMON_REGISTER(registers, address_at) == at, "another address than", at);
    expect(PAGEMON_REGISTER(registers, other_status) == old && PAGEMON_REGISTER(registers, other_address) == old, "the other registers of", at);
    expect(registers[PAGEMON_PENDING] == 1, "the pending byte of a fault at", at);
    expect_canaries(at);
}

static void told(void)
{
    static const uint8_t contents[] = {0, 1, 7, OLD, 0xFF};
    for (size_t i = 0; i < sizeof faults / sizeof faults[0]; i++) {
        for (size_t k = 0; k < sizeof contents; k++) {
            fill(contents[k]);
            expect(access_with(faults[i].access, faults[i].address, PAGEMON_REGISTERS_BYTES) == faults[i].answer, "another answer at", faults[i].address);
            expect_told(&faults[i], 0x01010101u * contents[k]);
        }
    }
}

/* Accepted accesses, no active table, an entry that is not accepted, and a ledger that is refused. */
static void untouched(void)
{
    uint8_t *active = ledger + 4, *entry = memory + (size_t)(TABLE - FIRST) * PAGEMON_BLOCK_BYTES + 4 * 2, *kind = ledger + PAGEMON_KINDS_AT + 1;
    uint8_t kept[4];
    memcpy(kept, active, sizeof kept);
    fill(OLD);
    expect(access_with(READ, 0x00100000, PAGEMON_REGISTERS_BYTES) == PAGEMON_ACCEPTED, "read", 0);
    expect(access_with(WRITE, 0x00007FFF, PAGEMON_REGISTERS_BYTES) == PAGEMON_ACCEPTED, "write", 0);
    expect_untouched(OLD, PAGEMON_ACCEPTED);
    for (enum access access = READ; access <= FETCH; access++) {
        memset(active, 0xFF, sizeof kept);
        expect(access_with(access, 0x00200000, PAGEMON_REGISTERS_BYTES) == PAGEMON_NO_ACTIVE_TABLE, "no table", access);
        memcpy(active, kept, sizeof kept);
        entry[0] = 3;
        expect(access_with(access, 0x00200000, PAGEMON_REGISTERS_BYTES) == PAGEMON_BROKEN_WALK, "an entry that is not accepted", access);
        entry[0] = 0;
        *kind = 1;
        expect(access_with(access, 0x00200000, PAGEMON_REGISTERS_BYTES) == PAGEMON_MISFIT, "an unlawful kind", access);
        *kind = 0;
        expect_untouched(OLD, access);
    }
}

/* Every other number of bytes up to 40 is refused, whatever the access would have been answered, and nothing changes. */
static void lengths(void)
{
    static uint8_t before[sizeof memory];
    memcpy(before, memory, sizeof memory);
    for (size_t length = 0; length <= 40; length++) {
        uint8_t pending = 0xA7;
        if (length == PAGEMON_REGISTERS_BYTES) {
            continue;
        }
        memset(place, OLD, sizeof place);
        for (size_t i = 0; i < sizeof faults / sizeof faults[0]; i++) {
            expect(access_with(faults[i].access, faults[i].address, length) == PAGEMON_MISFIT, "a fault with bytes:", (uint32_t)length);
        }
        expect(access_with(WRITE, 0x00007000, length) == PAGEMON_MISFIT, "a write with bytes:", (uint32_t)length);
        expect(pagemon_acknowledge(registers, length, &pending) == PAGEMON_MISFIT && pending == 0, "acknowledge of bytes:", (uint32_t)length);
        for (size_t i = 0; i < sizeof place; i++) {
            expect(place[i] == OLD, "a byte was changed, of:", (uint32_t)length);
        }
    }
    expect(memcmp(memory, before, sizeof memory) == 0, "a refused write stored", 0);
}

/* Every pending byte is given as it is and cleared, and the registers stay. */
static void acknowledges(void)
{
    for (uint32_t byte = 0; byte < 256; byte++) {
        uint8_t pending = (uint8_t)~byte;
        fill(OLD);
        registers[PAGEMON_PENDING] = (uint8_t)byte;
        expect(pagemon_acknowledge(registers, PAGEMON_REGISTERS_BYTES, &pending) == PAGEMON_ACCEPTED && pending == byte, "acknowledge", byte);
        expect(registers[PAGEMON_PENDING] == 0, "the pending byte after acknowledge", byte);
        expect(pagemon_acknowledge(registers, PAGEMON_REGISTERS_BYTES, &pending) == PAGEMON_ACCEPTED && pending == 0, "acknowledge again", byte);
        registers[PAGEMON_PENDING] = OLD;
        expect_untouched(OLD, byte);
    }
}

/* A set for each of two guest processors. */
static void two_sets(void)
{
    uint8_t first[PAGEMON_REGISTERS_BYTES] = {0}, second[PAGEMON_REGISTERS_BYTES] = {0}, byte = 0, pending = 0;
    expect(pagemon_read(REGION, first, sizeof first, 0x00200000, &byte) == PAGEMON_FAULT_ENTRY, "the first processor", 0);
    expect(pagemon_write(REGION, second, sizeof second, 0x00006000, 1) == PAGEMON_RIGHT_LACKING, "the second processor", 0);
    expect(PAGEMON_REGISTER(first, PAGEMON_DFSR) == 0x005 && PAGEMON_REGISTER(second, PAGEMON_DFSR) == 0x80F, "their statuses", 0);
    expect(pagemon_acknowledge(first, sizeof first, &pending) == PAGEMON_ACCEPTED && pending == 1, "acknowledge", 0);
    expect(first[PAGEMON_PENDING] == 0 && second[PAGEMON_PENDING] == 1, "their pending bytes", 0);
}

int main(void)
{
    header();
    start();
    told();
    untouched();
    lengths();
    acknowledges();
    two_sets();
    printf("registers.c: %s\n", failures == 0 ? "ok" : "failed");
    return failures != 0;
}
