/*
 * Buffers at the edges of what C code can lend: lengths above 2^32 over addresses that must not be touched, empty buffers whose pointer is NULL or
 * must not be followed, odd addresses, and buffers that start or end where a page does, beside one that must not be touched. The long ones are
 * reserved, not used: that takes some 80 GiB of address space. Where there is not as much, a part of them is: a length has 64 bits everywhere.
 */
#define _GNU_SOURCE
#include "signature.h"
#include "steps.h"

#include <signal.h>
#include <stdbool.h>
#include <stdio.h>
#include <stdlib.h>
#include <string.h>
#include <sys/mman.h>
#include <unistd.h>

enum { PAGE = 4096, CANARY = 0xC5, DIGESTS = 2 + PAGEMON_SECTION_BLOCKS };

/* A region with a section of data, and behind it tables, of which one lies in the last four blocks, and a page that is written. */
enum { BLOCKS = 276, FIRST = 0x100, CODE = 0x108, DATA = 0x10A };
enum { PAGES = 0x200, LATER_PAGES, SPARE, WRITTEN, TABLE = 0x204, LATER_TABLE = 0x20C, OTHER = 0x210 };
enum { READS = PAGEMON_READ, WRITES = PAGEMON_READ | PAGEMON_WRITE, EXECUTES = PAGEMON_READ | PAGEMON_EXECUTE };

#define MEMORY_BYTES ((size_t)BLOCKS * PAGEMON_BLOCK_BYTES)
#define LEDGER_BYTES PAGEMON_LEDGER_BYTES(BLOCKS)
#define GOLDEN_BYTES ((size_t)DIGESTS * PAGEMON_DIGEST_BYTES)
#define FOUR_GIB (UINT64_C(1) << 32)

static int failures = 0;

static void expect(bool holds, const char *what, const char *where, size_t number)
{
    if (!holds) {
        printf("buffers.c: %s: %s %zu\n", where, what, number);
        failures++;
    }
}

/* What is being tried, for the handler of a touch that must not be. */
static const char *volatile trying = "";

static void touched(int signal)
{
    static const char what[] = "buffers.c: a place was touched that must not be: ";
    (void)signal;
    if (write(STDOUT_FILENO, what, sizeof what - 1) > 0 && write(STDOUT_FILENO, trying, strlen(trying)) > 0) {
        (void)!write(STDOUT_FILENO, "\n", 1);
    }
    _exit(1);
}

struct step {
    uint8_t call;
    uint32_t arguments[5];
    uint32_t answer;
    uint8_t byte;
    uint32_t hashed;
};

/* Every call accepted, and most refusals. Steps reach the first and the last byte of the memory. */
static const struct step script[] = {
    {PAGEMON_CALL_READ, {0}, PAGEMON_MISFIT, 0, 0}, /* no ledger yet */
    {PAGEMON_CALL_BEGIN, {FIRST + 1}, PAGEMON_MISFIT, 0, 0},
    {PAGEMON_CALL_BEGIN, {FIRST}, PAGEMON_ACCEPTED, 0, 0},
    {PAGEMON_CALL_READ, {0}, PAGEMON_NO_ACTIVE_TABLE, 0, 0},
    {PAGEMON_CALL_CREATE_L2, {PAGES}, PAGEMON_ACCEPTED, 0, 1}, /* it executes CODE */
    {PAGEMON_CALL_CREATE_L1, {TABLE}, PAGEMON_ACCEPTED, 0, 0}, /* its last entry links to the last table of PAGES */
    {PAGEMON_CALL_CREATE_L2, {FIRST + BLOCKS}, PAGEMON_OUTSIDE_REGION, 0, 0},
    {PAGEMON_CALL_CREATE_L1, {TABLE + 1}, PAGEMON_MISALIGNED, 0, 0},
    {PAGEMON_CALL_CREATE_L1, {TABLE}, PAGEMON_WRONG_TYPE, 0, 0},
    {PAGEMON_CALL_LINK, {TABLE, 0, PAGES, 0}, PAGEMON_ACCEPTED, 0, 0},
    {PAGEMON_CALL_LINK, {TABLE, 0, PAGES, 0}, PAGEMON_WRONG_ENTRY, 0, 0},
    {PAGEMON_CALL_LINK, {TABLE, PAGEMON_L1_ENTRIES, PAGES, 0}, PAGEMON_BEYOND_TABLE, 0, 0},
    {PAGEMON_CALL_LINK, {TABLE, 1, DATA, 0}, PAGEMON_UNFIT_TARGET, 0, 0},
    {PAGEMON_CALL_SWITCH, {PAGES}, PAGEMON_WRONG_TYPE, 0, 0},
    {PAGEMON_CALL_SWITCH, {TABLE}, PAGEMON_ACCEPTED, 0, 0},
    {PAGEMON_CALL_FETCH, {0x00000123}, PAGEMON_ACCEPTED, 0x1E, 0},
    {PAGEMON_CALL_READ, {0xFFFFFFFF}, PAGEMON_ACCEPTED, 0x5A, 0}, /* the last byte of the memory */
    {PAGEMON_CALL_MAP_L2, {PAGES, 5, DATA, WRITES}, PAGEMON_ACCEPTED, 0, 0},
    {PAGEMON_CALL_WRITE, {0x00005000, 65}, PAGEMON_ACCEPTED, 0, 0},
    {PAGEMON_CALL_READ, {0x00005000}, PAGEMON_ACCEPTED, 65, 0},
    {PAGEMON_CALL_FETCH, {0x00005000}, PAGEMON_RIGHT_LACKING, 0, 0},
    {PAGEMON_CALL_READ, {0x00009000}, PAGEMON_FAULT_ENTRY, 0, 0},
    {PAGEMON_CALL_MAP_L2, {PAGES, 6, DATA, EXECUTES}, PAGEMON_CLASH, 0, 0},
    {PAGEMON_CALL_MAP_LARGE, {PAGES, 16, FIRST, EXECUTES}, PAGEMON_CLASH, 0, 0}, /* DATA is one of the sixteen */
    {PAGEMON_CALL_MAP_L2, {PAGES, 6, DATA, PAGEMON_WRITE}, PAGEMON_UNLAWFUL_RIGHTS, 0, 0},
    {PAGEMON_CALL_UNMAP_L2, {PAGES, 5}, PAGEMON_ACCEPTED, 0, 0},
    {PAGEMON_CALL_MAP_L1, {TABLE, 4, FIRST, EXECUTES}, PAGEMON_UNSIGNED, 0, 0}, /* DATA was written */
    {PAGEMON_CALL_MAP_LARGE, {PAGES, 16, FIRST, EXECUTES}, PAGEMON_UNSIGNED, 0, 0},
    {PAGEMON_CALL_MAP_L2, {PAGES, 5, DATA, WRITES}, PAGEMON_ACCEPTED, 0, 0},
    {PAGEMON_CALL_WRITE, {0x00005000, 0}, PAGEMON_ACCEPTED, 0, 0},
    {PAGEMON_CALL_UNMAP_L2, {PAGES, 5}, PAGEMON_ACCEPTED, 0, 0},
    {PAGEMON_CALL_MAP_L1, {TABLE, 4, FIRST, EXECUTES}, PAGEMON_ACCEPTED, 0, 255}, /* CODE is marked */
    {PAGEMON_CALL_FETCH, {0x00408FFF}, PAGEMON_ACCEPTED, 0x1E, 0},
    {PAGEMON_CALL_UNMAP_L1, {TABLE, 4}, PAGEMON_ACCEPTED, 0, 0},
    {PAGEMON_CALL_MAP_LARGE, {PAGES, 17, FIRST, EXECUTES}, PAGEMON_MISALIGNED, 0, 0},
    {PAGEMON_CALL_MAP_LARGE, {PAGES, PAGEMON_L2_ENTRIES, FIRST, EXECUTES}, PAGEMON_BEYOND_TABLE, 0, 0},
    {PAGEMON_CALL_MAP_LARGE, {PAGES, PAGEMON_L2_ENTRIES - 16, FIRST, EXECUTES}, PAGEMON_WRONG_ENTRY, 0, 0}, /* the last one is a page */
    {PAGEMON_CALL_MAP_LARGE, {PAGES, 16, FIRST, EXECUTES}, PAGEMON_ACCEPTED, 0, 0},                         /* all are marked */
    {PAGEMON_CALL_FETCH, {0x00018FFF}, PAGEMON_ACCEPTED, 0x1E, 0},
    {PAGEMON_CALL_READ, {0x0001FFFF}, PAGEMON_ACCEPTED, 0, 0},
    {PAGEMON_CALL_UNMAP_L2, {PAGES, 31}, PAGEMON_WRONG_ENTRY, 0, 0},
    {PAGEMON_CALL_UNMAP_LARGE, {PAGES, 31}, PAGEMON_MISALIGNED, 0, 0},
    {PAGEMON_CALL_UNMAP_LARGE, {PAGES, 16}, PAGEMON_ACCEPTED, 0, 0},
    {PAGEMON_CALL_UNMAP_LARGE, {PAGES, 16}, PAGEMON_WRONG_ENTRY, 0, 0},
    {PAGEMON_CALL_FREE_L2, {PAGES}, PAGEMON_IN_USE, 0, 0},
    {PAGEMON_CALL_UNMAP_L1, {TABLE, 0}, PAGEMON_ACCEPTED, 0, 0},
    {PAGEMON_CALL_UNMAP_L1, {TABLE, PAGEMON_L1_ENTRIES - 1}, PAGEMON_ACCEPTED, 0, 0},
    {PAGEMON_CALL_FREE_L2, {PAGES}, PAGEMON_ACCEPTED, 0, 0},
    {PAGEMON_CALL_FREE_L1, {TABLE}, PAGEMON_IN_USE, 0, 0},
    {PAGEMON_CALL_CREATE_L1, {OTHER}, PAGEMON_ACCEPTED, 0, 0},
    {PAGEMON_CALL_SWITCH, {OTHER}, PAGEMON_ACCEPTED, 0, 0},
    {PAGEMON_CALL_FREE_L1, {TABLE}, PAGEMON_ACCEPTED, 0, 0},
    {PAGEMON_CALL_MAP_L1, {OTHER, PAGEMON_L1_ENTRIES - 1, FIRST, WRITES}, PAGEMON_ACCEPTED, 0, 0}, /* the last word of the memory */
    {PAGEMON_CALL_WRITE, {0xFFF00000, 77}, PAGEMON_ACCEPTED, 0, 0},                               /* and the first byte */
    {PAGEMON_CALL_READ, {0xFFF00000}, PAGEMON_ACCEPTED, 77, 0},
};

enum { STEPS = sizeof script / sizeof script[0] };

/* The six buffers of a list of steps. Each answer and each byte has its place there, for the calls too. */
enum { MEMORY, LEDGER, GOLDEN, RECORDS, ANSWERS, BYTES, BUFFERS };

struct buffers {
    uint8_t *at[BUFFERS];
};

static const char *const names[BUFFERS] = {"memory", "ledger", "golden", "records", "answers", "bytes"};
static const size_t lengths[BUFFERS] = {
    MEMORY_BYTES, LEDGER_BYTES, GOLDEN_BYTES, STEPS * (size_t)PAGEMON_RECORD_BYTES, STEPS * sizeof(uint32_t), STEPS,
};

static void put_word(uint8_t *at, uint32_t value)
{
    for (int i = 0; i < 4; i++) {
        at[i] = (uint8_t)(value >> 8 * i);
    }
}

static uint8_t *block(uint8_t *memory, uint32_t number)
{
    return memory + (size_t)(number - FIRST) * PAGEMON_BLOCK_BYTES;
}

static void put_record(uint8_t *record, const struct step *step)
{
    record[0] = PAGEMON_FIRST_MARK;
    record[1] = PAGEMON_SECOND_MARK;
    record[2] = step->call;
    for (int i = 0; i < 4; i++) {
        put_word(record + 3 + 4 * i, step->arguments[i]);
    }
}

/* Code, tables that execute, a page of the last block at the last address, and in the last word of all a fault that is not 0. */
static void put_memory(uint8_t *memory)
{
    memset(memory, 0, MEMORY_BYTES);
    memset(block(memory, CODE), 0x1E, PAGEMON_BLOCK_BYTES);
    put_word(block(memory, PAGES), CODE << 12 | 0x02E);
    put_word(block(memory, LATER_PAGES), DATA << 12 | 0x02E);
    put_word(block(memory, LATER_TABLE), FIRST << 12 | 0x80E);
    put_word(block(memory, PAGES) + 4 * (PAGEMON_L2_ENTRIES - 1), (FIRST + BLOCKS - 1) << 12 | 0x02F);
    put_word(block(memory, TABLE) + 4 * (PAGEMON_L1_ENTRIES - 1), PAGES << 12 | 0xC01);
    put_word(memory + MEMORY_BYTES - 4, 0x5A000000);
}

/* The digest of the code, one of no block, and those of zeros in the places of the region's first section. */
static void make_golden(uint8_t *golden)
{
    uint8_t content[PAGEMON_BLOCK_BYTES], *place = golden + GOLDEN_BYTES;
    memset(content, 0x1E, sizeof content);
    signature_block_digest(content, sizeof content, CODE, golden);
    memset(content, 0, sizeof content);
    for (uint32_t number = FIRST; number < FIRST + PAGEMON_SECTION_BLOCKS; number++) {
        place -= PAGEMON_DIGEST_BYTES;
        signature_block_digest(content, sizeof content, number, place);
    }
}

static void put_golden(uint8_t *golden)
{
    static uint8_t made[GOLDEN_BYTES];
    static bool is_made;
    if (!is_made) {
        make_golden(made);
        is_made = true;
    }
    memcpy(golden, made, sizeof made);
}

static void put_all(const struct buffers *b)
{
    put_memory(b->at[MEMORY]);
    memset(b->at[LEDGER], 0x77, LEDGER_BYTES);
    put_golden(b->at[GOLDEN]);
    for (size_t i = 0; i < STEPS; i++) {
        put_record(b->at[RECORDS] + PAGEMON_RECORD_BYTES * i, &script[i]);
    }
    memset(b->at[ANSWERS], 0xA7, lengths[ANSWERS]);
    memset(b->at[BYTES], 0x58, lengths[BYTES]);
}

/* What is lent to one call. */
struct lent {
    uint8_t *memory;
    uint64_t memory_length;
    uint8_t *ledger;
    uint64_t ledger_length;
    const uint8_t *golden;
    uint64_t golden_length;
    const uint8_t *kinds;
    uint64_t kinds_length;
    uint8_t *registers;
    uint64_t registers_length;
};

/* Eight kinds that all differ, for begin. */
static const uint8_t new_kinds[PAGEMON_KINDS_BYTES] = {0x12, 0, 0x00, 0, 0x7F, 0, 0x03, 0, 0x68, 0, 0x25, 0, 0x4C, 0, 0x01, 0};

typedef uint32_t obey(const struct lent *lent, const struct step *step, uint8_t *byte);

#define REGION lent->memory, lent->memory_length, lent->ledger, lent->ledger_length
#define IMAGE lent->golden, lent->golden_length
#define KINDS lent->kinds, lent->kinds_length
#define REGISTERS lent->registers, lent->registers_length

/* Where create and map store the number of blocks hashed, and what stands there before. */
static uint32_t plain_hashed, *hashed = &plain_hashed;
static const uint32_t OLD_NUMBER = 0xA7A7A7A7;

/* The fault registers of the script, and what its two faults leave there of zeros: a read at 0x9000, and before it a fetch at 0x5000. */
static uint8_t plain_registers[PAGEMON_REGISTERS_BYTES], *registers = plain_registers;
static const uint8_t told_by_script[PAGEMON_REGISTERS_BYTES] = {0x07, 0, 0, 0, 0x00, 0x90, 0, 0, 0x0F, 0, 0, 0, 0x00, 0x50, 0, 0, 1};

/* In the place of a call byte, which these have not. */
enum { FORGET = 0, BEGIN_KINDS = 0x80, MAP_L1_KIND, MAP_L2_KIND, MAP_LARGE_KIND, ACKNOWLEDGE };

static uint32_t by_call(const struct lent *lent, const struct step *step, uint8_t *byte)
{
    const uint32_t *a = step->arguments;
    *hashed = OLD_NUMBER;
    switch (step->call) {
    case FORGET: return pagemon_forget(REGION, a[0], a[1]);
    case BEGIN_KINDS: return pagemon_begin_kinds(REGION, KINDS, a[0]);
    case MAP_L1_KIND: return pagemon_map_l1_kind(REGION, IMAGE, a[0], a[1], a[2], a[3], a[4], hashed);
    case MAP_L2_KIND: return pagemon_map_l2_kind(REGION, IMAGE, a[0], a[1], a[2], a[3], a[4], hashed);
    case MAP_LARGE_KIND: return pagemon_map_large_kind(REGION, IMAGE, a[0], a[1], a[2], a[3], a[4], hashed);
    case ACKNOWLEDGE: return pagemon_acknowledge(REGISTERS, byte);
    case PAGEMON_CALL_BEGIN: return pagemon_begin(REGION, a[0]);
    case PAGEMON_CALL_CREATE_L1: return pagemon_create_l1(REGION, IMAGE, a[0], hashed);
    case PAGEMON_CALL_CREATE_L2: return pagemon_create_l2(REGION, IMAGE, a[0], hashed);
    case PAGEMON_CALL_FREE_L1: return pagemon_free_l1(REGION, a[0]);
    case PAGEMON_CALL_FREE_L2: return pagemon_free_l2(REGION, a[0]);
    case PAGEMON_CALL_MAP_L1: return pagemon_map_l1(REGION, IMAGE, a[0], a[1], a[2], a[3], hashed);
    case PAGEMON_CALL_MAP_L2: return pagemon_map_l2(REGION, IMAGE, a[0], a[1], a[2], a[3], hashed);
    case PAGEMON_CALL_LINK: return pagemon_link(REGION, a[0], a[1], a[2], a[3]);
    case PAGEMON_CALL_UNMAP_L1: return pagemon_unmap_l1(REGION, a[0], a[1]);
    case PAGEMON_CALL_UNMAP_L2: return pagemon_unmap_l2(REGION, a[0], a[1]);
    case PAGEMON_CALL_SWITCH: return pagemon_switch(REGION, a[0]);
    case PAGEMON_CALL_READ: return pagemon_read(REGION, REGISTERS, a[0], byte);
    case PAGEMON_CALL_WRITE: return pagemon_write(REGION, REGISTERS, a[0], a[1]);
    case PAGEMON_CALL_MAP_LARGE: return pagemon_map_large(REGION, IMAGE, a[0], a[1], a[2], a[3], hashed);
    case PAGEMON_CALL_UNMAP_LARGE: return pagemon_unmap_large(REGION, a[0], a[1]);
    default: return pagemon_fetch(REGION, REGISTERS, a[0], byte);
    }
}

static uint32_t by_run(const struct lent *lent, const struct step *step, uint8_t *byte)
{
    uint8_t record[PAGEMON_RECORD_BYTES];
    uint32_t answer = 0xA7A7A7A7;
    put_record(record, step);
    expect(pagemon_run(REGION, IMAGE, record, sizeof record, &answer, 1, byte, 1) == 1, "not obeyed: call", "a list of one step", step->call);
    return answer;
}

static bool gives_byte(uint8_t call)
{
    return call == PAGEMON_CALL_READ || call == PAGEMON_CALL_FETCH || call == ACKNOWLEDGE;
}

static bool takes_registers(uint8_t call)
{
    return gives_byte(call) || call == PAGEMON_CALL_WRITE;
}

static bool takes_image(uint8_t call)
{
    return call == PAGEMON_CALL_CREATE_L1 || call == PAGEMON_CALL_CREATE_L2 || call == PAGEMON_CALL_MAP_L1 || call == PAGEMON_CALL_MAP_L2
           || call == PAGEMON_CALL_MAP_LARGE || call == MAP_L1_KIND || call == MAP_L2_KIND || call == MAP_LARGE_KIND;
}

/* A create or map sets the number, also when it is refused; no other call does. */
static void expect_hashed(const struct step *step, uint32_t answer, const char *where)
{
    uint32_t expected = answer == PAGEMON_ACCEPTED ? step->hashed : 0;
    expect(*hashed == (takes_image(step->call) ? expected : OLD_NUMBER), "another number of blocks hashed by call", where, step->call);
}

static void script_by_calls(const struct buffers *b)
{
    const struct lent lent = {b->at[MEMORY], MEMORY_BYTES, b->at[LEDGER], LEDGER_BYTES, b->at[GOLDEN], GOLDEN_BYTES,
                              NULL,          0,            registers,     PAGEMON_REGISTERS_BYTES};
    memset(registers, 0, PAGEMON_REGISTERS_BYTES);
    for (size_t i = 0; i < STEPS; i++) {
        uint32_t answer = by_call(&lent, &script[i], b->at[BYTES] + i);
        expect_hashed(&script[i], answer, "the script");
        memcpy(b->at[ANSWERS] + sizeof answer * i, &answer, sizeof answer);
        if (!gives_byte(script[i].call)) {
            b->at[BYTES][i] = 0;
        }
    }
    expect(memcmp(registers, told_by_script, sizeof told_by_script) == 0, "other fault registers", "the script", 0);
}

static uint64_t run(const struct buffers *b, uint64_t records_length, uint64_t answers_length, uint64_t bytes_length)
{
    return pagemon_run(b->at[MEMORY], MEMORY_BYTES, b->at[LEDGER], LEDGER_BYTES, b->at[GOLDEN], GOLDEN_BYTES, b->at[RECORDS], records_length,
                       (uint32_t *)(void *)b->at[ANSWERS], answers_length, b->at[BYTES], bytes_length);
}

static void script_by_run(const struct buffers *b)
{
    uint64_t obeyed = run(b, lengths[RECORDS], STEPS, STEPS);
    expect(obeyed == STEPS, "obeyed", "the runner", (size_t)obeyed);
}

/* What the script leaves in plain buffers. */
static struct buffers plain;

static void plain_script(void)
{
    unsigned accepted = 0;
    for (int i = 0; i < BUFFERS; i++) {
        plain.at[i] = malloc(lengths[i]);
    }
    put_all(&plain);
    script_by_calls(&plain);
    for (size_t i = 0; i < STEPS; i++) {
        uint32_t answer;
        memcpy(&answer, plain.at[ANSWERS] + sizeof answer * i, sizeof answer);
        expect(answer == script[i].answer, "answer of step", "plain buffers", i);
        expect(plain.at[BYTES][i] == script[i].byte, "byte of step", "plain buffers", i);
        accepted |= (answer == PAGEMON_ACCEPTED) << script[i].call;
    }
    expect(accepted == 0x1FFFE, "not every call was accepted:", "plain buffers", accepted);
}

static void expect_plain(const struct buffers *b, const char *where, size_t number)
{
    for (int i = 0; i < BUFFERS; i++) {
        expect(memcmp(b->at[i], plain.at[i], lengths[i]) == 0, names[i], where, number);
    }
}

/* Addresses that must not be touched: so many, or a sixteenth of all that there are. */
static uint8_t *untouchable(uint64_t size)
{
    size_t reserved = size < SIZE_MAX / 16 ? (size_t)size : SIZE_MAX / 16;
    void *place = mmap(NULL, reserved, PROT_NONE, MAP_PRIVATE | MAP_ANONYMOUS | MAP_NORESERVE, -1, 0);
    if (place == MAP_FAILED) {
        perror("buffers.c: mmap");
        exit(1);
    }
    return place;
}

static void allow(uint8_t *start, size_t size, int access)
{
    if (mprotect(start, size, access) != 0) {
        perror("buffers.c: mprotect");
        exit(1);
    }
}

/* Whole pages for each buffer, between two that must not be touched. */
struct room {
    uint8_t *start;
    size_t size;
};

static struct room rooms[BUFFERS];

/* A page for the number of blocks hashed, and one for the fault registers: each stands at its start or at its end. */
static uint8_t *hashed_room, *registers_room;

static uint8_t *page_between(void)
{
    uint8_t *page = untouchable(3 * PAGE) + PAGE;
    allow(page, PAGE, PROT_READ | PROT_WRITE);
    return page;
}

static void make_rooms(void)
{
    hashed_room = page_between();
    registers_room = page_between();
    for (int i = 0; i < BUFFERS; i++) {
        rooms[i].size = (lengths[i] + 8 + PAGE - 1) / PAGE * PAGE;
        rooms[i].start = untouchable(rooms[i].size + 2 * PAGE) + PAGE;
        allow(rooms[i].start, rooms[i].size, PROT_READ | PROT_WRITE);
    }
}

static void expect_canaries(const uint8_t *from, const uint8_t *to, const char *where, size_t number)
{
    for (; from < to; from++) {
        expect(*from == CANARY, "a byte outside of a buffer was changed", where, number);
    }
}

static uint8_t *mark(uint8_t *ledger, size_t block)
{
    return ledger + PAGEMON_LEDGER_HEAD_BYTES + PAGEMON_LEDGER_RECORD_BYTES * block + 16;
}

/* All blocks are marked and forgotten: the ledger is then as in plain buffers, but for the marks. */
static void forget_all(const struct buffers *b, const char *where, size_t number)
{
    for (size_t i = 0; i < BLOCKS; i++) {
        put_word(mark(b->at[LEDGER], i), PAGEMON_MARKED);
    }
    expect(pagemon_forget(b->at[MEMORY], MEMORY_BYTES, b->at[LEDGER], LEDGER_BYTES, FIRST, BLOCKS) == PAGEMON_ACCEPTED, "forget", where, number);
    for (size_t i = 0; i < BLOCKS; i++) {
        expect(memcmp(mark(b->at[LEDGER], i), "\0\0\0\0", 4) == 0, "a mark after forget", where, number);
        memcpy(mark(b->at[LEDGER], i), mark(plain.at[LEDGER], i), 4);
    }
    expect_plain(b, where, number);
}

/* The script in the rooms: all is left as in plain buffers, and the rest of the rooms as it was. */
static void script_in_rooms(const struct buffers *b, void (*script_by)(const struct buffers *), const char *where, size_t number)
{
    for (int i = 0; i < BUFFERS; i++) {
        memset(rooms[i].start, CANARY, rooms[i].size);
    }
    memset(hashed_room, CANARY, PAGE);
    memset(registers_room, CANARY, PAGE);
    hashed = (uint32_t *)(void *)(hashed_room + (number % 2 == 0 ? 0 : PAGE - sizeof *hashed));
    registers = registers_room + (number % 2 == 0 ? number : PAGE - PAGEMON_REGISTERS_BYTES);
    put_all(b);
    trying = where;
    script_by(b);
    expect_plain(b, where, number);
    forget_all(b, where, number);
    for (int i = 0; i < BUFFERS; i++) {
        expect_canaries(rooms[i].start, b->at[i], where, number);
        expect_canaries(b->at[i] + lengths[i], rooms[i].start + rooms[i].size, where, number);
    }
    expect_canaries(hashed_room, (uint8_t *)hashed, where, number);
    expect_canaries((uint8_t *)(hashed + 1), hashed_room + PAGE, where, number);
    expect_canaries(registers_room, registers, where, number);
    expect_canaries(registers + PAGEMON_REGISTERS_BYTES, registers_room + PAGE, where, number);
    hashed = &plain_hashed;
    registers = plain_registers;
}

static void both_ways(const struct buffers *b, const char *where, size_t number)
{
    script_in_rooms(b, script_by_calls, where, number);
    script_in_rooms(b, script_by_run, where, number);
}

static uint8_t *end_of_room(int i, size_t length)
{
    return rooms[i].start + rooms[i].size - length;
}

static const char *const at_offset[BUFFERS] = {"memory at the offset",  "ledger at the offset",  "golden at the offset",
                                               "records at the offset", "answers at the offset", "bytes at the offset"};

/* Each buffer at each offset from an aligned place, the others aligned, and then all. The answers stay aligned as C has it. */
static void odd_addresses(void)
{
    struct buffers aligned, all, b;
    for (int i = 0; i < BUFFERS; i++) {
        aligned.at[i] = rooms[i].start;
    }
    for (size_t offset = 0; offset < 8; offset++) {
        all = aligned;
        for (int i = 0; i < BUFFERS; i++) {
            if (i == ANSWERS && offset % sizeof(uint32_t) != 0) {
                continue;
            }
            b = aligned;
            b.at[i] += offset;
            all.at[i] += offset;
            both_ways(&b, at_offset[i], offset);
        }
        both_ways(&all, "all buffers at the offset", offset);
    }
}

static void beside_untouchable_pages(void)
{
    struct buffers starts, ends, b;
    for (int i = 0; i < BUFFERS; i++) {
        starts.at[i] = rooms[i].start;
        ends.at[i] = end_of_room(i, lengths[i]);
    }
    both_ways(&starts, "every buffer starts a page", 0);
    both_ways(&ends, "every buffer ends a page", 0);
    for (int i = 0; i < BUFFERS; i++) {
        b = starts;
        b.at[i] = ends.at[i];
        both_ways(&b, "one buffer ends a page, the others start one:", (size_t)i);
    }
}

static void digest_at(uint8_t *message, size_t length, uint8_t *place)
{
    uint8_t numbered[4 + PAGEMON_BLOCK_BYTES + 1] = {0, 0, CODE >> 8, CODE & 0xFF}, *content = numbered + 4, digest[SIGNATURE_DIGEST_BYTES] = {0};
    for (size_t i = 0; i < length; i++) {
        content[i] = (uint8_t)(length + 7 * i);
    }
    trying = "signature_sha256, signature_block_digest and signature_is_signed";
    signature_sha256(content, length, digest);
    memcpy(message, content, length);
    signature_sha256(message, length, place);
    expect(memcmp(place, digest, sizeof digest) == 0, "digest of a message of length", "signature_sha256", length);
    expect(!signature_is_signed(message, length, place, sizeof digest, CODE), "the digest of the contents alone signs, length", "signature_is_signed", length);
    signature_sha256(numbered, 4 + length, digest);
    signature_block_digest(message, length, CODE, place);
    expect(memcmp(place, digest, sizeof digest) == 0, "digest of contents of length", "signature_block_digest", length);
    expect(signature_is_signed(message, length, place, sizeof digest, CODE), "a digest does not sign, length", "signature_is_signed", length);
    expect(!signature_is_signed(message, length, place, sizeof digest, DATA), "a digest signs in another place, length", "signature_is_signed", length);
    place[0] ^= 1;
    expect(!signature_is_signed(message, length, place, sizeof digest, CODE), "a spoilt digest signs, length", "signature_is_signed", length);
}

/* Messages and digests at the edges of pages and at odd addresses. */
static void digests(void)
{
    for (size_t length = 0; length <= PAGEMON_BLOCK_BYTES + 1; length += length == 130 ? PAGEMON_BLOCK_BYTES - 131 : 1) {
        digest_at(end_of_room(MEMORY, length), length, end_of_room(GOLDEN, SIGNATURE_DIGEST_BYTES));
        for (size_t offset = 0; offset < 8; offset++) {
            digest_at(rooms[MEMORY].start + offset, length, rooms[GOLDEN].start + (offset + length) % 8);
        }
    }
}

/* Tables of every kind, of which one of each level can be freed. */
static const struct step setup[] = {
    {PAGEMON_CALL_BEGIN, {FIRST}, 0, 0, 0},
    {PAGEMON_CALL_CREATE_L2, {PAGES}, 0, 0, 0},
    {PAGEMON_CALL_CREATE_L1, {TABLE}, 0, 0, 0},
    {PAGEMON_CALL_CREATE_L2, {SPARE}, 0, 0, 0},
    {PAGEMON_CALL_CREATE_L1, {OTHER}, 0, 0, 0},
    {PAGEMON_CALL_SWITCH, {TABLE}, 0, 0, 0},
    {PAGEMON_CALL_LINK, {TABLE, 0, PAGES, 0}, 0, 0, 0},
    {PAGEMON_CALL_MAP_L2, {PAGES, 5, WRITTEN, WRITES}, 0, 0, 0},
    {PAGEMON_CALL_MAP_LARGE, {PAGES, 32, FIRST, READS}, 0, 0, 0},
};

/* Each call, as it is accepted there. Those that take an image have something to execute. */
static const struct step each_call[] = {
    {PAGEMON_CALL_BEGIN, {FIRST}, 0, 0, 0},
    {PAGEMON_CALL_CREATE_L1, {LATER_TABLE}, 0, 0, 255},
    {PAGEMON_CALL_CREATE_L2, {LATER_PAGES}, 0, 0, 1},
    {PAGEMON_CALL_FREE_L1, {OTHER}, 0, 0, 0},
    {PAGEMON_CALL_FREE_L2, {SPARE}, 0, 0, 0},
    {PAGEMON_CALL_MAP_L1, {TABLE, 4, FIRST, EXECUTES}, 0, 0, 255},
    {PAGEMON_CALL_MAP_L2, {PAGES, 9, DATA, EXECUTES}, 0, 0, 1},
    {PAGEMON_CALL_LINK, {TABLE, 1, PAGES, 1}, 0, 0, 0},
    {PAGEMON_CALL_UNMAP_L1, {TABLE, PAGEMON_L1_ENTRIES - 1}, 0, 0, 0},
    {PAGEMON_CALL_UNMAP_L2, {PAGES, 0}, 0, 0, 0},
    {PAGEMON_CALL_SWITCH, {OTHER}, 0, 0, 0},
    {PAGEMON_CALL_READ, {0xFFFFFFFF}, 0, 0x5A, 0},
    {PAGEMON_CALL_WRITE, {0x00005000, 65}, 0, 0, 0},
    {PAGEMON_CALL_FETCH, {0x00000123}, 0, 0x1E, 0},
    {PAGEMON_CALL_MAP_LARGE, {PAGES, 16, FIRST, EXECUTES}, 0, 0, 15},
    {PAGEMON_CALL_UNMAP_LARGE, {PAGES, 32}, 0, 0, 0},
};

/* The same of calls that records cannot say. */
static const struct step unrecorded[] = {
    {FORGET, {FIRST, BLOCKS}, 0, 0, 0},
    {BEGIN_KINDS, {FIRST}, 0, 0, 0},
    {MAP_L1_KIND, {TABLE, 4, FIRST, EXECUTES, 1}, 0, 0, 255},
    {MAP_L2_KIND, {PAGES, 9, DATA, EXECUTES, 3}, 0, 0, 1},
    {MAP_LARGE_KIND, {PAGES, 16, FIRST, EXECUTES, 7}, 0, 0, 15},
};

static const struct step *const begin_kinds = &unrecorded[1];

/* What is lent as fault registers holds this byte everywhere. */
enum { OLD_REGISTER = 0x3A };

/* Accesses that fault in what the setup left, and acknowledge. */
static const struct step faulting[] = {
    {PAGEMON_CALL_READ, {0x00009000}, PAGEMON_FAULT_ENTRY, 0, 0},
    {PAGEMON_CALL_WRITE, {0x00000000, 65}, PAGEMON_RIGHT_LACKING, 0, 0},
    {PAGEMON_CALL_FETCH, {0x00500000}, PAGEMON_FAULT_ENTRY, 0, 0},
    {ACKNOWLEDGE, {0}, PAGEMON_ACCEPTED, OLD_REGISTER, 0},
};

static const struct step *const read_fault = &faulting[0], *const acknowledge = &faulting[3];

enum {
    SETUP = sizeof setup / sizeof setup[0],
    CALLS = sizeof each_call / sizeof each_call[0],
    UNRECORDED = sizeof unrecorded / sizeof unrecorded[0],
    FAULTING = sizeof faulting / sizeof faulting[0]
};

/* What the setup leaves, and buffers with the same bytes for one call. */
static uint8_t left_memory[MEMORY_BYTES], left_ledger[LEDGER_BYTES], golden[GOLDEN_BYTES];
static uint8_t memory[MEMORY_BYTES], ledger[LEDGER_BYTES], lent_golden[GOLDEN_BYTES], lent_registers[PAGEMON_REGISTERS_BYTES];
static const struct lent right = {memory,    MEMORY_BYTES,        ledger,         LEDGER_BYTES,           lent_golden, GOLDEN_BYTES,
                                  new_kinds, PAGEMON_KINDS_BYTES, lent_registers, PAGEMON_REGISTERS_BYTES};

static void set_up(void)
{
    uint8_t byte = 0;
    const struct lent lent = {left_memory, MEMORY_BYTES, left_ledger, LEDGER_BYTES, golden, GOLDEN_BYTES, NULL, 0, NULL, 0};
    put_memory(left_memory);
    put_golden(golden);
    for (size_t i = 0; i < SETUP; i++) {
        expect(by_call(&lent, &setup[i], &byte) == PAGEMON_ACCEPTED, "step", "setup", i);
    }
}

static bool as_left(void)
{
    for (size_t i = 0; i < sizeof lent_registers; i++) {
        if (lent_registers[i] != OLD_REGISTER) {
            return false;
        }
    }
    return memcmp(memory, left_memory, sizeof memory) == 0 && memcmp(ledger, left_ledger, sizeof ledger) == 0
           && memcmp(lent_golden, golden, sizeof golden) == 0;
}

/* One call on what the setup left, with these buffers in the place of the right ones: a refusal leaves everything, and gives the byte 0. */
static void one_call(obey *obey, const struct lent *lent, const struct step *step, uint32_t answer, const char *where)
{
    uint8_t byte = 0xB7;
    memcpy(memory, left_memory, sizeof memory);
    memcpy(ledger, left_ledger, sizeof ledger);
    memcpy(lent_golden, golden, sizeof golden);
    memset(lent_registers, OLD_REGISTER, sizeof lent_registers);
    trying = where;
    expect(obey(lent, step, &byte) == answer, "another answer of call", where, step->call);
    if (obey == by_call) {
        expect_hashed(step, answer, where);
    }
    if (gives_byte(step->call)) {
        expect(byte == (answer == PAGEMON_ACCEPTED ? step->byte : 0), "another byte of call", where, step->call);
    }
    if (answer != PAGEMON_ACCEPTED) {
        expect(as_left(), "refused, and changed a buffer: call", where, step->call);
    }
}

/* Every call, by itself and in a list. Those that take an image answer `with_image`. */
static void every_call(const struct lent *lent, uint32_t with_image, uint32_t others, const char *where)
{
    for (size_t i = 0; i < CALLS; i++) {
        uint32_t answer = takes_image(each_call[i].call) ? with_image : others;
        one_call(by_call, lent, &each_call[i], answer, where);
        one_call(by_run, lent, &each_call[i], answer, where);
    }
    for (size_t i = 0; i < UNRECORDED; i++) {
        one_call(by_call, lent, &unrecorded[i], takes_image(unrecorded[i].call) ? with_image : others, where);
    }
}

/* Every call that is lent fault registers, with these of a wrong length: accesses that would be accepted and that would fault, and acknowledge. */
static void every_misfit_of_registers(const struct lent *lent, const char *where)
{
    for (size_t i = 0; i < CALLS; i++) {
        if (takes_registers(each_call[i].call)) {
            one_call(by_call, lent, &each_call[i], PAGEMON_MISFIT, where);
        }
    }
    for (size_t i = 0; i < FAULTING; i++) {
        one_call(by_call, lent, &faulting[i], PAGEMON_MISFIT, where);
    }
}

/* Lent as 2^32 bytes and more, of which none must be touched. */
static uint8_t *forbidden;
static const uint64_t forbidden_bytes = 2 * FOUR_GIB + 2 * MEMORY_BYTES;

/* A room that is lent as more than 2^32 bytes, of which only the first page may be touched. */
static uint8_t *long_room(uint64_t size)
{
    uint8_t *start = untouchable(size);
    allow(start, PAGE, PROT_READ | PROT_WRITE);
    return start;
}

/* Every call but begin may read the ledger's head before it compares lengths: of this one the first page can be read, and is as in the right one. */
static uint8_t *long_ledger(void)
{
    uint8_t *start = long_room(forbidden_bytes);
    memcpy(start, left_ledger, PAGE);
    allow(start, PAGE, PROT_READ);
    return start;
}

static void long_buffers(void)
{
    const uint64_t sizes[] = {FOUR_GIB, FOUR_GIB + 1, FOUR_GIB + PAGE, FOUR_GIB + LEDGER_BYTES, FOUR_GIB + MEMORY_BYTES, FOUR_GIB + GOLDEN_BYTES,
                              FOUR_GIB + PAGEMON_DIGEST_BYTES, 2 * FOUR_GIB + MEMORY_BYTES, 2 * FOUR_GIB + LEDGER_BYTES};
    uint8_t *ledger_place = long_ledger();
    struct lent lent;
    every_call(&right, PAGEMON_ACCEPTED, PAGEMON_ACCEPTED, "the right buffers");
    one_call(by_call, &right, acknowledge, PAGEMON_ACCEPTED, "the right buffers");
    for (size_t i = 0; i < sizeof sizes / sizeof sizes[0]; i++) {
        lent = right, lent.memory = forbidden, lent.memory_length = sizes[i];
        every_call(&lent, PAGEMON_MISFIT, PAGEMON_MISFIT, "a memory of 4 GiB and more");
        lent.ledger = ledger_place, lent.ledger_length = PAGEMON_LEDGER_BYTES(sizes[i] / PAGEMON_BLOCK_BYTES);
        every_call(&lent, PAGEMON_MISFIT, PAGEMON_MISFIT, "a memory of 4 GiB and more, with its ledger");
        lent = right, lent.ledger = ledger_place, lent.ledger_length = sizes[i];
        every_call(&lent, PAGEMON_MISFIT, PAGEMON_MISFIT, "a ledger of 4 GiB and more");
        lent.ledger = forbidden;
        one_call(by_call, &lent, &each_call[0], PAGEMON_MISFIT, "begin with a ledger of 4 GiB and more");
        one_call(by_call, &lent, begin_kinds, PAGEMON_MISFIT, "begin with kinds and a ledger of 4 GiB and more");
        lent = right, lent.golden = forbidden, lent.golden_length = sizes[i];
        every_call(&lent, PAGEMON_MISFIT, PAGEMON_ACCEPTED, "an image of 4 GiB and more");
        lent = right, lent.kinds = forbidden, lent.kinds_length = sizes[i];
        one_call(by_call, &lent, begin_kinds, PAGEMON_MISFIT, "kinds of 4 GiB and more");
        lent = right, lent.registers = forbidden, lent.registers_length = sizes[i];
        every_misfit_of_registers(&lent, "fault registers of 4 GiB and more");
    }
    lent = right, lent.registers = forbidden, lent.registers_length = FOUR_GIB + PAGEMON_REGISTERS_BYTES;
    every_misfit_of_registers(&lent, "fault registers of 4 GiB and 17 bytes");
    lent = right, lent.kinds = forbidden, lent.kinds_length = FOUR_GIB + PAGEMON_KINDS_BYTES;
    one_call(by_call, &lent, begin_kinds, PAGEMON_MISFIT, "kinds of 4 GiB and 16 bytes");
}

/* Begin with kinds at this place of a room: it stores them, leaves the room as it was, and takes no fewer bytes of it. */
static void kinds_in_a_room(uint8_t *kinds, const char *where, size_t number)
{
    struct lent lent = right;
    memset(rooms[GOLDEN].start, CANARY, rooms[GOLDEN].size);
    memcpy(kinds, new_kinds, sizeof new_kinds);
    lent.kinds = kinds;
    one_call(by_call, &lent, begin_kinds, PAGEMON_ACCEPTED, where);
    expect(memcmp(ledger + PAGEMON_KINDS_AT, new_kinds, sizeof new_kinds) == 0, "other kinds in the ledger", where, number);
    expect(memcmp(kinds, new_kinds, sizeof new_kinds) == 0, "other kinds in their buffer", where, number);
    expect_canaries(rooms[GOLDEN].start, kinds, where, number);
    expect_canaries(kinds + sizeof new_kinds, rooms[GOLDEN].start + rooms[GOLDEN].size, where, number);
    for (size_t length = 0; length < sizeof new_kinds; length++) {
        lent.kinds_length = length;
        one_call(by_call, &lent, begin_kinds, PAGEMON_MISFIT, where);
    }
}

/* Begin with kinds that start or end a page, or stand at an odd address. */
static void kinds_in_rooms(void)
{
    for (size_t offset = 0; offset < 8; offset++) {
        kinds_in_a_room(rooms[GOLDEN].start + offset, "kinds at the offset", offset);
    }
    kinds_in_a_room(end_of_room(GOLDEN, sizeof new_kinds), "kinds that end a page", 0);
}

/* A read that faults and an acknowledge, at this place of a page: they leave the rest of it as it was, and take no fewer bytes of it. */
static void registers_in_a_page(uint8_t *start, const char *where, size_t number)
{
    static const uint8_t told[] = {0x07, 0, 0, 0, 0x00, 0x90, 0, 0, CANARY, CANARY, CANARY, CANARY, CANARY, CANARY, CANARY, CANARY, 1};
    struct lent lent = right;
    uint8_t pending = 0;
    memset(registers_room, CANARY, PAGE);
    lent.registers = start;
    for (size_t length = 0; length < sizeof told; length++) {
        lent.registers_length = length;
        every_misfit_of_registers(&lent, where);
    }
    expect_canaries(registers_room, registers_room + PAGE, where, number);
    lent.registers_length = sizeof told;
    expect(by_call(&lent, read_fault, &pending) == PAGEMON_FAULT_ENTRY, "another answer", where, number);
    expect(memcmp(start, told, sizeof told) == 0, "other fault registers", where, number);
    expect(by_call(&lent, acknowledge, &pending) == PAGEMON_ACCEPTED && pending == 1, "another pending byte", where, number);
    expect(memcmp(start, told, sizeof told - 1) == 0 && start[PAGEMON_PENDING] == 0, "other fault registers after acknowledge", where, number);
    expect_canaries(registers_room, start, where, number);
    expect_canaries(start + sizeof told, registers_room + PAGE, where, number);
}

/* Fault registers that start or end a page, or stand at an odd address. */
static void registers_in_pages(void)
{
    for (size_t offset = 0; offset < 8; offset++) {
        registers_in_a_page(registers_room + offset, "fault registers at the offset", offset);
    }
    registers_in_a_page(registers_room + PAGE - PAGEMON_REGISTERS_BYTES, "fault registers that end a page", 0);
}

/* Ledgers that end within their head or soon after it, where a page ends. */
static void short_ledgers(void)
{
    struct lent lent = right;
    for (size_t length = 0; length <= PAGEMON_LEDGER_HEAD_BYTES + 4; length++) {
        lent.ledger = end_of_room(LEDGER, length), lent.ledger_length = length;
        memcpy(lent.ledger, left_ledger, length);
        every_call(&lent, PAGEMON_MISFIT, PAGEMON_MISFIT, "a ledger of a few bytes");
        expect(memcmp(lent.ledger, left_ledger, length) == 0, "a ledger was changed that has the length", "a ledger of a few bytes", length);
    }
}

/* Records, answers and bytes of which there are more than 2^32: the record behind the script's holds no step. */
static void long_lists(void)
{
    struct buffers b = {{memory, ledger, lent_golden, long_room(FOUR_GIB + PAGE), long_room((FOUR_GIB + 1) * sizeof(uint32_t)),
                         long_room(FOUR_GIB + PAGE)}};
    put_all(&b);
    trying = "long lists";
    expect(run(&b, FOUR_GIB + PAGEMON_RECORD_BYTES, FOUR_GIB + 1, FOUR_GIB + 1) == STEPS, "not obeyed:", "long lists", STEPS);
    expect_plain(&b, "long lists", 0);
}

/* The search of an image ends at its first digest. */
static void long_image(void)
{
    uint8_t *image = long_room(FOUR_GIB + PAGE);
    const uint8_t message[3] = "abc";
    trying = "a long image";
    signature_block_digest(message, sizeof message, UINT32_MAX, image);
    expect(signature_is_signed(message, sizeof message, image, FOUR_GIB + PAGEMON_DIGEST_BYTES - 1, UINT32_MAX), "not found", "a long image", 0);
}

/* Buffers of length 0, whose pointer is NULL or must not be followed. */
static void empty_buffers(uint8_t *nowhere, const char *where)
{
    const struct step reads[] = {{PAGEMON_CALL_MAP_L1, {TABLE, 4, FIRST, READS}, 0, 0, 0}, {PAGEMON_CALL_MAP_L2, {PAGES, 9, DATA, READS}, 0, 0, 0},
                                 {PAGEMON_CALL_CREATE_L2, {DATA}, 0, 0, 0}, {PAGEMON_CALL_MAP_LARGE, {PAGES, 16, FIRST, READS}, 0, 0, 0}};
    struct lent lent = right;
    lent.golden = nowhere, lent.golden_length = 0;
    every_call(&lent, PAGEMON_UNSIGNED, PAGEMON_ACCEPTED, where);
    for (size_t i = 0; i < sizeof reads / sizeof reads[0]; i++) {
        one_call(by_call, &lent, &reads[i], PAGEMON_ACCEPTED, where);
        one_call(by_run, &lent, &reads[i], PAGEMON_ACCEPTED, where);
    }
    lent = right, lent.memory = nowhere, lent.memory_length = 0;
    every_call(&lent, PAGEMON_MISFIT, PAGEMON_MISFIT, where);
    lent = right, lent.ledger = nowhere, lent.ledger_length = 0;
    every_call(&lent, PAGEMON_MISFIT, PAGEMON_MISFIT, where);
    lent = (struct lent){nowhere, 0, nowhere, 0, nowhere, 0, nowhere, 0, nowhere, 0};
    every_call(&lent, PAGEMON_MISFIT, PAGEMON_MISFIT, where);
    every_misfit_of_registers(&lent, where);
    lent = right, lent.kinds = nowhere, lent.kinds_length = 0;
    one_call(by_call, &lent, begin_kinds, PAGEMON_MISFIT, where);
    lent = right, lent.registers = nowhere, lent.registers_length = 0;
    every_misfit_of_registers(&lent, where);
}

/* Lists without records, or without a place for an answer or for a byte. */
static void empty_lists(uint8_t *nowhere, const char *where)
{
    for (int which = RECORDS; which < BUFFERS; which++) {
        struct buffers b = {{memory, ledger, lent_golden, rooms[RECORDS].start, rooms[ANSWERS].start, rooms[BYTES].start}};
        put_all(&b);
        memcpy(memory, left_memory, sizeof memory);
        memcpy(ledger, left_ledger, sizeof ledger);
        b.at[which] = nowhere;
        trying = where;
        expect(run(&b, which == RECORDS ? 0 : lengths[RECORDS], which == ANSWERS ? 0 : STEPS, which == BYTES ? 0 : STEPS) == 0, names[which], where, 0);
        expect(as_left(), "a list of no steps changed a buffer", where, (size_t)which);
        expect(rooms[ANSWERS].start[0] == 0xA7 && rooms[BYTES].start[0] == 0x58, "a list of no steps answered", where, (size_t)which);
    }
}

static void empty_messages(const uint8_t *nowhere, const char *where)
{
    uint8_t digest[SIGNATURE_DIGEST_BYTES] = {0}, expected[SIGNATURE_DIGEST_BYTES] = {0};
    trying = where;
    signature_sha256(digest, 0, expected);
    signature_sha256(nowhere, 0, digest);
    expect(memcmp(digest, expected, sizeof digest) == 0, "digest", where, 0);
    signature_block_digest(nowhere, 0, 0, digest);
    expect(signature_is_signed(nowhere, 0, digest, sizeof digest, 0), "the digest of a number alone is not found", where, 0);
    expect(!signature_is_signed(nowhere, 0, expected, sizeof expected, 0), "the empty message's digest was found", where, 0);
    expect(!signature_is_signed(digest, sizeof digest, nowhere, 0, 0), "a digest was found in an empty image", where, 0);
    expect(!signature_is_signed(nowhere, 0, nowhere, 0, 0), "a digest was found in an empty image", where, 1);
}

static void empty(uint8_t *nowhere, const char *where)
{
    empty_buffers(nowhere, where);
    empty_lists(nowhere, where);
    empty_messages(nowhere, where);
}

int main(void)
{
    signal(SIGSEGV, touched);
    plain_script();
    make_rooms();
    odd_addresses();
    beside_untouchable_pages();
    digests();
    set_up();
    forbidden = untouchable(forbidden_bytes);
    long_buffers();
    kinds_in_rooms();
    registers_in_pages();
    short_ledgers();
    long_lists();
    long_image();
    empty(NULL, "an empty buffer at NULL");
    empty(forbidden, "an empty buffer that must not be followed");
    printf("buffers.c: %s\n", failures == 0 ? "ok" : "failed");
    return failures != 0;
}
