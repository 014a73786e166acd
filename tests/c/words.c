/*
 * The header's version, names of answers, indices and words of entries, held against the monitor: map and link write exactly these words, create accepts
 * tables of them, and what the guest may then do at an address is what the words were made for.
 */
#include "pagemon.h"
#include "signature.h"

#include <ctype.h>
#include <stdbool.h>
#include <stdio.h>
#include <string.h>

/* Positions in the region: a section of signed code, one of data, an L1 table, and L2 blocks. */
enum { CODE = 0, DATA = 256, TABLE = 512, PAGES = 516, LARGE_PAGES = 520, BLOCKS = 528 };
enum { NOTHING = 0, READS = PAGEMON_READ, WRITES = PAGEMON_READ | PAGEMON_WRITE, EXECUTES = PAGEMON_READ | PAGEMON_EXECUTE, ALL_KINDS = 128 };

static const uint32_t four_rights[] = {NOTHING, READS, WRITES, EXECUTES};

static int failures = 0;

static void expect(bool holds, const char *what, uint32_t number)
{
    if (!holds) {
        printf("words.c: %s 0x%X\n", what, (unsigned)number);
        failures++;
    }
}

static uint8_t memory[BLOCKS * PAGEMON_BLOCK_BYTES], ledger[PAGEMON_LEDGER_BYTES(BLOCKS)];
static uint8_t golden[PAGEMON_SECTION_BLOCKS * PAGEMON_DIGEST_BYTES], registers[PAGEMON_REGISTERS_BYTES];

#define REGION memory, sizeof memory, ledger, sizeof ledger
#define REGISTERS registers, sizeof registers
#define IMAGE golden, sizeof golden

/* Integer constant expressions: the rights 0, 1, 3 and 5 with C and B, then with every bit of a kind and with none. */
static const struct {
    uint32_t word, expected;
} constants[] = {
    {PAGEMON_FAULT_WORD, 0},
    {PAGEMON_LINK_WORD(0x12345, 0), 0x12345001},
    {PAGEMON_LINK_WORD(0xFFFFF, 3), 0xFFFFFC01},
    {PAGEMON_PAGE_WORD(0x12345, NOTHING, PAGEMON_KIND_WRITE_BACK), 0x1234501F},
    {PAGEMON_PAGE_WORD(0x12345, READS, PAGEMON_KIND_WRITE_BACK), 0x1234502F},
    {PAGEMON_PAGE_WORD(0x12345, WRITES, PAGEMON_KIND_WRITE_BACK), 0x1234503F},
    {PAGEMON_PAGE_WORD(0x12345, EXECUTES, PAGEMON_KIND_WRITE_BACK), 0x1234502E},
    {PAGEMON_PAGE_WORD(0xFFFFF, WRITES, PAGEMON_KIND(7, 1, 1, 1, 1)), 0xFFFFFDFF},
    {PAGEMON_PAGE_WORD(0, EXECUTES, PAGEMON_KIND_STRONGLY_ORDERED), 0x022},
    {PAGEMON_SECTION_WORD(0x12300, NOTHING, PAGEMON_KIND_WRITE_BACK), 0x1230041E},
    {PAGEMON_SECTION_WORD(0x12300, READS, PAGEMON_KIND_WRITE_BACK), 0x1230081E},
    {PAGEMON_SECTION_WORD(0x12300, WRITES, PAGEMON_KIND_WRITE_BACK), 0x12300C1E},
    {PAGEMON_SECTION_WORD(0x12300, EXECUTES, PAGEMON_KIND_WRITE_BACK), 0x1230080E},
    {PAGEMON_SECTION_WORD(0xFFF00, WRITES, PAGEMON_KIND(7, 1, 1, 1, 1)), 0xFFF37C1E},
    {PAGEMON_SECTION_WORD(0, EXECUTES, PAGEMON_KIND_STRONGLY_ORDERED), 0x802},
    {PAGEMON_LARGE_WORD(0x12340, NOTHING, PAGEMON_KIND_WRITE_BACK), 0x1234801D},
    {PAGEMON_LARGE_WORD(0x12340, READS, PAGEMON_KIND_WRITE_BACK), 0x1234802D},
    {PAGEMON_LARGE_WORD(0x12340, WRITES, PAGEMON_KIND_WRITE_BACK), 0x1234803D},
    {PAGEMON_LARGE_WORD(0x12340, EXECUTES, PAGEMON_KIND_WRITE_BACK), 0x1234002D},
    {PAGEMON_LARGE_WORD(0xFFFF0, WRITES, PAGEMON_KIND(7, 1, 1, 1, 1)), 0xFFFFFC3D},
    {PAGEMON_LARGE_WORD(0, EXECUTES, PAGEMON_KIND_STRONGLY_ORDERED), 0x0021},
    /* What is cut off: a block's number, a table, rights and a kind that are too large, and a first block that is not aligned. */
    {PAGEMON_LINK_WORD(0x912345, 7), 0x12345C01},
    {PAGEMON_PAGE_WORD(0x912345, 8 + READS, 0x80), 0x12345023},
    {PAGEMON_SECTION_WORD(0x9123FF, 8 + READS, 0x80), 0x12300812},
    {PAGEMON_LARGE_WORD(0x91234F, 8 + READS, 0x80), 0x12348021},
    {PAGEMON_PAGE_WORD(0x12345, 8, 0x80), 0x12345013},
    /* Rights that no entry gives: AP 100. */
    {PAGEMON_PAGE_WORD(0x12345, PAGEMON_WRITE, 0), 0x12345203},
    {PAGEMON_SECTION_WORD(0x12300, PAGEMON_EXECUTE, 0), 0x12308002},
    {PAGEMON_LARGE_WORD(0x12340, PAGEMON_WRITE | PAGEMON_EXECUTE, 0), 0x12340201},
    /* Addresses. */
    {PAGEMON_L1_INDEX(0xFFFFFFFF), 0xFFF},
    {PAGEMON_L2_ENTRY(0xFFFFFFFF), 0xFF},
    {PAGEMON_L2_INDEX(3, 255), PAGEMON_L2_ENTRIES - 1},
    {PAGEMON_ADDRESS_TO_BLOCK(0xFFFFFFFF), 0xFFFFF},
    {PAGEMON_ADDRESS_TO_BLOCK(0x100000000ull), 0x100000},
    {PAGEMON_BLOCK_TO_ADDRESS(0xFFFFF), 0xFFFFF000},
};

/* They have the type of a word too, and fit where the compiler takes nothing else. */
_Static_assert(sizeof PAGEMON_PAGE_WORD(1, WRITES, PAGEMON_KIND_UNCACHED) == 4 && sizeof PAGEMON_LINK_WORD(1, 1) == 4, "a word has 32 bits");
_Static_assert(PAGEMON_SECTION_WORD(256, 0, 0) > 0 && PAGEMON_LARGE_WORD(16, 0, 0) > 0 && PAGEMON_L2_INDEX(1, 2) == 258, "constant expressions");

#if PAGEMON_VERSION != PAGEMON_VERSION_NUMBER(PAGEMON_VERSION_MAJOR, PAGEMON_VERSION_MINOR, PAGEMON_VERSION_PATCH)
#error "the version is not that of its parts"
#endif
#if PAGEMON_VERSION_NUMBER(0, 1, 999) >= PAGEMON_VERSION_NUMBER(0, 2, 0) || PAGEMON_VERSION_NUMBER(0, 999, 999) >= PAGEMON_VERSION_NUMBER(1, 0, 0)
#error "versions do not ascend"
#endif
#if PAGEMON_VERSION_MINOR > 999 || PAGEMON_VERSION_PATCH > 999
#error "a part is too large"
#endif

static void values(void)
{
    for (uint32_t i = 0; i < sizeof constants / sizeof constants[0]; i++) {
        expect(constants[i].word == constants[i].expected, "the constant with the word", constants[i].expected);
    }
}

/* The name in the enum, NULL if it has no such value. Without a default, so that the compiler asks for a new answer here. */
static const char *name_in_enum(enum pagemon_answer answer)
{
#define NAMED(name) case PAGEMON_##name: return #name
    switch (answer) {
    NAMED(ACCEPTED); NAMED(MISFIT); NAMED(OUTSIDE_REGION); NAMED(MISALIGNED); NAMED(BEYOND_TABLE); NAMED(WRONG_TYPE); NAMED(IN_USE);
    NAMED(EXECUTABLE_HOLDER); NAMED(WRONG_ENTRY); NAMED(UNLAWFUL_RIGHTS); NAMED(UNFIT_TARGET); NAMED(CLASH); NAMED(UNSIGNED); NAMED(OVERRUN);
    NAMED(NO_ACTIVE_TABLE); NAMED(FAULT_ENTRY); NAMED(RIGHT_LACKING); NAMED(BROKEN_WALK);
    }
#undef NAMED
    return NULL;
}

/* Each name is the enum's own in small letters, with a space for each underscore, so that no two are alike. */
static void names(void)
{
    for (uint32_t answer = 0; answer < 1000; answer++) {
        const char *expected = name_in_enum((enum pagemon_answer)answer), *name = pagemon_answer_name(answer);
        size_t i = 0;
        if (expected == NULL) {
            expect(strcmp(name, "unknown answer") == 0, "a name of the number", answer);
            continue;
        }
        while (expected[i] != 0 && name[i] == (expected[i] == '_' ? ' ' : tolower((unsigned char)expected[i]))) {
            i++;
        }
        expect(expected[i] == 0 && name[i] == 0, "the name of the answer", answer);
    }
    expect(strcmp(pagemon_answer_name(0xFFFFFFFF), "unknown answer") == 0 && strcmp(pagemon_answer_name(0x100), "unknown answer") == 0, "a name", 0);
}

/* The region's first block, and what the last create or map gave beside its answer. */
static uint32_t first, hashed;

static uint8_t *at(uint32_t position)
{
    return memory + (size_t)position * PAGEMON_BLOCK_BYTES;
}

static uint32_t word(uint32_t position, uint32_t index)
{
    const uint8_t *bytes = at(position) + 4 * (size_t)index;
    return bytes[0] | (uint32_t)bytes[1] << 8 | (uint32_t)bytes[2] << 16 | (uint32_t)bytes[3] << 24;
}

static void put_word(uint32_t position, uint32_t index, uint32_t value)
{
    for (size_t i = 0; i < 4; i++) {
        at(position)[4 * (size_t)index + i] = (uint8_t)(value >> 8 * i);
    }
}

/* The byte of which a block of code or data is full: no two of a section are alike, nor two at one place of both. */
static uint8_t content(uint32_t position)
{
    return (uint8_t)(position ^ position >> 8);
}

/* A region with these kinds, its code signed, and zeros from the L1 table on. */
static void start(uint32_t first_block, const uint8_t *kinds)
{
    first = first_block;
    for (uint32_t position = CODE; position < TABLE; position++) {
        memset(at(position), content(position), PAGEMON_BLOCK_BYTES);
    }
    memset(at(TABLE), 0, (BLOCKS - TABLE) * PAGEMON_BLOCK_BYTES);
    for (uint32_t i = 0; i < PAGEMON_SECTION_BLOCKS; i++) {
        signature_block_digest(at(CODE + i), PAGEMON_BLOCK_BYTES, first + CODE + i, golden + (size_t)i * PAGEMON_DIGEST_BYTES);
    }
    expect(pagemon_begin_kinds(REGION, kinds, PAGEMON_KINDS_BYTES, first) == PAGEMON_ACCEPTED, "begin at", first);
}

/* Kinds that do not matter. */
static const uint8_t zero_kinds[PAGEMON_KINDS_BYTES];

static void a_section(uint32_t index, uint32_t target, uint32_t rights, uint32_t number, uint32_t kind)
{
    uint32_t expected = PAGEMON_SECTION_WORD(target, rights, kind), answer;
    answer = pagemon_map_l1_kind(REGION, IMAGE, first + TABLE, index, target, rights, number, &hashed);
    expect(answer == PAGEMON_ACCEPTED && word(TABLE, index) == expected, "map L1 with the word", expected);
    answer = pagemon_unmap_l1(REGION, first + TABLE, index);
    expect(answer == PAGEMON_ACCEPTED && word(TABLE, index) == PAGEMON_FAULT_WORD, "unmap L1 of the word", expected);
}

static void a_page(uint32_t index, uint32_t target, uint32_t rights, uint32_t number, uint32_t kind)
{
    uint32_t expected = PAGEMON_PAGE_WORD(target, rights, kind), answer;
    answer = pagemon_map_l2_kind(REGION, IMAGE, first + PAGES, index, target, rights, number, &hashed);
    expect(answer == PAGEMON_ACCEPTED && word(PAGES, index) == expected, "map L2 with the word", expected);
    answer = pagemon_unmap_l2(REGION, first + PAGES, index);
    expect(answer == PAGEMON_ACCEPTED && word(PAGES, index) == PAGEMON_FAULT_WORD, "unmap L2 of the word", expected);
}

static void a_large_page(uint32_t index, uint32_t target, uint32_t rights, uint32_t number, uint32_t kind)
{
    uint32_t expected = PAGEMON_LARGE_WORD(target, rights, kind), answer;
    answer = pagemon_map_large_kind(REGION, IMAGE, first + PAGES, index, target, rights, number, &hashed);
    for (uint32_t i = 0; i < PAGEMON_LARGE_BLOCKS; i++) {
        expect(answer == PAGEMON_ACCEPTED && word(PAGES, index + i) == expected, "map large with the word", expected);
    }
    answer = pagemon_unmap_large(REGION, first + PAGES, index);
    expect(answer == PAGEMON_ACCEPTED && word(PAGES, index) == PAGEMON_FAULT_WORD, "unmap large of the word", expected);
}

/* Every form with these rights and this kind, on several blocks. */
static void forms(uint32_t rights, uint32_t number, uint32_t kind)
{
    static const uint32_t places[] = {0, 16, 0x51, 0x50, 0xF0, 0xFF};
    for (uint32_t section = rights & PAGEMON_WRITE ? DATA : CODE; section <= (rights & PAGEMON_EXECUTE ? CODE : DATA); section += PAGEMON_SECTION_BLOCKS) {
        a_section(kind, first + section, rights, number, kind);
        for (size_t i = 0; i < sizeof places / sizeof places[0]; i++) {
            a_page(places[i] + kind, first + section + places[i], rights, number, kind);
            if (places[i] % PAGEMON_LARGE_BLOCKS == 0)
                a_large_page(places[i], first + section + places[i], rights, number, kind);
        }
    }
}

static void links(void)
{
    for (uint32_t table = 0; table < 4; table++) {
        uint32_t index = 0x3FF * (table + 1), expected = PAGEMON_LINK_WORD(first + PAGES, table);
        expect(pagemon_link(REGION, first + TABLE, index, first + PAGES, table) == PAGEMON_ACCEPTED, "link of the table", table);
        expect(word(TABLE + index / 1024, index % 1024) == expected, "the word of a link", expected);
        expect(pagemon_unmap_l1(REGION, first + TABLE, index) == PAGEMON_ACCEPTED, "unmap L1 of the table", table);
    }
}

/* All kinds, eight at a time, and the four rights: what map and link write. */
static void written(uint32_t first_block)
{
    for (uint32_t least = 0; least < ALL_KINDS; least += PAGEMON_KINDS) {
        uint8_t kinds[PAGEMON_KINDS_BYTES] = {0};
        for (uint32_t number = 0; number < PAGEMON_KINDS; number++) {
            kinds[2 * number] = (uint8_t)(least + number);
        }
        start(first_block, kinds);
        expect(pagemon_create_l1(REGION, IMAGE, first + TABLE, &hashed) == PAGEMON_ACCEPTED, "create L1 at", first);
        expect(pagemon_create_l2(REGION, IMAGE, first + PAGES, &hashed) == PAGEMON_ACCEPTED, "create L2 at", first);
        for (uint32_t number = 0; number < PAGEMON_KINDS; number++) {
            for (size_t i = 0; i < sizeof four_rights / sizeof four_rights[0]; i++) {
                forms(four_rights[i], number, least + number);
            }
        }
        links();
    }
}

/* The guest may do at the address what the rights say and no more, and reaches the block at this position. */
static void expect_served(uint32_t address, uint32_t rights, uint32_t position)
{
    uint8_t byte = 0;
    uint32_t reads = pagemon_read(REGION, REGISTERS, address, &byte);
    expect(reads == (rights & PAGEMON_READ ? PAGEMON_ACCEPTED : PAGEMON_RIGHT_LACKING), "read at", address);
    expect(byte == (rights & PAGEMON_READ ? content(position) : 0), "the byte read at", address);
    expect(pagemon_write(REGION, REGISTERS, address, byte) == (rights & PAGEMON_WRITE ? PAGEMON_ACCEPTED : PAGEMON_RIGHT_LACKING), "write at", address);
    expect(pagemon_fetch(REGION, REGISTERS, address, &byte) == (rights & PAGEMON_EXECUTE ? PAGEMON_ACCEPTED : PAGEMON_RIGHT_LACKING), "fetch at", address);
}

/* Where `created` has the page, the large page and the section of one kind and one of the four rights, numbered by i: 4 MiB, 32 MiB and what follows. */
static uint32_t page_address(uint32_t i)
{
    return i << 12;
}

static uint32_t large_address(uint32_t i)
{
    return (4u << 20) + (i << 16);
}

static uint32_t section_address(uint32_t i)
{
    return (36u + i) << 20;
}

/* Tables in which all words stand: those of every kind and of the four rights in each form, and links to all L2 tables. Create accepts them. */
static void created(uint32_t first_block)
{
    start(first_block, zero_kinds);
    for (uint32_t i = 0; i < 4 * ALL_KINDS; i++) {
        uint32_t rights = four_rights[i % 4], kind = i / 4, from = rights & PAGEMON_WRITE ? DATA : CODE;
        put_word(PAGES, i, PAGEMON_PAGE_WORD(first + from + i % 256, rights, kind));
        for (uint32_t j = 16 * i; j < 16 * i + 16; j++) {
            put_word(LARGE_PAGES, j, PAGEMON_LARGE_WORD(first + from + 16 * (i % 16), rights, kind));
        }
        put_word(TABLE, PAGEMON_L1_INDEX(section_address(i)), PAGEMON_SECTION_WORD(first + from, rights, kind));
    }
    for (uint32_t i = 0; i < 4; i++) {
        put_word(TABLE, i, PAGEMON_LINK_WORD(first + PAGES, i));
    }
    expect(pagemon_create_l2(REGION, IMAGE, first + PAGES, &hashed) == PAGEMON_ACCEPTED, "create the pages at", first);
    for (uint32_t i = 0; i < 32; i++) {
        put_word(TABLE, 4 + i, PAGEMON_LINK_WORD(first + LARGE_PAGES + i / 4, i % 4));
    }
    for (uint32_t i = 0; i < 8; i++) {
        expect(pagemon_create_l2(REGION, IMAGE, first + LARGE_PAGES + i, &hashed) == PAGEMON_ACCEPTED, "create the large pages of block", i);
    }
    expect(pagemon_create_l1(REGION, IMAGE, first + TABLE, &hashed) == PAGEMON_ACCEPTED, "create the L1 table at", first);
    expect(pagemon_switch(REGION, first + TABLE) == PAGEMON_ACCEPTED, "switch at", first);
    for (uint32_t i = 0; i < 4 * ALL_KINDS; i++) {
        uint32_t rights = four_rights[i % 4], from = rights & PAGEMON_WRITE ? DATA : CODE;
        expect_served(page_address(i) + 0xABC, rights, from + i % 256);
        for (uint32_t j = 0; j < 16; j++) {
            expect_served(large_address(i) + (j << 12), rights, from + 16 * (i % 16) + j);
        }
        for (uint32_t j = 0; j < 256; j += 51) {
            expect_served(section_address(i) + (j << 12) + 0xFFF, rights, from + j);
        }
    }
}

/* Rights that no entry gives, and those that none may: what create says of the words. */
static void other_rights(void)
{
    static const struct {
        uint32_t rights, answer;
    } others[] = {
        {PAGEMON_WRITE, PAGEMON_WRONG_ENTRY},
        {PAGEMON_EXECUTE, PAGEMON_WRONG_ENTRY},
        {PAGEMON_WRITE | PAGEMON_EXECUTE, PAGEMON_WRONG_ENTRY},
        {PAGEMON_READ | PAGEMON_WRITE | PAGEMON_EXECUTE, PAGEMON_CLASH},
    };
    start(0x100, zero_kinds);
    for (size_t i = 0; i < sizeof others / sizeof others[0]; i++) {
        for (uint32_t kind = 0; kind < ALL_KINDS; kind++) {
            uint32_t rights = others[i].rights;
            put_word(PAGES, 0, PAGEMON_PAGE_WORD(first + CODE, rights, kind));
            expect(pagemon_create_l2(REGION, IMAGE, first + PAGES, &hashed) == others[i].answer, "create L2 with a page of rights", rights);
            put_word(TABLE, 0, PAGEMON_SECTION_WORD(first + CODE, rights, kind));
            expect(pagemon_create_l1(REGION, IMAGE, first + TABLE, &hashed) == others[i].answer, "create L1 with a section of rights", rights);
            for (uint32_t j = 0; j < PAGEMON_LARGE_BLOCKS; j++) {
                put_word(PAGES, j, PAGEMON_LARGE_WORD(first + CODE, rights, kind));
            }
            expect(pagemon_create_l2(REGION, IMAGE, first + PAGES, &hashed) == others[i].answer, "create L2 with a large page of rights", rights);
            memset(at(PAGES), 0, PAGEMON_BLOCK_BYTES);
        }
    }
}

/* As in the handler of a request: a page for a virtual and a physical address, by each of the four tables of an L2 block. */
static void addresses(void)
{
    static const uint32_t virtual_addresses[] = {0x00000000, 0x12345678, 0x800FFFFF, 0xFFFFF000, 0xFFF00ABC};
    for (size_t i = 0; i < sizeof virtual_addresses / sizeof virtual_addresses[0]; i++) {
        for (uint32_t table = 0; table < 4; table++) {
            uint32_t address = virtual_addresses[i], physical = 0x00157123, index = PAGEMON_L2_INDEX(table, PAGEMON_L2_ENTRY(address));
            uint8_t byte = 0;
            start(0x100, zero_kinds);
            bool set_up = pagemon_create_l1(REGION, IMAGE, first + TABLE, &hashed) == PAGEMON_ACCEPTED
                          && pagemon_create_l2(REGION, IMAGE, first + PAGES, &hashed) == PAGEMON_ACCEPTED
                          && pagemon_link(REGION, first + TABLE, PAGEMON_L1_INDEX(address), first + PAGES, table) == PAGEMON_ACCEPTED
                          && pagemon_map_l2(REGION, IMAGE, first + PAGES, index, PAGEMON_ADDRESS_TO_BLOCK(physical), READS, &hashed) == PAGEMON_ACCEPTED
                          && pagemon_switch(REGION, first + TABLE) == PAGEMON_ACCEPTED;
            expect(set_up, "a page for", address);
            expect_served(address, READS, PAGEMON_ADDRESS_TO_BLOCK(physical) - first);
            expect(pagemon_read(REGION, REGISTERS, address + PAGEMON_BLOCK_BYTES, &byte) == PAGEMON_FAULT_ENTRY, "read behind the page of", address);
            expect(pagemon_read(REGION, REGISTERS, address - PAGEMON_BLOCK_BYTES, &byte) == PAGEMON_FAULT_ENTRY, "read before the page of", address);
            expect(PAGEMON_BLOCK_TO_ADDRESS(PAGEMON_ADDRESS_TO_BLOCK(physical)) == (physical & ~0xFFFu), "the address of the block of", physical);
        }
    }
}

int main(void)
{
    static const uint32_t first_blocks[] = {0, 0x5A500, 0xFFD00};
    values();
    names();
    for (size_t i = 0; i < sizeof first_blocks / sizeof first_blocks[0]; i++) {
        written(first_blocks[i]);
        created(first_blocks[i]);
    }
    other_rights();
    addresses();
    printf("words.c: %s\n", failures == 0 ? "ok" : "failed");
    return failures != 0;
}
