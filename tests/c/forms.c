/*
 * The table "Accepted entries" of docs/INTEGRATION.md: what create answers to a table with one such word, or one run of them. The block CODE is marked,
 * so that nothing is hashed.
 */
#include "pagemon.h"

#include <stdio.h>
#include <string.h>

enum { FIRST = 0x100, CODE = 0x100, DATA = 0x200, TABLE = 0x300, PAGES = 0x304, PLAIN = 0x305, BLOCKS = 0x220, OUTSIDE = 0x1000 };
enum { READS = PAGEMON_READ, FORM = PAGEMON_WRONG_ENTRY, PLACE = PAGEMON_UNFIT_TARGET };

static uint8_t memory[BLOCKS * PAGEMON_BLOCK_BYTES], ledger[PAGEMON_LEDGER_BYTES(BLOCKS)];

#define REGION memory, sizeof memory, ledger, sizeof ledger
#define NO_IMAGE NULL, 0

static uint32_t hashed;
static int failures = 0;

static void expect(const char *what, uint32_t word, uint32_t answer, uint32_t expected)
{
    if (answer != expected) {
        printf("forms.c: %s 0x%08X: %u, not %u\n", what, (unsigned)word, (unsigned)answer, (unsigned)expected);
        failures++;
    }
}

static void put(uint32_t block, uint32_t index, uint32_t word)
{
    for (uint32_t i = 0; i < 4; i++)
        memory[(block - FIRST) * PAGEMON_BLOCK_BYTES + 4 * index + i] = (uint8_t)(word >> 8 * i);
}

static void start(void)
{
    memset(memory + (TABLE - FIRST) * PAGEMON_BLOCK_BYTES, 0, (BLOCKS - (TABLE - FIRST)) * PAGEMON_BLOCK_BYTES);
    expect("begin", 0, pagemon_begin(REGION, FIRST), PAGEMON_ACCEPTED);
    for (uint32_t i = 0; i < PAGEMON_SECTION_BLOCKS; i++)
        ledger[PAGEMON_LEDGER_HEAD_BYTES + PAGEMON_LEDGER_RECORD_BYTES * (CODE - FIRST + i) + 16] = PAGEMON_MARKED;
}

/* An L1 table with this word, beside an L2 block to which it may link. */
static void l1(const char *what, uint32_t word, uint32_t expected)
{
    start();
    expect("the L2 block", 0, pagemon_create_l2(REGION, NO_IMAGE, PAGES, &hashed), PAGEMON_ACCEPTED);
    put(TABLE, 7, word);
    expect(what, word, pagemon_create_l1(REGION, NO_IMAGE, TABLE, &hashed), expected);
}

/* An L2 block with this word in `count` entries from an index on. */
static void l2(const char *what, uint32_t word, uint32_t from, uint32_t count, uint32_t expected)
{
    start();
    for (uint32_t i = from; i < from + count; i++)
        put(PAGES, i, word);
    expect(what, word, pagemon_create_l2(REGION, NO_IMAGE, PAGES, &hashed), expected);
}

static void page(const char *what, uint32_t word, uint32_t expected)
{
    l2(what, word, 21, 1, expected);
}

static void large(const char *what, uint32_t word, uint32_t expected)
{
    l2(what, word, 16, 16, expected);
}

static void faults(void)
{
    for (uint32_t bit = 2; bit < 32; bit++) {
        l1("a fault", 1u << bit, PAGEMON_ACCEPTED);
        page("a fault", 1u << bit, PAGEMON_ACCEPTED);
    }
    l1("a fault", ~3u, PAGEMON_ACCEPTED);
    page("a fault", ~3u, PAGEMON_ACCEPTED);
}

static void links(void)
{
    for (uint32_t table = 0; table < 4; table++)
        l1("a link", PAGEMON_LINK_WORD(PAGES, table), PAGEMON_ACCEPTED);
    for (uint32_t bits = 1; bits < 256; bits++)
        l1("a link with bits 9..2", PAGEMON_LINK_WORD(PAGES, 2) | bits << 2, FORM);
    l1("a link to data", PAGEMON_LINK_WORD(PLAIN, 0), PLACE);
    l1("a link outside", PAGEMON_LINK_WORD(OUTSIDE, 0), PLACE);
    l1("a link, cleared", (PAGEMON_LINK_WORD(PAGES, 2) | 0x3FC) & 0xFFFFFC01, PAGEMON_ACCEPTED);
}

static void sections(void)
{
    const uint32_t section = PAGEMON_SECTION_WORD(DATA, READS, PAGEMON_KIND_WRITE_BACK);
    for (uint32_t domain = 1; domain < 16; domain++)
        l1("a section in another domain", section | domain << 5, FORM);
    l1("a section with IMP", section | 1u << 9, FORM);
    l1("a supersection", section | 1u << 18, FORM);
    l1("a section with NS", section | 1u << 19, FORM);
    l1("low bits 11", section | 1u, FORM);
    l1("low bits 11", PAGEMON_LINK_WORD(PAGES, 0) | 2u, FORM);
    l1("a section, cleared", (section | 0x3E0) & ~0x3E0u, PAGEMON_ACCEPTED);
    l1("a section that lies outside in part", PAGEMON_SECTION_WORD(0x300, 0, 0), PLACE);
}

static void pages(void)
{
    for (uint32_t kind = 0; kind < 128; kind++) {
        l1("a section's kind", PAGEMON_SECTION_WORD(DATA, READS, kind), PAGEMON_ACCEPTED);
        page("a page's kind", PAGEMON_PAGE_WORD(DATA, READS, kind), PAGEMON_ACCEPTED);
        large("a large page's kind", PAGEMON_LARGE_WORD(DATA, READS, kind), PAGEMON_ACCEPTED);
    }
    page("a page outside", PAGEMON_PAGE_WORD(OUTSIDE, 0, 0), PLACE);
    large("a large page outside", PAGEMON_LARGE_WORD(OUTSIDE, 0, 0), PLACE);
    for (uint32_t bits = 1; bits < 8; bits++)
        large("a large page with bits 8..6", PAGEMON_LARGE_WORD(DATA, READS, 0) | bits << 6, FORM);
    l2("a lone entry of a large page", PAGEMON_LARGE_WORD(DATA, READS, 0), 16, 1, FORM);
    l2("fifteen of them", PAGEMON_LARGE_WORD(DATA, READS, 0), 16, 15, FORM);
    l2("sixteen that are not aligned", PAGEMON_LARGE_WORD(DATA, READS, 0), 17, 16, FORM);
    l2("thirty-two of one word", PAGEMON_LARGE_WORD(DATA, READS, 0), 16, 32, PAGEMON_ACCEPTED);
}

/* What create answers to an AP and an XN, and where the word leads, if it leads to code or to data as it needs. */
static void access_permissions(void)
{
    for (uint32_t ap = 0; ap < 8; ap++) {
        for (uint32_t xn = 0; xn < 2; xn++) {
            uint32_t executes = xn == 0 && (ap == 2 || ap == 6 || ap == 7), block = executes ? CODE : DATA;
            uint32_t expected = ap == 4 ? FORM : ap == 3 && xn == 0 ? PAGEMON_CLASH : PAGEMON_ACCEPTED, place = block << 12;
            l1("a section's AP and XN", place | (ap & 3) << 10 | ap >> 2 << 15 | xn << 4 | 2, expected);
            page("a page's AP and XN", place | (ap & 3) << 4 | ap >> 2 << 9 | xn | 2, expected);
            large("a large page's AP and XN", place | (ap & 3) << 4 | ap >> 2 << 9 | xn << 15 | 1, expected);
            if (executes)
                page("what is not signed", DATA << 12 | (ap & 3) << 4 | ap >> 2 << 9 | 2, PAGEMON_UNSIGNED);
        }
    }
    page("a page that writes a table", PAGEMON_PAGE_WORD(PAGES, READS | PAGEMON_WRITE, 0), PLACE);
}

int main(void)
{
    faults();
    links();
    sections();
    pages();
    access_permissions();
    printf("forms.c: %s\n", failures == 0 ? "ok" : "failed");
    return failures != 0;
}
