/*
 * What a hypervisor does where the monitor refuses a mapping that would make a block writable and executable (docs/RULES.md, map 11): it maps
 * with less, notes the right that it held back, and when the guest then faults on it, downgrades the mapping in the way and tries again. One
 * page, mapped by two entries of one L2 block, goes from writable to executable and back (policies 9). Where the second try is refused too, the
 * guest keeps what it had.
 */
#include "pagemon.h"
#include "signature.h"

#include <stdio.h>
#include <string.h>

enum { BLOCKS = 16, TABLE = 0, PAGES = 4, CODE = 8, WRITER = 5, RUNNER = 6, PATCH = 0x2F };

static uint8_t memory[BLOCKS * PAGEMON_BLOCK_BYTES], ledger[PAGEMON_LEDGER_BYTES(BLOCKS)], golden[PAGEMON_DIGEST_BYTES];
static uint8_t registers[PAGEMON_REGISTERS_BYTES];

#define REGION memory, sizeof memory, ledger, sizeof ledger
#define REGISTERS registers, sizeof registers

/* A mapping as the guest asked for it, and the rights that it has now. */
struct mapping {
    uint32_t index, asked, held;
};

/* What the guest may write is forgotten at once: it is hashed again before it is executed (box 2). */
static uint32_t map(struct mapping *m, uint32_t rights)
{
    uint32_t hashed = 0, answer = pagemon_map_l2(REGION, golden, sizeof golden, PAGES, m->index, CODE, rights, &hashed);
    if (answer == PAGEMON_ACCEPTED)
        m->held = rights;
    return answer == PAGEMON_ACCEPTED && rights & PAGEMON_WRITE ? pagemon_forget(REGION, CODE, 1) : answer;
}

/* The rights that a mapping gets: those asked for, or, where write and execute clash, only read for the time being. */
static uint32_t map_or_less(struct mapping *m)
{
    uint32_t answer = map(m, m->asked);
    return answer == PAGEMON_CLASH ? map(m, PAGEMON_READ) : answer;
}

/* Gives a mapping other rights or, where these are refused, those that it had. The TLB is to be cleared of it before the guest runs on. */
static uint32_t remap(struct mapping *m, uint32_t rights)
{
    uint32_t answer = pagemon_unmap_l2(REGION, PAGES, m->index);
    if (answer != PAGEMON_ACCEPTED)
        return answer;
    answer = map(m, rights);
    if (answer != PAGEMON_ACCEPTED)
        map(m, m->held); /* accepted: it stood there a moment ago */
    return answer;
}

/*
 * The guest faulted on a right that was held back: the mapping in the way is downgraded, and the right given. The fault is not the guest's own then:
 * it is acknowledged, and no abort is injected. Where the right is refused, both mappings are again as they were.
 */
static uint32_t resume(struct mapping *wanted, struct mapping *in_the_way)
{
    uint8_t pending = 0;
    uint32_t had = in_the_way->held;
    uint32_t answer = remap(in_the_way, PAGEMON_READ);
    if (answer != PAGEMON_ACCEPTED)
        return answer;
    answer = remap(wanted, wanted->asked);
    if (answer == PAGEMON_ACCEPTED)
        return pagemon_acknowledge(REGISTERS, &pending);
    remap(in_the_way, had);
    return answer;
}

static int failures = 0;

static void expect(const char *what, uint32_t answer, uint32_t expected)
{
    printf("%-58s %u\n", what, (unsigned)answer);
    failures += answer != expected;
}

int main(void)
{
    struct mapping writer = {WRITER, PAGEMON_READ | PAGEMON_WRITE, 0}, runner = {RUNNER, PAGEMON_READ | PAGEMON_EXECUTE, 0};
    uint8_t byte = 0;
    uint32_t hashed = 0;

    memset(memory + CODE * PAGEMON_BLOCK_BYTES, 0x1E, PAGEMON_BLOCK_BYTES); /* the code that is known to be good */
    signature_block_digest(memory + CODE * PAGEMON_BLOCK_BYTES, PAGEMON_BLOCK_BYTES, CODE, golden);
    expect("begin", pagemon_begin(REGION, 0), 0);
    expect("create the L1 table", pagemon_create_l1(REGION, golden, sizeof golden, TABLE, &hashed), 0);
    expect("create the L2 block", pagemon_create_l2(REGION, golden, sizeof golden, PAGES, &hashed), 0);
    expect("link", pagemon_link(REGION, TABLE, 0, PAGES, 0), 0);
    expect("switch", pagemon_switch(REGION, TABLE), 0);

    expect("map to write", map_or_less(&writer), PAGEMON_ACCEPTED);
    expect("map to execute: held back, only read", map_or_less(&runner), PAGEMON_ACCEPTED);
    expect("  the guest fetches: a prefetch abort", pagemon_fetch(REGION, REGISTERS, 0x6000, &byte), PAGEMON_RIGHT_LACKING);
    expect("resume execute: the writer is downgraded", resume(&runner, &writer), PAGEMON_ACCEPTED);
    expect("  the guest fetches", pagemon_fetch(REGION, REGISTERS, 0x6000, &byte), PAGEMON_ACCEPTED);
    expect("  the guest writes: a data abort", pagemon_write(REGION, REGISTERS, 0x5000, PATCH), PAGEMON_RIGHT_LACKING);
    expect("resume write: the runner is downgraded", resume(&writer, &runner), PAGEMON_ACCEPTED);
    expect("  the guest writes", pagemon_write(REGION, REGISTERS, 0x5000, PATCH), PAGEMON_ACCEPTED);
    expect("resume execute: refused, the block is no longer signed", resume(&runner, &writer), PAGEMON_UNSIGNED);
    expect("  the guest reads as before", pagemon_read(REGION, REGISTERS, 0x6000, &byte), PAGEMON_ACCEPTED);
    failures += byte != PATCH;
    expect("  the guest fetches: a prefetch abort, its own to handle", pagemon_fetch(REGION, REGISTERS, 0x6000, &byte), PAGEMON_RIGHT_LACKING);
    expect("  the guest writes as before", pagemon_write(REGION, REGISTERS, 0x5000, PATCH), PAGEMON_ACCEPTED);
    return failures != 0;
}
