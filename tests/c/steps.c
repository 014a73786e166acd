/* The runner of lists of steps as C code links it, beside the calls themselves: the sample list (program 7), outputs of every length, and bad records. */
#include "steps.h"

#include <stdbool.h>
#include <stdio.h>
#include <string.h>

enum { BLOCKS = 16, STEPS = 11, PLACES = STEPS + 2 };

static const uint32_t OLD_ANSWER = 0xA7A7A7A7;
static const uint8_t OLD_BYTE = 0x58;

static int failures = 0;

static void expect(bool holds, const char *what, size_t number)
{
    if (!holds) {
        printf("steps.c: %s %zu\n", what, number);
        failures++;
    }
}

struct step {
    uint8_t call;
    uint32_t arguments[4];
    uint32_t answer;
    uint8_t byte;
};

static const struct step sample[STEPS] = {
    {PAGEMON_CALL_BEGIN, {0}, PAGEMON_ACCEPTED, 0},
    {PAGEMON_CALL_CREATE_L1, {0}, PAGEMON_ACCEPTED, 0},
    {PAGEMON_CALL_SWITCH, {0}, PAGEMON_ACCEPTED, 0},
    {PAGEMON_CALL_CREATE_L2, {4}, PAGEMON_ACCEPTED, 0},
    {PAGEMON_CALL_LINK, {0, 0, 4, 0}, PAGEMON_ACCEPTED, 0},
    {PAGEMON_CALL_MAP_L2, {4, 5, 8, PAGEMON_READ | PAGEMON_WRITE}, PAGEMON_ACCEPTED, 0},
    {PAGEMON_CALL_WRITE, {0x5000, 65}, PAGEMON_ACCEPTED, 0},
    {PAGEMON_CALL_READ, {0x5000}, PAGEMON_ACCEPTED, 65},
    {PAGEMON_CALL_FETCH, {0x5000}, PAGEMON_RIGHT_LACKING, 0},
    {PAGEMON_CALL_MAP_L2, {4, 6, 8, PAGEMON_READ | PAGEMON_EXECUTE}, PAGEMON_CLASH, 0},
    {PAGEMON_CALL_FREE_L2, {4}, PAGEMON_IN_USE, 0},
};

static uint8_t memory[BLOCKS * PAGEMON_BLOCK_BYTES], expected_memory[BLOCKS * PAGEMON_BLOCK_BYTES];
static uint8_t ledger[PAGEMON_LEDGER_BYTES(BLOCKS)], expected_ledger[PAGEMON_LEDGER_BYTES(BLOCKS)];
static uint8_t records[PAGEMON_RECORD_BYTES * PLACES];
static uint32_t answers[PLACES];
static uint8_t bytes[PLACES];
static const uint8_t golden[1];

static void put_record(size_t place, const struct step *step)
{
    uint8_t *record = records + PAGEMON_RECORD_BYTES * place;
    record[0] = PAGEMON_FIRST_MARK;
    record[1] = PAGEMON_SECOND_MARK;
    record[2] = step->call;
    for (int i = 0; i < 16; i++) {
        record[3 + i] = (uint8_t)(step->arguments[i / 4] >> 8 * (i % 4));
    }
}

/* The sample's records over zeros, and outputs that hold something else. */
static void start(void)
{
    memset(memory, 0, sizeof memory);
    memset(ledger, 0, sizeof ledger);
    memset(records, 0, sizeof records);
    for (size_t i = 0; i < STEPS; i++) {
        put_record(i, &sample[i]);
    }
    for (size_t i = 0; i < PLACES; i++) {
        answers[i] = OLD_ANSWER;
        bytes[i] = OLD_BYTE;
    }
}

static size_t run(size_t records_length, size_t answers_length, size_t bytes_length)
{
    return pagemon_run(memory, sizeof memory, ledger, sizeof ledger, golden, 0, records, records_length, answers, answers_length, bytes, bytes_length);
}

/* What the first steps of the sample leave, by the monitor's own calls. */
static void obey_sample(size_t steps)
{
    uint8_t *m = expected_memory, *l = expected_ledger, r[PAGEMON_REGISTERS_BYTES] = {0};
    uint32_t hashed = 0;
    size_t n = sizeof expected_memory, k = sizeof expected_ledger;
    memset(m, 0, n);
    memset(l, 0, k);
    for (size_t i = 0; i < steps; i++) {
        const uint32_t *a = sample[i].arguments;
        switch (sample[i].call) {
        case PAGEMON_CALL_BEGIN: pagemon_begin(m, n, l, k, a[0]); break;
        case PAGEMON_CALL_CREATE_L1: pagemon_create_l1(m, n, l, k, golden, 0, a[0], &hashed); break;
        case PAGEMON_CALL_CREATE_L2: pagemon_create_l2(m, n, l, k, golden, 0, a[0], &hashed); break;
        case PAGEMON_CALL_SWITCH: pagemon_switch(m, n, l, k, a[0]); break;
        case PAGEMON_CALL_LINK: pagemon_link(m, n, l, k, a[0], a[1], a[2], a[3]); break;
        case PAGEMON_CALL_MAP_L2: pagemon_map_l2(m, n, l, k, golden, 0, a[0], a[1], a[2], a[3], &hashed); break;
        case PAGEMON_CALL_WRITE: pagemon_write(m, n, l, k, r, sizeof r, a[0], a[1]); break;
        default: break;
        }
    }
}

/* The first `steps` steps of the sample were obeyed, and no more. */
static void expect_obeyed(size_t obeyed, size_t steps)
{
    expect(obeyed == steps, "not obeyed as many as", steps);
    for (size_t i = 0; i < PLACES; i++) {
        expect(answers[i] == (i < steps ? sample[i].answer : OLD_ANSWER), "answer", i);
        expect(bytes[i] == (i < steps ? sample[i].byte : OLD_BYTE), "byte", i);
    }
    obey_sample(steps);
    expect(memcmp(memory, expected_memory, sizeof memory) == 0, "memory after steps:", steps);
    expect(memcmp(ledger, expected_ledger, sizeof ledger) == 0, "ledger after steps:", steps);
}

static size_t smallest(size_t a, size_t b, size_t c)
{
    size_t smaller = a < b ? a : b;
    return smaller < c ? smaller : c;
}

static void outputs_of_every_length(void)
{
    for (size_t answers_length = 0; answers_length <= PLACES; answers_length++) {
        for (size_t bytes_length = 0; bytes_length <= PLACES; bytes_length++) {
            start();
            expect_obeyed(run(PAGEMON_RECORD_BYTES * STEPS, answers_length, bytes_length), smallest(answers_length, bytes_length, STEPS));
        }
    }
}

static void lists_of_every_length(void)
{
    for (size_t length = 0; length <= PAGEMON_RECORD_BYTES * STEPS; length++) {
        start();
        expect_obeyed(run(length, PLACES, PLACES), length / PAGEMON_RECORD_BYTES);
    }
}

/* One byte of one record, so that it has another mark or another call byte. */
static void bad_records(void)
{
    static const struct {
        size_t at;
        uint8_t byte;
    } bad[] = {{0, PAGEMON_SECOND_MARK}, {1, PAGEMON_FIRST_MARK}, {2, 0}, {2, PAGEMON_CALL_UNMAP_LARGE + 1}, {2, 255}};
    for (size_t place = 0; place < STEPS; place++) {
        for (size_t i = 0; i < sizeof bad / sizeof bad[0]; i++) {
            start();
            records[PAGEMON_RECORD_BYTES * place + bad[i].at] = bad[i].byte;
            expect_obeyed(run(PAGEMON_RECORD_BYTES * STEPS, PLACES, PLACES), place);
        }
    }
}

int main(void)
{
    outputs_of_every_length();
    lists_of_every_length();
    bad_records();
    printf("steps.c: %s\n", failures == 0 ? "ok" : "failed");
    return failures != 0;
}
