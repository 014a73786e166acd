/*
 * Lists of steps, as libsteps.a exports them: records of calls, obeyed one after the other by the calls of the paging monitor
 * (docs/RULES.md, runner).
 *
 * A record is PAGEMON_RECORD_BYTES bytes: the two bytes of the mark, a call byte (below), and four argument words, little-endian, in the order of the call's
 * parameters in pagemon.h. Words that the call does not use may hold anything. A record with another mark or another call byte, and a rest shorter than a
 * record, hold no step. pagemon_forget, pagemon_acknowledge, pagemon_begin_kinds and the three maps with a memory kind have no call byte, so no record is one:
 * a record's begin makes all kinds PAGEMON_KIND_WRITE_BACK, and a record's map uses kind number 0.
 *
 * libsteps.a has the calls' code in itself, and can be linked beside libmonitor.a.
 */
#ifndef STEPS_H
#define STEPS_H

#include "pagemon.h"

#ifdef __cplusplus
extern "C" {
#endif

#define PAGEMON_RECORD_BYTES 19u    /* bytes of a record */
#define PAGEMON_FIRST_MARK 0x50u    /* its first byte */
#define PAGEMON_SECOND_MARK 0x54u   /* its second byte */

/* Call bytes. */
enum {
    PAGEMON_CALL_BEGIN = 1,
    PAGEMON_CALL_CREATE_L1 = 2,
    PAGEMON_CALL_CREATE_L2 = 3,
    PAGEMON_CALL_FREE_L1 = 4,
    PAGEMON_CALL_FREE_L2 = 5,
    PAGEMON_CALL_MAP_L1 = 6,
    PAGEMON_CALL_MAP_L2 = 7,
    PAGEMON_CALL_LINK = 8,
    PAGEMON_CALL_UNMAP_L1 = 9,
    PAGEMON_CALL_UNMAP_L2 = 10,
    PAGEMON_CALL_SWITCH = 11,
    PAGEMON_CALL_READ = 12,
    PAGEMON_CALL_WRITE = 13,
    PAGEMON_CALL_FETCH = 14,
    PAGEMON_CALL_MAP_LARGE = 15,
    PAGEMON_CALL_UNMAP_LARGE = 16
};

/*
 * Obeys the records one after the other, up to the first that holds no step, and no more than there is room for in `answers` and in `bytes`, whose lengths
 * count words and bytes. Returns how many it obeyed, refused calls included. Every step is lent this memory, this ledger and, where it takes one, this golden
 * image, as for the calls of pagemon.h. A read, write or fetch is lent fault registers of the runner's own, all 0, of which nothing is handed out.
 *
 * Writes memory and ledger as the calls do, the answer of each record obeyed to `answers`, and to `bytes` the byte that its read or fetch gave, 0 for every
 * other call. What lies beyond in `answers` and `bytes` stays as it was. How many blocks a create or map hashed is not handed out.
 *
 * A pointer whose length is 0 is not followed, and may be NULL; no other pointer is NULL. `answers` is aligned as a uint32_t is; the other five buffers have
 * any alignment. None of the six shares a byte with another, but golden and records, which are only read, may share bytes with each other. Nothing else writes
 * them during the call.
 */
uint64_t pagemon_run(uint8_t *memory, uint64_t memory_length, uint8_t *ledger, uint64_t ledger_length, const uint8_t *golden,
                     uint64_t golden_length, const uint8_t *records, uint64_t records_length, uint32_t *answers, uint64_t answers_length,
                     uint8_t *bytes, uint64_t bytes_length);

#ifdef __cplusplus
}
#endif

#endif
