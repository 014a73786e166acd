/* The monitor from C: a region of 16 blocks, tables, a page, and a byte that the guest writes and reads. */
#include "pagemon.h"

#include <stdio.h>

static uint8_t memory[16 * PAGEMON_BLOCK_BYTES], ledger[PAGEMON_LEDGER_BYTES(16)];
static uint8_t registers[PAGEMON_REGISTERS_BYTES]; /* the guest processor's fault registers */
static const uint8_t golden[PAGEMON_DIGEST_BYTES]; /* one digest, that of no block here */

#define REGION memory, sizeof memory, ledger, sizeof ledger
#define REGISTERS registers, sizeof registers

int main(void)
{
    uint8_t byte = 0;
    uint32_t hashed = 0;
    int refused = pagemon_begin(REGION, 0)                                         /* blocks 0 to 15 */
                  || pagemon_create_l1(REGION, golden, sizeof golden, 0, &hashed)  /* an L1 table in blocks 0 to 3 */
                  || pagemon_create_l2(REGION, golden, sizeof golden, 4, &hashed)  /* four L2 tables in block 4 */
                  || pagemon_link(REGION, 0, 0, 4, 0)                              /* the first of them at entry 0 */
                  || pagemon_map_l2(REGION, golden, sizeof golden, 4, 5, 8, PAGEMON_READ | PAGEMON_WRITE, &hashed)
                  || pagemon_forget(REGION, 8, 1)                                  /* the guest may write block 8 from now on */
                  || pagemon_switch(REGION, 0) || pagemon_write(REGION, REGISTERS, 0x5000, 'A')
                  || pagemon_read(REGION, REGISTERS, 0x5000, &byte);
    printf("%s, the guest reads %c\n", refused ? "refused" : "accepted", byte);
    return refused || byte != 'A';
}
