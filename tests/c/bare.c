/*
 * No C library and no start-up code: libmonitor.a, examples/memory.c and this make a program for ARMv7, which Linux starts at _start. It makes the calls
 * of examples/link.c, and its status is 0 if they were accepted and the guest reads what it wrote.
 */
#include "pagemon.h"

static uint8_t memory[16 * PAGEMON_BLOCK_BYTES], ledger[PAGEMON_LEDGER_BYTES(16)], registers[PAGEMON_REGISTERS_BYTES];

#define REGION memory, sizeof memory, ledger, sizeof ledger
#define REGISTERS registers, sizeof registers

static int refused(void)
{
    uint8_t byte = 0;
    uint32_t hashed = 0;
    return pagemon_begin(REGION, 0) || pagemon_create_l1(REGION, 0, 0, 0, &hashed) || pagemon_create_l2(REGION, 0, 0, 4, &hashed)
           || pagemon_link(REGION, 0, 0, 4, 0) || pagemon_map_l2(REGION, 0, 0, 4, 5, 8, PAGEMON_READ | PAGEMON_WRITE, &hashed)
           || pagemon_forget(REGION, 8, 1) || pagemon_switch(REGION, 0) || pagemon_write(REGION, REGISTERS, 0x5000, 'A')
           || pagemon_read(REGION, REGISTERS, 0x5000, &byte) || byte != 'A';
}

/* Linux: system call 1 is exit, with its number in r7 and the status in r0. */
__attribute__((noreturn)) void _start(void)
{
    register int status __asm__("r0") = refused();
    register int call __asm__("r7") = 1;
    __asm__ volatile("svc #0" : : "r"(status), "r"(call));
    __builtin_unreachable();
}
