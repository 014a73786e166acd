/*
 * A hypervisor that gives its guest the abort which the guest's kernel waits for where an access faults (docs/RULES.md, registers 6): it copies the
 * fault registers to those that it keeps for the guest, makes the mode that it keeps for it Abort, and acknowledges. The guest reads where nothing is mapped, writes to
 * a page that it may only read, and fetches from a page of data.
 */
#include "pagemon.h"

#include <stdio.h>
#include <stdlib.h>

enum { BLOCKS = 16, TABLE = 0, PAGES = 4, DATA = 8 };

static uint8_t memory[BLOCKS * PAGEMON_BLOCK_BYTES], ledger[PAGEMON_LEDGER_BYTES(BLOCKS)];
static uint8_t registers[PAGEMON_REGISTERS_BYTES]; /* of the one guest processor; zeros at the start */

#define REGION memory, sizeof memory, ledger, sizeof ledger
#define REGISTERS registers, sizeof registers
#define NO_IMAGE NULL, 0

/* What the hypervisor keeps of the guest's processor, as far as an abort alters it. The processor itself stays in user mode for all of the guest. */
struct guest {
    uint32_t pc, cpsr;               /* the address of the instruction that is being executed, and the state */
    uint32_t lr_abt, spsr_abt;       /* banked in mode Abort */
    uint32_t dfsr, dfar, ifsr, ifar; /* what the guest's kernel reads as c5 and c6 of CP15 */
    uint32_t vectors;                /* where the guest's kernel has its exception vectors */
};

/* Bits of CPSR: those that an exception clears (IT, J, E, T and the mode), and those that an abort sets. */
#define CPSR_CLEARED 0x0700FE3Fu
#define CPSR_A 0x100u
#define CPSR_I 0x080u
#define MODE_ABORT 0x17u

enum { DATA_ABORT = 0x10, PREFETCH_ABORT = 0x0C };       /* vectors */
enum { AFTER_DATA_ABORT = 8, AFTER_PREFETCH_ABORT = 4 }; /* from the instruction that faulted to lr_abt, in ARM and in Thumb state */

/* Makes the mode that is kept for the guest Abort, as ARMv7 enters it with SCTLR.TE and EE 0. */
static void enter_abort(struct guest *guest, uint32_t after, uint32_t vector)
{
    guest->lr_abt = guest->pc + after;
    guest->spsr_abt = guest->cpsr;
    guest->cpsr = (guest->cpsr & ~CPSR_CLEARED) | CPSR_A | CPSR_I | MODE_ABORT;
    guest->pc = guest->vectors + vector;
}

static void inject_data_abort(struct guest *guest)
{
    guest->dfsr = PAGEMON_REGISTER(registers, PAGEMON_DFSR);
    guest->dfar = PAGEMON_REGISTER(registers, PAGEMON_DFAR);
    enter_abort(guest, AFTER_DATA_ABORT, DATA_ABORT);
}

static void inject_prefetch_abort(struct guest *guest)
{
    guest->ifsr = PAGEMON_REGISTER(registers, PAGEMON_IFSR);
    guest->ifar = PAGEMON_REGISTER(registers, PAGEMON_IFAR);
    enter_abort(guest, AFTER_PREFETCH_ABORT, PREFETCH_ABORT);
}

static int failures = 0;

/* After an access. Only 22 and 23 are the guest's faults; with 1, 21 or 24 something is wrong in the hypervisor, and the guest does not run on. */
static void settle(struct guest *guest, uint32_t answer, void (*inject)(struct guest *guest))
{
    uint8_t pending = 0;
    switch (answer) {
    case PAGEMON_ACCEPTED: return;
    case PAGEMON_FAULT_ENTRY:
    case PAGEMON_RIGHT_LACKING: break;
    default: exit(1);
    }
    inject(guest);
    failures += pagemon_acknowledge(REGISTERS, &pending) != PAGEMON_ACCEPTED || pending != 1 || registers[PAGEMON_PENDING] != 0;
}

static void print_answer(const char *what, uint32_t answer, uint32_t expected)
{
    printf("  %-36s %2u\n", what, (unsigned)answer);
    failures += answer != expected;
}

static void print_fault(const char *names, uint32_t status, uint32_t address, uint32_t expected_code)
{
    printf("  %s  0x%03X 0x%08X  %s fault, level %u%s\n", names, (unsigned)status, (unsigned)address,
           PAGEMON_STATUS_IS_TRANSLATION(status) ? "translation" : "permission", (unsigned)PAGEMON_STATUS_LEVEL(status),
           PAGEMON_STATUS_IS_WRITE(status) ? ", a write" : "");
    failures += PAGEMON_STATUS_CODE(status) != expected_code;
}

static void print_state(const struct guest *guest)
{
    printf("  pc, cpsr          0x%08X 0x%08X\n", (unsigned)guest->pc, (unsigned)guest->cpsr);
    printf("  lr_abt, spsr_abt  0x%08X 0x%08X\n", (unsigned)guest->lr_abt, (unsigned)guest->spsr_abt);
}

/* The end of the guest's own handler, which tries the instruction again: SUBS PC, LR, #8 after a data abort, #4 after a prefetch abort. */
static void return_from_abort(struct guest *guest, uint32_t after)
{
    guest->pc = guest->lr_abt - after;
    guest->cpsr = guest->spsr_abt;
}

/* An active table with one page, to be read. */
static void start(void)
{
    uint32_t hashed = 0;
    failures += pagemon_begin(REGION, 0) || pagemon_create_l1(REGION, NO_IMAGE, TABLE, &hashed)
                || pagemon_create_l2(REGION, NO_IMAGE, PAGES, &hashed) || pagemon_link(REGION, TABLE, 0, PAGES, 0)
                || pagemon_map_l2(REGION, NO_IMAGE, PAGES, 5, DATA, PAGEMON_READ, &hashed) || pagemon_switch(REGION, TABLE);
}

/* By an instruction in ARM state. The guest's kernel has the page mapped, and the instruction is executed again. */
static void a_read(struct guest *guest)
{
    uint8_t byte = 0;
    uint32_t hashed = 0, instruction = 0x00001010, answer;
    guest->pc = instruction, guest->cpsr = 0x60000010;
    puts("the guest reads where nothing is mapped");
    answer = pagemon_read(REGION, REGISTERS, 0x00007004, &byte);
    settle(guest, answer, inject_data_abort);
    print_answer("read at 0x00007004", answer, PAGEMON_FAULT_ENTRY);
    print_fault("DFSR, DFAR", guest->dfsr, guest->dfar, PAGEMON_TRANSLATION_L2);
    print_state(guest);
    print_answer("map the page, as the guest asks", pagemon_map_l2(REGION, NO_IMAGE, PAGES, 7, DATA, PAGEMON_READ, &hashed), PAGEMON_ACCEPTED);
    return_from_abort(guest, AFTER_DATA_ABORT);
    failures += guest->pc != instruction || guest->cpsr != 0x60000010;
    answer = pagemon_read(REGION, REGISTERS, 0x00007004, &byte);
    settle(guest, answer, inject_data_abort);
    print_answer("read at 0x00007004, again", answer, PAGEMON_ACCEPTED);
}

/* In Thumb state, within an IT block: both are left with the abort, and spsr_abt has them. */
static void a_write(struct guest *guest)
{
    guest->pc = 0x00001022, guest->cpsr = 0x6000E830;
    puts("the guest writes to a page that it may only read");
    uint32_t answer = pagemon_write(REGION, REGISTERS, 0x00005ABC, 'A');
    settle(guest, answer, inject_data_abort);
    print_answer("write at 0x00005ABC", answer, PAGEMON_RIGHT_LACKING);
    print_fault("DFSR, DFAR", guest->dfsr, guest->dfar, PAGEMON_PERMISSION_L2);
    print_state(guest);
}

static void a_fetch(struct guest *guest)
{
    uint8_t byte = 0;
    uint32_t dfsr = guest->dfsr, dfar = guest->dfar;
    guest->pc = 0x00005000, guest->cpsr = 0x60000010;
    puts("the guest fetches from a page of data");
    uint32_t answer = pagemon_fetch(REGION, REGISTERS, guest->pc, &byte);
    settle(guest, answer, inject_prefetch_abort);
    print_answer("fetch at 0x00005000", answer, PAGEMON_RIGHT_LACKING);
    print_fault("IFSR, IFAR", guest->ifsr, guest->ifar, PAGEMON_PERMISSION_L2);
    print_state(guest);
    failures += guest->dfsr != dfsr || guest->dfar != dfar;
}

int main(void)
{
    struct guest guest = {.vectors = 0xFFFF0000};
    start();
    a_read(&guest);
    a_write(&guest);
    a_fetch(&guest);
    return failures != 0;
}
