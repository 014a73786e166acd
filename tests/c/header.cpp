/* The headers as C++ reads them: what stands in macros is a constant expression there too. */
#include "pagemon.h"
#include "signature.h"
#include "steps.h"

#if PAGEMON_VERSION < PAGEMON_VERSION_NUMBER(0, 1, 0)
#error "a version before the first"
#endif

static_assert(PAGEMON_LINK_WORD(8, 2) == 0x8801 && PAGEMON_FAULT_WORD == 0, "a link, a fault");
static_assert(PAGEMON_SECTION_WORD(0x100, PAGEMON_READ | PAGEMON_WRITE, PAGEMON_KIND_WRITE_BACK) == 0x00100C1E, "a section");
static_assert(PAGEMON_PAGE_WORD(8, PAGEMON_READ | PAGEMON_EXECUTE, PAGEMON_KIND_UNCACHED | PAGEMON_KIND_SHARED) == 0x8462, "a page");
static_assert(PAGEMON_LARGE_WORD(16, PAGEMON_READ, PAGEMON_KIND_WRITE_BACK | PAGEMON_KIND_NOT_GLOBAL) == 0x1882D, "a large page");
static_assert(PAGEMON_L2_INDEX(PAGEMON_L1_INDEX(0x00212345) - 1, PAGEMON_L2_ENTRY(0x00212345)) == 256 + 0x12, "an index");
static_assert(PAGEMON_BLOCK_TO_ADDRESS(PAGEMON_ADDRESS_TO_BLOCK(0x12345678)) == 0x12345000, "an address");
static_assert(PAGEMON_LEDGER_BYTES(16) == 344 && PAGEMON_STATUS_CODE(0x80Fu) == PAGEMON_PERMISSION_L2, "a length, a status");

static const uint8_t kinds[] = {PAGEMON_KIND_TO_BYTES(PAGEMON_KIND_WRITE_BACK), PAGEMON_KIND_TO_BYTES(PAGEMON_KIND_DEVICE)};
static uint8_t registers[PAGEMON_REGISTERS_BYTES];

const char *acknowledge()
{
    uint8_t pending = kinds[0];
    uint32_t answer = pagemon_acknowledge(registers, sizeof registers, &pending);
    return PAGEMON_STATUS_IS_WRITE(PAGEMON_REGISTER(registers, PAGEMON_DFSR)) ? "a write" : pagemon_answer_name(answer);
}
