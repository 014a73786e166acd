/*
 * The paging monitor, as libmonitor.a exports it. docs/RULES.md states every rule in full, under the numbers that the calls answer.
 *
 * Buffers. The caller lends one to three byte buffers for the time of one call, each as a pointer and its length in bytes:
 *
 *   memory     n blocks of PAGEMON_BLOCK_BYTES, n from PAGEMON_MIN_BLOCKS to PAGEMON_MAX_BLOCKS: the physical memory of the region.
 *   ledger     PAGEMON_LEDGER_BYTES(n) bytes, kept by the monitor, the lowest byte first: the region's first block number B and the first block
 *              of the active L1 table (PAGEMON_NO_TABLE for none), each a word of 32 bits; the eight memory kinds, two bytes each; and for each
 *              block five words: type, w, x, l, mark. w counts the table entries that let the guest write to the block, x those that let it
 *              execute from it, l the L1 entries that link to it. A block is marked if its mark is exactly PAGEMON_MARKED: create and map then
 *              take it for signed and do not hash it. They believe this of any ledger that they are lent.
 *   golden     the golden image: SHA-256 digests of PAGEMON_DIGEST_BYTES, one behind the other in any order, none or up to
 *              PAGEMON_MAX_DIGESTS. A block's digest is over its number, four bytes with the highest first, and then its 4,096 bytes: one
 *              digest signs contents in one block only. signature_block_digest of signature.h makes digests, and tools/golden images.
 *   kinds      PAGEMON_KINDS_BYTES bytes, the eight memory kinds of a region, as the ledger has them: pagemon_kind below.
 *   registers  PAGEMON_REGISTERS_BYTES bytes, the fault registers: what tells a guest's kernel why an access failed and where. PAGEMON_DFSR and
 *              the names behind it, below, are their layout. They are the caller's: a set for each guest processor, zeros at the start.
 *
 * No two buffers of a call share a byte, and the registers share none with memory, ledger or golden, in pagemon_acknowledge too. Nothing else
 * writes them during the call. Any alignment will do; the archives of tools/armv7 --unaligned need a processor that takes unaligned accesses. A
 * pointer whose length is 0 is not followed, and may be NULL; no other pointer is NULL. Lengths are uint64_t on every processor; on ARMv7 no buffer
 * has 2 GiB or more. Any lengths and any contents are safe to lend: they are refused (PAGEMON_MISFIT) or judged as they stand.
 *
 * The processor. Entries are judged as ARMv7-A short descriptors with SCTLR.AFE, TRE, WXN and EE 0, TTBCR 0 and DACR 1. TLB and caches are
 * the caller's: docs/ASSUMPTIONS.md says which accepted call needs which upkeep before the guest runs on. Calls on one region are made one
 * at a time.
 *
 * Answers. Each call returns 0 (PAGEMON_ACCEPTED), or the lowest of its refusals that apply. After a refused call every buffer is as it was
 * before it, but for the fault registers after PAGEMON_FAULT_ENTRY and PAGEMON_RIGHT_LACKING; the ledger may differ while create or free is
 * running. An accepted call changes what its comment names, and no other byte. A buffer that a call cannot change is const.
 *
 * Numbers. A block is named by its physical number, address / 4096. The region is the n blocks from B on; B is a multiple of
 * PAGEMON_SECTION_BLOCKS, and B + n at most 2^20. An L1 table has four blocks from a multiple of 4 on, and 4,096 entries. An L2 block has
 * four L2 tables of 256 entries: entry e of table t has the index 256 * t + e. The holder of an entry is the block in which its word lies. A
 * large page is PAGEMON_LARGE_BLOCKS blocks from a multiple of 16 on, mapped by one word that stands in sixteen entries of an L2 block from a
 * multiple of 16 on; each of these counts on one of the blocks, the first entry on the first.
 */
#ifndef PAGEMON_H
#define PAGEMON_H

#include <stddef.h>
#include <stdint.h>

#ifdef __cplusplus
extern "C" {
#endif

/*
 * The version of this interface. MAJOR rises when a prototype, the layout of ledger or golden image, or the meaning of an answer changes, MINOR when a
 * call, a macro or an answer is added or a limit is raised, PATCH with every other change. MAJOR is 0 as long as changes of the first sort are planned;
 * while it is 0, MINOR rises with them. Ledgers and images are not carried over to another MAJOR, nor to another MINOR while MAJOR is 0: begin makes the
 * ledger anew, and the image is made anew. An archive does not tell its version; it is used with the headers of its own revision.
 */
#define PAGEMON_VERSION_MAJOR 0u
#define PAGEMON_VERSION_MINOR 1u
#define PAGEMON_VERSION_PATCH 0u

/* A version as one number, and this one, for the preprocessor: #if PAGEMON_VERSION < PAGEMON_VERSION_NUMBER(0, 2, 0). MINOR and PATCH stay below 1,000. */
#define PAGEMON_VERSION_NUMBER(major, minor, patch) (1000000u * (major) + 1000u * (minor) + (patch))
#define PAGEMON_VERSION PAGEMON_VERSION_NUMBER(PAGEMON_VERSION_MAJOR, PAGEMON_VERSION_MINOR, PAGEMON_VERSION_PATCH)

/* Sizes and limits. */
#define PAGEMON_BLOCK_BYTES 4096u          /* bytes of a block */
#define PAGEMON_MIN_BLOCKS 8u              /* fewest blocks of a region */
#define PAGEMON_MAX_BLOCKS 4096u           /* most blocks of a region */
#define PAGEMON_SECTION_BLOCKS 256u        /* blocks of a section; B and section targets are multiples of it */
#define PAGEMON_LARGE_BLOCKS 16u           /* blocks of a large page, and its entries; its target and its index are multiples of it */
#define PAGEMON_L1_BLOCKS 4u               /* blocks of an L1 table */
#define PAGEMON_L1_ENTRIES 4096u           /* entries of an L1 table */
#define PAGEMON_L2_ENTRIES 1024u           /* entries of an L2 block: four tables of 256 */
#define PAGEMON_LEDGER_HEAD_BYTES 24u      /* bytes of the ledger before its first record: B, active, the memory kinds */
#define PAGEMON_LEDGER_RECORD_BYTES 20u    /* bytes of a block's record: type, w, x, l, mark */
#define PAGEMON_KINDS 8u                   /* memory kinds of a region, numbered from 0 */
#define PAGEMON_KINDS_AT 8u                /* the byte of the ledger at which they start */
#define PAGEMON_KINDS_BYTES 16u            /* their bytes: two to a kind, the lower first */
#define PAGEMON_DIGEST_BYTES 32u           /* bytes of a digest in the golden image */
#define PAGEMON_MAX_DIGESTS 1024u          /* most digests of a golden image */
#define PAGEMON_MAX_COUNT 4194304u         /* the limit of a counter, 2^22 */
#define PAGEMON_NO_TABLE 0xFFFFFFFFu       /* the active word when no table is in use */
#define PAGEMON_MARKED 1u                  /* the mark of a block that need not be hashed; no other value says so */

/* The ledger's length for a memory of `blocks` blocks, a uint64_t. */
#define PAGEMON_LEDGER_BYTES(blocks) (PAGEMON_LEDGER_HEAD_BYTES + PAGEMON_LEDGER_RECORD_BYTES * (uint64_t)(blocks))

/* Addresses, blocks and indices. Each argument is evaluated once. A physical address has at most 44 bits; beyond 4 GiB its block lies in no region. */
#define PAGEMON_L1_INDEX(address) ((uint32_t)(address) >> 20)                         /* the index, in an L1 table, of a virtual address's entry */
#define PAGEMON_L2_ENTRY(address) ((uint32_t)(address) >> 12 & 0xFFu)                 /* its entry in an L2 table, 0 to 255 */
#define PAGEMON_L2_INDEX(table, entry) (256u * (uint32_t)(table) + (uint32_t)(entry)) /* the index, in an L2 block, of an entry of table 0 to 3 */
#define PAGEMON_ADDRESS_TO_BLOCK(address) ((uint32_t)((uint64_t)(address) >> 12))     /* the block of a physical address */
#define PAGEMON_BLOCK_TO_ADDRESS(block) ((uint32_t)(block) << 12)                     /* a block's physical address, as TTBR0 takes an L1 table's */

/*
 * A memory kind: what an entry tells the processor about caches and sharing. It has seven bits; one with any other bit is refused. Rights never
 * depend on it. docs/INTEGRATION.md says which kind to use for what, and what upkeep it asks for.
 */
typedef uint16_t pagemon_kind;

/* The kind with these bits: tex from 0 to 7, the others 0 or 1. Higher bits are cut off, so that TEX 8 becomes 0. Can be used in an initializer. */
#define PAGEMON_KIND(tex, c, b, s, ng) \
    ((pagemon_kind)(((uint32_t)(b) & 1u) | ((uint32_t)(c) & 1u) << 1 | ((uint32_t)(tex) & 7u) << 2 | ((uint32_t)(s) & 1u) << 5 \
                    | ((uint32_t)(ng) & 1u) << 6))

/*
 * What ARMv7-A makes of TEX, C and B where SCTLR.TRE is 0. Of the other values, TEX 010 C 0 B 0 is device memory that is not shared, and TEX 1xx is
 * normal memory with one policy for outer caches, in the low two bits of TEX, and one for inner caches, in C and B. TEX 001 C 1 B 0 depends on the
 * processor. TEX 001 C 0 B 1, 010 C 0 B 1, 010 C 1 and 011 are reserved.
 */
#define PAGEMON_KIND_STRONGLY_ORDERED PAGEMON_KIND(0, 0, 0, 0, 0) /* strongly-ordered */
#define PAGEMON_KIND_DEVICE PAGEMON_KIND(0, 0, 1, 0, 0)           /* device memory, shared */
#define PAGEMON_KIND_WRITE_THROUGH PAGEMON_KIND(0, 1, 0, 0, 0)    /* normal memory, write-through */
#define PAGEMON_KIND_WRITE_BACK PAGEMON_KIND(0, 1, 1, 0, 0)       /* normal memory, write-back: every kind after pagemon_begin */
#define PAGEMON_KIND_UNCACHED PAGEMON_KIND(1, 0, 0, 0, 0)         /* normal memory, not cached, as for a frame buffer */
#define PAGEMON_KIND_WRITE_ALLOCATE PAGEMON_KIND(1, 1, 1, 0, 0)   /* normal memory, write-back with write-allocate */

/* Or-ed with a kind: shared between masters, and not global, so that the TLB keeps entries apart by address space. */
#define PAGEMON_KIND_SHARED PAGEMON_KIND(0, 0, 0, 1, 0)
#define PAGEMON_KIND_NOT_GLOBAL PAGEMON_KIND(0, 0, 0, 0, 1)

/*
 * The two bytes of a kind, for the initializer of the PAGEMON_KINDS_BYTES that pagemon_begin_kinds takes: there the kinds stand one after the other,
 * in the order of their numbers. All eight are to be given: what an initializer leaves out is 0, PAGEMON_KIND_STRONGLY_ORDERED.
 */
#define PAGEMON_KIND_TO_BYTES(kind) (uint8_t)((kind) & 0xFFu), (uint8_t)((kind) >> 8)

/*
 * The fault registers: four words of 32 bits, the lowest byte first, and the pending byte. Each name is the place of its first byte. A read or write
 * that faults stores the status and its address in DFSR and DFAR, a fetch in IFSR and IFAR. The pending byte is 1 after a fault, and 0 after
 * pagemon_acknowledge.
 */
#define PAGEMON_REGISTERS_BYTES 17u /* bytes of all of them */
#define PAGEMON_DFSR 0u             /* data fault status register */
#define PAGEMON_DFAR 4u             /* data fault address register */
#define PAGEMON_IFSR 8u             /* instruction fault status register */
#define PAGEMON_IFAR 12u            /* instruction fault address register */
#define PAGEMON_PENDING 16u         /* the pending byte */

/* The word of a register, as in PAGEMON_REGISTER(registers, PAGEMON_DFSR). Both arguments are evaluated four times. */
#define PAGEMON_REGISTER(registers, place) \
    ((uint32_t)(registers)[place] | (uint32_t)(registers)[(place) + 1u] << 8 | (uint32_t)(registers)[(place) + 2u] << 16 \
     | (uint32_t)(registers)[(place) + 3u] << 24)

/* The codes of faults, in ARM's five bits. A section's entry is of level 1, a page's and a large page's of level 2. */
#define PAGEMON_TRANSLATION_L1 0x05u /* PAGEMON_FAULT_ENTRY at an entry of an L1 table */
#define PAGEMON_TRANSLATION_L2 0x07u /* PAGEMON_FAULT_ENTRY at an entry of an L2 table */
#define PAGEMON_PERMISSION_L1 0x0Du  /* PAGEMON_RIGHT_LACKING at an entry of an L1 table */
#define PAGEMON_PERMISSION_L2 0x0Fu  /* PAGEMON_RIGHT_LACKING at an entry of an L2 table */

/*
 * What a status says: the code, of which bits 3..0 stand in bits 3..0 of the status and the highest in its bit 10; whether the access was a write,
 * in bit 11; which sort of fault it was; and its level, 1 or 2, where it is of one of these sorts. All other bits of a status are 0, and where no
 * fault was told yet, all are. The argument of the first is evaluated twice.
 */
#define PAGEMON_STATUS_CODE(status) (((status) & 0xFu) | ((status) >> 6 & 0x10u))
#define PAGEMON_STATUS_IS_WRITE(status) (((status) >> 11 & 1u) != 0)
#define PAGEMON_STATUS_IS_TRANSLATION(status) (((status) & 0x40Du) == 0x005u)
#define PAGEMON_STATUS_IS_PERMISSION(status) (((status) & 0x40Du) == 0x00Du)
#define PAGEMON_STATUS_LEVEL(status) (((status) >> 1 & 1u) + 1u)

/* Rights of a mapping, added up. Maps take 0, READ, READ + WRITE and READ + EXECUTE. */
enum {
    PAGEMON_READ = 1,
    PAGEMON_WRITE = 2,
    PAGEMON_EXECUTE = 4
};

/*
 * The words of entries, as link and map write them, for a table that is filled before create. `rights` are 0, READ, READ + WRITE or READ + EXECUTE;
 * `kind` is the kind itself, as PAGEMON_KIND_UNCACHED, not its number in the region. A large page's word stands in all of its sixteen entries. Can be used
 * in an initializer. `rights` and `kind` are evaluated up to three times, the others once.
 *
 * Bits of an argument that have no place in the word are cut off: a section at block 0x1FF is one at 0x100. No create accepts the word for all three rights
 * (11), nor that for write or execute without read (8), which no entry gives.
 */
#define PAGEMON_FAULT_WORD 0u
#define PAGEMON_LINK_WORD(l2_block, table) ((uint32_t)(l2_block) << 12 | ((uint32_t)(table) & 3u) << 10 | 1u)
#define PAGEMON_SECTION_WORD(first_block, rights, kind) \
    (((uint32_t)(first_block) << 12 & 0xFFF00000u) | PAGEMON_WORD_AP(rights, 10, 15) | PAGEMON_WORD_XN(rights) << 4 | PAGEMON_WORD_KIND(kind, 12, 16) | 2u)
#define PAGEMON_PAGE_WORD(block, rights, kind) \
    ((uint32_t)(block) << 12 | PAGEMON_WORD_AP(rights, 4, 9) | PAGEMON_WORD_XN(rights) | PAGEMON_WORD_KIND(kind, 6, 10) | 2u)
#define PAGEMON_LARGE_WORD(first_block, rights, kind) \
    (((uint32_t)(first_block) << 12 & 0xFFFF0000u) | PAGEMON_WORD_AP(rights, 4, 9) | PAGEMON_WORD_XN(rights) << 15 | PAGEMON_WORD_KIND(kind, 12, 10) | 1u)

/*
 * Parts of these words: AP, of which the lower two bits stand from the bit `low` on and the third at `high`, 010 for read, 011 for read and write, 001 for
 * nothing, and 100, which is not accepted, where there is no other; XN; and a kind's bits, with B and C from bit 2 on, TEX from `tex` on, S at `s` and nG
 * next to it.
 */
#define PAGEMON_WORD_AP(rights, low, high) \
    (((uint32_t)(rights) & 1u) != 0 ? (2u | ((uint32_t)(rights) >> 1 & 1u)) << (low) : ((uint32_t)(rights) & 6u) != 0 ? 1u << (high) : 1u << (low))
#define PAGEMON_WORD_XN(rights) (~(uint32_t)(rights) >> 2 & 1u)
#define PAGEMON_WORD_KIND(kind, tex, s) \
    (((uint32_t)(kind) & 3u) << 2 | ((uint32_t)(kind) >> 2 & 7u) << (tex) | ((uint32_t)(kind) >> 5 & 3u) << (s))

/* The type word of a block's record. */
enum {
    PAGEMON_TYPE_DATA = 0,
    PAGEMON_TYPE_L1 = 1,
    PAGEMON_TYPE_L2 = 2
};

/* Answers. The calls return them as uint32_t. */
enum pagemon_answer {
    PAGEMON_ACCEPTED = 0,            /* accepted */
    PAGEMON_MISFIT = 1,              /* the length of memory or ledger, B, or a memory kind is not lawful; in create and map also the golden image's
                                        length, in begin with kinds the number of their bytes; in read, write, fetch and acknowledge the
                                        length of the fault registers */
    PAGEMON_OUTSIDE_REGION = 2,      /* the block, or one of an L1 table's four or of those to forget, lies outside the region */
    PAGEMON_MISALIGNED = 3,          /* an L1 table's block is no multiple of 4, a section's target none of 256, or a large page's index or target
                                        none of 16 */
    PAGEMON_BEYOND_TABLE = 4,        /* the table has no such index; in link also a table above 3, in map a kind number above 7 */
    PAGEMON_WRONG_TYPE = 5,          /* the block, or one of an L1 table's four, has another type than the call needs */
    PAGEMON_IN_USE = 6,              /* create: a block has a counter above 0; free: the table is active (L1) or linked (L2) */
    PAGEMON_EXECUTABLE_HOLDER = 7,   /* the holder has x above 0 */
    PAGEMON_WRONG_ENTRY = 8,         /* map, link: no fault stands at the index, or at one of sixteen; create, free, unmap: an entry is not
                                        accepted; unmap L2: it is one of a large page; unmap large: the sixteen are not one large page */
    PAGEMON_UNLAWFUL_RIGHTS = 9,     /* the rights are above 7, or hold write or execute and not read */
    PAGEMON_UNFIT_TARGET = 10,       /* a part of a target, or of an entry's place, lies outside the region; link, create: a link to a block that is not L2;
                                        map, create: a block to be written is no data, or one of the new table; map: the holder would be executed */
    PAGEMON_CLASH = 11,              /* a block would be both writable and executable */
    PAGEMON_UNSIGNED = 12,           /* a block would be executable that is not marked and that the golden image does not sign */
    PAGEMON_OVERRUN = 13,            /* a counter would end below 0 or above PAGEMON_MAX_COUNT */
    PAGEMON_NO_ACTIVE_TABLE = 21,    /* guest: the active word is no multiple of 4, or one of four blocks from it on lies outside the region */
    PAGEMON_FAULT_ENTRY = 22,        /* guest: the walk meets a fault, and the fault registers tell of it */
    PAGEMON_RIGHT_LACKING = 23,      /* guest: the walk ends at an entry that does not give the right, and the fault registers tell of it */
    PAGEMON_BROKEN_WALK = 24         /* guest: the walk meets an entry that is not accepted, or that leads outside the region in part */
};

#if defined(__cplusplus) || (defined(__STDC_VERSION__) && __STDC_VERSION__ >= 199901L)
/* The name of an answer, for logs: that of the enum, in small letters. "unknown answer" for every other number. */
static inline const char *pagemon_answer_name(uint32_t answer)
{
    switch (answer) {
    case PAGEMON_ACCEPTED: return "accepted";
    case PAGEMON_MISFIT: return "misfit";
    case PAGEMON_OUTSIDE_REGION: return "outside region";
    case PAGEMON_MISALIGNED: return "misaligned";
    case PAGEMON_BEYOND_TABLE: return "beyond table";
    case PAGEMON_WRONG_TYPE: return "wrong type";
    case PAGEMON_IN_USE: return "in use";
    case PAGEMON_EXECUTABLE_HOLDER: return "executable holder";
    case PAGEMON_WRONG_ENTRY: return "wrong entry";
    case PAGEMON_UNLAWFUL_RIGHTS: return "unlawful rights";
    case PAGEMON_UNFIT_TARGET: return "unfit target";
    case PAGEMON_CLASH: return "clash";
    case PAGEMON_UNSIGNED: return "unsigned";
    case PAGEMON_OVERRUN: return "overrun";
    case PAGEMON_NO_ACTIVE_TABLE: return "no active table";
    case PAGEMON_FAULT_ENTRY: return "fault entry";
    case PAGEMON_RIGHT_LACKING: return "right lacking";
    case PAGEMON_BROKEN_WALK: return "broken walk";
    default: return "unknown answer";
    }
}
#endif

/*
 * Starts a region whose first block is `first_block`, with all eight memory kinds PAGEMON_KIND_WRITE_BACK. Refusal: 1, with `first_block` in the
 * place of the ledger's B; the kinds that the ledger had are not looked at. Writes the ledger: B, the kinds, no active table, and every type,
 * counter and mark 0.
 */
uint32_t pagemon_begin(const uint8_t *memory, uint64_t memory_length, uint8_t *ledger, uint64_t ledger_length, uint32_t first_block);

/*
 * The same with the kinds that are lent, in the place of PAGEMON_KIND_WRITE_BACK. Refusal: 1. It is the answer also if `kinds_length` is not
 * PAGEMON_KINDS_BYTES, or if one of the kinds has a bit above bit 6. `kinds` shares no byte with the ledger: to begin again with the kinds that a
 * ledger has, copy the 16 bytes out of it first.
 */
uint32_t pagemon_begin_kinds(const uint8_t *memory, uint64_t memory_length, uint8_t *ledger, uint64_t ledger_length, const uint8_t *kinds,
                             uint64_t kinds_length, uint32_t first_block);

/*
 * Makes the four blocks from `block` an L1 table, or `block` an L2 block, with the entries that its bytes hold. Refusals: 1, 2, 3 (L1), 5, 6,
 * 8, 10, 11, 12, 13. Writes the ledger: the types of these blocks, the counters of what the entries give, and the mark 1 for every block to
 * which they give execute.
 *
 * Every create and map sets `*hashed`: when accepted, the number of blocks that it hashed, which are the different blocks to which its entries
 * give execute and which were not marked; when refused, 0. `hashed` is aligned as a uint32_t is, and points into none of the buffers.
 *
 * Right after an accepted create or map that lets the guest write to blocks, and before the guest runs on, these are to be forgotten: see
 * pagemon_forget.
 */
uint32_t pagemon_create_l1(const uint8_t *memory, uint64_t memory_length, uint8_t *ledger, uint64_t ledger_length, const uint8_t *golden,
                           uint64_t golden_length, uint32_t block, uint32_t *hashed);
uint32_t pagemon_create_l2(const uint8_t *memory, uint64_t memory_length, uint8_t *ledger, uint64_t ledger_length, const uint8_t *golden,
                           uint64_t golden_length, uint32_t block, uint32_t *hashed);

/*
 * Makes the blocks of a table data again, with the bytes that they hold. Refusals: 1, 2, 3 (L1), 5, 6, 8, 10, 13. Writes the ledger: the
 * types of these blocks, and the counters, from which the table's entries are taken.
 */
uint32_t pagemon_free_l1(const uint8_t *memory, uint64_t memory_length, uint8_t *ledger, uint64_t ledger_length, uint32_t block);
uint32_t pagemon_free_l2(const uint8_t *memory, uint64_t memory_length, uint8_t *ledger, uint64_t ledger_length, uint32_t block);

/*
 * Maps a section of 256 blocks from `target` (L1), or the page `target` (L2), at `index` of the table, where a fault entry must stand.
 * Refusals: 1, 2, 3 (L1), 4, 5, 7, 8, 9, 10, 11, 12, 13. Writes the entry's word in memory, and in the ledger the target's counters, the mark 0
 * for the holder, and with execute the mark 1 for the target. Sets `*hashed`, and asks for a forget after a grant of write, as create does.
 */
uint32_t pagemon_map_l1(uint8_t *memory, uint64_t memory_length, uint8_t *ledger, uint64_t ledger_length, const uint8_t *golden,
                        uint64_t golden_length, uint32_t block, uint32_t index, uint32_t target, uint32_t rights, uint32_t *hashed);
uint32_t pagemon_map_l2(uint8_t *memory, uint64_t memory_length, uint8_t *ledger, uint64_t ledger_length, const uint8_t *golden,
                        uint64_t golden_length, uint32_t block, uint32_t index, uint32_t target, uint32_t rights, uint32_t *hashed);

/*
 * The same with a memory kind of the region. `kind_number`, from 0 to 7, is the number under which begin was given the kind, not the kind itself:
 * PAGEMON_KIND_UNCACHED here would be kind number 4, whatever kind that is. The calls above use number 0. Refusals: 1, 2, 3 (L1), 4, 5, 7, 8, 9, 10,
 * 11, 12, 13. The kind's bits stand in the entry's word, and change nothing else.
 */
uint32_t pagemon_map_l1_kind(uint8_t *memory, uint64_t memory_length, uint8_t *ledger, uint64_t ledger_length, const uint8_t *golden,
                             uint64_t golden_length, uint32_t block, uint32_t index, uint32_t target, uint32_t rights,
                             uint32_t kind_number, uint32_t *hashed);
uint32_t pagemon_map_l2_kind(uint8_t *memory, uint64_t memory_length, uint8_t *ledger, uint64_t ledger_length, const uint8_t *golden,
                             uint64_t golden_length, uint32_t block, uint32_t index, uint32_t target, uint32_t rights,
                             uint32_t kind_number, uint32_t *hashed);

/*
 * Maps the large page of 16 blocks from `target` at the sixteen entries from `index` of the L2 block, all of which must be faults. Refusals: 1,
 * 2, 3, 4, 5, 7, 8, 9, 10, 11, 12, 13. One of the 16 blocks is enough for 10, 11 and 12. Writes the sixteen words in memory, and in the ledger
 * the counters of the 16 blocks, the mark 0 for the L2 block, and with execute the mark 1 for the 16 blocks. Sets `*hashed`, and asks for a
 * forget after a grant of write, as create does.
 */
uint32_t pagemon_map_large(uint8_t *memory, uint64_t memory_length, uint8_t *ledger, uint64_t ledger_length, const uint8_t *golden,
                           uint64_t golden_length, uint32_t block, uint32_t index, uint32_t target, uint32_t rights, uint32_t *hashed);

/* The same with a memory kind, as pagemon_map_l2_kind has it. Refusals: 1, 2, 3, 4, 5, 7, 8, 9, 10, 11, 12, 13. */
uint32_t pagemon_map_large_kind(uint8_t *memory, uint64_t memory_length, uint8_t *ledger, uint64_t ledger_length, const uint8_t *golden,
                                uint64_t golden_length, uint32_t block, uint32_t index, uint32_t target, uint32_t rights,
                                uint32_t kind_number, uint32_t *hashed);

/*
 * Links L2 table `table` (0 to 3) of the L2 block `target` at `index` of the L1 table, where a fault entry must stand. Refusals: 1, 2, 3, 4, 5,
 * 7, 8, 10, 13. Writes the entry's word in memory, and in the ledger the target's l and the mark 0 for the holder.
 */
uint32_t pagemon_link(uint8_t *memory, uint64_t memory_length, uint8_t *ledger, uint64_t ledger_length, uint32_t block, uint32_t index,
                      uint32_t target, uint32_t table);

/*
 * Takes away the entry at `index` of the table (in an L2 block no entry of a large page). Refusals: 1, 2, 3 (L1), 4, 5, 7, 8, 10, 13. Writes
 * 0 over the entry's word in memory, also where a fault stood, and in the ledger lowers the counters of what the entry gave and writes the
 * mark 0 for the holder.
 */
uint32_t pagemon_unmap_l1(uint8_t *memory, uint64_t memory_length, uint8_t *ledger, uint64_t ledger_length, uint32_t block, uint32_t index);
uint32_t pagemon_unmap_l2(uint8_t *memory, uint64_t memory_length, uint8_t *ledger, uint64_t ledger_length, uint32_t block, uint32_t index);

/*
 * Takes away the large page at the sixteen entries from `index` of the L2 block; where sixteen faults stand there is none, and the answer is
 * 8. Refusals: 1, 2, 3, 4, 5, 7, 8, 10, 13. Writes 0 over the sixteen words in memory, and in the ledger lowers the counters of the 16 blocks and
 * writes the mark 0 for the L2 block.
 */
uint32_t pagemon_unmap_large(uint8_t *memory, uint64_t memory_length, uint8_t *ledger, uint64_t ledger_length, uint32_t block, uint32_t index);

/* Makes the L1 table at `block` the active one. Refusals: 1, 2, 3, 5. Writes the ledger's active word. */
uint32_t pagemon_switch(const uint8_t *memory, uint64_t memory_length, uint8_t *ledger, uint64_t ledger_length, uint32_t block);

/*
 * The guest reads, or fetches as an instruction, the byte at a virtual address, through the active table. Refusals: 1, 21, and by the walk
 * 22, 23, 24. Every call sets `*byte`: the byte, or 0 when refused. `byte` points into none of the buffers. Writes nothing when accepted.
 *
 * With 22 and 23 a read, write or fetch writes the fault registers: DFSR and DFAR, of a fetch IFSR and IFAR, become the fault's status and
 * `address`, and the pending byte becomes 1, whatever it was. The two other registers stay. With every other answer all of them stay.
 */
uint32_t pagemon_read(const uint8_t *memory, uint64_t memory_length, const uint8_t *ledger, uint64_t ledger_length, uint8_t *registers,
                      uint64_t registers_length, uint32_t address, uint8_t *byte);
uint32_t pagemon_fetch(const uint8_t *memory, uint64_t memory_length, const uint8_t *ledger, uint64_t ledger_length, uint8_t *registers,
                       uint64_t registers_length, uint32_t address, uint8_t *byte);

/*
 * The guest writes the low 8 bits of `byte` at a virtual address, through the active table. Refusals: 1, 21, and by the walk 22, 23, 24.
 * Writes that one byte of memory, and the mark 0 for its block in the ledger; with 22 and 23 the fault registers, as a read does.
 */
uint32_t pagemon_write(uint8_t *memory, uint64_t memory_length, uint8_t *ledger, uint64_t ledger_length, uint8_t *registers, uint64_t registers_length,
                       uint32_t address, uint32_t byte);

/*
 * Takes note of a fault: makes the pending byte 0. Refusal: 1. Every call sets `*pending`: the pending byte as it was, 1 after a fault, or 0 when
 * refused. `pending` points neither into the registers nor into memory, ledger or golden. DFSR, DFAR, IFSR and IFAR stay.
 */
uint32_t pagemon_acknowledge(uint8_t *registers, uint64_t registers_length, uint8_t *pending);

/*
 * Clears the marks of the `count` blocks from `block` on: create and map hash them again before the guest may execute them. Refusals: 1, 2. A
 * `count` of 0 changes nothing, and no `block` is refused then. Writes the mark 0 for these blocks in the ledger.
 *
 * This is the hypervisor's duty. The guest's processor writes without a call, so that no mark is cleared by it. So right after each accepted
 * create or map that lets the guest write to blocks, and before the guest runs on, the hypervisor forgets these blocks: the target of a map, and
 * for a create all blocks to which its entries give write, or simply the whole region. docs/INTEGRATION.md says what happens if it does not.
 */
uint32_t pagemon_forget(const uint8_t *memory, uint64_t memory_length, uint8_t *ledger, uint64_t ledger_length, uint32_t block, uint32_t count);

#ifdef __cplusplus
}
#endif

#endif
