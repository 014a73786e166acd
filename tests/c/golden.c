/*
 * What the monitor says of the blocks of a dump under a golden image, in the lines of `tools/golden check`: each block is mapped to be executed.
 * The entries stand in the dump's last block, which has nothing but zeros, and of which nothing is said.
 */
#include "pagemon.h"

#include <stdio.h>
#include <stdlib.h>

enum { MOST_BLOCKS = 64 };

static uint8_t memory[MOST_BLOCKS * PAGEMON_BLOCK_BYTES], ledger[PAGEMON_LEDGER_BYTES(MOST_BLOCKS)];
static uint8_t golden[PAGEMON_MAX_DIGESTS * PAGEMON_DIGEST_BYTES];

static size_t read_all(const char *name, uint8_t *bytes, size_t most)
{
    FILE *file = fopen(name, "rb");
    if (file == NULL) {
        perror(name);
        exit(2);
    }
    size_t length = fread(bytes, 1, most, file);
    fclose(file);
    return length;
}

int main(int count, char **arguments)
{
    if (count != 4) {
        fputs("usage: golden IMAGE NUMBER DUMP\n", stderr);
        return 2;
    }
    size_t golden_length = read_all(arguments[1], golden, sizeof golden), memory_length = read_all(arguments[3], memory, sizeof memory);
    uint32_t first = (uint32_t)strtoul(arguments[2], NULL, 0), blocks = (uint32_t)(memory_length / PAGEMON_BLOCK_BYTES), pages = first + blocks - 1, hashed;
    size_t ledger_length = PAGEMON_LEDGER_BYTES(blocks);
    if (pagemon_begin(memory, memory_length, ledger, ledger_length, first) != PAGEMON_ACCEPTED
        || pagemon_create_l2(memory, memory_length, ledger, ledger_length, golden, golden_length, pages, &hashed) != PAGEMON_ACCEPTED) {
        fputs("begin or create refused\n", stderr);
        return 2;
    }
    for (uint32_t number = first; number < pages; number++) {
        uint32_t answer = pagemon_map_l2(memory, memory_length, ledger, ledger_length, golden, golden_length, pages, number - first, number,
                                         PAGEMON_READ | PAGEMON_EXECUTE, &hashed);
        if (answer != PAGEMON_ACCEPTED && answer != PAGEMON_UNSIGNED) {
            fprintf(stderr, "map of block %u answered %u\n", (unsigned)number, (unsigned)answer);
            return 2;
        }
        printf("0x%05x %s\n", (unsigned)number, answer == PAGEMON_ACCEPTED ? "signed" : "not signed");
    }
    return 0;
}
