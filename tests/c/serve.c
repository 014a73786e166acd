/*
 * Makes calls for another program, on buffers in a file that both have mapped: with this, archives for another processor are tried by an emulator.
 *
 *   serve FILE
 *
 * It prints the names of the exports, each on a line, and an empty line. Then it obeys commands from standard input, and answers each on standard
 * output by the 64 bits of what the export returned, 0 if that is nothing. It ends where standard input ends.
 */
#define _POSIX_C_SOURCE 200809L
#include "signature.h"
#include "steps.h"

#include <fcntl.h>
#include <stdio.h>
#include <stdlib.h>
#include <sys/mman.h>
#include <sys/stat.h>
#include <unistd.h>

enum { NUMBERS = 5, PLACES = 6 };

/* A part of the file, by its bytes. None is at its start: the offset 0 is NULL. */
struct place {
    uint64_t offset, length;
};

/* An export by its position among all, the numbers that it takes, and what it is lent, with the outputs. */
struct command {
    uint32_t export, numbers[NUMBERS];
    struct place places[PLACES];
};

_Static_assert(sizeof(struct command) == 4 * (1 + NUMBERS) + 16 * PLACES, "there is padding in a command");

static uint8_t *file;

static uint8_t *at(const struct place *place)
{
    return place->offset == 0 ? NULL : file + place->offset;
}

#define NUMBER(i) command->numbers[i]
#define AT(i) at(&command->places[i])
#define LENGTH(i) command->places[i].length
#define WORDS_AT(i) (uint32_t *)(void *)AT(i)

/* What a call takes. */
#define REGION AT(0), LENGTH(0), AT(1), LENGTH(1)
#define GOLDEN AT(2), LENGTH(2)
#define KINDS AT(3), LENGTH(3)
#define REGISTERS AT(4), LENGTH(4)
#define BYTE AT(5)
#define HASHED WORDS_AT(5)
#define TWO NUMBER(0), NUMBER(1)
#define FOUR TWO, NUMBER(2), NUMBER(3)

/* What a list of steps takes behind the golden image, and what the exports of signature.h take beside it. */
#define RECORDS AT(3), LENGTH(3)
#define ANSWERS WORDS_AT(4), LENGTH(4) / sizeof(uint32_t)
#define BYTES AT(5), LENGTH(5)
#define CONTENTS AT(0), LENGTH(0)
#define DIGEST AT(5)

/* Every export and its arguments: the calls in the order of calls/src/table.rs, and the others. Those that return nothing are `stores`. */
#define EXPORTS(returns, stores)                                              \
    returns(pagemon_begin, REGION, NUMBER(0))                                 \
    returns(pagemon_create_l1, REGION, GOLDEN, NUMBER(0), HASHED)             \
    returns(pagemon_create_l2, REGION, GOLDEN, NUMBER(0), HASHED)             \
    returns(pagemon_free_l1, REGION, NUMBER(0))                               \
    returns(pagemon_free_l2, REGION, NUMBER(0))                               \
    returns(pagemon_map_l1, REGION, GOLDEN, FOUR, HASHED)                     \
    returns(pagemon_map_l2, REGION, GOLDEN, FOUR, HASHED)                     \
    returns(pagemon_link, REGION, FOUR)                                       \
    returns(pagemon_unmap_l1, REGION, TWO)                                    \
    returns(pagemon_unmap_l2, REGION, TWO)                                    \
    returns(pagemon_switch, REGION, NUMBER(0))                                \
    returns(pagemon_read, REGION, REGISTERS, NUMBER(0), BYTE)                 \
    returns(pagemon_write, REGION, REGISTERS, TWO)                            \
    returns(pagemon_fetch, REGION, REGISTERS, NUMBER(0), BYTE)                \
    returns(pagemon_map_large, REGION, GOLDEN, FOUR, HASHED)                  \
    returns(pagemon_unmap_large, REGION, TWO)                                 \
    returns(pagemon_forget, REGION, TWO)                                      \
    returns(pagemon_begin_kinds, REGION, KINDS, NUMBER(0))                    \
    returns(pagemon_map_l1_kind, REGION, GOLDEN, FOUR, NUMBER(4), HASHED)     \
    returns(pagemon_map_l2_kind, REGION, GOLDEN, FOUR, NUMBER(4), HASHED)     \
    returns(pagemon_map_large_kind, REGION, GOLDEN, FOUR, NUMBER(4), HASHED)  \
    returns(pagemon_acknowledge, REGISTERS, BYTE)                             \
    returns(pagemon_run, REGION, GOLDEN, RECORDS, ANSWERS, BYTES)             \
    stores(signature_sha256, CONTENTS, DIGEST)                                \
    stores(signature_block_digest, CONTENTS, NUMBER(0), DIGEST)               \
    returns(signature_is_signed, CONTENTS, GOLDEN, NUMBER(0))

/* An export's position, its name and its branch are of one row. */
#define POSITION(export, ...) POSITION_##export,
#define NAME(export, ...) #export,
#define RETURN(export, ...) case POSITION_##export: return export(__VA_ARGS__);
#define STORE(export, ...) case POSITION_##export: export(__VA_ARGS__); return 0;

enum { EXPORTS(POSITION, POSITION) COUNT };

static const char *const names[COUNT] = {EXPORTS(NAME, NAME)};

static uint64_t obey(const struct command *command)
{
    switch (command->export) {
        EXPORTS(RETURN, STORE)
    }
    fprintf(stderr, "serve: there is no export %u\n", (unsigned)command->export);
    exit(1);
}

/* Compiled with -DSPOILT=pagemon_read, a bit changes in the last buffer that this export was lent: a comparison must find that. */
#ifdef SPOILT
#define POSITION_OF(export) POSITION_##export
#define POSITION_OF_SPOILT(export) POSITION_OF(export)

static void spoil(const struct command *command)
{
    int last = PLACES - 1;
    while (last > 0 && LENGTH(last) == 0) {
        last--;
    }
    if (command->export == POSITION_OF_SPOILT(SPOILT) && LENGTH(last) > 0) {
        *AT(last) ^= 1;
    }
}
#endif

int main(int count, char **arguments)
{
    struct stat status;
    struct command command;
    int descriptor = count == 2 ? open(arguments[1], O_RDWR) : -1;
    if (descriptor < 0 || fstat(descriptor, &status) != 0) {
        fputs("usage: serve FILE, which can be read and written\n", stderr);
        return 2;
    }
    file = mmap(NULL, (size_t)status.st_size, PROT_READ | PROT_WRITE, MAP_SHARED, descriptor, 0);
    if (file == MAP_FAILED) {
        perror("serve: mmap");
        return 2;
    }
    for (int i = 0; i < COUNT; i++) {
        puts(names[i]);
    }
    puts("");
    fflush(stdout);
    while (read(STDIN_FILENO, &command, sizeof command) == sizeof command) {
        uint64_t answer = obey(&command);
#ifdef SPOILT
        spoil(&command);
#endif
        if (write(STDOUT_FILENO, &answer, sizeof answer) != sizeof answer) {
            return 1;
        }
    }
    return 0;
}
