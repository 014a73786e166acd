/* examples/memory.c under names of its own, beside loops over bytes: every length up to 70, every alignment, and every overlap of a move. */
#define memcpy example_memcpy
#define memmove example_memmove
#define memset example_memset
#include "../../examples/memory.c"
#undef memcpy
#undef memmove
#undef memset

#include <stdio.h>

enum { ROOM = 256, MOST = 70, SHIFTS = 8 };

static uint8_t given[ROOM], expected[ROOM];
static int failures = 0;

static void fill(void)
{
    for (size_t i = 0; i < ROOM; i++)
        given[i] = expected[i] = (uint8_t)(i * 37 + 11);
}

/* What is returned is the place that was given, and no byte differs. */
static void expect(const char *what, const void *returned, const void *to, size_t bytes)
{
    int same = returned == to;
    for (size_t i = 0; i < ROOM; i++)
        same = same && given[i] == expected[i];
    if (!same) {
        printf("memory.c: %s of %u bytes\n", what, (unsigned)bytes);
        failures++;
    }
}

static void copies(size_t to, size_t from, size_t bytes)
{
    fill();
    for (size_t i = 0; i < bytes; i++)
        expected[to + i] = given[from + i];
    expect("a copy", example_memcpy(given + to, given + from, bytes), given + to, bytes);
}

static void moves(size_t to, size_t from, size_t bytes)
{
    uint8_t between[MOST];
    fill();
    for (size_t i = 0; i < bytes; i++)
        between[i] = given[from + i];
    for (size_t i = 0; i < bytes; i++)
        expected[to + i] = between[i];
    expect("a move", example_memmove(given + to, given + from, bytes), given + to, bytes);
}

static void sets(size_t to, int value, size_t bytes)
{
    fill();
    for (size_t i = 0; i < bytes; i++)
        expected[to + i] = (uint8_t)value;
    expect("a set", example_memset(given + to, value, bytes), given + to, bytes);
}

int main(void)
{
    for (size_t bytes = 0; bytes <= MOST; bytes++) {
        for (size_t shift = 0; shift < SHIFTS; shift++) {
            sets(16 + shift, 0x1A5, bytes);
            sets(16 + shift, 0, bytes);
            for (size_t other = 0; other < SHIFTS; other++) {
                copies(16 + shift, 128 + other, bytes);
                copies(128 + shift, 16 + other, bytes);
                moves(16 + shift, 16 + other, bytes);
                moves(16 + shift, 40 + other, bytes);
                moves(40 + shift, 16 + other, bytes);
            }
        }
    }
    return failures != 0;
}
