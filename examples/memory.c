/*
 * memcpy, memmove and memset for a hypervisor that has none: the archives leave them undefined and call them inside proved calls
 * (docs/ASSUMPTIONS.md, A8). Compile with -ffreestanding and, for gcc, -fno-tree-loop-distribute-patterns, which else makes a loop below a call of the
 * function that it stands in.
 */
#include <stddef.h>
#include <stdint.h>

/* Where everything is aligned, bytes go four at a time. */
typedef uint32_t __attribute__((may_alias)) word;

static int is_aligned(const void *one, const void *two)
{
    return (((uintptr_t)one | (uintptr_t)two) & (sizeof(word) - 1)) == 0;
}

void *memcpy(void *restrict to, const void *restrict from, size_t bytes)
{
    uint8_t *t = to;
    const uint8_t *f = from;
    if (is_aligned(t, f)) {
        for (; bytes >= sizeof(word); bytes -= sizeof(word), t += sizeof(word), f += sizeof(word))
            *(word *)t = *(const word *)f;
    }
    while (bytes-- > 0)
        *t++ = *f++;
    return to;
}

void *memmove(void *to, const void *from, size_t bytes)
{
    uint8_t *t = to;
    const uint8_t *f = from;
    if ((uintptr_t)t <= (uintptr_t)f) {
        while (bytes-- > 0)
            *t++ = *f++;
    } else {
        while (bytes-- > 0)
            t[bytes] = f[bytes];
    }
    return to;
}

void *memset(void *to, int value, size_t bytes)
{
    uint8_t *t = to;
    uint8_t byte = (uint8_t)value;
    if (is_aligned(t, t)) {
        for (; bytes >= sizeof(word); bytes -= sizeof(word), t += sizeof(word))
            *(word *)t = byte * UINT32_C(0x01010101);
    }
    while (bytes-- > 0)
        *t++ = byte;
    return to;
}
