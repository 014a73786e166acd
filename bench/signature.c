/* The library's digests of blocks of 4,096 bytes beside the same algorithm in plain C: timed alternately, medians and their ratio. */
#define _POSIX_C_SOURCE 199309L
#include "plain_digest.h"
#include "signature.h"

#include <stdio.h>
#include <stdlib.h>
#include <string.h>
#include <time.h>

enum { BLOCK = 4096, BLOCKS = 1024, FIRST = 0x100, TURNS = 31 };

typedef void (*hash)(const uint8_t *, size_t, uint32_t, uint8_t *);

static uint8_t memory[BLOCKS * BLOCK];

static double seconds(hash block_digest)
{
    struct timespec start, end;
    uint8_t digest[SIGNATURE_DIGEST_BYTES];
    clock_gettime(CLOCK_MONOTONIC, &start);
    for (int b = 0; b < BLOCKS; b++) {
        block_digest(memory + (size_t)BLOCK * b, BLOCK, FIRST + (uint32_t)b, digest);
    }
    clock_gettime(CLOCK_MONOTONIC, &end);
    return (double)(end.tv_sec - start.tv_sec) + 1e-9 * (double)(end.tv_nsec - start.tv_nsec);
}

static int ascending(const void *a, const void *b)
{
    double x = *(const double *)a, y = *(const double *)b;
    return (x > y) - (x < y);
}

static double median(double *times)
{
    qsort(times, TURNS, sizeof *times, ascending);
    return times[TURNS / 2];
}

static void same_digests(void)
{
    for (int b = 0; b < BLOCKS; b++) {
        uint8_t ours[SIGNATURE_DIGEST_BYTES], plain[SIGNATURE_DIGEST_BYTES];
        signature_block_digest(memory + (size_t)BLOCK * b, BLOCK, FIRST + (uint32_t)b, ours);
        plain_block_digest(memory + (size_t)BLOCK * b, BLOCK, FIRST + (uint32_t)b, plain);
        if (memcmp(ours, plain, sizeof ours) != 0) {
            printf("the digests of block %d differ\n", b);
            exit(1);
        }
    }
}

int main(void)
{
    double ours[TURNS], plain[TURNS], megabytes = (double)sizeof memory / 1e6;
    for (size_t i = 0; i < sizeof memory; i++) {
        memory[i] = (uint8_t)(i * 2654435761u >> 13);
    }
    same_digests();
    for (int turn = 0; turn < TURNS; turn++) {
        ours[turn] = seconds(signature_block_digest);
        plain[turn] = seconds(plain_block_digest);
    }
    double our_speed = megabytes / median(ours), plain_speed = megabytes / median(plain);
    printf("blocks of 4,096 bytes: signature %.0f MB/s, plain C %.0f MB/s, ratio %.2f\n", our_speed, plain_speed, our_speed / plain_speed);
    return 0;
}
