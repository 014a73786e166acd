/* The digest of a block in plain C, the same algorithm as the library's: what its speed is compared with. */
#ifndef PLAIN_DIGEST_H
#define PLAIN_DIGEST_H

#include <stddef.h>
#include <stdint.h>

/* The contents have at least 60 bytes. */
void plain_block_digest(const uint8_t *contents, size_t length, uint32_t number, uint8_t *digest);

#endif
