/*
 * The signature of a block in its place, as libsignature.a exports it: SHA-256 (FIPS 180-4) over the block's number and contents, and the
 * search of a golden image (docs/RULES.md, signature).
 */
#ifndef SIGNATURE_H
#define SIGNATURE_H

#include <stdbool.h>
#include <stddef.h>
#include <stdint.h>

#ifdef __cplusplus
extern "C" {
#endif

enum { SIGNATURE_DIGEST_BYTES = 32 };

/*
 * Stores the digest of the message's `length` bytes, any number of them (on ARMv7 below 2^31), in the SIGNATURE_DIGEST_BYTES bytes at `digest`. The
 * message is only read. Of a block's contents this is not the digest that an image has: signature_block_digest makes that.
 *
 * `message` is not followed where `length` is 0, and may then be NULL; `digest` is not NULL. They have any alignment, and share no byte.
 */
void signature_sha256(const uint8_t *message, uint64_t length, uint8_t *digest);

/*
 * Stores the digest of a block: of its number, physical address / 4,096, as four bytes with the highest first, and behind them its contents.
 * A block has 4,096 bytes; any other length is hashed in the same way, and no call of the monitor ever looks for its digest.
 *
 * `contents` is not followed where `length` is 0, and may then be NULL; `digest` is not NULL. They have any alignment, and share no byte.
 */
void signature_block_digest(const uint8_t *contents, uint64_t length, uint32_t number, uint8_t *digest);

/*
 * Does the golden image sign block `number` with these contents: has it the digest that signature_block_digest stores? An image is digests of
 * SIGNATURE_DIGEST_BYTES, one behind the other in any order; bytes behind the last whole one count for nothing. Both lengths may be any
 * number.
 *
 * A pointer whose length is 0 is not followed, and may be NULL; no other pointer is NULL. `contents` and `golden` have any alignment, are
 * only read, and may share bytes.
 */
bool signature_is_signed(const uint8_t *contents, uint64_t length, const uint8_t *golden, uint64_t golden_length, uint32_t number);

#ifdef __cplusplus
}
#endif

#endif
