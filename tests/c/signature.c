/* The signature library as C code links it: FIPS 180-4's examples, and searches of golden images. */
#include "signature.h"

#include <stdio.h>
#include <string.h>

static int failures = 0;

static void expect(bool holds, const char *what)
{
    if (!holds) {
        printf("signature.c: %s\n", what);
        failures++;
    }
}

static bool digest_is(const char *message, const char *hexadecimal)
{
    uint8_t digest[SIGNATURE_DIGEST_BYTES];
    char text[2 * SIGNATURE_DIGEST_BYTES + 1];
    signature_sha256((const uint8_t *)message, strlen(message), digest);
    for (int i = 0; i < SIGNATURE_DIGEST_BYTES; i++) {
        sprintf(text + 2 * i, "%02x", digest[i]);
    }
    return strcmp(text, hexadecimal) == 0;
}

static void examples(void)
{
    expect(digest_is("abc", "ba7816bf8f01cfea414140de5dae2223b00361a396177a9cb410ff61f20015ad"), "abc");
    expect(digest_is("", "e3b0c44298fc1c149afbf4c8996fb92427ae41e4649b934ca495991b7852b855"), "the empty message");
    expect(digest_is("abcdbcdecdefdefgefghfghighijhijkijkljklmklmnlmnomnopnopq",
                     "248d6a61d20638b8e5c026930c3e6039a33ce45964ff2167f6ecedd419db06c1"),
           "the message of 448 bits");
}

static void searches(void)
{
    uint8_t block[4096], other[4096], image[3 * SIGNATURE_DIGEST_BYTES];
    memset(block, 'b', sizeof block);
    memset(other, 'o', sizeof other);
    memset(image, 0, sizeof image);
    signature_block_digest(block, sizeof block, 0x104, image + 2 * SIGNATURE_DIGEST_BYTES);
    expect(signature_is_signed(block, sizeof block, image, sizeof image, 0x104), "the last digest is found");
    expect(!signature_is_signed(block, sizeof block, image, sizeof image, 0x105), "it is not found for another block with the same contents");
    expect(!signature_is_signed(other, sizeof other, image, sizeof image, 0x104), "an absent digest is not found");
    expect(!signature_is_signed(block, sizeof block, image, sizeof image - 1, 0x104), "a digest that is cut short is not found");
    expect(!signature_is_signed(block, sizeof block, image, 0, 0x104), "nothing is found in an empty image");
    image[sizeof image - 1] ^= 1;
    expect(!signature_is_signed(block, sizeof block, image, sizeof image, 0x104), "a digest that differs in its last byte is not found");
}

/* The number stands before the contents, the highest byte first. */
static void places(void)
{
    static const uint8_t number[4] = {0x00, 0x00, 0x01, 0x04}, turned[4] = {0x04, 0x01, 0x00, 0x00};
    uint8_t block[4096], message[4100], digest[SIGNATURE_DIGEST_BYTES], of_message[SIGNATURE_DIGEST_BYTES];
    memset(block, 'b', sizeof block);
    signature_block_digest(block, sizeof block, 0x104, digest);
    memcpy(message + 4, block, sizeof block);
    memcpy(message, number, sizeof number);
    signature_sha256(message, sizeof message, of_message);
    expect(memcmp(digest, of_message, sizeof digest) == 0, "block 0x104 is 00 00 01 04 and the contents");
    memcpy(message, turned, sizeof turned);
    signature_sha256(message, sizeof message, of_message);
    expect(memcmp(digest, of_message, sizeof digest) != 0, "the lowest byte is not the first");
    memcpy(message, block, sizeof block);
    memcpy(message + sizeof block, number, sizeof number);
    signature_sha256(message, sizeof message, of_message);
    expect(memcmp(digest, of_message, sizeof digest) != 0, "the number is not behind the contents");
    signature_sha256(block, sizeof block, of_message);
    expect(memcmp(digest, of_message, sizeof digest) != 0, "the contents alone are not signed");
}

int main(void)
{
    examples();
    searches();
    places();
    printf("signature.c: %s\n", failures == 0 ? "ok" : "failed");
    return failures != 0;
}
