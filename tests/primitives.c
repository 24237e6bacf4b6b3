// Compares the proved primitives with implementations that nobody here wrote: ChaCha20 with OpenSSL's and libsodium's,
// SipHash-2-4 with libsodium's, on random inputs in buffers of any alignment. An argument is another seed.
#include "../crates/c_primitives/c_primitives.h"
#include <openssl/evp.h>
#include <sodium.h>
#include <stdio.h>
#include <stdlib.h>
#include <string.h>

enum {
    BLOCKS = 100000,    // random ChaCha20 blocks
    LENGTHS = 301,      // message lengths 0 to 300,
    PER_LENGTH = 340,   // with so many messages each
    LONG = 200,         // and longer messages,
    LONGEST = 70000,    // of at most so many bytes
    MARGIN = 16,        // bytes around `out`, which stay as they were
    ROOM = 128,
};

static uint64_t state;
static int passed, failed;

static uint64_t draw(void) // splitmix64
{
    uint64_t z = state += 0x9e3779b97f4a7c15u;
    z = (z ^ (z >> 30)) * 0xbf58476d1ce4e5b9u;
    z = (z ^ (z >> 27)) * 0x94d049bb133111ebu;
    return z ^ (z >> 31);
}

static void fill(uint8_t *s, size_t n)
{
    for (size_t i = 0; i < n; i++)
        s[i] = (uint8_t)draw();
}

static void report(const char *what, long tried, long wrong)
{
    printf("primitives: %s: %ld tried, %ld wrong\n", what, tried, wrong);
    if (wrong || !tried)
        failed++;
    else
        passed++;
}

// Whether `room` is `before` but for the n bytes of `want` at index `at`.
static int holds(const uint8_t *room, const uint8_t *before, size_t at, const uint8_t *want, size_t n)
{
    return memcmp(room, before, at) == 0 && memcmp(room + at, want, n) == 0
        && memcmp(room + at + n, before + at + n, ROOM - at - n) == 0;
}

static int openssl_block(EVP_CIPHER_CTX *c, const uint8_t *key, uint32_t counter, const uint8_t *nonce, uint8_t *out)
{
    static const uint8_t zeros[64];
    uint8_t iv[16];
    int n = 0;
    for (int i = 0; i < 4; i++)
        iv[i] = (uint8_t)(counter >> (8 * i));
    memcpy(iv + 4, nonce, 12);
    return EVP_EncryptInit_ex(c, EVP_chacha20(), NULL, key, iv) && EVP_EncryptUpdate(c, out, &n, zeros, 64) && n == 64;
}

static void blocks(void)
{
    static const uint8_t zeros[64];
    EVP_CIPHER_CTX *c = EVP_CIPHER_CTX_new();
    uint8_t key[32 + 8], nonce[12 + 8], room[ROOM], before[ROOM], openssl[64], sodium[64];
    long wrong = 0;
    for (long i = 0; i < BLOCKS; i++) {
        uint8_t *k = key + draw() % 8, *n = nonce + draw() % 8;
        size_t at = MARGIN + draw() % 8;
        uint32_t counter = i % 16 == 0 ? (uint32_t)draw() % 4 - 2 : (uint32_t)draw();
        fill(key, sizeof key);
        fill(nonce, sizeof nonce);
        fill(room, sizeof room);
        memcpy(before, room, sizeof room);
        crypto_stream_chacha20_ietf_xor_ic(sodium, zeros, 64, n, counter, k);
        wrong += !openssl_block(c, k, counter, n, openssl) || memcmp(openssl, sodium, 64) != 0
            || nv_chacha20_block(k, 32, counter, n, 12, room + at, 64) != 0 || !holds(room, before, at, sodium, 64);
    }
    EVP_CIPHER_CTX_free(c);
    report("ChaCha20 blocks, with OpenSSL and libsodium", BLOCKS, wrong);
}

static int hash_wrong(const uint8_t *message, size_t n)
{
    uint8_t key[16 + 8], room[ROOM], before[ROOM], want[8];
    uint8_t *k = key + draw() % 8;
    size_t at = MARGIN + draw() % 8;
    fill(key, sizeof key);
    fill(room, sizeof room);
    memcpy(before, room, sizeof room);
    crypto_shorthash_siphash24(want, message, n, k);
    return nv_siphash24(k, 16, message, n, room + at, 8) != 0 || !holds(room, before, at, want, 8);
}

static void hashes(void)
{
    static uint8_t space[LONGEST + 8];
    long tried = 0, wrong = 0;
    for (size_t n = 0; n < LENGTHS; n++)
        for (int i = 0; i < PER_LENGTH; i++, tried++) {
            uint8_t *message = space + draw() % 8;
            fill(message, n);
            wrong += hash_wrong(message, n);
        }
    report("SipHash-2-4 of 0 to 300 bytes, with libsodium", tried, wrong);
    wrong = 0;
    fill(space, sizeof space);
    for (int i = 0; i < LONG; i++)
        wrong += hash_wrong(space + draw() % 8, LENGTHS + draw() % (LONGEST - LENGTHS));
    report("SipHash-2-4 of longer messages, with libsodium", LONG, wrong);
}

// Every length near the right ones; where one is wrong, the answer is 1 and `out` stays.
static void refusals(void)
{
    uint8_t in[ROOM], room[ROOM], before[ROOM];
    long blocks = 0, hashes = 0, wrong_blocks = 0, wrong_hashes = 0;
    fill(in, sizeof in);
    fill(room, sizeof room);
    memcpy(before, room, sizeof room);
    for (size_t k = 0; k <= 40; k++)
        for (size_t n = 0; n <= 20; n++)
            for (size_t o = 0; o <= 80; o++)
                if (k != 32 || n != 12 || o != 64) {
                    wrong_blocks += nv_chacha20_block(in, k, 1, in + 64, n, room + MARGIN, o) != 1 || memcmp(room, before, ROOM) != 0;
                    blocks++;
                }
    for (size_t k = 0; k <= 40; k++)
        for (size_t n = 0; n <= 20; n++)
            for (size_t o = 0; o <= 20; o++)
                if (k != 16 || o != 8) {
                    wrong_hashes += nv_siphash24(in, k, in + 64, n, room + MARGIN, o) != 1 || memcmp(room, before, ROOM) != 0;
                    hashes++;
                }
    report("ChaCha20 with a wrong length", blocks, wrong_blocks);
    report("SipHash-2-4 with a wrong length", hashes, wrong_hashes);
}

int main(int count, char **args)
{
    if (sodium_init() < 0)
        return 1;
    state = count > 1 ? strtoull(args[1], NULL, 0) : 20261115;
    blocks();
    hashes();
    refusals();
    printf("primitives: %d passed, %d failed\n", passed, failed);
    return failed != 0;
}
