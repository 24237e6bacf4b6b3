// Times one ChaCha20 block, and SipHash-2-4 of 80 and of 88 bytes: ours, libsodium's, and plain C at -O3 (plain.c).
// The three take turns in one run, each call's input depends on the last output, and the best turn counts.
#include "../crates/c_primitives/c_primitives.h"
#include "plain.h"
#include <sodium.h>
#include <stdio.h>
#include <string.h>
#include <time.h>

enum { OURS, SODIUM, PLAIN, WHO, TURNS = 25, CALLS = 100000 };

static double now(void)
{
    struct timespec t;
    clock_gettime(CLOCK_MONOTONIC, &t);
    return (double)t.tv_sec * 1e9 + (double)t.tv_nsec;
}

static uint8_t ends[WHO][64];

// The next block's key is the start of the last block.
static void blocks(int who)
{
    static const uint8_t zeros[64];
    uint8_t buffer[2][64] = { { 1 } }, nonce[12] = { 2 };
    for (uint32_t i = 0; i < CALLS; i++) {
        const uint8_t *key = buffer[i % 2];
        uint8_t *out = buffer[1 - i % 2];
        if (who == OURS)
            nv_chacha20_block(key, 32, i, nonce, 12, out, 64);
        else if (who == SODIUM)
            crypto_stream_chacha20_ietf_xor_ic(out, zeros, 64, nonce, i, key);
        else
            plain_chacha20_block(key, i, nonce, out);
    }
    memcpy(ends[who], buffer[CALLS % 2], 64);
}

// The next message begins with the last hash.
static void hashes(int who, size_t n)
{
    uint8_t key[16] = { 1 }, message[88] = { 2 }, out[8] = { 0 };
    for (int i = 0; i < CALLS; i++) {
        if (who == OURS)
            nv_siphash24(key, 16, message, n, out, 8);
        else if (who == SODIUM)
            crypto_shorthash_siphash24(out, message, n, key);
        else
            plain_siphash24(key, message, n, out);
        memcpy(message, out, 8);
    }
    memcpy(ends[who], out, 8);
}

// n is the length of a message, or 0 for ChaCha20.
static int compare(const char *name, size_t n)
{
    double best[WHO] = { 0 };
    memset(ends, 0, sizeof ends);
    for (int turn = 0; turn < TURNS; turn++)
        for (int who = 0; who < WHO; who++) {
            double began = now();
            if (n)
                hashes(who, n);
            else
                blocks(who);
            double took = (now() - began) / CALLS;
            if (turn == 0 || took < best[who])
                best[who] = took;
        }
    double faster = best[SODIUM] < best[PLAIN] ? best[SODIUM] : best[PLAIN];
    printf("%-22s %8.1f %10.1f %8.1f %16.2f %14.2f %12.2f\n", name, best[OURS], best[SODIUM], best[PLAIN],
           best[OURS] / best[SODIUM], best[OURS] / best[PLAIN], best[OURS] / faster);
    return memcmp(ends[OURS], ends[SODIUM], 64) != 0 || memcmp(ends[OURS], ends[PLAIN], 64) != 0;
}

int main(void)
{
    if (sodium_init() < 0)
        return 1;
    printf("%-22s %8s %10s %8s %16s %14s %12s\n", "ns for one call", "ours", "libsodium", "plain C", "ours/libsodium", "ours/plain C",
           "ours/faster");
    int wrong = compare("ChaCha20 block", 0) | compare("SipHash-2-4, 80 bytes", 80) | compare("SipHash-2-4, 88 bytes", 88);
    if (wrong)
        printf("the three do not agree\n");
    return wrong;
}
