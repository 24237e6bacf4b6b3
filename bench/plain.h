#ifndef PLAIN_H
#define PLAIN_H

#include <stddef.h>
#include <stdint.h>
#include <string.h>

void plain_chacha20_block(const uint8_t key[32], uint32_t counter, const uint8_t nonce[12], uint8_t out[64]);
void plain_siphash24(const uint8_t key[16], const uint8_t *message, size_t n, uint8_t out[8]);

// SipHash-2-4 in parts, for messages of whole words that begin alike.
typedef struct {
    uint64_t v0, v1, v2, v3;
} plain_sip;

#define PLAIN_ROTL64(x, n) (((x) << (n)) | ((x) >> (64 - (n))))

static inline void plain_sip_round(plain_sip *s)
{
    s->v0 += s->v1, s->v1 = PLAIN_ROTL64(s->v1, 13), s->v1 ^= s->v0, s->v0 = PLAIN_ROTL64(s->v0, 32);
    s->v2 += s->v3, s->v3 = PLAIN_ROTL64(s->v3, 16), s->v3 ^= s->v2;
    s->v0 += s->v3, s->v3 = PLAIN_ROTL64(s->v3, 21), s->v3 ^= s->v0;
    s->v2 += s->v1, s->v1 = PLAIN_ROTL64(s->v1, 17), s->v1 ^= s->v2, s->v2 = PLAIN_ROTL64(s->v2, 32);
}

static inline void plain_sip_word(plain_sip *s, uint64_t word)
{
    s->v3 ^= word;
    plain_sip_round(s);
    plain_sip_round(s);
    s->v0 ^= word;
}

// Words are little-endian, as this machine has them.
static inline uint64_t plain_load64(const uint8_t *s)
{
    uint64_t x;
    memcpy(&x, s, 8);
    return x;
}

static inline plain_sip plain_sip_start(const uint8_t key[16])
{
    uint64_t k0 = plain_load64(key), k1 = plain_load64(key + 8);
    return (plain_sip){ k0 ^ 0x736f6d6570736575, k1 ^ 0x646f72616e646f6d, k0 ^ 0x6c7967656e657261, k1 ^ 0x7465646279746573 };
}

// The hash, from what is left of a message of n bytes after its whole words.
static inline uint64_t plain_sip_end(plain_sip s, uint64_t rest, size_t n)
{
    plain_sip_word(&s, (uint64_t)n << 56 | rest);
    s.v2 ^= 0xff;
    for (int i = 0; i < 4; i++)
        plain_sip_round(&s);
    return s.v0 ^ s.v1 ^ s.v2 ^ s.v3;
}

#endif
