// ChaCha20 (RFC 8439, 2.1 to 2.3) and SipHash-2-4 in plain C, as their documents have them: what the benchmark compares with.
#include "plain.h"

#define ROTL32(x, n) (((x) << (n)) | ((x) >> (32 - (n))))

static uint32_t load32(const uint8_t *s)
{
    uint32_t x;
    memcpy(&x, s, 4);
    return x;
}

#define QUARTER(a, b, c, d) \
    (a += b, d ^= a, d = ROTL32(d, 16), c += d, b ^= c, b = ROTL32(b, 12), \
     a += b, d ^= a, d = ROTL32(d, 8), c += d, b ^= c, b = ROTL32(b, 7))

void plain_chacha20_block(const uint8_t key[32], uint32_t counter, const uint8_t nonce[12], uint8_t out[64])
{
    uint32_t s[16] = { 0x61707865, 0x3320646e, 0x79622d32, 0x6b206574 }, x[16];
    for (int i = 0; i < 8; i++)
        s[4 + i] = load32(key + 4 * i);
    s[12] = counter;
    for (int i = 0; i < 3; i++)
        s[13 + i] = load32(nonce + 4 * i);
    memcpy(x, s, sizeof x);
    for (int i = 0; i < 10; i++) {
        QUARTER(x[0], x[4], x[8], x[12]);
        QUARTER(x[1], x[5], x[9], x[13]);
        QUARTER(x[2], x[6], x[10], x[14]);
        QUARTER(x[3], x[7], x[11], x[15]);
        QUARTER(x[0], x[5], x[10], x[15]);
        QUARTER(x[1], x[6], x[11], x[12]);
        QUARTER(x[2], x[7], x[8], x[13]);
        QUARTER(x[3], x[4], x[9], x[14]);
    }
    for (int i = 0; i < 16; i++) {
        x[i] += s[i];
        memcpy(out + 4 * i, x + i, 4);
    }
}

void plain_siphash24(const uint8_t key[16], const uint8_t *message, size_t n, uint8_t out[8])
{
    plain_sip s = plain_sip_start(key);
    const uint8_t *end = message + n / 8 * 8;
    uint64_t rest = 0;
    for (; message != end; message += 8)
        plain_sip_word(&s, plain_load64(message));
    for (size_t i = 0; i < n % 8; i++)
        rest |= (uint64_t)message[i] << (8 * i);
    uint64_t hash = plain_sip_end(s, rest, n);
    memcpy(out, &hash, 8);
}
