// The functions of libc_primitives.a (rt staticlib c_primitives). Each slice is a pointer, not null, and a length;
// `out` does not overlap the others. Each answers 0, or 1 where a length is wrong, and then leaves `out` as it was.
#ifndef C_PRIMITIVES_H
#define C_PRIMITIVES_H

#include <stddef.h>
#include <stdint.h>

// The ChaCha20 block: key, nonce and out of 32, 12 and 64 bytes.
uint32_t nv_chacha20_block(const uint8_t *key, size_t key_len, uint32_t counter, const uint8_t *nonce, size_t nonce_len,
                           uint8_t *out, size_t out_len);

// SipHash-2-4: key and out of 16 and 8 bytes.
uint32_t nv_siphash24(const uint8_t *key, size_t key_len, const uint8_t *message, size_t message_len, uint8_t *out,
                      size_t out_len);

#endif
