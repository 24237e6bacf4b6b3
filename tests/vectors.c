// The lines that the program `vectors` has to print, by implementations that nobody here wrote: OpenSSL's ChaCha20
// and libsodium's SipHash-2-4. It compares crates/vectors/stdout with them, line by line; `vectors print` prints them.
#include <openssl/evp.h>
#include <sodium.h>
#include <stdio.h>
#include <string.h>

#define FILE_NAME "crates/vectors/stdout"
enum { LINE = 256 };

static FILE *expected; // the file to compare, or NULL to print
static int passed, failed;

static void say(const char *name, const unsigned char *bytes, size_t n)
{
    char want[LINE];
    size_t at = (size_t)snprintf(want, sizeof want, "%s ", name);
    for (size_t i = 0; i < n; i++)
        at += (size_t)snprintf(want + at, sizeof want - at, "%02x", bytes[i]);
    snprintf(want + at, sizeof want - at, "\n");
    if (!expected) {
        fputs(want, stdout);
        return;
    }
    char line[LINE] = "";
    if (fgets(line, sizeof line, expected) && strcmp(line, want) == 0) {
        passed++;
    } else {
        failed++;
        printf("vectors: expected %s         found %s\n", want, line);
    }
}

// OpenSSL's initial vector is the counter, little-endian, and the nonce; zeros encrypted are the key stream.
static void chacha20(const char *name, const unsigned char key[32], unsigned char counter, const unsigned char nonce[12])
{
    unsigned char iv[16] = { counter }, zeros[64] = { 0 }, out[64];
    char text[LINE];
    int n = 0;
    memcpy(iv + 4, nonce, 12);
    EVP_CIPHER_CTX *c = EVP_CIPHER_CTX_new();
    if (!c || !EVP_EncryptInit_ex(c, EVP_chacha20(), NULL, key, iv) || !EVP_EncryptUpdate(c, out, &n, zeros, 64) || n != 64)
        failed++;
    EVP_CIPHER_CTX_free(c);
    snprintf(text, sizeof text, "chacha20 %s", name);
    say(text, out, sizeof out);
}

// RFC 8439, section 2.3.2 and appendix A.1.
static void rfc8439(void)
{
    unsigned char key[32], nonce[12] = { 0, 0, 0, 9, 0, 0, 0, 0x4a };
    for (unsigned char i = 0; i < 32; i++)
        key[i] = i;
    chacha20("2.3.2", key, 1, nonce);
    memset(key, 0, sizeof key);
    memset(nonce, 0, sizeof nonce);
    chacha20("A.1.1", key, 0, nonce);
    chacha20("A.1.2", key, 1, nonce);
    key[31] = 1;
    chacha20("A.1.3", key, 1, nonce);
    key[31] = 0;
    key[1] = 0xff;
    chacha20("A.1.4", key, 2, nonce);
    key[1] = 0;
    nonce[11] = 2;
    chacha20("A.1.5", key, 0, nonce);
}

// The reference vectors: the first n of the bytes 00, 01, .. under the key 00 to 0f, for n from 0 to 63.
static void siphash(void)
{
    unsigned char bytes[64], out[crypto_shorthash_siphash24_BYTES];
    char text[LINE];
    for (unsigned char i = 0; i < 64; i++)
        bytes[i] = i;
    for (int n = 0; n < 64; n++) {
        crypto_shorthash_siphash24(out, bytes, (unsigned long long)n, bytes);
        snprintf(text, sizeof text, "siphash %d", n);
        say(text, out, sizeof out);
    }
}

int main(int count, char **args)
{
    if (sodium_init() < 0)
        return 1;
    if ((count < 2 || strcmp(args[1], "print") != 0) && !(expected = fopen(FILE_NAME, "r"))) {
        perror(FILE_NAME);
        return 1;
    }
    rfc8439();
    siphash();
    if (!expected)
        return failed != 0;
    if (fgetc(expected) != EOF)
        failed++;
    fclose(expected);
    printf("vectors: %d passed, %d failed\n", passed, failed);
    return failed != 0;
}
