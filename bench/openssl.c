/*
 * OpenSSL's AES in ECB through EVP, as its users call it: all the blocks in one call, the key set beforehand.
 *
 * Twice in one process: with the processor's AES instructions and without. OpenSSL looks at its word of processor
 * features when it makes a context, so a context that is made while the bit is cleared does without them; the word is
 * hidden in the shared library, so this links the static one.
 */
#include <openssl/evp.h>
#include <stdint.h>
#include <stdlib.h>

extern unsigned int OPENSSL_ia32cap_P[4];
enum { AES_INSTRUCTIONS = 1u << 25 }; /* of word 1, which is CPUID.1:ECX */

static struct {
    EVP_CIPHER_CTX *ctx;
    int ready;
} made[2][2][2]; /* with AES instructions; AES-256; decrypting */
static uint8_t kept[2][32];
static int large[2];

/* Sets the key for one direction, in a context that is made the first time. */
static void set_key(int instructions, int decrypt)
{
    unsigned int features = OPENSSL_ia32cap_P[1];
    int l = large[instructions];
    EVP_CIPHER_CTX **ctx = &made[instructions][l][decrypt].ctx;

    if (*ctx == NULL) {
        OPENSSL_init_crypto(0, NULL);
        features = OPENSSL_ia32cap_P[1];
        if (!instructions) OPENSSL_ia32cap_P[1] &= ~(unsigned int)AES_INSTRUCTIONS;
        *ctx = EVP_CIPHER_CTX_new();
        if (!EVP_CipherInit_ex(*ctx, l ? EVP_aes_256_ecb() : EVP_aes_128_ecb(), NULL, NULL, NULL, !decrypt)) abort();
        EVP_CIPHER_CTX_set_padding(*ctx, 0);
        OPENSSL_ia32cap_P[1] = features;
    }
    if (!EVP_CipherInit_ex(*ctx, NULL, NULL, kept[instructions], NULL, !decrypt)) abort();
    made[instructions][l][decrypt].ready = 1;
}

void openssl_expand(int instructions, const uint8_t *key, size_t key_len)
{
    large[instructions] = key_len == 32;
    for (size_t i = 0; i < key_len; i++) kept[instructions][i] = key[i];
    for (int l = 0; l < 2; l++) made[instructions][l][1].ready = 0;
    set_key(instructions, 0);
}

void openssl_crypt(int instructions, uint32_t direction, const uint8_t *input, size_t n, uint8_t *output)
{
    int written, all = (int)n, decrypt = direction != 0, l = large[instructions];
    if (!made[instructions][l][decrypt].ready) set_key(instructions, decrypt);
    if (!EVP_CipherUpdate(made[instructions][l][decrypt].ctx, output, &written, input, all) || written != all) abort();
}
