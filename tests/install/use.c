/*
 * A program of somebody who has the installed library only: built with what pkg-config says, as C and as C++. It runs
 * FIPS-197's Appendix C.1 and C.3 through every function and prints the header's version.
 */
#include <locker_aes.h>
#include <stdio.h>
#include <string.h>

static int failures;

static void expect(int holds, const char *what)
{
    if (!holds) printf("FAILED: %s\n", what), failures++;
}

/* Expansion, both directions and the check value at one width: five blocks, a full batch and more at either width. */
#define WIDTH(BITS)                                                                                                    \
    do {                                                                                                               \
        static uint##BITS##_t schedule[LOCKER_AES_WORDS_256];                                                          \
        const size_t n = sizeof plain;                                                                                 \
        memset(back, 0, sizeof back);                                                                                  \
        expect(locker_aes_expand##BITS(key, key_len, schedule, words) == LOCKER_AES_OK, "expand" #BITS);               \
        expect(locker_aes_encrypt##BITS(schedule, words, plain, n, out, n) == LOCKER_AES_OK, "encrypt" #BITS);         \
        expect(locker_aes_decrypt##BITS(schedule, words, out, n, back, n) == LOCKER_AES_OK, "decrypt" #BITS);          \
        expect(memcmp(out, expected, n) == 0 && memcmp(back, plain, n) == 0, "blocks, width " #BITS);                  \
        expect(locker_aes_check##BITS(schedule, words, check, sizeof check) == LOCKER_AES_OK, "check" #BITS);          \
        expect(memcmp(check, value, sizeof check) == 0, "check value, width " #BITS);                                  \
    } while (0)

int main(void)
{
    static const uint8_t c1[] = "\x69\xc4\xe0\xd8\x6a\x7b\x04\x30\xd8\xcd\xb7\x80\x70\xb4\xc5\x5a";
    static const uint8_t c3[] = "\x8e\xa2\xb7\xca\x51\x67\x45\xbf\xea\xfc\x49\x90\x4b\x49\x60\x89";
    static const uint8_t values[2][4] = {"\xbe\x7e\xd6", "\x37\x78\x22"}; /* by tools/check_values.py */
    uint8_t key[32], plain[80], expected[80], out[80], back[80], check[LOCKER_AES_CHECK];
    size_t key_len, i;

    for (i = 0; i < 32; i++) key[i] = (uint8_t)i;
    for (i = 0; i < 80; i++) plain[i] = (uint8_t)(i % 16 * 0x11);
    for (key_len = 16; key_len <= 32; key_len += 16) {
        const size_t words = key_len == 16 ? LOCKER_AES_WORDS_128 : LOCKER_AES_WORDS_256;
        const uint8_t *const value = values[key_len / 32];
        for (i = 0; i < 80; i += 16) memcpy(expected + i, key_len == 16 ? c1 : c3, 16);
        WIDTH(32);
        WIDTH(64);
        expect(locker_aes(LOCKER_AES_ENCRYPT, key, key_len, plain, 80, out, 80) == LOCKER_AES_OK, "the door, encrypting");
        expect(locker_aes(LOCKER_AES_DECRYPT, key, key_len, out, 80, back, 80) == LOCKER_AES_OK, "the door, decrypting");
        expect(memcmp(out, expected, 80) == 0 && memcmp(back, plain, 80) == 0, "blocks by the door");
    }
    expect(locker_aes(LOCKER_AES_ENCRYPT, key, 17, plain, 80, out, 80) == LOCKER_AES_BAD_KEY_LENGTH, "a key of 17 bytes");
    expect(locker_aes(LOCKER_AES_ENCRYPT, key, 32, plain, 79, out, 79) == LOCKER_AES_BAD_INPUT_LENGTH, "79 bytes");
    expect(locker_aes(LOCKER_AES_ENCRYPT, key, 32, plain, 80, out, 64) == LOCKER_AES_BAD_OUTPUT_LENGTH, "64 bytes of 80");
    memset(key, 0, sizeof key);
    expect(locker_aes(LOCKER_AES_ENCRYPT, key, 32, plain, 80, out, 80) == LOCKER_AES_ZERO_KEY, "a key of zeros");
    locker_aes_clear_stack();
    printf("%s\n", LOCKER_AES_VERSION);
    return failures;
}
