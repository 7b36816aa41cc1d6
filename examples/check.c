/*
 * Is this the custodian's key? The custodian publishes a key's check value, and whoever has a key can make the same.
 * Three bytes say which key is meant; they are no proof that somebody has it.
 */
#define _DEFAULT_SOURCE /* for explicit_bzero() */
#include <locker_aes.h>
#include <stdio.h>
#include <string.h>

/* 1 where the key has the published check value, else 0; -1 where the key is refused. */
static int is_meant(const uint8_t *key, size_t key_len, const uint8_t *published)
{
    size_t words = key_len == 16 ? LOCKER_AES_WORDS_128 : LOCKER_AES_WORDS_256;
    uint64_t schedule[LOCKER_AES_WORDS_256];
    uint8_t value[LOCKER_AES_CHECK];
    uint32_t answer;

    answer = locker_aes_expand64(key, key_len, schedule, words);
    if (answer == LOCKER_AES_OK) answer = locker_aes_check64(schedule, words, value, sizeof value);
    explicit_bzero(schedule, sizeof schedule);
    locker_aes_clear_stack(); /* what the calls left there says more than the value does */
    if (answer != LOCKER_AES_OK) return -1;
    printf("check value %02x%02x%02x: ", value[0], value[1], value[2]);
    return memcmp(value, published, sizeof value) == 0;
}

int main(void)
{
    /* sample keys, FIPS-197's, with their check values as OpenSSL gives them */
    static const uint8_t published[2][LOCKER_AES_CHECK] = {{0xbe, 0x7e, 0xd6}, {0x37, 0x78, 0x22}};
    uint8_t key[32];
    int i, status = 0;

    for (i = 0; i < 32; i++) key[i] = (uint8_t)i;
    for (i = 0; i < 2; i++) {
        if (is_meant(key, i == 0 ? 16 : 32, published[i]) == 1) printf("the custodian's key\n");
        else status = 1;
    }
    key[31] ^= 1; /* one bit of it is wrong */
    if (is_meant(key, 32, published[1]) == 0) printf("another key\n");
    else status = 1;
    explicit_bzero(key, sizeof key);
    return status;
}
