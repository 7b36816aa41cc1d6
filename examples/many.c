/*
 * Expand once, decrypt many: what a purge run does. A month's key is expanded to a schedule, all headers of that month
 * are decrypted under it, 65,536 bytes in a call, and those whose time is over are counted. With the door (door.c) each
 * call would expand the key again.
 */
#define _DEFAULT_SOURCE /* for explicit_bzero() */
#include <locker_aes.h>
#include <stdio.h>
#include <string.h>

enum { HEADERS = 9999 };

/* Ciphers any number of blocks; up to LOCKER_AES_LIMIT bytes one call is enough, and no loop is needed. The limit is a
   multiple of a full batch, so each block has the slot that it would have without the cuts; under an expanded key,
   where every slot has the same round keys, any multiple of LOCKER_AES_BLOCK would do. */
static uint32_t run(uint32_t direction, const uint64_t *schedule, size_t words, const uint8_t *from, size_t bytes,
                    uint8_t *to)
{
    uint32_t answer = LOCKER_AES_OK;
    size_t at, n;

    for (at = 0; at < bytes && answer == LOCKER_AES_OK; at += n) {
        n = bytes - at < LOCKER_AES_LIMIT ? bytes - at : LOCKER_AES_LIMIT;
        answer = direction == LOCKER_AES_ENCRYPT ? locker_aes_encrypt64(schedule, words, from + at, n, to + at, n)
                                                 : locker_aes_decrypt64(schedule, words, from + at, n, to + at, n);
    }
    locker_aes_clear_stack(); /* here, where the calls were made, and after the last of them */
    return answer;
}

int main(void)
{
    static const uint8_t today[4] = {0x07, 0xe9, 0x06, 0x01}; /* 2025-06-01, as headers write dates */
    static const int shown[] = {0, 4095, 4096, 9998};         /* the first, those at the first cut, the last */
    static uint8_t headers[16 * HEADERS], sealed[16 * HEADERS], opened[16 * HEADERS];
    uint8_t key[32];
    uint64_t schedule[LOCKER_AES_WORDS_256];
    uint32_t answer;
    char name[20];
    int i, j, due = 0, status = 1;

    /* sample headers: hold until day 3 of a month of 2025; key number 7; a name */
    for (i = 0; i < HEADERS; i++) {
        uint8_t *h = headers + 16 * i;
        memcpy(h, "\x07\xe9\x01\x03\x00\x07", 6);
        h[2] = (uint8_t)(1 + i % 12);
        sprintf(name, "parcel%04d", i);
        memcpy(h + 6, name, 10);
    }
    for (i = 0; i < 32; i++) key[i] = (uint8_t)(17 * i + 3);

    answer = locker_aes_expand64(key, sizeof key, schedule, LOCKER_AES_WORDS_256);
    explicit_bzero(key, sizeof key); /* the schedule is enough from here on */
    if (answer == LOCKER_AES_OK)
        answer = run(LOCKER_AES_ENCRYPT, schedule, LOCKER_AES_WORDS_256, headers, sizeof headers, sealed);
    if (answer == LOCKER_AES_OK)
        answer = run(LOCKER_AES_DECRYPT, schedule, LOCKER_AES_WORDS_256, sealed, sizeof sealed, opened);
    explicit_bzero(schedule, sizeof schedule);
    locker_aes_clear_stack();

    if (answer != LOCKER_AES_OK) {
        fprintf(stderr, "refused: answer %u\n", (unsigned)answer);
    } else {
        for (i = 0; i < 4; i++) {
            const uint8_t *h = opened + 16 * shown[i];
            for (j = 0; j < 16; j++) printf("%02x", sealed[16 * shown[i] + j]);
            printf(" is %04u-%02u-%02u %.10s\n", 256u * h[0] + h[1], h[2], h[3], (const char *)h + 6);
        }
        for (i = 0; i < HEADERS; i++) due += memcmp(opened + 16 * i, today, 4) < 0;
        printf("%d of %d headers are due\n", due, HEADERS);
        status = memcmp(opened, headers, sizeof headers) == 0 ? 0 : 1;
    }
    explicit_bzero(opened, sizeof opened);
    return status;
}
