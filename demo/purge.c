/* The main job in small: purge FILE DAY. FILE has sealed record headers, 1 to 4,096 of them, and one call of the door decrypts them all under a
   sample month key. Each hold-until date is read: what is before DAY is due; the rest is kept, and so is what is under dispute. Then one call is
   refused for a key of a wrong length, and one for a key that was destroyed, by zeros written over it. It expands no key by hand. */
#define _DEFAULT_SOURCE /* for explicit_bzero() */
#include "../include/locker_aes.h"
#include <stdio.h>
#include <string.h>

enum { KEY_NUMBER = 7, ROOM = LOCKER_AES_LIMIT + LOCKER_AES_BLOCK }; /* more than a call takes: a longer file is refused, and not cut */

static uint8_t key[32], sealed[ROOM], opened[ROOM];
static size_t bytes;

/* Why a file was not opened, in words. The library has tested its length. */
static const char *why(uint32_t answer) {
    if (answer != LOCKER_AES_BAD_INPUT_LENGTH) return "not opened";
    if (bytes == 0) return "refused, it is empty";
    return bytes > LOCKER_AES_LIMIT ? "refused, it has more than 65,536 bytes" : "refused, its length is no multiple of 16";
}

/* A header: hold-until date (year big-endian, month, day), key number (two bytes, big-endian), ten bytes of text. Such dates compare as bytes. */
static int is_due(const uint8_t *h, const uint8_t *day) {
    if (256 * h[4] + h[5] != KEY_NUMBER) { /* a wrong key opens to other bytes, and the answer is 0: this date says nothing */
        printf("kept, not a header under this key\n");
        return 0;
    }
    int disputed = memcmp(h + 6, "disputed", 8) == 0, due = !disputed && memcmp(h, day, 4) < 0;
    printf("held until %04d-%02d-%02d  %.10s  ", 256 * h[0] + h[1], h[2], h[3], (const char *)h + 6);
    printf("%s\n", due ? "due" : disputed ? "kept, under dispute" : "kept");
    return due;
}

/* A call that must be refused by this number and leave the output as it was. */
static int refuses(const char *what, size_t key_len, uint32_t number) {
    size_t kept = 0;
    memset(opened, 0xee, bytes);
    uint32_t answer = locker_aes(LOCKER_AES_DECRYPT, key, key_len, sealed, bytes, opened, bytes);
    while (kept < bytes && opened[kept] == 0xee) kept++;
    printf("%s: answer %u, output %s\n", what, answer, kept == bytes ? "left as it was" : "CHANGED");
    return answer == number && kept == bytes;
}

int main(int argc, char **argv) {
    unsigned y, m, d;
    char more;
    if (argc != 3 || sscanf(argv[2], "%4u-%2u-%2u%c", &y, &m, &d, &more) != 3 || y > 9999 || m - 1 > 11 || d - 1 > 30) {
        fprintf(stderr, "purge FILE DAY, the day as 2025-06-01\n");
        return 1;
    }
    const uint8_t day[4] = {(uint8_t)(y >> 8), (uint8_t)y, (uint8_t)m, (uint8_t)d};
    FILE *file = fopen(argv[1], "rb");
    if (file != NULL) bytes = fread(sealed, 1, sizeof sealed, file);
    if (file == NULL || ferror(file)) {
        perror(argv[1]);
        return 1;
    }
    fclose(file);
    for (int i = 0; i < 32; i++) key[i] = (uint8_t)(17 * i + 3);

    uint32_t answer = locker_aes(LOCKER_AES_DECRYPT, key, sizeof key, sealed, bytes, opened, bytes);
    if (answer != LOCKER_AES_OK) {
        fprintf(stderr, "%s: %s (answer %u)\n", argv[1], why(answer), answer);
        return 1;
    }
    int records = (int)(bytes / 16), due = 0;
    for (int i = 0; i < records; i++) {
        printf("%4d  ", i + 1);
        due += is_due(opened + 16 * i, day);
    }
    printf("%s: of %d records %d are due and %d are kept\n", argv[2], records, due, records - due);

    int right = refuses("a 23-byte key", 23, LOCKER_AES_BAD_KEY_LENGTH);
    explicit_bzero(key, sizeof key);
    right &= refuses("the key destroyed", sizeof key, LOCKER_AES_ZERO_KEY);
    locker_aes_clear_stack(); /* for the registers: the door has erased its stack, and `opened` was written over */
    return right ? 0 : 1;
}
