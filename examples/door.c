/*
 * The door: blocks under a key that is used once, any number of them up to 65,536 bytes. The key is expanded inside, at
 * each call, and the schedule is erased there; for many calls under one key see many.c.
 *
 * The second block stands twice, and comes out twice: a block cipher hides what a block is, not which blocks are equal.
 */
#define _DEFAULT_SOURCE /* for explicit_bzero() */
#include <locker_aes.h>
#include <stdio.h>
#include <string.h>

int main(void)
{
    uint8_t key[32], plain[80], sealed[80], opened[80];
    uint32_t answer;
    int i, same;

    /* the key and the first block of FIPS-197's Appendix C.3, which ends in 49 60 89 */
    for (i = 0; i < 32; i++) key[i] = (uint8_t)i;
    for (i = 0; i < 16; i++) plain[i] = (uint8_t)(0x11 * i);
    memcpy(plain + 16, "ten till twelve.", 16);
    memcpy(plain + 32, "one till two....", 16);
    memcpy(plain + 48, plain + 16, 16);
    memcpy(plain + 64, "six till seven..", 16);

    answer = locker_aes(LOCKER_AES_ENCRYPT, key, sizeof key, plain, sizeof plain, sealed, sizeof sealed);
    if (answer != LOCKER_AES_OK) {
        fprintf(stderr, "not encrypted: answer %u\n", (unsigned)answer);
        return 1;
    }
    for (i = 0; i < 80; i++) printf("%02x%s", sealed[i], i % 16 == 15 ? "\n" : " ");
    same = memcmp(sealed + 16, sealed + 48, 16) == 0;
    printf("blocks 1 and 3 are %s\n", same ? "equal, as their plaintexts are" : "different");

    answer = locker_aes(LOCKER_AES_DECRYPT, key, sizeof key, sealed, sizeof sealed, opened, sizeof opened);
    if (answer != LOCKER_AES_OK) {
        fprintf(stderr, "not decrypted: answer %u\n", (unsigned)answer);
        return 1;
    }
    same = memcmp(opened, plain, sizeof plain) == 0;
    printf("opened: %s\n", same ? "the blocks that were sealed" : "OTHER BLOCKS");

    /* what the door was given is the caller's to erase; its registers are cleared with the rest */
    explicit_bzero(key, sizeof key);
    explicit_bzero(plain, sizeof plain);
    explicit_bzero(opened, sizeof opened);
    locker_aes_clear_stack();
    return same ? 0 : 1;
}
