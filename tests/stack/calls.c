/*
 * The callers, compiled once for each compiler and option that run.sh tries: every call of the library as a C program
 * makes it, bare and with locker_aes_clear_stack() as the last statement after it.
 */
#include "calls.h"
#include "locker_aes.h"

#define CALL(name, expression)                                                                                        \
    static void name(void) { answer = expression; }                                                                   \
    static void name##_cleared(void)                                                                                  \
    {                                                                                                                 \
        answer = expression;                                                                                          \
        locker_aes_clear_stack();                                                                                     \
    }

CALL(door_encrypt, locker_aes(LOCKER_AES_ENCRYPT, key, key_len, input, length, output, length))
CALL(door_decrypt, locker_aes(LOCKER_AES_DECRYPT, key, key_len, input, length, output, length))
/* refused after the key was looked at: answer is 0 where it is the right one */
CALL(door_refused, locker_aes(2, key, key_len, input, length, output, length) - LOCKER_AES_BAD_DIRECTION)
CALL(expand32, locker_aes_expand32(key, key_len, schedule32, words))
CALL(expand64, locker_aes_expand64(key, key_len, schedule64, words))
CALL(encrypt32, locker_aes_encrypt32(schedule32, words, input, length, output, length))
CALL(encrypt64, locker_aes_encrypt64(schedule64, words, input, length, output, length))
CALL(decrypt32, locker_aes_decrypt32(schedule32, words, input, length, output, length))
CALL(decrypt64, locker_aes_decrypt64(schedule64, words, input, length, output, length))
CALL(check32, locker_aes_check32(schedule32, words, output, 3))
CALL(check64, locker_aes_check64(schedule64, words, output, 3))

/* A caller with a large frame: a helper that took the place of its return would clear that frame and stop there. */
static void fill(volatile uint8_t *bytes, size_t n)
{
    while (n-- > 0) bytes[n] = 1;
}

static void large_frame(void)
{
    uint8_t large[16384];
    fill(large, sizeof large);
    answer = locker_aes_decrypt64(schedule64, words, input, length, output, length);
}

static void large_frame_cleared(void)
{
    uint8_t large[16384];
    fill(large, sizeof large);
    answer = locker_aes_decrypt64(schedule64, words, input, length, output, length);
    locker_aes_clear_stack();
}

#define ROW(name, bits, direction, blocks, door) {#name, name, name##_cleared, bits, direction, blocks, door}
const struct call calls[] = {
    ROW(door_encrypt, 64, 0, 1, 1), ROW(door_decrypt, 64, 1, 1, 1), ROW(door_refused, 64, 0, 1, 1),
    ROW(expand32, 32, 0, 0, 0),     ROW(expand64, 64, 0, 0, 0),     ROW(encrypt32, 32, 0, 1, 0),
    ROW(encrypt64, 64, 0, 1, 0),    ROW(decrypt32, 32, 1, 1, 0),    ROW(decrypt64, 64, 1, 1, 0),
    ROW(check32, 32, 0, 0, 0),      ROW(check64, 64, 0, 0, 0),      ROW(large_frame, 64, 1, 1, 0),
};
const size_t call_count = sizeof calls / sizeof calls[0];
