/*
 * The exported functions as a table, and what docs/SCOPE.md promises of each: the number, and by the plain AES every
 * element that is written. A new export is a line here and in run(), a new size a line in plain.h.
 */
#ifndef CALLS_H
#define CALLS_H

#include "locker_aes.h"
#include "plain.h"

/* takes: k key, s schedule, i input, o output; the last is written. What it gives is said by one of these. */
enum gives { SCHEDULE, ENCRYPTED, DECRYPTED, AS_DIRECTED, CHECK_VALUE };
static const struct call {
    const char *name, *takes;
    enum gives gives;
    const struct width *w;
} calls[] = {
    {"locker_aes", "kio", AS_DIRECTED, &w64},
    {"locker_aes_expand32", "ks", SCHEDULE, &w32},
    {"locker_aes_expand64", "ks", SCHEDULE, &w64},
    {"locker_aes_encrypt32", "sio", ENCRYPTED, &w32},
    {"locker_aes_encrypt64", "sio", ENCRYPTED, &w64},
    {"locker_aes_decrypt32", "sio", DECRYPTED, &w32},
    {"locker_aes_decrypt64", "sio", DECRYPTED, &w64},
    {"locker_aes_check32", "so", CHECK_VALUE, &w32},
    {"locker_aes_check64", "so", CHECK_VALUE, &w64},
};
enum { CALLS = sizeof calls / sizeof calls[0], MOST_BLOCKS = 4096, MOST_WRITTEN = 16 * MOST_BLOCKS /* bytes */ };

static inline uint32_t run(const struct call *c, uint32_t direction, void *const at[3], const size_t n[3])
{
    switch (c - calls) {
    case 0: return locker_aes(direction, at[0], n[0], at[1], n[1], at[2], n[2]);
    case 1: return locker_aes_expand32(at[0], n[0], at[1], n[1]);
    case 2: return locker_aes_expand64(at[0], n[0], at[1], n[1]);
    case 3: return locker_aes_encrypt32(at[0], n[0], at[1], n[1], at[2], n[2]);
    case 4: return locker_aes_encrypt64(at[0], n[0], at[1], n[1], at[2], n[2]);
    case 5: return locker_aes_decrypt32(at[0], n[0], at[1], n[1], at[2], n[2]);
    case 6: return locker_aes_decrypt64(at[0], n[0], at[1], n[1], at[2], n[2]);
    case 7: return locker_aes_check32(at[0], n[0], at[1], n[1]);
    default: return locker_aes_check64(at[0], n[0], at[1], n[1]);
    }
}

static inline int last_of(const struct call *c)
{
    return (int)strlen(c->takes) - 1;
}

/* Bytes of an element of buffer b. */
static inline size_t element(const struct call *c, int b)
{
    return c->takes[b] == 's' ? c->w->word : 1;
}

/* Buffer b's right length, in elements, at one size and for so many blocks. */
static inline size_t right_length(const struct call *c, int b, const struct size *z, size_t blocks)
{
    switch (c->takes[b]) {
    case 'k': return z->key;
    case 's': return z->words;
    default: return c->gives == CHECK_VALUE ? 3 : 16 * blocks;
    }
}

/* The size that the first buffer's length says, or NULL. */
static inline const struct size *size_for(const struct call *c, size_t n)
{
    size_t i;
    for (i = 0; i < SIZES; i++) if (right_length(c, 0, &sizes[i], 0) == n) return &sizes[i];
    return NULL;
}

static inline int all_zero(const uint8_t *bytes, size_t n)
{
    while (n > 0 && bytes[n - 1] == 0) n--;
    return n == 0;
}

/* The number, by SCOPE's "Answers": a call takes its buffers in the order of their numbers; a key, once its length is
   right, must not be zeros; an input says how many blocks there are. */
static inline uint32_t number(const struct call *c, uint32_t direction, void *const at[3], const size_t n[3])
{
    static const char numbered[] = "-ksio"; /* 1 key, 2 schedule, 3 input, 4 output */
    const struct size *z = size_for(c, n[0]);
    const size_t blocks = n[1] / 16;
    int b;

    for (b = 0; b <= last_of(c); b++) {
        int taken = c->takes[b] != 'i' || (blocks >= 1 && blocks <= MOST_BLOCKS);
        if (!z || !taken || n[b] != right_length(c, b, z, blocks))
            return (uint32_t)(strchr(numbered, c->takes[b]) - numbered);
        if (c->takes[b] == 'k' && all_zero(at[b], n[b])) return 6;
    }
    return c->gives == AS_DIRECTED && direction > 1 ? 5 : 0;
}

/* What an answered call must have written, from the buffers that it read: block j by the keys of slot j mod slots. */
static inline void content(const struct call *c, uint32_t direction, void *const at[3], const size_t n[3], void *to)
{
    const struct size *z = size_for(c, n[0]);
    int decrypts = c->gives == DECRYPTED || (c->gives == AS_DIRECTED && direction == 1);
    void (*does)(uint8_t *, const uint8_t *, size_t) = c->gives == CHECK_VALUE ? tag : decrypts ? inv_cipher : cipher;
    const size_t blocks = c->takes[1] == 'i' ? n[1] / 16 : 1;
    uint8_t keys[4][MOST_KEYS]; /* each slot's */
    size_t j;

    for (j = 0; j < c->w->slots && j < blocks; j++) {
        if (c->takes[0] == 'k') key_expansion(at[0], n[0], keys[j]);
        else read_schedule(c->w, at[0], z->rounds, j, keys[j]);
    }
    if (c->gives == SCHEDULE) {
        make_schedule(c->w, keys[0], z->rounds, to);
        return;
    }
    for (j = 0; j < blocks; j++) {
        uint8_t block[16] = {0};
        if (c->takes[1] == 'i') memcpy(block, (const uint8_t *)at[1] + 16 * j, 16);
        does(block, keys[j % c->w->slots], z->rounds);
        memcpy((uint8_t *)to + 16 * j, block, c->gives == CHECK_VALUE ? 3 : 16);
    }
}

/* splitmix64: the same numbers from the same seed on every machine. */
static inline uint64_t random64(uint64_t *state)
{
    uint64_t z = *state += 0x9e3779b97f4a7c15u;
    z = (z ^ z >> 30) * 0xbf58476d1ce4e5b9u;
    z = (z ^ z >> 27) * 0x94d049bb133111ebu;
    return z ^ z >> 31;
}

/* How many blocks: mostly a few, at times any number that is taken, and the most. */
static inline size_t random_blocks(uint64_t *state)
{
    const uint64_t r = random64(state), kind = r % 1024;
    return kind ? 1 + (size_t)((r >> 32) % (kind == 1 ? MOST_BLOCKS : kind < 64 ? 64 : 12)) : MOST_BLOCKS;
}

#endif
