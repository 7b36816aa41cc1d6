/*
 * Every exported function, at its right lengths, judged by the plain AES: stress SEED ROUNDS
 *
 * Random keys, blocks and schedules, whose slots differ, and schedules made from keys, for random numbers of blocks;
 * then patterns in what a call reads, for a batch and a block: all bytes alike, one slot alone, and every single bit set
 * alone and clear alone. It needs no Rust.
 */
#include <stdio.h>
#include <stdlib.h>

#include "calls.h"

static uint64_t buffer[3][MOST_WRITTEN / 8 + 2], right[3][MOST_WRITTEN / 8 + 2];
static size_t n[3], words[3]; /* the next call's lengths, and each buffer's words, two of them to spare: these must stay */
static uint64_t seed, state;
static unsigned long judged, blocks, zeros;

/* Lengths for so many blocks, and random bytes everywhere. */
static void fill(const struct call *c, const struct size *z, size_t count)
{
    size_t i;
    int b;

    for (b = 0; b <= last_of(c); b++) {
        n[b] = right_length(c, b, z, count);
        words[b] = (n[b] * element(c, b) + 7) / 8 + 2;
        for (i = 0; i < words[b]; i++) buffer[b][i] = random64(&state);
    }
}

/* One call over the buffers as they stand. */
static void judge(const struct call *c, uint32_t direction, const struct size *z, const char *of)
{
    void *const at[3] = {buffer[0], buffer[1], buffer[2]};
    uint32_t answer, expected = number(c, direction, at, n); /* 0, but for a key of zeros */
    int b, same = 1;

    for (b = 0; b <= last_of(c); b++) memcpy(right[b], buffer[b], 8 * words[b]);
    if (expected == 0) content(c, direction, at, n, right[last_of(c)]);
    answer = run(c, direction, at, n);
    judged++;
    if (c->takes[1] == 'i' && expected == 0) blocks += n[1] / 16;
    zeros += expected == 6;
    for (b = 0; b <= last_of(c); b++) same &= !memcmp(right[b], buffer[b], 8 * words[b]);
    if (answer == expected && same) return;
    printf("FAILED: %s, direction %u, key of %zu, lengths %zu %zu %zu, %s, call %lu of seed %llu: answer %u, expected %u",
           c->name, (unsigned)direction, z->key, n[0], n[1], last_of(c) == 2 ? n[2] : 0, of, judged,
           (unsigned long long)seed, (unsigned)answer, (unsigned)expected);
    for (b = 0; b <= last_of(c); b++)
        if (memcmp(right[b], buffer[b], 8 * words[b]))
            printf(b < last_of(c) ? ", an input changed" : ", wrong content");
    printf("\n");
    exit(1);
}

/* Random bytes everywhere; every second schedule is made from a key. */
static void random_buffers(const struct call *c, const struct size *z, int made)
{
    uint8_t keys[MOST_KEYS];
    uint64_t key[4];
    size_t i;

    fill(c, z, random_blocks(&state));
    if (c->takes[0] != 's' || !made) return;
    for (i = 0; i < 4; i++) key[i] = random64(&state);
    key_expansion((uint8_t *)key, z->key, keys);
    make_schedule(c->w, keys, z->rounds, buffer[0]);
}

static void patterns(const struct call *c, uint32_t direction, const struct size *z)
{
    static const uint8_t alike[] = {0x00, 0xff, 0x63, 0x80};
    const size_t count = c->w->slots + 1;
    size_t i, bit, size, j;
    int b, background;

    for (i = 0; i < sizeof alike; i++) {
        fill(c, z, count);
        for (b = 0; b < last_of(c); b++) memset(buffer[b], alike[i], n[b] * element(c, b));
        judge(c, direction, z, "bytes alike");
    }
    for (j = 0; j < count; j++) {
        fill(c, z, count);
        if (c->takes[1] == 'i')
            for (i = 0; i < n[1]; i++) if (i / 16 != j) ((uint8_t *)buffer[1])[i] = 0;
        judge(c, direction, z, "one block");
        if (c->takes[0] == 's')
            for (i = 0; i < z->words; i++) {
                uint64_t mask = 0;
                for (bit = 0; bit < 16; bit++) mask |= (uint64_t)1 << place(c->w, bit, j % c->w->slots);
                set_word(c->w, buffer[0], i, get_word(c->w, buffer[0], i) & mask);
            }
        judge(c, direction, z, "one slot");
    }
    for (b = 0; b < last_of(c); b++)
        for (size = right_length(c, b, z, count) * element(c, b), bit = 0; bit < 8 * size; bit++)
            for (background = 0; background < 256; background += 255) {
                if (bit % 64 == 0) fill(c, z, count);
                memset(buffer[b], background, size);
                ((uint8_t *)buffer[b])[bit / 8] ^= (uint8_t)(1 << bit % 8);
                judge(c, direction, z, "one bit");
            }
}

int main(int argc, char **argv)
{
    const char *missed = plain_begin();
    unsigned long rounds, i;
    size_t call, z;
    uint32_t direction;

    if (missed) return printf("FAILED: the plain AES itself, at %s\n", missed), 1;
    if (argc != 3) return printf("stress SEED ROUNDS\n"), 2;
    state = seed = strtoull(argv[1], NULL, 10);
    rounds = strtoul(argv[2], NULL, 10);
    for (call = 0; call < CALLS; call++)
        for (z = 0; z < SIZES; z++)
            for (direction = 0; direction < (calls[call].gives == AS_DIRECTED ? 2 : 1); direction++) {
                for (i = 0; i < rounds; i++) {
                    random_buffers(&calls[call], &sizes[z], (int)(i % 2));
                    judge(&calls[call], direction, &sizes[z], "random");
                }
                patterns(&calls[call], direction, &sizes[z]);
            }
    if (!zeros) return printf("FAILED: no key of zeros was tried\n"), 1;
    return printf("ok stress: %lu calls of %d functions as a plain AES has them, %lu blocks, %lu with a key of zeros, "
                  "seed %llu\n", judged, (int)CALLS, blocks, zeros, (unsigned long long)seed), 0;
}
