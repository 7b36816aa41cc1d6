/*
 * The rule of the house, observed: no branch and no address depends on key, schedule or block bytes, but for one bit:
 * whether a key is all zeros, which the answer says.
 *
 * Under valgrind's memcheck every such byte is marked as undefined before each call; lengths and the direction stay
 * defined. memcheck follows the marks bit by bit and reports each conditional jump and each address that depends on
 * one. Of a key that has a right length one bit is left defined, and is set: so it is known that the key is not all
 * zeros, and whatever else a call asks of it is reported. The bit goes through the whole key. Refused calls are watched
 * as well as answered ones. That says nothing about time, and only what was run was seen.
 *
 *   secret            runs every function and must give no report
 *   secret branch     has a branch on a key byte planted in front of an answered call: memcheck must report it
 *   secret lookup     has a table lookup by a key byte planted there: the same
 *   secret early      has a test for zeros planted there that ends at the first byte that is none: the same
 *   secret refused    has a branch on a key byte planted in front of a refused call: the same
 *   secret part       has a branch on a block's last byte planted in front of a call with a batch and a part of one: the same
 */
#include <stdio.h>
#include <stdlib.h>
#include <valgrind/memcheck.h>

#include "../boundary/calls.h"

enum { LONGEST = 300 };
static const char *planted = "";
static uint64_t buffer[3][LONGEST], held[3][LONGEST];
static unsigned long watched, answered, zeros;

/* The call with a fault planted in front, to know that the test sees. Volatile keeps it in the code. */
static volatile uint8_t table[256];

__attribute__((noinline)) static uint32_t with_fault(const struct call *c, uint32_t direction, void *const at[3],
                                                     const size_t n[3])
{
    const uint8_t *key = at[0], *input = at[1];
    uint8_t first = key[0];
    size_t i;

    if (c->takes[0] == 'k' && n[0] == 16 && !strcmp(planted, "branch") && first == 1) table[0] = 1;
    if (c->takes[0] == 'k' && n[0] == 16 && !strcmp(planted, "lookup")) table[first] = 1;
    if (c->takes[0] == 'k' && n[0] == 16 && !strcmp(planted, "early"))
        for (i = 0; i < 16 && key[i] == 0; i++) table[i] = 1;
    if (c->takes[0] == 'k' && n[0] == 17 && !strcmp(planted, "refused") && first == 1) table[0] = 1;
    if (c->takes[1] == 'i' && n[1] == 80 && n[2] == 80 && !strcmp(planted, "part") && input[79] == 1) table[0] = 1;
    return run(c, direction, at, n);
}

static void wrong(const struct call *c, const size_t n[3], const char *what)
{
    printf("FAILED: %s, lengths %zu %zu %zu: %s\n", c->name, n[0], n[1], last_of(c) == 2 ? n[2] : 0, what);
    exit(1);
}

/* Marks buffer b; of a key with a right length all but one bit, which is set. A key of zeros has nothing to hide. */
static void mark(const struct call *c, int b, const size_t n[3], size_t bit)
{
    uint8_t *bytes = (uint8_t *)buffer[b], marks;

    if (c->takes[b] == 'k' && size_for(c, n[0]) && all_zero(bytes, n[0])) return;
    (void)VALGRIND_MAKE_MEM_UNDEFINED(bytes, n[b] * element(c, b));
    if (c->takes[b] != 'k' || !size_for(c, n[0])) return;
    marks = (uint8_t)~(1 << bit % 8);
    (void)VALGRIND_SET_VBITS(bytes + bit / 8, &marks, 1);
}

/* Where the one known bit of a key stands in its schedule: what differs between the words of zeros and of this bit. */
static void copies_of(const struct call *c, size_t bit, const struct size *z, uint8_t *copies)
{
    static uint64_t none[LONGEST];
    uint8_t keys[MOST_KEYS] = {0};
    size_t i;

    make_schedule(c->w, keys, z->rounds, none);
    keys[bit / 8] = (uint8_t)(1 << bit % 8);
    make_schedule(c->w, keys, z->rounds, copies);
    for (i = 0; i < z->words * c->w->word; i++) copies[i] ^= ((uint8_t *)none)[i];
}

/* The number must be the expected one, and known without the secrets; every bit written must depend on them, but for
   the copies of a key's known bit. */
static void watch_bit(const struct call *c, uint32_t direction, const size_t n[3], size_t bit)
{
    static uint64_t right[LONGEST];
    static uint8_t marks[8 * LONGEST], copies[8 * LONGEST];
    void *const at[3] = {buffer[0], buffer[1], buffer[2]};
    int last = last_of(c), b;
    size_t size = n[last] * element(c, last), i;
    uint32_t expected = number(c, direction, at, n);

    for (b = 0; b <= last; b++) mark(c, b, n, bit);
    if (with_fault(c, direction, at, n) != expected) wrong(c, n, "wrong number");
    watched++;
    zeros += expected == 6;
    if (expected == 0) {
        answered++;
        memset(copies, 0, sizeof copies);
        if (c->gives == SCHEDULE) copies_of(c, bit, size_for(c, n[0]), copies);
        if (VALGRIND_GET_VBITS(buffer[last], marks, size) == 1)
            for (i = 0; i < size; i++)
                if ((marks[i] | copies[i]) != 0xff) wrong(c, n, "wrote a bit that depends on no secret: marks were lost");
    }
    for (b = 0; b <= last; b++) (void)VALGRIND_MAKE_MEM_DEFINED(buffer[b], n[b] * element(c, b));
    if (expected == 0) {
        content(c, direction, at, n, right);
        if (memcmp(buffer[last], right, size)) wrong(c, n, "wrong content");
    }
    memcpy(buffer, held, sizeof buffer);
}

/* With the next bit of a key known to be set. */
static void watch(const struct call *c, uint32_t direction, const size_t n[3])
{
    static size_t next;
    size_t bit = c->takes[0] == 'k' && n[0] ? next++ % (8 * n[0]) : 0;

    if (c->takes[0] == 'k') ((uint8_t *)buffer[0])[bit / 8] |= (uint8_t)(1 << bit % 8);
    watch_bit(c, direction, n, bit);
}

/* One buffer at each length, the others right; input and output at each length together, so that there are parts of a
   batch, several batches, and both; then all buffers at each of the lengths around the limits. */
static void watch_lengths(const struct call *c, uint32_t direction)
{
    static const size_t around[] = {0,  1,  3,  4,  15, 16, 17, 24,  31,  32,  33, 48,
                                    63, 64, 65, 87, 88, 89, 104, 119, 120, 121, 128};
    size_t count = sizeof around / sizeof around[0], n[3] = {0}, z, i, j, k;
    int b, other;

    for (z = 0; z < SIZES; z++)
        for (b = 0; b <= last_of(c) + (c->takes[1] == 'i'); b++)
            for (i = 0; i <= LONGEST; i++) {
                for (other = 0; other <= last_of(c); other++)
                    n[other] = right_length(c, other, &sizes[z], c->w->slots);
                if (b <= last_of(c)) n[b] = i;
                else n[1] = n[2] = i;
                watch(c, direction, n);
            }
    for (i = 0; i < count; i++)
        for (j = 0; j < count; j++)
            for (k = 0; k < (last_of(c) == 2 ? count : 1); k++) {
                n[0] = around[i], n[1] = around[j], n[2] = around[k];
                watch(c, direction, n);
            }
}

/* Every bit of a key in turn known to be set, the lengths right; and a key of zeros. */
static void watch_bits(const struct call *c, uint32_t direction)
{
    size_t n[3] = {0}, z, bit;
    int b;

    for (z = 0; z < SIZES; z++) {
        for (b = 0; b <= last_of(c); b++) n[b] = right_length(c, b, &sizes[z], c->w->slots);
        for (bit = 0; bit < 8 * n[0]; bit++) watch(c, direction, n);
        memset(buffer[0], 0, n[0]);
        watch_bit(c, direction, n, 0);
    }
}

int main(int argc, char **argv)
{
    static const uint32_t directions[] = {0, 1, 2, UINT32_MAX};
    const char *missed = plain_begin();
    uint64_t state = 197;
    size_t call, d, b, i;

    if (missed) return printf("FAILED: the plain AES itself, at %s\n", missed), 1;
    if (argc > 1) planted = argv[1];
    for (b = 0; b < 3; b++)
        for (i = 0; i < LONGEST; i++) buffer[b][i] = held[b][i] = random64(&state);
    for (call = 0; call < (*planted ? 1 : CALLS); call++) /* the door is enough to see a planted fault */
        for (d = 0; d < (calls[call].gives == AS_DIRECTED ? sizeof directions / sizeof directions[0] : 1); d++)
        {
            watch_lengths(&calls[call], directions[d]);
            if (calls[call].takes[0] == 'k') watch_bits(&calls[call], directions[d]);
        }
    if (!*planted)
        printf("%lu calls with keys, schedules and blocks marked, %lu of them answered, %lu refused for a key of zeros\n",
               watched, answered, zeros);
    return 0;
}
