/*
 * What a call leaves behind: every call runs on a painted stack, and afterwards the dead stack and the registers that a
 * call may change are looked at. A call that takes blocks runs with every number of them up to three batches.
 *
 *  - Compared: the same call with another key, and with other blocks. Whatever differs depends on a secret, and that
 *    decides.
 *  - Searched for, to say what it is: the key's bytes, FIPS-197's round keys, words of the schedule, the bitsliced
 *    states between any two steps of the rounds (each with any number of row shifts, with and without the 63), the bytes
 *    of CMAC's L and K1, those of the blocks, and what becomes of the zeros that fill up a part of a batch. It counts
 *    only where something differs. Addresses and the stack protector's canary are new in each process, and the same in
 *    all its calls; with the zeros beside them they can equal such a word by chance. (In one process of 16 a return
 *    address did: 00 00 f0 f3 is a word of this key's 32-bit schedule.)
 *
 * The door must leave nothing on the stack. What the other calls leave is only shown (stack show); behind the header's
 * helper neither stack nor registers may keep anything. A planted call for each kind, and the calls without the helper,
 * show that the scan finds; another, that it does not count what only looks like a schedule.
 */
#include <stdio.h>
#include <stdlib.h>
#include <string.h>

#include "../boundary/plain.h"
#include "calls.h"
#include "locker_aes.h"

enum { DEEP = 1 << 16, PAINT = 0xa5, MOST = 1 << 14 };

struct after {
    uint64_t plain[9];
    uint8_t xmm[256];
};
void on_stack(void *top, void (*call)(void), struct after *after);

uint8_t key[32], input[MOST_BYTES], output[MOST_BYTES];
uint32_t schedule32[120], answer;
uint64_t schedule64[120];
size_t key_len, words, length;

static uint64_t stack[DEEP / 8], dead[3][DEEP / 8]; /* as words, for the alignment */
static struct after registers, after[3]; /* one place for the call, so that no address differs */
static uint8_t keys[MOST_KEYS];

/* What is searched for: a kind's words, each of so many bytes, sorted; and how many different ones were seen. */
struct kind {
    const char *name;
    size_t size, count, seen;
    uint64_t word[MOST];
} kinds[] = {
    {.name = "schedule words"}, {.name = "key bytes"},   {.name = "round keys"},   {.name = "states"},
    {.name = "subkey bytes"},   {.name = "input bytes"}, {.name = "output bytes"}, {.name = "bytes from zeros"},
};
enum { SCHEDULE, KEY, ROUND_KEYS, STATES, SUBKEYS, INPUT, OUTPUT, FROM_ZEROS, KINDS };

static int order(const void *a, const void *b)
{
    const uint64_t *x = a, *y = b;
    return (*x > *y) - (*x < *y);
}

/* A word that is all zeros, all ones or paint says nothing. */
static void look_for(struct kind *k, const void *bytes)
{
    uint64_t word = 0, paint = 0x0101010101010101u * PAINT;
    memcpy(&word, bytes, k->size);
    if (word == 0 || word == (k->size == 8 ? UINT64_MAX : UINT32_MAX) || !memcmp(&paint, bytes, k->size)) return;
    if (k->count == MOST) printf("FAILED: too many words\n"), exit(1);
    k->word[k->count++] = word;
}

/* A state of each slot, packed as it may stand while the rounds go on. */
static void look_for_state(const struct width *w, uint8_t (*state)[16])
{
    size_t shifts, add, slot, n, p;
    for (shifts = 0; shifts < 4; shifts++)
        for (add = 0; add < 2; add++) {
            uint64_t packed[8] = {0};
            for (slot = 0; slot < w->slots; slot++) {
                uint8_t s[16];
                memcpy(s, state[slot], 16);
                shift_rows(s, shifts);
                for (n = 0; n < 16; n++)
                    for (p = 0; p < 8; p++)
                        packed[p] |= (uint64_t)((s[n] ^ (add ? 0x63 : 0)) >> p & 1) << place(w, n, slot);
            }
            for (p = 0; p < 8; p++) look_for(&kinds[STATES], &packed[p]);
        }
}

/* The states between any two steps. */
static void look_for_states(const struct width *w, int direction, const uint8_t *blocks, size_t rounds)
{
    uint8_t state[4][16];
    size_t r, slot, step;
    memcpy(state, blocks, 16 * w->slots);
    look_for_state(w, state);
    for (slot = 0; slot < w->slots; slot++) add(state[slot], keys + (direction ? 16 * rounds : 0));
    look_for_state(w, state);
    for (r = 1; r <= rounds; r++)
        for (step = 0; step < 4; step++) {
            const uint8_t *k = keys + 16 * (direction ? rounds - r : r);
            for (slot = 0; slot < w->slots; slot++) {
                uint8_t *s = state[slot];
                if (step == 0) direction ? shift_rows(s, 3) : substitute(s, sbox);
                if (step == 1) direction ? substitute(s, inv_sbox) : shift_rows(s, 1);
                if (step == 2 && direction) add(s, k);
                if (step == 2 && !direction && r < rounds) mix_columns(s, 2, 3, 1, 1);
                if (step == 3 && !direction) add(s, k);
                if (step == 3 && direction && r < rounds) mix_columns(s, 14, 11, 13, 9);
            }
            look_for_state(w, state);
        }
}

/* Encrypted zeros, which is CMAC's L, or decrypted ones. */
static void from_zeros(int direction, uint8_t *to)
{
    memset(to, 0, 16);
    (direction ? inv_cipher : cipher)(to, keys, key_len / 4 + 6);
}

/* CMAC's K1, which is twice L. */
static void subkey(uint8_t *to)
{
    from_zeros(0, to);
    twice(to);
}

/* Every four bytes that follow each other. */
static void look_for_bytes(size_t kind, const uint8_t *bytes, size_t n)
{
    for (size_t i = 0; i + 4 <= n; i++) look_for(&kinds[kind], bytes + i);
}

static void prepare(const struct call *call, const struct size *size)
{
    const struct width *w = call->bits == 32 ? &w32 : &w64;
    const size_t batch = 16 * w->slots, n = call->blocks ? length : 2 * batch;
    uint8_t worked[MOST_BYTES] = {0}, block[16]; /* worked on: the blocks, with zeros behind; or a check value's batches */
    size_t i, k;

    if (call->blocks) memcpy(worked, input, n);
    else subkey(worked + batch);
    for (k = 0; k < KINDS; k++) {
        kinds[k].count = kinds[k].seen = 0;
        kinds[k].size = k == SCHEDULE || k == STATES ? w->word : 4;
    }
    for (i = 0; i < words; i++)
        look_for(&kinds[SCHEDULE], w == &w32 ? (const void *)&schedule32[i] : (const void *)&schedule64[i]);
    look_for_bytes(KEY, key, size->key);
    for (i = size->key; i < 16 * (size->rounds + 1); i += 4) look_for(&kinds[ROUND_KEYS], keys + i);
    for (i = 0; i < n; i += batch) look_for_states(w, call->direction, worked + i, size->rounds);
    from_zeros(0, block), look_for_bytes(SUBKEYS, block, 16);
    subkey(block), look_for_bytes(SUBKEYS, block, 16);
    if (call->blocks) {
        look_for_bytes(INPUT, input, length);
        look_for_bytes(OUTPUT, output, length);
        from_zeros(call->direction, block), look_for_bytes(FROM_ZEROS, block, 16);
    }
    for (k = 0; k < KINDS; k++) qsort(kinds[k].word, kinds[k].count, 8, order);
}

/* Whether n bytes of the dead stack differ between the turns. */
static int depends(size_t at, size_t n)
{
    const uint8_t *searched = (const uint8_t *)dead + at;
    return memcmp(searched, searched + DEEP, n) || memcmp(searched, searched + 2 * DEEP, n);
}

/* Every such place that the last call came to, aligned or not. */
static void search(const struct call *call, const struct size *size, size_t deep)
{
    static uint8_t met[MOST];
    const uint8_t *bytes = (const uint8_t *)dead[0];
    size_t k, at;
    prepare(call, size);
    for (k = 0; k < KINDS; k++) {
        struct kind *kind = &kinds[k];
        memset(met, 0, sizeof met);
        for (at = DEEP - deep; at + kind->size <= DEEP; at++) {
            uint64_t word = 0, *hit;
            if (!depends(at, kind->size)) continue;
            memcpy(&word, bytes + at, kind->size);
            hit = bsearch(&word, kind->word, kind->count, 8, order);
            if (hit && !met[hit - kind->word]) met[hit - kind->word] = 1, kind->seen++;
        }
    }
}

/* Bytes, of two memories so long, that are not the same. */
static size_t differ(const void *a, const void *b, size_t n)
{
    const uint8_t *x = a, *y = b;
    size_t count = 0;
    while (n-- > 0) count += x[n] != y[n];
    return count;
}

static void bytes(uint64_t *seed, void *at, size_t n)
{
    for (uint8_t *b = at; n-- > 0; *seed = *seed * 6364136223846793005u + 1442695040888963407u) b[n] = *seed >> 56;
}

/* What one way of calling leaves. */
struct left {
    size_t deep, on_stack, in_registers;
};

/* The buffers for a turn: 2, another key; 1, other blocks; 0, the one that is searched. */
static void begin(int turn, const struct size *size)
{
    uint64_t key_seed = turn == 2 ? 9 : 1, block_seed = turn == 1 ? 8 : 2;
    key_len = size->key, words = size->words;
    bytes(&key_seed, key, sizeof key);
    bytes(&block_seed, input, sizeof input);
    memset(output, 0, sizeof output);
    key_expansion(key, key_len, keys);
    if (locker_aes_expand32(key, key_len, schedule32, words)) exit(2);
    if (locker_aes_expand64(key, key_len, schedule64, words)) exit(2);
}

static struct left run(void (*call)(void), const struct call *of, const struct size *size)
{
    struct left left = {0, 0, 0};
    uint8_t *low = (uint8_t *)stack;
    int turn;

    for (turn = 2; turn >= 0; turn--) {
        begin(turn, size);
        memset(stack, PAINT, sizeof stack);
        answer = 99;
        on_stack(stack + DEEP / 8, call, &registers);
        after[turn] = registers;
        memcpy(dead[turn], stack, sizeof stack);
        if (answer != LOCKER_AES_OK) printf("FAILED: %s answered %u\n", of->name, (unsigned)answer), exit(1);
    }
    while (low < (uint8_t *)(stack + DEEP / 8) && *low == PAINT) low++;
    left.deep = (size_t)((uint8_t *)(stack + DEEP / 8) - low);
    for (turn = 1; turn < 3; turn++) {
        left.on_stack += differ(dead[0], dead[turn], sizeof dead[0]);
        left.in_registers += differ(&after[0], &after[turn], sizeof after[0]);
    }
    return left;
}

static void say(const char *how, const struct call *call, const struct size *size, const struct left *left)
{
    search(call, size, left->deep);
    printf("%-12s AES-%zu %-7s", call->name, 8 * key_len, how);
    if (call->blocks) printf(" %2zu blocks", length / 16);
    printf(" %5zu deep;", left->deep);
    for (size_t k = 0; k < KINDS; k++)
        if (kinds[k].seen) printf(" %zu of %zu %s,", kinds[k].seen, kinds[k].count, kinds[k].name);
    printf(" %zu bytes of stack and %zu of registers depend on key or blocks\n", left->on_stack, left->in_registers);
}

/* The planted calls. What they leave is in a local, dead when they return. */
static void leave(const void *bytes, size_t n)
{
    uint8_t copy[8 * 120];
    memcpy(copy, bytes, n);
    __asm__ volatile("" : : "r"(copy) : "memory"); /* the compiler must take it that this is read */
    answer = 0;
}

static void plant_schedule(void) /* a door that does not erase */
{
    uint64_t schedule[120];
    answer = locker_aes_expand64(key, key_len, schedule, words);
    if (!answer) answer = locker_aes_encrypt64(schedule, words, input, length, output, length);
}

static void plant_key(void)
{
    leave(key, sizeof key);
}

static void plant_round_keys(void)
{
    leave(keys, sizeof keys);
}

static void plant_state(void) /* the state before the last round key of an encryption */
{
    uint64_t packed[8] = {0};
    for (size_t slot = 0; slot < 4; slot++) {
        uint8_t s[16];
        memcpy(s, input + 16 * slot, 16);
        cipher(s, keys, key_len / 4 + 6);
        add(s, keys + 16 * (key_len / 4 + 6));
        for (size_t n = 0; n < 16; n++)
            for (size_t p = 0; p < 8; p++) packed[p] |= (uint64_t)(s[n] >> p & 1) << place(&w64, n, slot);
    }
    leave(packed, sizeof packed);
}

static void plant_subkey(void)
{
    uint8_t k1[16];
    subkey(k1);
    leave(k1, sizeof k1);
}

static void plant_input(void)
{
    leave(input, 16);
}

static void plant_output(void)
{
    if (!locker_aes_encrypt64(schedule64, words, input, length, output, length)) leave(output, 16);
}

static void plant_from_zeros(void)
{
    uint8_t block[16];
    from_zeros(0, block);
    leave(block, sizeof block);
}

static uint64_t alike[120];
static void plant_alike(void) /* words that chance made equal to turn 0's schedule: the same in each turn */
{
    leave(alike, sizeof alike);
}

static int show;
static size_t deepest, bare, held;

static void wrong(const char *what, const struct call *c, const struct size *size, const struct left *left)
{
    say("leaves", c, size, left);
    printf("FAILED: %s\n", what);
    exit(1);
}

/* A call with so many blocks, without the helper and with it. */
static void look_at(const struct call *c, const struct size *size)
{
    struct left left = run(c->bare, c, size);

    if (show) say("bare", c, size, &left);
    if (strcmp(c->name, "large_frame") && left.deep > deepest) deepest = left.deep;
    held += left.in_registers;
    if (!c->door) bare += left.on_stack;
    else if (left.on_stack) wrong("the door leaves something on the stack", c, size, &left);

    left = run(c->cleared, c, size);
    if (show) say("cleared", c, size, &left);
    if (left.on_stack || left.in_registers) wrong("locker_aes_clear_stack() leaves something", c, size, &left);
}

int main(int argc, char **argv)
{
    static const struct {
        void (*call)(void);
        size_t least;
    } plants[KINDS] = {[SCHEDULE] = {plant_schedule, 80}, [KEY] = {plant_key, 13},
                       [ROUND_KEYS] = {plant_round_keys, 40}, [STATES] = {plant_state, 8},
                       [SUBKEYS] = {plant_subkey, 13}, [INPUT] = {plant_input, 13},
                       [OUTPUT] = {plant_output, 13}, [FROM_ZEROS] = {plant_from_zeros, 13}};
    static const struct call planted = {"planted", NULL, NULL, 64, 0, 1, 0};
    const char *fault = plain_begin();
    const struct size *size;
    struct left left;
    size_t i;

    if (fault) return printf("FAILED: the judge misses %s\n", fault), 1;
    show = argc > 1 && !strcmp(argv[1], "show");
    for (size = sizes; size < sizes + SIZES; size++) {
        length = 64;
        for (i = 0; i < KINDS; i++) {
            left = run(plants[i].call, &planted, size);
            search(&planted, size, left.deep);
            if (kinds[i].seen < plants[i].least) return printf("FAILED: planted %s are not found\n", kinds[i].name), 1;
        }
        begin(0, size);
        memcpy(alike, schedule64, sizeof alike);
        left = run(plant_alike, &planted, size);
        search(&planted, size, left.deep);
        if (left.on_stack || kinds[SCHEDULE].seen) wrong("what depends on no secret is counted", &planted, size, &left);
        for (i = 0; i < call_count; i++) /* a batch has as many bytes as a word bits */
            for (length = 16; length <= (calls[i].blocks ? 3 * (size_t)calls[i].bits : 16); length += 16)
                look_at(&calls[i], size);
    }
    if (!bare || !held) return printf("FAILED: without the helper nothing was found: the scan does not see\n"), 1;
    if (deepest > LOCKER_AES_STACK) return printf("FAILED: a call uses %zu bytes of stack\n", deepest), 1;
    printf("%zu\n", deepest);
    return 0;
}
