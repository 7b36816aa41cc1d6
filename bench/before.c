/* The library of an earlier commit (its symbols begin with before_) and this one's, in turns in one process: before RUNS.
 * It prints the best time of each, in ns, and their ratio: above 1 the later one is slower. Where that of before takes one
 * batch in a call and no more, the rows of one long call say so and have no ratio. See bench/before.sh. */
#include <stdint.h>
#include <stdio.h>
#include <stdlib.h>
#include <string.h>
#include <time.h>

enum { BLOCKS = 4096, BYTES = 16 * BLOCKS, BATCH = 64, KEYS = 1024, BAD_INPUT_LENGTH = 3 };

typedef uint32_t pack_fn(const uint8_t *, size_t, uint64_t *, size_t);
typedef uint32_t unpack_fn(const uint64_t *, size_t, uint8_t *, size_t);
typedef uint32_t expand_fn(const uint8_t *, size_t, uint64_t *, size_t);
typedef uint32_t crypt_fn(const uint64_t *, size_t, const uint8_t *, size_t, uint8_t *, size_t);
typedef uint32_t door_fn(uint32_t, const uint8_t *, size_t, const uint8_t *, size_t, uint8_t *, size_t);
pack_fn before_pack64, pack64;
unpack_fn before_unpack64, unpack64;
expand_fn before_locker_aes_expand64, locker_aes_expand64;
crypt_fn before_locker_aes_encrypt64, locker_aes_encrypt64, before_locker_aes_decrypt64, locker_aes_decrypt64;
door_fn before_locker_aes, locker_aes;

static struct side {
    const char *name;
    pack_fn *pack;
    unpack_fn *unpack;
    expand_fn *expand;
    crypt_fn *encrypt, *decrypt;
    door_fn *door;
} sides[2] = {
    {"before", before_pack64, before_unpack64, before_locker_aes_expand64, before_locker_aes_encrypt64, before_locker_aes_decrypt64,
     before_locker_aes},
    {"now", pack64, unpack64, locker_aes_expand64, locker_aes_encrypt64, locker_aes_decrypt64, locker_aes},
};

static uint8_t input[BYTES], output[BYTES], keys[32 * KEYS];
static uint64_t states[BYTES / 8], schedule[120];
static size_t key_len, words, piece; /* of the row that is run: the key's bytes, its schedule's words, the bytes of a call */
static uint32_t wrong;               /* the last answer that was not 0 */

static void answered(uint32_t answer)
{
    if (answer != 0)
        wrong = answer;
}

static void pack(const struct side *s)
{
    for (size_t i = 0; i < BYTES; i += piece)
        answered(s->pack(input + i, piece, states + i / 8, piece / 8));
}

static void unpack(const struct side *s)
{
    for (size_t i = 0; i < BYTES; i += piece)
        answered(s->unpack(states + i / 8, piece / 8, output + i, piece));
}

static void encrypt(const struct side *s)
{
    for (size_t i = 0; i < BYTES; i += piece)
        answered(s->encrypt(schedule, words, input + i, piece, output + i, piece));
}

static void decrypt(const struct side *s)
{
    for (size_t i = 0; i < BYTES; i += piece)
        answered(s->decrypt(schedule, words, input + i, piece, output + i, piece));
}

static void door(const struct side *s)
{
    for (size_t i = 0; i < BYTES; i += piece)
        answered(s->door(1, keys, key_len, input + i, piece, output + i, piece));
}

static void expand(const struct side *s)
{
    for (size_t i = 0; i < KEYS; i++)
        answered(s->expand(keys + 32 * i, key_len, schedule, words));
}

static double now(void)
{
    struct timespec t;
    clock_gettime(CLOCK_MONOTONIC, &t);
    return 1e9 * (double)t.tv_sec + (double)t.tv_nsec;
}

/* What is timed: a run writes `left`; key_len is 0 where no key is needed. A side that refuses is not timed. */
static struct row {
    const char *name;
    size_t key_len, piece;
    void (*run)(const struct side *);
    void *left;
    size_t size;
    int count;
    uint32_t refused[2]; /* the number of the refusal, or 0 */
    double best[2];
} rows[] = {
#define ROW(name, key_len, piece, run, left, size, count) {name, key_len, piece, run, left, size, count, {0, 0}, {0, 0}}
#define BLOCKS_ROW(name, key_len, piece, run) ROW(name, key_len, piece, run, output, sizeof output, BLOCKS)
    ROW("pack, a block", 0, BATCH, pack, states, sizeof states, BLOCKS),
    BLOCKS_ROW("unpack, a block", 0, BATCH, unpack),
    BLOCKS_ROW("AES-128 encrypt, a block", 16, BATCH, encrypt),
    BLOCKS_ROW("AES-128 decrypt, a block", 16, BATCH, decrypt),
    BLOCKS_ROW("AES-256 encrypt, a block", 32, BATCH, encrypt),
    BLOCKS_ROW("AES-256 decrypt, a block", 32, BATCH, decrypt),
    BLOCKS_ROW("AES-128 by the door, a block", 16, BATCH, door),
    BLOCKS_ROW("AES-256 by the door, a block", 32, BATCH, door),
    BLOCKS_ROW("AES-128 encrypt, a block, 4,096 in a call", 16, BYTES, encrypt),
    BLOCKS_ROW("AES-128 decrypt, a block, 4,096 in a call", 16, BYTES, decrypt),
    BLOCKS_ROW("AES-256 encrypt, a block, 4,096 in a call", 32, BYTES, encrypt),
    BLOCKS_ROW("AES-256 decrypt, a block, 4,096 in a call", 32, BYTES, decrypt),
    BLOCKS_ROW("AES-128 by the door, a block, 4,096 in a call", 16, BYTES, door),
    BLOCKS_ROW("AES-256 by the door, a block, 4,096 in a call", 32, BYTES, door),
    ROW("AES-128 expand, a key", 16, 0, expand, schedule, 8 * 88, KEYS),
    ROW("AES-256 expand, a key", 32, 0, expand, schedule, 8 * 120, KEYS),
};
enum { ROWS = sizeof rows / sizeof rows[0], ROUNDS = 10 };

/* The key of a row, expanded. */
static void set(const struct row *row)
{
    key_len = row->key_len;
    piece = row->piece;
    words = key_len == 16 ? 88 : 120;
    if (key_len != 0)
        answered(sides[0].expand(keys, key_len, schedule, words));
}

/* What side n has answered since the last look: 0, or the refusal that it may give. */
static uint32_t look(const struct row *row, int n, uint32_t may)
{
    uint32_t answer = wrong;
    wrong = 0;
    if (answer != 0 && answer != may) {
        fprintf(stderr, "FAILED: %s, %s answers %u\n", row->name, sides[n].name, (unsigned)answer);
        exit(1);
    }
    return answer;
}

/* Both sides must write the same bytes over zeros: where that of before takes a batch only, it gives them batch by batch. */
static void compare(struct row *row)
{
    static uint8_t answers[2][BYTES];
    for (int n = 0; n < 2; n++) {
        set(row);
        memset(row->left, 0, row->size);
        row->run(&sides[n]);
        row->refused[n] = look(row, n, n == 0 && piece > BATCH ? BAD_INPUT_LENGTH : 0);
        if (row->refused[n] != 0) {
            piece = BATCH;
            row->run(&sides[n]);
            look(row, n, 0);
        }
        memcpy(answers[n], row->left, row->size);
    }
    if (memcmp(answers[0], answers[1], row->size) != 0) {
        fprintf(stderr, "FAILED: %s, the two differ\n", row->name);
        exit(1);
    }
}

/* Some runs of a row in turns; each side begins every second time. */
static void turns(struct row *row, long runs)
{
    set(row);
    for (long r = 0; r < 2 * runs; r++) {
        int n = (int)((r ^ (r >> 1)) & 1);
        if (row->refused[n] != 0)
            continue;
        double start = now();
        row->run(&sides[n]);
        double took = now() - start;
        look(row, n, 0);
        if (row->best[n] == 0 || took < row->best[n])
            row->best[n] = took;
    }
}

int main(int argc, char **argv)
{
    long runs = argc > 1 ? atol(argv[1]) : 300;
    uint64_t x = 1;
    for (size_t i = 0; i < BYTES; i++) {
        x = x * 6364136223846793005u + 1442695040888963407u;
        input[i] = (uint8_t)(x >> 56);
        if (i < sizeof keys)
            keys[i] = (uint8_t)(x >> 48);
    }
    for (int i = 0; i < ROWS; i++)
        compare(&rows[i]);
    /* all rows again and again, so that what disturbs the machine for a while disturbs no row's every run */
    for (int round = 0; round < ROUNDS; round++)
        for (int i = 0; i < ROWS; i++)
            turns(&rows[i], (runs + ROUNDS - 1) / ROUNDS);
    printf("| | before | now | now/before |\n|---|---|---|---|\n");
    for (int i = 0; i < ROWS; i++) {
        const struct row *r = &rows[i];
        double before = r->best[0] / r->count, later = r->best[1] / r->count;
        if (r->refused[0] != 0)
            printf("| %s | answers %u | %.2f | |\n", r->name, (unsigned)r->refused[0], later);
        else
            printf("| %s | %.2f | %.2f | %.3f |\n", r->name, before, later, later / before);
    }
    return 0;
}
