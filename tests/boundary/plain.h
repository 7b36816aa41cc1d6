/*
 * The judge: AES byte by byte from FIPS-197 and CMAC of a block from SP 800-38B (their sections beside each part), and
 * docs/SCOPE.md's layout and rule for reading a schedule. It shares nothing with the library. Nothing is typed in that
 * can be computed, and the standards' examples judge the judge first: plain_begin() answers the first that it misses.
 */
#ifndef PLAIN_H
#define PLAIN_H

#include <stddef.h>
#include <stdint.h>
#include <string.h>

/* A key's bytes, its rounds, the words of its schedule. What the library takes; the functions here take AES-192 too. */
struct size {
    size_t key, rounds, words;
};
static const struct size sizes[] = {{16, 10, 88}, {32, 14, 120}};

/* A word's bytes, the slots, and the bits of a row and of a quarter row. */
struct width {
    size_t word, slots, row, quarter;
};
static const struct width w32 = {4, 2, 8, 2}, w64 = {8, 4, 16, 4};

enum { SIZES = sizeof sizes / sizeof sizes[0], MOST_KEYS = 16 * 15 /* bytes of AES-256's round keys */ };

static uint8_t sbox[256], inv_sbox[256], product[16][256];

static inline uint8_t times(uint8_t a, uint8_t b) /* 4.2: the product in the field */
{
    uint8_t sum = 0;
    for (; b; b >>= 1, a = (uint8_t)(a << 1 ^ (a >> 7) * 0x1b)) sum ^= b & 1 ? a : 0;
    return sum;
}

static inline void make_tables(void) /* 5.1.1: the inverse (of zero: zero), then the affine map */
{
    int a, b, k;
    for (a = 0; a < 256; a++) {
        uint8_t inverse = 0, s = 0x63;
        for (b = 0; b < 256; b++) if (times((uint8_t)a, (uint8_t)b) == 1) inverse = (uint8_t)b;
        for (k = 0; k < 5; k++) s ^= (uint8_t)(inverse << k | inverse >> (8 - k));
        sbox[a] = s;
        inv_sbox[s] = (uint8_t)a;
        for (b = 0; b < 16; b++) product[b][a] = times((uint8_t)a, (uint8_t)b);
    }
}

static inline void key_expansion(const uint8_t *key, size_t n, uint8_t *keys) /* 5.2; n bytes are Nk = n / 4 words */
{
    uint8_t t[4], constant = 1;
    size_t i, j;

    memcpy(keys, key, n);
    for (i = n; i < 16 * (n / 4 + 7); i += 4) {
        for (j = 0; j < 4; j++) t[j] = keys[i - 4 + (i % n == 0 ? (j + 1) % 4 : j)];
        if (i % n == 0 || (n > 24 && i % n == 16))
            for (j = 0; j < 4; j++) t[j] = sbox[t[j]];
        if (i % n == 0) t[0] ^= constant, constant = times(constant, 2);
        for (j = 0; j < 4; j++) keys[i + j] = keys[i - n + j] ^ t[j];
    }
}

static inline void shift_rows(uint8_t *s, size_t count) /* 5.1.2, so many times; 5.3.1 is three times */
{
    uint8_t t[16];
    size_t n;
    memcpy(t, s, 16);
    for (n = 0; n < 16; n++) s[n] = t[(n + 4 * count * (n % 4)) % 16];
}

static inline void mix_columns(uint8_t *s, uint8_t a, uint8_t b, uint8_t c, uint8_t d) /* 5.1.3 and 5.3.3 */
{
    uint8_t t[16];
    size_t n, m;
    memcpy(t, s, 16);
    for (n = 0; n < 16; n += 4)
        for (m = 0; m < 4; m++)
            s[n + m] = product[a][t[n + m]] ^ product[b][t[n + (m + 1) % 4]] ^ product[c][t[n + (m + 2) % 4]] ^
                       product[d][t[n + (m + 3) % 4]];
}

static inline void add(uint8_t *s, const uint8_t *bytes) /* 5.1.4 */
{
    size_t n;
    for (n = 0; n < 16; n++) s[n] ^= bytes[n];
}

static inline void substitute(uint8_t *s, const uint8_t *box) /* 5.1.1 and 5.3.2 */
{
    size_t n;
    for (n = 0; n < 16; n++) s[n] = box[s[n]];
}

static inline void cipher(uint8_t *s, const uint8_t *keys, size_t rounds) /* 5.1 */
{
    size_t r;
    add(s, keys);
    for (r = 1; r <= rounds; r++) {
        substitute(s, sbox);
        shift_rows(s, 1);
        if (r < rounds) mix_columns(s, 2, 3, 1, 1);
        add(s, keys + 16 * r);
    }
}

static inline void inv_cipher(uint8_t *s, const uint8_t *keys, size_t rounds) /* 5.3 */
{
    size_t r;
    add(s, keys + 16 * rounds);
    for (r = rounds; r-- > 0;) {
        shift_rows(s, 3);
        substitute(s, inv_sbox);
        add(s, keys + 16 * r);
        if (r) mix_columns(s, 14, 11, 13, 9);
    }
}

static inline void twice(uint8_t *s) /* SP 800-38B, 6.1: left by one bit, and R_128 where the first bit was set */
{
    int first = s[0] >> 7;
    size_t n;
    for (n = 0; n < 16; n++) s[n] = (uint8_t)(s[n] << 1 | (n < 15 ? s[n + 1] >> 7 : 0));
    if (first) s[15] ^= 0x87;
}

static inline void tag(uint8_t *s, const uint8_t *keys, size_t rounds) /* SP 800-38B, 6.2, of one complete block */
{
    uint8_t k1[16] = {0};
    cipher(k1, keys, rounds);
    twice(k1);
    add(s, k1);
    cipher(s, keys, rounds);
}

/* SCOPE, "Layout": the bit of each of eight words in which byte n of a slot's block stands. */
static inline size_t place(const struct width *w, size_t n, size_t slot)
{
    return w->row * (n % 4) + w->quarter * (n / 4) + slot;
}

static inline uint64_t get_word(const struct width *w, const void *words, size_t i)
{
    uint32_t narrow;
    uint64_t wide;
    if (w->word == 8) return memcpy(&wide, (const char *)words + 8 * i, 8), wide;
    return memcpy(&narrow, (const char *)words + 4 * i, 4), narrow;
}

static inline void set_word(const struct width *w, void *words, size_t i, uint64_t wide)
{
    uint32_t narrow = (uint32_t)wide;
    if (w->word == 8) memcpy((char *)words + 8 * i, &wide, 8);
    else memcpy((char *)words + 4 * i, &narrow, 4);
}

/* SCOPE, "Reading a schedule": a slot's round keys. */
static inline void read_schedule(const struct width *w, const void *words, size_t rounds, size_t slot, uint8_t *keys)
{
    size_t r, n, p;
    for (r = 0; r <= rounds; r++, keys += 16) {
        for (n = 0; n < 16; n++) keys[n] = r ? 0x63 : 0;
        for (p = 0; p < 8; p++) {
            uint64_t word = get_word(w, words, 8 * r + p);
            for (n = 0; n < 16; n++) keys[n] ^= (uint8_t)((word >> place(w, n, slot) & 1) << p);
        }
        if (r < rounds) shift_rows(keys, r % 4);
    }
}

/* The same backwards: the words that read so in every slot. */
static inline void make_schedule(const struct width *w, const uint8_t *keys, size_t rounds, void *words)
{
    size_t r, n, p, slot;
    for (r = 0; r <= rounds; r++) {
        uint8_t held[16];
        memcpy(held, keys + 16 * r, 16);
        if (r < rounds) shift_rows(held, 4 - r % 4);
        for (p = 0; p < 8; p++) {
            uint64_t word = 0;
            for (n = 0; n < 16; n++)
                for (slot = 0; slot < w->slots; slot++)
                    word |= (uint64_t)((held[n] ^ (r ? 0x63 : 0)) >> p & 1) << place(w, n, slot);
            set_word(w, words, 8 * r + p, word);
        }
    }
}

/* Makes the tables; NULL, or the example that does not come out. */
static inline const char *plain_begin(void)
{
    /* The examples' key and plaintext count up; B's are A.1's. Beside: ciphertexts and A's last round keys. */
    static const uint8_t b_key[] = "\x2b\x7e\x15\x16\x28\xae\xd2\xa6\xab\xf7\x15\x88\x09\xcf\x4f\x3c";
    static const uint8_t b_plain[] = "\x32\x43\xf6\xa8\x88\x5a\x30\x8d\x31\x31\x98\xa2\xe0\x37\x07\x34";
    static const uint8_t b_cipher[] = "\x39\x25\x84\x1d\x02\xdc\x09\xfb\xdc\x11\x85\x97\x19\x6a\x0b\x32";
    static const uint8_t b_last[] = "\xd0\x14\xf9\xa8\xc9\xee\x25\x89\xe1\x3f\x0c\xc8\xb6\x63\x0c\xa6";
    static const uint8_t c_cipher[3][17] = {"\x69\xc4\xe0\xd8\x6a\x7b\x04\x30\xd8\xcd\xb7\x80\x70\xb4\xc5\x5a",
                                            "\xdd\xa9\x7c\xa4\x86\x4c\xdf\xe0\x6e\xaf\x70\xa0\xec\x0d\x71\x91",
                                            "\x8e\xa2\xb7\xca\x51\x67\x45\xbf\xea\xfc\x49\x90\x4b\x49\x60\x89"};
    /* SP 800-38B, D.1: the key is B's, and the tag that of example 2; in D.3, whose L has the first bit set, K1. */
    static const uint8_t d_message[] = "\x6b\xc1\xbe\xe2\x2e\x40\x9f\x96\xe9\x3d\x7e\x11\x73\x93\x17\x2a";
    static const uint8_t d_tag[] = "\x07\x0a\x16\xb4\x6b\x4d\x41\x44\xf7\x9b\xdd\x9d\xd0\x4a\x28\x7c";
    static const uint8_t d_l[] = "\xe5\x68\xf6\x81\x94\xcf\x76\xd6\x17\x4d\x4c\xc0\x43\x10\xa8\x54";
    static const uint8_t d_k1[] = "\xca\xd1\xed\x03\x29\x9e\xed\xac\x2e\x9a\x99\x80\x86\x21\x50\x2f";
    /* P1 to P4: a block's byte, and the one word that it gives. */
    static const struct {
        const struct width *w;
        size_t block, n;
        uint8_t byte;
        size_t at;
        uint64_t word;
    } p[] = {{&w32, 0, 0, 0x01, 0, 0x1}, {&w32, 1, 15, 0x80, 7, 0x80000000},
             {&w64, 2, 6, 0x04, 2, 0x4000000000}, {&w64, 3, 15, 0x80, 7, 0x8000000000000000}};
    /* P9 and P10: words 8 and on of the 32-bit schedules of 16 and of 32 zero bytes. */
    static const uint32_t p9[] = {0xff, 0, 0, 0, 0, 0, 0, 0};
    static const uint32_t p10[] = {UINT32_MAX, UINT32_MAX, 0, 0, 0, UINT32_MAX, UINT32_MAX, 0, 0xff};
    uint8_t keys[MOST_KEYS], back[MOST_KEYS], count[32], plain[16], s[16];
    uint64_t schedule[120];
    size_t i, n, slot;

    make_tables();
    if (sbox[0x00] != 0x63 || sbox[0x53] != 0xed || times(0x57, 0x83) != 0xc1) return "P5 or P6";
    key_expansion(b_key, 16, keys);
    if (memcmp(keys + 160, b_last, 16)) return "FIPS-197 A.1";
    memcpy(s, b_plain, 16);
    cipher(s, keys, 10);
    if (memcmp(s, b_cipher, 16)) return "FIPS-197 B";
    memcpy(s, d_message, 16);
    tag(s, keys, 10);
    if (memcmp(s, d_tag, 16)) return "SP 800-38B D.1";
    memcpy(s, d_l, 16);
    twice(s);
    if (memcmp(s, d_k1, 16)) return "SP 800-38B D.3";
    for (i = 0; i < 32; i++) count[i] = (uint8_t)i;
    for (i = 0; i < 16; i++) plain[i] = (uint8_t)(i * 0x11);
    for (n = 16; n <= 32; n += 8) {
        key_expansion(count, n, keys);
        memcpy(s, plain, 16);
        cipher(s, keys, n / 4 + 6);
        if (memcmp(s, c_cipher[n / 8 - 2], 16)) return "FIPS-197 C, the cipher";
        inv_cipher(s, keys, n / 4 + 6);
        if (memcmp(s, plain, 16)) return "FIPS-197 C, the inverse cipher";
        for (slot = 0; slot < 2 + 4; slot++) { /* the words made of a key read as its round keys, in each slot */
            const struct width *w = slot < 2 ? &w32 : &w64;
            make_schedule(w, keys, n / 4 + 6, schedule);
            read_schedule(w, schedule, n / 4 + 6, slot < 2 ? slot : slot - 2, back);
            if (memcmp(back, keys, 16 * (n / 4 + 7))) return "reading a schedule";
        }
    }
    for (i = 0; i < sizeof p / sizeof p[0]; i++)
        for (slot = 0; slot < p[i].w->slots; slot++) {
            memset(schedule, 0, sizeof schedule);
            memset(s, 0, 16);
            set_word(p[i].w, schedule, p[i].at, p[i].word);
            read_schedule(p[i].w, schedule, 10, slot, keys); /* key 0 is as it stands */
            if (slot == p[i].block) s[p[i].n] = p[i].byte;
            if (memcmp(keys, s, 16)) return "P1 to P4";
        }
    memset(count, 0, sizeof count);
    key_expansion(count, 16, keys);
    make_schedule(&w32, keys, 10, schedule);
    if (memcmp((uint32_t *)schedule + 8, p9, sizeof p9)) return "P9";
    key_expansion(count, 32, keys);
    make_schedule(&w32, keys, 14, schedule);
    if (memcmp((uint32_t *)schedule + 8, p10, sizeof p10)) return "P10";
    return NULL;
}

#endif
