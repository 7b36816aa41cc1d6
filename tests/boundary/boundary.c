/*
 * Every exported function at every length, against guard pages.
 *
 * Each buffer has room of its own between two pages that nobody may touch, and lies against either of them, so that one
 * byte too far is a fault, in the library too, which no sanitizer was compiled into. The rooms can only be read, but for
 * the output's where the call is to be answered: so a refusal that writes is a fault as well, even if it puts back what
 * was there. The number and what an answered call wrote are judged by calls.h.
 */
#define _GNU_SOURCE
#include <signal.h>
#include <stdio.h>
#include <stdlib.h>
#include <sys/mman.h>

#include "calls.h"

#define PAGE 4096u
#define ROOM (MOST_WRITTEN + PAGE)
#define HUGE ((size_t)1 << 32) /* a length that a 32-bit number would lose */

static unsigned char *room[3];      /* each buffer's room */
static unsigned char held[3][ROOM]; /* what it holds between calls: schedules whose slots differ among it */
static unsigned char *wide;         /* room for HUGE elements and some, zero behind its first page, never all touched */
static unsigned long tried, answered[7];
static struct {
    const struct call *c;
    uint32_t direction;
    const size_t *n;
    uint32_t expected;
    long answer; /* or -1, before there is one */
} now; /* the call under way, for the report of a fault */
/* What the first buffer holds: what its room holds, a key of zeros, or the schedule of a key. */
static enum { AS_HELD, ZEROS, EXPANDED } first;

/* A buffer lies at its room's beginning, one element after it, at the room's end, nowhere (null), or in `wide`. */
enum place { BEGIN, ODD, END, NOWHERE, WIDE };

static void wrong(const char *what)
{
    static const char *const of[] = {"", "of zeros ", "expanded "};

    printf("FAILED: %s, direction %lu, lengths %s%zu %zu %zu: %s (answer %ld, expected %lu)\n", now.c->name,
           (unsigned long)now.direction, of[first], now.n[0], now.n[1], last_of(now.c) == 2 ? now.n[2] : 0, what,
           now.answer, (unsigned long)now.expected);
    fflush(stdout);
    _Exit(1);
}

static void fault(int signal, siginfo_t *info, void *context)
{
    const unsigned char *at = info->si_addr;
    int b;

    (void)signal, (void)context;
    for (b = 0; b <= last_of(now.c); b++)
        if (at >= room[b] && at < room[b] + ROOM)
            wrong(b < last_of(now.c) ? "an input written" : "a refusal that writes");
    wrong("touched memory that it was not lent");
}

/* Room b alone can be written, or with -1 none. */
static void allow(int b)
{
    static int allowed = -1;

    if (b == allowed) return;
    if ((allowed >= 0 && mprotect(room[allowed], ROOM, PROT_READ)) ||
        (b >= 0 && mprotect(room[b], ROOM, PROT_READ | PROT_WRITE))) perror("mprotect"), exit(2);
    allowed = b;
}

/* One call, and where it is answered a second one over other contents of the output: both must write what is right. */
static void judge(const struct call *c, uint32_t direction, const size_t n[3], void *const at[3], unsigned char *out)
{
    static unsigned char right[MOST_WRITTEN];
    unsigned char *before;
    int last = last_of(c), again;
    size_t size = n[last] * element(c, last), i;

    now.c = c, now.direction = direction, now.n = n;
    now.expected = number(c, direction, at, n);
    allow(now.expected == 0 ? last : -1);
    if (now.expected == 0) content(c, direction, at, n, right);
    for (again = 0; again < 2; again++) {
        now.answer = -1;
        now.answer = run(c, direction, at, n);
        tried++;
        if (now.answer != (long)now.expected) wrong("wrong number");
        answered[now.expected]++;
        if (now.expected != 0) return;
        if (memcmp(out, right, size)) wrong("wrong content");
        before = held[last] + (out - room[last]);
        memcpy(out, before, size);
        if (memcmp(room[last], held[last], ROOM)) wrong("written outside the output");
        for (i = 0; i < size && !again; i++) out[i] = (unsigned char)~before[i];
    }
}

/* The first buffer's content where it is not what its room holds. */
static void hold(const struct call *c, size_t n, unsigned char *at)
{
    const struct size *z = size_for(c, n);
    uint8_t keys[MOST_KEYS];

    allow(0);
    if (first == ZEROS) memset(at, 0, n);
    if (first != EXPANDED || !z) return;
    key_expansion(held[1], z->key, keys);
    make_schedule(c->w, keys, z->rounds, at);
}

static void try(const struct call *c, uint32_t direction, const size_t n[3], const enum place place[3])
{
    unsigned char *lies[3] = {0};
    void *at[3] = {0};
    int b;

    for (b = 0; b <= last_of(c); b++) {
        lies[b] = place[b] == WIDE ? wide : room[b];
        if (place[b] == END) lies[b] += ROOM - n[b] * element(c, b);
        if (place[b] == ODD) lies[b] += element(c, b);
        at[b] = place[b] == NOWHERE ? NULL : lies[b];
    }
    if (first != AS_HELD) hold(c, n[0], lies[0]);
    judge(c, direction, n, at, lies[last_of(c)]);
    if (first != AS_HELD) allow(0), memcpy(lies[0], held[0] + (lies[0] - room[0]), n[0] * element(c, 0));
}

/* One choice of lengths, at the rooms' beginnings and ends, with null for each length of 0, and off any alignment. */
static void try_places(const struct call *c, uint32_t direction, const size_t n[3])
{
    static const enum place begin[3] = {BEGIN, BEGIN, BEGIN}, end[3] = {END, END, END}, odd[3] = {ODD, ODD, ODD};
    const enum place null[3] = {n[0] ? END : NOWHERE, n[1] ? BEGIN : NOWHERE, n[2] ? END : NOWHERE};

    try(c, direction, n, begin);
    try(c, direction, n, end);
    if (!n[0] || !n[1] || !n[2]) try(c, direction, n, null);
    if (!now.expected) try(c, direction, n, odd);
}

/* Lengths for buffer b where the others have the lengths n: 0, and each right one with an element, and for blocks a block,
   beside. */
static size_t lengths(const struct call *c, int b, const size_t n[3], size_t *to)
{
    static const int beside[] = {0, -1, 1, -16, 16};
    const size_t besides = b ? 5 : 3;
    size_t count = 0, right, last = 0, i, z;

    to[count++] = 0;
    for (z = 0; z < SIZES && b <= last_of(c); z++, last = right) {
        right = right_length(c, b, &sizes[z], n[b == 1 ? 2 : 1] / 16);
        for (i = 0; i < besides && right != last; i++)
            if ((long)right + beside[i] > 0) to[count++] = right + (size_t)beside[i];
    }
    return count;
}

/* Buffers a and b take every length of the list together; a third buffer its right ones, and wrong ones beside. */
static void try_pair(const struct call *c, uint32_t direction, int a, int b, const size_t *list, size_t count)
{
    int third = 3 - a - b;
    size_t others[5 * SIZES + 1], n[3] = {0}, t, i, j;

    for (i = 0; i < count; i++)
        for (j = 0; j < count; j++) {
            n[a] = list[i];
            n[b] = list[j];
            for (t = lengths(c, third, n, others); t-- > 0;) {
                n[third] = others[t];
                try_places(c, direction, n);
            }
        }
}

/* The longest inputs that are taken and those beside, some that are shorter, and outputs of each of these lengths. */
static void try_most(const struct call *c, uint32_t direction)
{
    static const size_t most[] = {0,     16,    64,    4096,  4097,  32776, 65519, 65520,
                                  65521, 65535, 65536, 65537, 65551, 65552, 65553};

    try_pair(c, direction, 1, 2, most, sizeof most / sizeof most[0]);
}

/* Schedules of keys, at right lengths. */
static void try_expanded(const struct call *c)
{
    static const size_t blocks[] = {1, 2, 3, 4, 5, 6, 7, 8, 9, 12, 13, MOST_BLOCKS - 1, MOST_BLOCKS};
    size_t n[3], i, z;
    int b;

    first = EXPANDED;
    for (z = 0; z < SIZES; z++)
        for (i = 0; i < sizeof blocks / sizeof blocks[0]; i++) {
            for (b = 0; b <= last_of(c); b++) n[b] = right_length(c, b, &sizes[z], blocks[i]);
            try_places(c, 0, n);
        }
    first = AS_HELD;
}

/* A key of zeros at each length from 0 to 40; with it every length of a schedule, and lengths of blocks and beside. */
static void try_zeros(const struct call *c, uint32_t direction, const size_t *list, size_t count)
{
    static const size_t blocks[] = {0, 16, 63, 64, 65536, 65552};
    const size_t some = sizeof blocks / sizeof blocks[0];
    size_t n[3] = {0}, i;

    first = ZEROS;
    for (; n[0] <= 40; n[0]++)
        for (i = 0; i < (last_of(c) == 2 ? some * some : count); i++) {
            n[1] = last_of(c) == 2 ? blocks[i % some] : list[i];
            n[2] = last_of(c) == 2 ? blocks[i / some] : 0;
            try_places(c, direction, n);
        }
    first = AS_HELD;
}

/* Some buffers, and all, longer than a number of 16 or 32 bits can say, by a right length; the others right. */
static void try_long(const struct call *c, uint32_t direction)
{
    int some, b;
    size_t n[3] = {0}, k, z;

    for (some = 1; some < 2 << last_of(c); some++) /* a bit for each buffer */
        for (z = 0; z < SIZES; z++)
            for (k = 65536; k <= HUGE; k *= 65536) {
                enum place place[3] = {BEGIN, BEGIN, BEGIN};
                for (b = 0; b <= last_of(c); b++) {
                    n[b] = right_length(c, b, &sizes[z], c->w->slots);
                    if (some >> b & 1) n[b] += k, place[b] = WIDE;
                }
                try(c, direction, n, place);
            }
}

static unsigned char *map(size_t size, int protection)
{
    return mmap(NULL, size, protection, MAP_PRIVATE | MAP_ANONYMOUS | MAP_NORESERVE, -1, 0);
}

int main(void)
{
    static const uint32_t directions[] = {0, 1, 2, 3, 4, 256, 257, 65537, UINT32_MAX};
    /* Lengths: a byte's worth too far by a right length, and then each up to 13 blocks; those of the first buffer to 130. */
    size_t list[8 + 209] = {256 + 3, 256 + 16, 256 + 32, 256 + 64, 256 + 88, 256 + 120, 511, 512};
    const size_t count = sizeof list / sizeof list[0], short_count = 8 + 131;
    size_t call, d, i;
    const char *missed = plain_begin();
    struct sigaction report = {0};
    uint64_t state = 197;
    int b;

    if (missed) return printf("FAILED: the plain AES itself, at %s\n", missed), 1;
    report.sa_sigaction = fault;
    report.sa_flags = SA_SIGINFO;
    if (sigaction(SIGSEGV, &report, NULL) || sigaction(SIGBUS, &report, NULL)) return perror("sigaction"), 2;
    for (i = 8; i < count; i++) list[i] = i - 8;
    for (b = 0; b < 3; b++) {
        unsigned char *all = map(PAGE + ROOM + PAGE, PROT_NONE);
        if (all == MAP_FAILED || mprotect(all + PAGE, ROOM, PROT_READ | PROT_WRITE)) return perror("mmap"), 2;
        room[b] = all + PAGE;
        for (i = 0; i < ROOM; i++) held[b][i] = (unsigned char)random64(&state);
        memcpy(room[b], held[b], ROOM);
        if (mprotect(room[b], ROOM, PROT_READ)) return perror("mprotect"), 2;
    }
    wide = map(8 * (HUGE + 256), PROT_READ);
    if (wide == MAP_FAILED) {
        printf("skipped: lengths beyond 2^16 and 2^32, since 34 GB of address space are not to be had\n");
    } else { /* so that a key cut short there is not zeros */
        if (mprotect(wide, PAGE, PROT_READ | PROT_WRITE)) return perror("mprotect"), 2;
        memcpy(wide, held[0], PAGE);
        if (mprotect(wide, PAGE, PROT_READ)) return perror("mprotect"), 2;
    }

    for (call = 0; call < CALLS; call++)
        for (d = 0; d < (calls[call].gives == AS_DIRECTED ? sizeof directions / sizeof directions[0] : 1); d++) {
            try_pair(&calls[call], directions[d], 0, 1, list, short_count);
            if (calls[call].takes[1] == 'i') {
                try_pair(&calls[call], directions[d], 0, 2, list, short_count);
                try_pair(&calls[call], directions[d], 1, 2, list, count);
                try_most(&calls[call], directions[d]);
                if (calls[call].takes[0] == 's') try_expanded(&calls[call]);
            }
            if (calls[call].takes[0] == 'k') try_zeros(&calls[call], directions[d], list, short_count);
            if (wide != MAP_FAILED) try_long(&calls[call], directions[d]);
        }
    for (i = 0; i < 7; i++)
        if (!answered[i]) return printf("FAILED: the answer %zu was never met\n", i), 1;
    printf("ok boundary: %lu calls; answers 0 to 6: %lu %lu %lu %lu %lu %lu %lu\n", tried, answered[0], answered[1],
           answered[2], answered[3], answered[4], answered[5], answered[6]);
    return 0;
}
