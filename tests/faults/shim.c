/*
 * The library with one fault planted: every export passes on to the real function, which run.sh has renamed, and CALL
 * has FAULT. docs/FAULTS.md says what each fault is and which run must catch it. With FAULT none it is the library.
 */
#include <stdlib.h>
#include <string.h>

#include "locker_aes.h"

enum call { door, expand32, expand64, encrypt32, encrypt64, decrypt32, decrypt64, check32, check64 };
enum fault {
    none,
    /* what is written */
    other_direction, blocks_swapped, slots_swapped, end_unwritten, added_to_output, wrong_for_one_bit,
    wrong_for_one_slot, half_key, one_bit, slot_empty, last_key_shifted, nots_on_key_0,
    /* many blocks; with the last three each is worked on by the real call, in another slot */
    first_batch_only, part_dropped, part_as_batch, slot_0_for_all, slots_divided, part_at_end,
    /* the check value, made by the real encryption: encrypted zeros, the doubling, the subkey */
    old_value, no_87, bytes_turned, second_subkey, branches_on_carry,
    /* the number */
    output_tested_first, direction_tested_first, takes_one_more, cut_to_8, cut_to_16, cut_to_32, direction_cut,
    limit_one_less, limit_one_more, refuses_48, takes_none, output_untested,
    /* the test for a key of zeros, which ends at the first byte that is none in all of these */
    zeros_taken, zeros_tested_last, zeros_of_any_length, half_of_zeros, last_byte_skipped, exits_early,
    /* the buffers */
    refusal_writes, refusal_writes_at_one_length, refusal_writes_and_back, reads_past, reads_before, reads_nothing,
    writes_past, changes_input, changes_input_and_back,
    /* state */
    static_data, thread_data, allocates, system_call, exports_more,
    /* secrets */
    branches, branches_on_block, branches_on_part, branches_when_refused, looks_up, looks_up_by_block, leaves_schedule,
    leaves_part, large_stack,
};

/* The real functions. */
#define REAL(name) extern __typeof__(locker_aes##name) real_locker_aes##name;
REAL() REAL(_expand32) REAL(_expand64) REAL(_encrypt32) REAL(_encrypt64) REAL(_decrypt32) REAL(_decrypt64)
REAL(_check32) REAL(_check64)

static uint32_t real(enum call call, uint32_t direction, void *const at[3], const size_t n[3])
{
    switch (call) {
    case door: return real_locker_aes(direction, at[0], n[0], at[1], n[1], at[2], n[2]);
    case expand32: return real_locker_aes_expand32(at[0], n[0], at[1], n[1]);
    case expand64: return real_locker_aes_expand64(at[0], n[0], at[1], n[1]);
    case encrypt32: return real_locker_aes_encrypt32(at[0], n[0], at[1], n[1], at[2], n[2]);
    case encrypt64: return real_locker_aes_encrypt64(at[0], n[0], at[1], n[1], at[2], n[2]);
    case decrypt32: return real_locker_aes_decrypt32(at[0], n[0], at[1], n[1], at[2], n[2]);
    case decrypt64: return real_locker_aes_decrypt64(at[0], n[0], at[1], n[1], at[2], n[2]);
    case check32: return real_locker_aes_check32(at[0], n[0], at[1], n[1]);
    default: return real_locker_aes_check64(at[0], n[0], at[1], n[1]);
    }
}

#define KEEP(x) __asm__ volatile("" : : "r"(x) : "memory") /* the compiler must have x */

static const uint8_t table[256];
static uint8_t scratch[64];
static __thread uint8_t thread_scratch[64];

/* Rows of each of a key's eight words turned by as many quarters as their number: InvShiftRows, of every slot. */
static void shift_key(uint8_t *words, size_t word)
{
    size_t row = 2 * word, p, r;
    for (p = 0; p < 8; p++) {
        uint64_t w = 0, shifted = 0;
        memcpy(&w, words + word * p, word);
        for (r = 0; r < 4; r++) {
            uint64_t bits = w >> row * r & (((uint64_t)1 << row) - 1), by = row / 4 * r;
            shifted |= (bits << by | bits >> (row - by)) % ((uint64_t)1 << row) << row * r;
        }
        memcpy(words + word * p, &shifted, word);
    }
}

/* A block doubled, as SP 800-38B has it but for the fault. */
static void twice(uint8_t *s)
{
    const size_t first = FAULT == bytes_turned ? 15 : 0, last = 15 - first, on = FAULT == bytes_turned ? (size_t)-1 : 1;
    const uint8_t carry = s[first] >> 7;
    size_t n;
    for (n = first; n != last; n += on) s[n] = (uint8_t)(s[n] << 1 | s[n + on] >> 7);
    s[last] = (uint8_t)(s[last] << 1);
    if (FAULT == no_87) return;
    if (FAULT != branches_on_carry) s[last] ^= 0x87 & -carry;
    else if (carry) {
        KEEP(s);
        s[last] ^= 0x87;
    }
}

/* The check value with the fault. */
static void check_again(enum call call, void *schedule, size_t words, uint8_t *out)
{
    uint8_t zeros[64] = {0}, block[64] = {0};
    void *const at[3] = {schedule, zeros, block};
    const size_t bytes = call == check32 ? 32 : 64, n[3] = {words, bytes, bytes};
    const enum call encrypt = call == check32 ? encrypt32 : encrypt64;

    if (real(encrypt, 0, at, n)) return;
    if (FAULT != old_value) {
        memcpy(zeros, block, 16);
        twice(zeros);
        if (FAULT == second_subkey) twice(zeros);
        if (real(encrypt, 0, at, n)) return;
    }
    memcpy(out, block, 3);
}

/* Every block again, in a batch of its own and in the slot that the fault says. */
static void block_by_block(enum call call, size_t slots, void *const at[3], const size_t n[3])
{
    const size_t blocks = n[1] / 16, full = blocks / slots * slots, lengths[3] = {n[0], 16 * slots, 16 * slots};
    size_t j;

    for (j = 0; j < blocks; j++) {
        uint8_t one[64] = {0}, done[64];
        void *const batch[3] = {at[0], one, done};
        size_t slot = j % slots;
        if (FAULT == slot_0_for_all) slot = 0;
        if (FAULT == slots_divided) slot = j / slots % slots;
        if (FAULT == part_at_end && j >= full) slot += slots - blocks % slots;
        memcpy(one + 16 * slot, (uint8_t *)at[1] + 16 * j, 16);
        if (real(call, 0, batch, lengths)) return;
        memcpy((uint8_t *)at[2] + 16 * j, done + 16 * slot, 16);
    }
}

static inline uint32_t shim(enum call call, uint32_t direction, const void *a, size_t an, const void *b, size_t bn,
                            void *c, size_t cn)
{
    enum call to = call;
    void *at[3] = {(void *)(uintptr_t)a, (void *)(uintptr_t)b, c};
    size_t n[3] = {an, bn, cn}, i;
    const size_t word = call == expand32 || call == encrypt32 || call == decrypt32 || call == check32 ? 4 : 8;
    const int expands = call == expand32 || call == expand64, checks = call == check32 || call == check64;
    const int last = expands || checks ? 1 : 2, takes_schedule = call != door && !expands;
    const size_t right = expands ? (an == 16 ? 88 : 120) : checks ? 3 : bn, most = 65536;
    const size_t size0 = takes_schedule ? word * an : an, size = expands ? word * n[last] : n[last];
    const size_t batch = 8 * word, part = last == 2 && bn % 16 == 0 ? bn % batch : 0; /* bytes of it at the end */
    uint8_t *first = at[0], *out = at[last], was[65536], words[960], others = 0, end[64], room[8192];
    uint64_t schedule[120];
    uint32_t answer;

#define HAS(fault) (CALL == call && FAULT == (fault))
    if (HAS(other_direction)) {
        if (call == door && direction < 2) direction ^= 1;
        if (call != door) to = call < decrypt32 ? call + 2 : call - 2;
    }
    if (HAS(slots_swapped) && size0 <= sizeof words) {
        for (i = 0; i < size0; i++) words[i] = (uint8_t)((first[i] & 0x55) << 1 | (first[i] & 0xaa) >> 1);
        at[0] = words;
    }
    if (HAS(half_key) && an == 32) n[0] = 16;
    if (CALL == call && FAULT >= zeros_taken && FAULT <= exits_early) {
        const int a_key = an == 16 || an == 32;
        size_t zeros = 0; /* that the key begins with */
        while (zeros < an && first[zeros] == 0) zeros++;
        KEEP(zeros);
        if (HAS(zeros_taken) && a_key && zeros == an) at[0] = memset(words, 1, an);
        if (HAS(zeros_tested_last) && a_key && zeros == an && n[last] != right) return expands ? 2 : 4;
        if (HAS(zeros_of_any_length) && an && zeros == an) return 6;
        if (HAS(half_of_zeros) && an == 32 && zeros >= 16) return 6;
        if (HAS(last_byte_skipped) && a_key && zeros >= an - 1) return 6;
    }
    if (HAS(output_tested_first) && (expands ? n[1] != 88 && n[1] != 120 : n[last] != right)) return expands ? 2 : 4;
    if (HAS(direction_tested_first) && direction > 1) return 5;
    if (HAS(takes_one_more) && n[last] == right + 1) n[last]--;
    for (i = 0; i < 3; i++) {
        if (HAS(cut_to_8)) n[i] = (uint8_t)n[i];
        if (HAS(cut_to_16)) n[i] = (uint16_t)n[i];
        if (HAS(cut_to_32)) n[i] = (uint32_t)n[i];
    }
    if (HAS(direction_cut)) direction = (uint8_t)direction;
    if ((HAS(limit_one_less) && bn == most) || (HAS(refuses_48) && bn == 48)) n[1] = 0;
    if (HAS(limit_one_more) && bn == most + 16 && cn == bn) n[1] = n[2] = most;
    if (HAS(takes_none) && !bn && !cn) at[1] = memset(end, 0, 16), at[2] = was, n[1] = n[2] = 16;
    if (HAS(output_untested)) n[2] = bn;
    if (HAS(part_as_batch) && part && cn == bn) n[1] = n[2] = bn - part + batch;
    if (HAS(reads_past)) KEEP(first[size0]);
    if (HAS(reads_before)) KEEP(first[-1]);
    if (HAS(reads_nothing)) KEEP(first[0]);
    if (HAS(changes_input_and_back) && size0) {
        *(volatile uint8_t *)first ^= 1;
        *(volatile uint8_t *)first ^= 1;
    }
    if (HAS(static_data) && bn == sizeof scratch) at[1] = memcpy(scratch, b, bn);
    if (HAS(thread_data) && bn == sizeof thread_scratch) at[1] = memcpy(thread_scratch, b, bn);
    if (HAS(allocates)) {
        void *memory = malloc(64);
        KEEP(memory);
        free(memory);
    }
    if (HAS(system_call)) __asm__ volatile("syscall" : "=a"(i) : "a"(39) : "rcx", "r11", "memory");
    if (HAS(branches) && size0 && first[0] == 1) KEEP(first);
    if ((HAS(branches_on_block) && bn) || (HAS(branches_on_part) && part))
        if (((const uint8_t *)b)[bn - 1] == 1) KEEP(first);
    if (HAS(leaves_part) && part) {
        memcpy(end, (const uint8_t *)b + bn - part, part);
        KEEP(end);
    }
    if (HAS(large_stack)) KEEP(room);
    if ((HAS(end_unwritten) || HAS(added_to_output) || HAS(part_dropped)) && size <= sizeof was) memcpy(was, out, size);

    answer = real(to, direction, at, n);

    if (HAS(large_stack)) KEEP(room); /* here too: the call above must not be this one's return */
    if (HAS(leaves_schedule) && !real_locker_aes_expand64(first, an, schedule, an == 16 ? 88 : 120)) KEEP(schedule);
    if (HAS(branches_when_refused) && answer && size0 && first[0] == 1) KEEP(first);
    if (answer) {
        if (HAS(refusal_writes) && size) out[0] ^= 1;
        if (HAS(refusal_writes_at_one_length) && n[last] == batch - 1) out[0] ^= 1;
        if (HAS(refusal_writes_and_back) && size) *(volatile uint8_t *)out ^= 1, *(volatile uint8_t *)out ^= 1;
        return answer;
    }
    if (HAS(looks_up) || HAS(looks_up_by_block)) {
        const uint8_t *hidden = table;
        __asm__("" : "+r"(hidden)); /* the compiler must not know that it holds zeros */
        out[0] ^= hidden[HAS(looks_up) ? first[0] : *(const uint8_t *)b];
    }
    if (CALL == call && FAULT >= old_value && FAULT <= branches_on_carry) check_again(call, at[0], n[0], out);
    if (HAS(first_batch_only) && size > batch) memcpy(out + batch, (const uint8_t *)b + batch, size - batch);
    if (HAS(part_dropped)) memcpy(out + size - part, was + size - part, part);
    if (CALL == call && FAULT >= slot_0_for_all && FAULT <= part_at_end) block_by_block(call, word / 2, at, n);
    if (HAS(limit_one_more) && bn == most + 16) {
        void *const rest[3] = {at[0], (uint8_t *)at[1] + most, out + most};
        const size_t lengths[3] = {n[0], 16, 16};
        answer = real(to, direction, rest, lengths);
    }
    if (HAS(blocks_swapped) && size >= 32) {
        memcpy(end, out + size - 16, 16);
        memcpy(out + size - 16, out + size - 32, 16);
        memcpy(out + size - 32, end, 16);
    }
    if (HAS(end_unwritten)) i = checks ? 1 : 16, memcpy(out + size - i, was + size - i, i);
    if (HAS(added_to_output)) for (i = 0; i < size; i++) out[i] ^= was[i];
    if (HAS(wrong_for_one_bit) || HAS(wrong_for_one_slot)) {
        size_t set = 0;
        for (i = 0; i < 8 * size0; i++) set += first[i / 8] >> i % 8 & 1;
        for (i = 0; i < size0; i++) others |= first[i] & (word == 4 ? 0xaa : 0xee);
        if (HAS(wrong_for_one_bit) ? set == 1 : set && !others) out[0] ^= 1;
    }
    if (HAS(one_bit)) out[size - 1] ^= 0x80;
    if (HAS(slot_empty)) for (i = 0; i < size; i++) out[i] &= word == 4 ? 0x55 : 0x77;
    if (HAS(last_key_shifted)) shift_key(out + size - 8 * word, word);
    if (HAS(nots_on_key_0))
        for (i = 0; i < 8 * word; i++) if (i / word < 2 || i / word == 5 || i / word == 6) out[i] = (uint8_t)~out[i];
    if (HAS(writes_past)) out[size] ^= 1;
    if (HAS(changes_input)) first[0] ^= 1;
    return answer;
}

uint32_t locker_aes(uint32_t direction, const uint8_t *k, size_t kn, const uint8_t *i, size_t in, uint8_t *o, size_t on)
{
    return shim(door, direction, k, kn, i, in, o, on);
}
#define WIDTH(bits)                                                                                                    \
    uint32_t locker_aes_expand##bits(const uint8_t *k, size_t kn, uint##bits##_t *s, size_t sn)                        \
    {                                                                                                                  \
        return shim(expand##bits, 0, k, kn, s, sn, NULL, 0);                                                           \
    }                                                                                                                  \
    uint32_t locker_aes_encrypt##bits(const uint##bits##_t *s, size_t sn, const uint8_t *i, size_t in, uint8_t *o,     \
                                      size_t on)                                                                       \
    {                                                                                                                  \
        return shim(encrypt##bits, 0, s, sn, i, in, o, on);                                                            \
    }                                                                                                                  \
    uint32_t locker_aes_decrypt##bits(const uint##bits##_t *s, size_t sn, const uint8_t *i, size_t in, uint8_t *o,     \
                                      size_t on)                                                                       \
    {                                                                                                                  \
        return shim(decrypt##bits, 0, s, sn, i, in, o, on);                                                            \
    }                                                                                                                  \
    uint32_t locker_aes_check##bits(const uint##bits##_t *s, size_t sn, uint8_t *o, size_t on)                         \
    {                                                                                                                  \
        return shim(check##bits, 0, s, sn, o, on, NULL, 0);                                                            \
    }
WIDTH(32)
WIDTH(64)

#ifdef PLANT_exports_more
extern const uint32_t locker_aes_more;
const uint32_t locker_aes_more = 1;
#endif
