/*
 * locker_aes: AES-128 and AES-256 (FIPS-197) on blocks, up to 4,096 in a call, fixsliced. For x86-64.
 *
 * What a caller may rely on
 * -------------------------
 * Every function answers one of the numbers below and nothing else, for all lengths and all contents.
 *
 *  - LOCKER_AES_OK: the output was written whole. Inputs are as they were.
 *  - Any other number is a refusal: every buffer is as it was, the output too.
 *  - Where several refusals apply, the first in this order is given: 1, 6, 2, 3, 4, 5. A test that concerns nothing a
 *    function takes is skipped. Each function's comment lists the numbers that it can answer, in the order of its
 *    tests.
 *  - A key of zeros is refused (LOCKER_AES_ZERO_KEY): a key that was destroyed by writing zeros over it cannot be used
 *    by mistake. The other functions take any words as a schedule, those that such a key once expanded to among them.
 *  - A function depends on its arguments alone: no global state, no allocation, no system call. Calls on separate
 *    memory may run at the same time.
 *  - The contents of the keys, schedules and blocks decide no branch and no address, but for one bit: whether a key is
 *    all zeros. That bit is public, since the answer says it; the test reads every byte of the key, whatever they are.
 *    All this is a rule of the code and is observed by running (tests/secret). It is not proved, and no promise is made
 *    of time.
 *
 * The answers, and every byte of every buffer afterwards, are proved of the library's source, for a caller who sees to
 * what follows; docs/PROOF.md says what such a proof rests on. That there is no state, no allocation and no system call
 * is looked up in the built library (tests/state).
 *
 * What a caller must see to
 * -------------------------
 *  - A pointer is valid for its length: bytes for uint8_t, words for uint32_t and uint64_t, the words aligned as C
 *    asks of their type. Lengths are counted in elements of the pointer's type. A pointer whose length is 0 is not
 *    followed and may be null.
 *  - Key, schedule, input and output of one call are separate memory: no two overlap, and nobody else writes to them,
 *    or reads the output, during the call. The library cannot test this, and promises nothing where it does not hold:
 *    nothing of a call whose output is its input.
 *  - A stack with room for LOCKER_AES_STACK bytes below the call.
 *  - To look at the answer. A refused output was not written.
 *  - To erase keys, schedules and blocks that are no longer needed, by explicit_bzero() or the like: a memset() before
 *    the end of a buffer's life is dropped by compilers.
 *
 * What it is not
 * --------------
 * A block cipher is not a mode. Each block is ciphered by itself (this use is called ECB): equal blocks under one key
 * give equal ciphertext, so whoever sees the ciphertext sees which blocks are equal. Nothing is authenticated: blocks
 * can be changed, moved and left out, and a wrong key decrypts to other bytes, with the answer LOCKER_AES_OK. These
 * calls are for a format that prescribes single blocks, and for building a mode. The library has no mode yet.
 *
 * Which call for what
 * -------------------
 *  - Up to 65,536 bytes under a key: locker_aes(), once for all of them. It expands the key at each call, which takes
 *    as long as a few blocks do, and erases the schedule (examples/door.c).
 *  - More than that, or now and then a few blocks, under one key: locker_aes_expand64() once, locker_aes_encrypt64() or
 *    locker_aes_decrypt64() for each piece, and in the end erase the schedule and call locker_aes_clear_stack()
 *    (examples/many.c).
 *  - As many blocks in a call as there are: one block takes as long as a full batch.
 *  - 64 or 32: 64. A batch of four blocks takes little longer than one of two in 32. The functions in 32 are for
 *    schedules of 32-bit words, which are laid out as the Rust crate aes lays them out on 32-bit machines.
 *  - To compare keys without showing them: locker_aes_check64() (examples/check.c).
 *
 * What a call leaves behind
 * -------------------------
 * A call keeps nothing, but the registers and the stack that it worked in are not its own, and hold what it left until
 * other code writes there. Observed by running (tests/stack), not proved:
 *
 *  - Registers: after every function they may hold words of a schedule and of the blocks, and bytes of the key, these
 *    after a refusal too.
 *  - The stack below the caller: each function's comment says what may remain. Enough of it gives a round key away, and
 *    round keys give the key away.
 *  - locker_aes_clear_stack() clears both.
 *
 * Words
 * -----
 * A schedule is an expanded key: LOCKER_AES_WORDS_128 words for a key of 16 bytes, LOCKER_AES_WORDS_256 words for one
 * of 32 bytes, at either width. A schedule belongs to one width. The functions whose names end in 32 take uint32_t
 * words and work on full batches of two blocks, those in 64 uint64_t words and batches of four.
 *
 * Blocks are given end to end: LOCKER_AES_BLOCK to LOCKER_AES_LIMIT bytes, a multiple of LOCKER_AES_BLOCK. Block j is
 * bytes 16j to 16j + 15, of the input and of the output alike, and is worked on in slot j modulo 2 (32) or 4 (64). What
 * it becomes depends on nothing but itself and the round keys that the schedule has for its slot: on no other block,
 * and not on how many there are. In a schedule made from a key every slot has the same round keys; then, and by the
 * door, blocks may be cut into calls after any block, and otherwise after a multiple of the full batch.
 *
 * Any words may be given as a schedule. Under any schedule, encryption and decryption undo each other.
 */
#ifndef LOCKER_AES_H
#define LOCKER_AES_H

#include <stddef.h>
#include <stdint.h>

#ifdef __cplusplus
extern "C" {
#endif

/* The library's version (CHANGELOG.md), and the number in its shared library's name: raised when a program that was
   compiled before can no longer run with it. */
#define LOCKER_AES_VERSION "0.6.1"
#define LOCKER_AES_ABI     1

/* The answers. */
#define LOCKER_AES_OK                  0u /* done: none of the others applies */
#define LOCKER_AES_BAD_KEY_LENGTH      1u /* the key has neither 16 nor 32 bytes */
#define LOCKER_AES_BAD_SCHEDULE_LENGTH 2u /* neither 88 nor 120 words (expanding: not as many as this key asks) */
#define LOCKER_AES_BAD_INPUT_LENGTH    3u /* the input's length is below 16, above 65,536 or no multiple of 16 */
#define LOCKER_AES_BAD_OUTPUT_LENGTH   4u /* the output is not as long as the input (key check value: not 3 bytes) */
#define LOCKER_AES_BAD_DIRECTION       5u /* the direction is neither 0 nor 1 */
#define LOCKER_AES_ZERO_KEY            6u /* the key has a right length, and every byte of it is zero; tested after 1 */

/* The directions of locker_aes(). */
#define LOCKER_AES_ENCRYPT 0u
#define LOCKER_AES_DECRYPT 1u

/* Lengths: words of a schedule; bytes of a block, of the longest input, of a full batch at each width, and of a key
   check value. */
#define LOCKER_AES_WORDS_128 88u
#define LOCKER_AES_WORDS_256 120u
#define LOCKER_AES_BLOCK     16u
#define LOCKER_AES_LIMIT     65536u
#define LOCKER_AES_BATCH_32  32u
#define LOCKER_AES_BATCH_64  64u
#define LOCKER_AES_CHECK     3u

/* No function uses more bytes of stack below its caller (observed by running, tests/stack). */
#define LOCKER_AES_STACK 4096u

/* The compiler warns where an answer is not looked at, if it knows how to. */
#ifdef __GNUC__
#define LOCKER_AES_MUST_USE __attribute__((__warn_unused_result__))
#else
#define LOCKER_AES_MUST_USE
#endif

/*
 * The door: makes the schedule of the key inside, with 64-bit words, and encrypts or decrypts every block under it. The
 * schedule is not handed out.
 *
 * Answers 1 (key_len is neither 16 nor 32), 6 (the key is all zeros), 3 (input_len is below 16, above 65,536 or no
 * multiple of 16), 4 (output_len is not input_len), 5 (direction is neither LOCKER_AES_ENCRYPT nor LOCKER_AES_DECRYPT),
 * or 0.
 *
 * Remains on the stack: nothing that depends on the key or the blocks; it erases what it wrote there.
 */
LOCKER_AES_MUST_USE
uint32_t locker_aes(uint32_t direction, const uint8_t *key, size_t key_len, const uint8_t *input, size_t input_len,
                    uint8_t *output, size_t output_len);

/*
 * Expand a key: writes its schedule.
 *
 * Answers 1 (key_len is neither 16 nor 32), 6 (the key is all zeros), 2 (schedule_len is not 88 for 16, not 120 for
 * 32), or 0.
 *
 * Remains on the stack: what the last round keys were made from.
 */
LOCKER_AES_MUST_USE
uint32_t locker_aes_expand32(const uint8_t *key, size_t key_len, uint32_t *schedule, size_t schedule_len);
LOCKER_AES_MUST_USE
uint32_t locker_aes_expand64(const uint8_t *key, size_t key_len, uint64_t *schedule, size_t schedule_len);

/*
 * Encrypt blocks under a schedule of the same width. 88 words mean AES-128's 10 rounds and 120 words AES-256's 14.
 *
 * Before 0.5.0 these took one full batch and nothing else: 32 bytes (32) or 64 bytes (64).
 *
 * Answers 2 (schedule_len is neither 88 nor 120), 3 (input_len is below 16, above 65,536 or no multiple of 16), 4
 * (output_len is not input_len), or 0.
 *
 * Remains on the stack: the blocks as they stood between two steps; with the output a round key follows from them.
 * Where the input is no multiple of the full batch (32 or 64 bytes), also the blocks after the last full batch, as they
 * came in and as they went out, and what the zeros became that filled up their batch.
 */
LOCKER_AES_MUST_USE
uint32_t locker_aes_encrypt32(const uint32_t *schedule, size_t schedule_len, const uint8_t *input, size_t input_len,
                              uint8_t *output, size_t output_len);
LOCKER_AES_MUST_USE
uint32_t locker_aes_encrypt64(const uint64_t *schedule, size_t schedule_len, const uint8_t *input, size_t input_len,
                              uint8_t *output, size_t output_len);

/* Decrypt blocks: lengths and answers as for encryption, the same schedule, and the same remains. */
LOCKER_AES_MUST_USE
uint32_t locker_aes_decrypt32(const uint32_t *schedule, size_t schedule_len, const uint8_t *input, size_t input_len,
                              uint8_t *output, size_t output_len);
LOCKER_AES_MUST_USE
uint32_t locker_aes_decrypt64(const uint64_t *schedule, size_t schedule_len, const uint8_t *input, size_t input_len,
                              uint8_t *output, size_t output_len);

/*
 * The key check value of a schedule: the first three bytes of the CMAC (NIST SP 800-38B, full-length tag) of sixteen
 * zero bytes, by the cipher of slot 0. At either width a key has one check value. It takes the time of two batches.
 *
 * Before 0.4.0 it was the first three bytes of the encryption of sixteen zero bytes. Values kept from then do not agree
 * with those of now, and have to be made again.
 *
 * Answers 2 (schedule_len is neither 88 nor 120), 4 (output_len is not 3), or 0.
 *
 * Remains on the stack: as after encryption, the whole tag, the encrypted zeros, and CMAC's subkey K1, with which other
 * tags can be forged from one that is known.
 */
LOCKER_AES_MUST_USE
uint32_t locker_aes_check32(const uint32_t *schedule, size_t schedule_len, uint8_t *output, size_t output_len);
LOCKER_AES_MUST_USE
uint32_t locker_aes_check64(const uint64_t *schedule, size_t schedule_len, uint8_t *output, size_t output_len);

/*
 * Clears what calls of this library left: LOCKER_AES_STACK bytes of the stack below the function that it is called
 * from, and the registers that a call may change. Call it in the function that made the calls, after the last of them.
 *
 * It is C, in this header, and not proved; tests/stack looks at what it leaves. It must not be inlined (then it would
 * clear a place of its own in the caller's frame), nor be called in place of its caller's return (then it would begin
 * above the caller's frame and end too early): GCC and Clang are told so.
 */
#ifdef __GNUC__
#define LOCKER_AES_APART  __attribute__((__noinline__, __unused__))
#define LOCKER_AES_INLINE __inline__ __attribute__((__always_inline__, __unused__))
#define LOCKER_AES_STAY() __asm__ __volatile__("" : : : "memory")
#else
#define LOCKER_AES_APART
#define LOCKER_AES_INLINE
#define LOCKER_AES_STAY() ((void)0)
#endif

static LOCKER_AES_APART void locker_aes_clear_below(void)
{
    uint64_t room[LOCKER_AES_STACK / 8u];
    volatile uint64_t *at = room;
    size_t i;

    for (i = 0; i < LOCKER_AES_STACK / 8u; i++) at[i] = 0;
#if defined(__GNUC__) && defined(__x86_64__) && defined(__SSE2__)
#define LOCKER_AES_ZERO(with, r) with " {%%" r ", %%" r "|" r ", " r "}\n\t" /* as AT&T and as Intel write it */
    __asm__ __volatile__(
        LOCKER_AES_ZERO("pxor", "xmm0") LOCKER_AES_ZERO("pxor", "xmm1") LOCKER_AES_ZERO("pxor", "xmm2")
        LOCKER_AES_ZERO("pxor", "xmm3") LOCKER_AES_ZERO("pxor", "xmm4") LOCKER_AES_ZERO("pxor", "xmm5")
        LOCKER_AES_ZERO("pxor", "xmm6") LOCKER_AES_ZERO("pxor", "xmm7") LOCKER_AES_ZERO("pxor", "xmm8")
        LOCKER_AES_ZERO("pxor", "xmm9") LOCKER_AES_ZERO("pxor", "xmm10") LOCKER_AES_ZERO("pxor", "xmm11")
        LOCKER_AES_ZERO("pxor", "xmm12") LOCKER_AES_ZERO("pxor", "xmm13") LOCKER_AES_ZERO("pxor", "xmm14")
        LOCKER_AES_ZERO("pxor", "xmm15") LOCKER_AES_ZERO("xor", "eax") LOCKER_AES_ZERO("xor", "ecx")
        LOCKER_AES_ZERO("xor", "edx") LOCKER_AES_ZERO("xor", "esi") LOCKER_AES_ZERO("xor", "edi")
        LOCKER_AES_ZERO("xor", "r8d") LOCKER_AES_ZERO("xor", "r9d") LOCKER_AES_ZERO("xor", "r10d")
        LOCKER_AES_ZERO("xor", "r11d")
        : : : "xmm0", "xmm1", "xmm2", "xmm3", "xmm4", "xmm5", "xmm6", "xmm7", "xmm8", "xmm9", "xmm10", "xmm11",
        "xmm12", "xmm13", "xmm14", "xmm15", "rax", "rcx", "rdx", "rsi", "rdi", "r8", "r9", "r10", "r11", "cc");
#undef LOCKER_AES_ZERO
#endif
}

static LOCKER_AES_INLINE void locker_aes_clear_stack(void)
{
    locker_aes_clear_below();
    LOCKER_AES_STAY();
}

#undef LOCKER_AES_APART
#undef LOCKER_AES_INLINE
#undef LOCKER_AES_STAY

#ifdef __cplusplus
}
#endif

#endif
