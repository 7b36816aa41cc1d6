/* What stack.c and calls.c share: the buffers, and every call of the library with and without the header's helper. */
#ifndef CALLS_H
#define CALLS_H

#include <stddef.h>
#include <stdint.h>

#ifdef __cplusplus
extern "C" {
#endif

enum { MOST_BYTES = 192 /* three batches at 64 bits */ };
extern uint8_t key[32], input[MOST_BYTES], output[MOST_BYTES];
extern uint32_t schedule32[120], answer;
extern uint64_t schedule64[120];
extern size_t key_len, words, length; /* length: of input and output */

/* bits and direction say which states a call works on; blocks: it works on the input; door: the library erases, so
   nothing may remain. */
struct call {
    const char *name;
    void (*bare)(void), (*cleared)(void);
    int bits, direction, blocks, door;
};
extern const struct call calls[];
extern const size_t call_count;

#ifdef __cplusplus
}
#endif

#endif
