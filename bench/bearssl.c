/*
 * BearSSL's aes_ct64 in the shape of our calls: a key expanded once, then four blocks at a time.
 *
 * Its public calls are CBC and CTR. These are the steps inside br_aes_ct64_cbcdec_run() and br_aes_ct64_ctr_run(),
 * without the chaining and the counter; they are not in its public header, so they are declared here.
 */
#include <stddef.h>
#include <stdint.h>
#include <string.h>

void br_aes_ct64_ortho(uint64_t *q);
void br_aes_ct64_interleave_in(uint64_t *q0, uint64_t *q1, const uint32_t *w);
void br_aes_ct64_interleave_out(uint32_t *w, uint64_t q0, uint64_t q1);
unsigned br_aes_ct64_keysched(uint64_t *comp_skey, const void *key, size_t key_len);
void br_aes_ct64_skey_expand(uint64_t *skey, unsigned num_rounds, const uint64_t *comp_skey);
void br_aes_ct64_bitslice_encrypt(unsigned num_rounds, const uint64_t *skey, uint64_t *q);
void br_aes_ct64_bitslice_decrypt(unsigned num_rounds, const uint64_t *skey, uint64_t *q);

/* BearSSL's schedule has as many words as ours. */
void bear_expand(const uint8_t *key, size_t key_len, uint64_t *schedule)
{
    uint64_t packed[30];
    unsigned rounds = br_aes_ct64_keysched(packed, key, key_len);
    br_aes_ct64_skey_expand(schedule, rounds, packed);
}

void bear_crypt(uint32_t direction, const uint64_t *schedule, size_t words, const uint8_t *input, uint8_t *output)
{
    uint32_t w[16];
    uint64_t q[8];
    unsigned rounds = (unsigned)(words / 8 - 1);
    int i;

    memcpy(w, input, 64);
    for (i = 0; i < 4; i++) br_aes_ct64_interleave_in(&q[i], &q[i + 4], w + 4 * i);
    br_aes_ct64_ortho(q);
    (direction ? br_aes_ct64_bitslice_decrypt : br_aes_ct64_bitslice_encrypt)(rounds, schedule, q);
    br_aes_ct64_ortho(q);
    for (i = 0; i < 4; i++) br_aes_ct64_interleave_out(w + 4 * i, q[i], q[i + 4]);
    memcpy(output, w, 64);
}
