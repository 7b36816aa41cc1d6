/* Every answer is ignored: run.sh counts the compiler's warnings, one for each function of the header. */
#include <locker_aes.h>

void ignored(uint8_t *bytes, uint32_t *narrow, uint64_t *wide);

void ignored(uint8_t *bytes, uint32_t *narrow, uint64_t *wide)
{
    locker_aes(0, bytes, 0, bytes, 0, bytes, 0);
    locker_aes_expand32(bytes, 0, narrow, 0);
    locker_aes_expand64(bytes, 0, wide, 0);
    locker_aes_encrypt32(narrow, 0, bytes, 0, bytes, 0);
    locker_aes_encrypt64(wide, 0, bytes, 0, bytes, 0);
    locker_aes_decrypt32(narrow, 0, bytes, 0, bytes, 0);
    locker_aes_decrypt64(wide, 0, bytes, 0, bytes, 0);
    locker_aes_check32(narrow, 0, bytes, 0);
    locker_aes_check64(wide, 0, bytes, 0);
}
