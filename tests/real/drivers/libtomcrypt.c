/* Hashes and a cipher, without their argument checks.
 *
 * package: libtomcrypt
 * sources: src/hashes/sha2/sha256.c src/hashes/sha2/sha512.c src/hashes/sha1.c src/hashes/md5.c src/ciphers/aes/aes.c src/ciphers/des.c src/misc/zeromem.c src/misc/burn_stack.c src/misc/crc32.c
 * flags: -DLTC_SOURCE -DARGTYPE=3 -DLTC_NO_TEST -I ROOT/src/headers
 */
#include "real.h"
#include <tomcrypt.h>

static unsigned char text[1000];

#define HASH(name, size)                          \
    do {                                          \
        unsigned char digest[size];               \
        hash_state state;                         \
                                                  \
        name##_init(&state);                      \
        name##_process(&state, text, sizeof text);\
        name##_done(&state, digest);              \
        show(#name, sum_of(digest, size));        \
    } while (0)

#define CIPHER(name, key, block)                     \
    do {                                             \
        unsigned char hidden[block], again[block];   \
        symmetric_key schedule;                      \
                                                     \
        show(#name, name##_setup(text, key, 0, &schedule)); \
        name##_ecb_encrypt(text + 100, hidden, &schedule);  \
        show("hidden", sum_of(hidden, block));              \
        name##_ecb_decrypt(hidden, again, &schedule);       \
        show("equal", memcmp(again, text + 100, block) == 0); \
    } while (0)

void drive(void)
{
    write_text((char *)text, sizeof text);
    HASH(md5, 16);
    HASH(sha1, 20);
    HASH(sha256, 32);
    HASH(sha512, 64);
    CIPHER(aes, 16, 16);
    CIPHER(aes, 32, 16);
    CIPHER(des3, 24, 8);
}
