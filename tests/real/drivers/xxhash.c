/* Hashes of several lengths. The processor has no prefetch.
 *
 * package: xxhash
 * sources: xxhash.c
 * flags: -I ROOT -DXXH_NO_PREFETCH
 */
#include "real.h"
#define XXH_STATIC_LINKING_ONLY
#include <xxhash.h>

static char text[2000];

static void show_long(const char *name, XXH64_hash_t hash)
{
    show(name, hash >> 32);
    show(name, (unsigned)hash);
}

void drive(void)
{
    static const int sizes[] = {0, 7, 100, 2000};
    int i;

    write_text(text, sizeof text);
    for (i = 0; i < 4; i++) {
        show("XXH32", XXH32(text, sizes[i], 1));
        show_long("XXH64", XXH64(text, sizes[i], 2));
        show_long("XXH3", XXH3_64bits(text, sizes[i]));
        show_long("XXH128", XXH3_128bits(text, sizes[i]).high64);
    }
}
