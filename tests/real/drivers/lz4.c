/* Compresses a text, fast and well, and decompresses it.
 *
 * package: lz4
 * sources: lib/lz4.c lib/lz4hc.c
 * flags: -I ROOT/lib -DLZ4_FORCE_MEMORY_ACCESS=0
 */
#include "real.h"
#include <lz4.h>
#include <lz4hc.h>

static char text[6000], packed[8000], again[6000];

static void one(const char *name, int size)
{
    show(name, size);
    show("packed", sum_of(packed, size));
    memset(again, 0, sizeof again);
    show("decompressed", LZ4_decompress_safe(packed, again, size, sizeof again));
    show("equal", memcmp(text, again, sizeof text) == 0);
}

void drive(void)
{
    write_text(text, sizeof text);
    one("fast", LZ4_compress_default(text, packed, sizeof text, sizeof packed));
    one("hc", LZ4_compress_HC(text, packed, sizeof text, sizeof packed, 9));
}
