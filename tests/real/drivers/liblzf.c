/* Compresses a text, and decompresses it.
 *
 * package: liblzf
 * sources: lzf_c.c lzf_d.c
 * flags: -I ROOT
 */
#include "real.h"
#include <lzf.h>

static char text[6000], packed[8000], again[6000];

void drive(void)
{
    unsigned size;

    write_text(text, sizeof text);
    size = lzf_compress(text, sizeof text, packed, sizeof packed);
    show("size", size);
    show("packed", size ? sum_of(packed, 3) : 0);
    show("decompress", lzf_decompress(packed, size, again, sizeof again));
    show("equal", memcmp(text, again, sizeof text) == 0);
    show("room", lzf_decompress(packed, size, again, 100));
}
