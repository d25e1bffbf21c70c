/* Compresses a text, and decompresses it.
 *
 * package: bzip2
 * sources: blocksort.c huffman.c crctable.c randtable.c compress.c decompress.c bzlib.c
 * flags: -DBZ_NO_STDIO -I ROOT
 */
#include "real.h"
#include <bzlib.h>

static char text[6000], packed[8000], again[6000];

void bz_internal_error(int code)
{
    show("internal_error", code);
}

void drive(void)
{
    unsigned size = sizeof packed, back = sizeof again;

    write_text(text, sizeof text);
    show("compress", BZ2_bzBuffToBuffCompress(packed, &size, text, sizeof text, 1, 0, 0));
    show("size", size);
    show("packed", sum_of(packed, size));
    show("decompress", BZ2_bzBuffToBuffDecompress(again, &back, packed, size, 0, 0));
    show("equal", back == sizeof text && memcmp(text, again, sizeof text) == 0);
}
