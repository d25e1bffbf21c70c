/* Compresses a text at three levels, and inflates it again.
 *
 * package: zlib
 * sources: adler32.c crc32.c deflate.c inflate.c inftrees.c inffast.c trees.c zutil.c compress.c uncompr.c
 * flags: -I ROOT
 */
#include "real.h"
#include <zlib.h>

static char text[6000], packed[8000], again[6000];

void drive(void)
{
    int level;

    write_text(text, sizeof text);
    show("crc32", crc32(0, (Bytef *)text, sizeof text));
    show("adler32", adler32(1, (Bytef *)text, sizeof text));
    for (level = 1; level <= 9; level += 4) {
        uLongf size = sizeof packed, back = sizeof again;

        show("compress2", compress2((Bytef *)packed, &size, (Bytef *)text, sizeof text, level));
        show("size", size);
        show("packed", sum_of(packed, size));
        show("uncompress", uncompress((Bytef *)again, &back, (Bytef *)packed, size));
        show("equal", memcmp(text, again, sizeof text) == 0);
    }
}
