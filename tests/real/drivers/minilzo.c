/* Compresses a text, and decompresses it.
 *
 * package: lzo2
 * sources: minilzo/minilzo.c
 * flags: -I ROOT/minilzo -I ROOT/include/lzo
 */
#include "real.h"
#include <minilzo.h>

static unsigned char text[6000], packed[8000], again[6000];
static lzo_align_t room[(LZO1X_1_MEM_COMPRESS + sizeof(lzo_align_t) - 1) / sizeof(lzo_align_t)];

void drive(void)
{
    lzo_uint size = 0, back = sizeof again;

    write_text((char *)text, sizeof text);
    show("init", lzo_init());
    show("compress", lzo1x_1_compress(text, sizeof text, packed, &size, room));
    show("size", size);
    show("packed", sum_of(packed, size));
    show("decompress", lzo1x_decompress_safe(packed, size, again, &back, NULL));
    show("equal", back == sizeof text && memcmp(text, again, sizeof text) == 0);
    show("adler32", lzo_adler32(1, text, sizeof text));
}
