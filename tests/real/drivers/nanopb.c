/* Encodes fields into a buffer, and decodes them.
 *
 * package: nanopb
 * sources: pb_encode.c pb_decode.c pb_common.c
 * flags: -I ROOT
 */
#include "real.h"
#include <pb_decode.h>
#include <pb_encode.h>

static pb_byte_t buffer[200];

void drive(void)
{
    pb_ostream_t out = pb_ostream_from_buffer(buffer, sizeof buffer);
    pb_istream_t in;
    float rate = 0.0625f;
    double ratio = 0.1;
    bool more;
    uint32_t tag;
    uint64_t value;
    pb_wire_type_t kind;

    pb_encode_tag(&out, PB_WT_VARINT, 1);
    pb_encode_varint(&out, 300);
    pb_encode_tag(&out, PB_WT_VARINT, 2);
    pb_encode_svarint(&out, -123456789012LL);
    pb_encode_tag(&out, PB_WT_STRING, 3);
    pb_encode_string(&out, (const pb_byte_t *)"tShell", 6);
    pb_encode_tag(&out, PB_WT_32BIT, 4);
    pb_encode_fixed32(&out, &rate);
    pb_encode_tag(&out, PB_WT_64BIT, 5);
    pb_encode_fixed64(&out, &ratio);
    show("written", out.bytes_written);
    show("buffer", sum_of(buffer, out.bytes_written));
    in = pb_istream_from_buffer(buffer, out.bytes_written);
    show("tag", pb_decode_tag(&in, &kind, &tag, &more));
    show("varint", pb_decode_varint(&in, &value) ? value : 0);
    show("next", pb_decode_tag(&in, &kind, &tag, &more) ? tag : 0);
    show("skip", pb_skip_field(&in, kind));
    show("left", in.bytes_left);
}
