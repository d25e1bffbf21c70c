/* Synthesis of samples, times and bits.
 *
 * package: libmad
 * sources: bit.c fixed.c frame.c huffman.c layer12.c layer3.c stream.c synth.c timer.c
 * flags: -DFPM_DEFAULT -DSIZEOF_INT=4 -DSIZEOF_LONG=4 -DSIZEOF_LONG_LONG=8 -I ROOT
 */
#include "real.h"
#include "fixed.h"
#include "bit.h"
#include "timer.h"
#include "stream.h"
#include "frame.h"
#include "synth.h"

static struct mad_synth synth;
static struct mad_frame frame;
static unsigned char text[200];

void drive(void)
{
    struct mad_bitptr bits;
    mad_timer_t time = mad_timer_zero;
    unsigned state = 1;
    int part, band;

    write_text((char *)text, sizeof text);
    mad_bit_init(&bits, text);
    show("bits", mad_bit_read(&bits, 13));
    show("crc", mad_bit_crc(bits, 400, 0xffff));
    mad_timer_set(&time, 3, 441, 44100);
    mad_timer_multiply(&time, 7);
    show("timer", mad_timer_count(time, MAD_UNITS_MILLISECONDS));
    mad_frame_init(&frame);
    mad_synth_init(&synth);
    frame.header.layer = MAD_LAYER_III;
    frame.header.mode = MAD_MODE_SINGLE_CHANNEL;
    frame.header.samplerate = 44100;
    for (part = 0; part < 36; part++)
        for (band = 0; band < 32; band++)
            frame.sbsample[0][part][band] = (int)(state = state * 1103515245u + 12345u) >> 6;
    mad_synth_frame(&synth, &frame);
    show("length", synth.pcm.length);
    show("samples", sum_of(synth.pcm.samples[0], synth.pcm.length * sizeof synth.pcm.samples[0][0]));
    show("fixed", mad_f_mul(mad_f_tofixed(1.5), mad_f_tofixed(-2.25)));
}
