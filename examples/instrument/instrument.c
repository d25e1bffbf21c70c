/*
 * An instrument of 256 channels. In each tick a client sends a reading of the next channel over a queue; a server receives the
 * readings and keeps the sum of each channel. A macro makes the channels, so that the module has the size, the symbols and
 * the debug sections of a grown one.
 */

#include <vxWorks.h>
#include <msgQLib.h>
#include <taskLib.h>

#define CHANNELS 256u

struct reading {
    UINT channel;
    UINT value;
};

struct channel {
    UINT gain;
    UINT offset;
    UINT sum;
    UINT count;
};

int served;
struct reading last;

#define CHANNEL(n)                                                                                                     \
    struct channel channel_##n = {0x##n + 1, 0x##n * 3, 0, 0};                                                         \
    UINT calibrated_##n(const struct reading *reading)                                                                 \
    {                                                                                                                  \
        UINT scaled = reading->value * channel_##n.gain;                                                               \
        return scaled + channel_##n.offset;                                                                            \
    }                                                                                                                  \
    void keep_##n(const struct reading *reading)                                                                       \
    {                                                                                                                  \
        UINT value = calibrated_##n(reading);                                                                          \
        channel_##n.sum += value;                                                                                      \
        channel_##n.count += 1;                                                                                        \
    }
#define ENTRY(n) keep_##n,

#define ROW(make, h)                                                                                                   \
    make(h##0) make(h##1) make(h##2) make(h##3) make(h##4) make(h##5) make(h##6) make(h##7)                            \
    make(h##8) make(h##9) make(h##a) make(h##b) make(h##c) make(h##d) make(h##e) make(h##f)
#define ALL(make)                                                                                                      \
    ROW(make, 0) ROW(make, 1) ROW(make, 2) ROW(make, 3) ROW(make, 4) ROW(make, 5) ROW(make, 6) ROW(make, 7)            \
    ROW(make, 8) ROW(make, 9) ROW(make, a) ROW(make, b) ROW(make, c) ROW(make, d) ROW(make, e) ROW(make, f)

ALL(CHANNEL)

static void (*const keep[CHANNELS])(const struct reading *reading) = {ALL(ENTRY)};

void serverTask(MSG_Q_ID queue)
{
    for (;;) {
        if (msgQReceive(queue, (char *)&last, sizeof last, WAIT_FOREVER) == sizeof last) {
            keep[last.channel % CHANNELS](&last);
            served += 1;
        }
    }
}

void clientTask(MSG_Q_ID queue)
{
    struct reading reading = {0, 1000};
    for (;;) {
        msgQSend(queue, (const char *)&reading, sizeof reading, WAIT_FOREVER, MSG_PRI_NORMAL);
        reading.channel += 1;
        reading.value += 7;
        taskDelay(1);
    }
}
