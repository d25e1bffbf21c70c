/* What each driver has: values to show, a text to work on, and a sum over bytes. */
#ifndef REAL_H
#define REAL_H

#include <stddef.h>
#include <stdio.h>
#include <stdlib.h>
#include <string.h>

/* Uses the library, and shows values. */
void drive(void);

static void show(const char *name, unsigned value)
{
    printf("real %s %08x\n", name, value);
}

/* FNV-1a of 32 bits. */
static unsigned sum_of(const void *bytes, size_t count)
{
    const unsigned char *byte = bytes;
    unsigned sum = 2166136261u;

    while (count--)
        sum = (sum ^ *byte++) * 16777619u;
    return sum;
}

/* Words of a small language, as many bytes as there is room for. */
static void write_text(char *text, size_t size)
{
    static const char *const words[] = {"tick", "task", "queue", "semaphore", "watchdog", "of", "the", "a"};
    unsigned state = 12345;
    size_t at = 0;

    while (at < size) {
        const char *word = words[(state = state * 1103515245u + 12345u) >> 16 & 7];

        for (; *word && at < size; word++)
            text[at++] = *word;
        if (at < size)
            text[at++] = state & 0x400 ? '\n' : ' ';
    }
}

/* Each driver uses some of them. */
static inline void use_all(void)
{
    (void)show;
    (void)sum_of;
    (void)write_text;
}

#endif
