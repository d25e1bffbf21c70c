/* The mean of the last 64 readings, in thousandths. The sum has 64 bits, whose division the compiler
 * leaves to libgcc. */

#include <vxWorks.h>

LOCAL int readings[64];
LOCAL int count;

int add(int value)
{
    readings[count & 63] = value;
    return ++count;
}

LOCAL int held(void)
{
    return count < 64 ? count : 64;
}

long long total(void)
{
    long long sum = 0;
    int i;

    for (i = 0; i < held(); i++)
        sum += readings[i];
    return sum;
}

int mean(void)
{
    int n = held();

    return n == 0 ? 0 : (int)(1000 * total() / n);
}
