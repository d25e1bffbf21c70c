/* Readings as a text become doubles; their mean, median and deviation become a text again. */

#include <vxWorks.h>
#include <math.h>
#include <stdio.h>
#include <stdlib.h>
#include <string.h>

#define MOST 32

LOCAL double readings[MOST];

LOCAL int by_value(const void *left, const void *right)
{
    double a = *(const double *)left;
    double b = *(const double *)right;

    return (a > b) - (a < b);
}

LOCAL double mean_of(const double *values, int count)
{
    double sum = 0;
    int i;

    for (i = 0; i < count; i++)
        sum += values[i];
    return sum / count;
}

LOCAL double deviation_of(const double *values, int count)
{
    double mean = mean_of(values, count);
    double sum = 0;
    int i;

    for (i = 0; i < count; i++)
        sum += (values[i] - mean) * (values[i] - mean);
    return sqrt(sum / count);
}

/* The number of readings in the text. The kernel's printf has no %g, so sprintf writes the numbers. */
int report(const char *text)
{
    char line[128];
    char *end;
    int count = 0;

    while (count < MOST) {
        readings[count] = strtod(text, &end);
        if (end == text)
            break;
        count++;
        text = end;
    }
    if (count == 0)
        return 0;
    qsort(readings, count, sizeof readings[0], by_value);
    sprintf(line, "%d readings from %g to %g", count, readings[0], readings[count - 1]);
    printf("%s\n", line);
    sprintf(line, "mean %.6f, median %.17g", mean_of(readings, count), readings[count / 2]);
    printf("%s\n", line);
    snprintf(line, sizeof line, "deviation %e, exp %a", deviation_of(readings, count), exp(readings[0] / 100));
    printf("%s, %u bytes\n", line, (unsigned)strlen(line));
    return count;
}
