/* The strings, the sort, the numbers and the mathematics of clib.o, which are musl's, beside those of glibc.
 *
 * package: musl
 */
#include "real.h"
#include <ctype.h>
#include <math.h>

static char text[3000], copy[3000], line[200];
static int numbers[300];

static int by_value(const void *left, const void *right)
{
    return *(const int *)left < *(const int *)right ? -1 : *(const int *)left > *(const int *)right;
}

static void strings(void)
{
    write_text(text, sizeof text);
    text[sizeof text - 1] = 0;
    show("strlen", strlen(text));
    show("strstr", strstr(text, "watchdog of") - text);
    show("strchr", strchr(text, 'q') - text);
    show("strrchr", strrchr(text, '\n') - text);
    show("strspn", strspn(text, "adefkostuqw "));
    memcpy(copy, text + 3, 2000);
    memmove(copy + 5, copy, 1500);
    memset(copy + 100, 7, 33);
    show("memory", sum_of(copy, sizeof copy));
    show("memcmp", memcmp(copy, text, 100) < 0);
    show("strtok", sum_of(strtok(copy + 200, " \n"), 4));
    show("strtol", strtol("-0x7fz", NULL, 0));
    show("strtoull", strtoull("18446744073709551615", NULL, 10) >> 32);
    show("toupper", toupper('w') + isalnum('_'));
}

static void doubles(const char *name, double value)
{
    sprintf(line, "%g %.17g %e %.3f", value, value, value, value);
    if (fabs(value) > 1e-300 && fabs(value) < 1e18)
        sprintf(line + strlen(line), " %a %lld", value, (long long)value);
    show(name, sum_of(line, strlen(line)));
    show(name, sum_of(&value, sizeof value));
}

void drive(void)
{
    unsigned state = 9;
    double parsed;
    int i;

    strings();
    for (i = 0; i < 300; i++)
        numbers[i] = state = state * 1103515245u + 12345u;
    qsort(numbers, 300, sizeof numbers[0], by_value);
    show("qsort", sum_of(numbers, sizeof numbers));
    show("bsearch", bsearch(&numbers[77], numbers, 300, sizeof numbers[0], by_value) == &numbers[77]);
    doubles("third", 1.0 / strtod("3", NULL));
    doubles("strtod", strtod("6.02214076e+23", NULL));
    doubles("small", strtod("4.9406564584124654e-324", NULL));
    doubles("sqrt", sqrt(strtod("2", NULL)));
    doubles("fmod", fmod(strtod("1e17", NULL), 3.5));
    doubles("floor", floor(strtod("-2.5", NULL)));
    show("sscanf", sscanf("17 0x1f 2.5 word", "%d %i %lf %s", &numbers[0], &numbers[1], &parsed, line));
    show("scanned", numbers[0] + numbers[1] + sum_of(&parsed, sizeof parsed) + sum_of(line, 4));
    show("float", (unsigned)(strtof("0.1", NULL) * 1e9f));
}
