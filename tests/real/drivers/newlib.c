/* newlib's strings and sort, in the module itself.
 *
 * package: newlib
 * sources: newlib/libc/string/mem*.c newlib/libc/string/str*.c newlib/libc/search/qsort.c newlib/libc/search/bsearch.c
 * without: newlib/libc/string/*_l.c newlib/libc/string/strerror*.c newlib/libc/string/*coll*.c newlib/libc/string/*xfrm*.c newlib/libc/string/strsignal.c newlib/libc/string/strtok*.c newlib/libc/string/strsep.c newlib/libc/string/*dup*.c newlib/libc/string/str*case*.c newlib/libc/string/strlwr.c newlib/libc/string/strupr.c newlib/libc/string/strverscmp.c
 * flags: -I HERE/newlib/include -fno-builtin -fno-tree-loop-distribute-patterns
 */
#include "real.h"

static char text[3000], copy[3000];
static short numbers[300];

static int by_value(const void *left, const void *right)
{
    return *(const short *)left - *(const short *)right;
}

void drive(void)
{
    unsigned state = 9;
    int i;

    write_text(text, sizeof text);
    text[sizeof text - 1] = 0;
    show("strlen", strlen(text));
    show("strstr", strstr(text, "semaphore a") - text);
    show("strchr", strchr(text, 'w') - text);
    show("strpbrk", strpbrk(text, "qw") - text);
    show("strcspn", strcspn(text, "q"));
    memcpy(copy, text + 1, 2000);
    memmove(copy + 9, copy, 1500);
    memset(copy + 50, 3, 61);
    strcat(strcpy(copy + 2500, "board "), "two");
    show("memory", sum_of(copy, sizeof copy));
    show("strncmp", strncmp(copy + 2500, "board one", 9) > 0);
    show("memchr", (char *)memchr(text, 'g', sizeof text) - text);
    for (i = 0; i < 300; i++)
        numbers[i] = (state = state * 1103515245u + 12345u) >> 16;
    qsort(numbers, 300, sizeof numbers[0], by_value);
    show("qsort", sum_of(numbers, sizeof numbers));
    show("bsearch", (short *)bsearch(&numbers[30], numbers, 300, sizeof numbers[0], by_value) - numbers < 300);
}
