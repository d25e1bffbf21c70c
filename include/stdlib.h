/* stdlib.h: the blocks of memory of the kernel (Reference Manual, memPartLib). The rest of the C
 * library is a module of its own (docs/modules.md). */
#ifndef WINDPLAY_STDLIB_H
#define WINDPLAY_STDLIB_H

#include <stddef.h>

#ifdef __cplusplus
extern "C" {
#endif

void *malloc(size_t nBytes);
void free(void *ptr);

#ifdef __cplusplus
}
#endif

#endif
