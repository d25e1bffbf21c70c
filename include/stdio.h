/* stdio.h: printf of the kernel (Reference Manual, fioLib). Its conversions are d i u x X o c s
 * p and %, without 64-bit or floating-point values: it copies any other as text and takes no
 * argument for it (docs/texts.md). */
#ifndef WINDPLAY_STDIO_H
#define WINDPLAY_STDIO_H

#include <stddef.h>

#ifdef __cplusplus
extern "C" {
#endif

#ifdef __GNUC__
__attribute__((__format__(__printf__, 1, 2)))
#endif
int printf(const char *format, ...);

#ifdef __cplusplus
}
#endif

#endif
