/* vxWorks.h: the types and constants that every source uses (VxWorks 5.4 Programmer's Guide). */
#ifndef VXWORKS_H
#define VXWORKS_H

#include <stddef.h>

#define OK 0
#define ERROR (-1)

/* C++ has bool, but TRUE and FALSE are still the numbers. */
#define TRUE 1
#define FALSE 0

/* Timeouts, in ticks. */
#define NO_WAIT 0
#define WAIT_FOREVER (-1)

#define EOS '\0'
#define LOCAL static
#define IMPORT extern
#ifdef __cplusplus
#define FAST
#else
#define FAST register
#endif

#define NELEMENTS(array) (sizeof(array) / sizeof((array)[0]))

typedef signed char INT8;
typedef short INT16;
typedef int INT32;
typedef unsigned char UINT8;
typedef unsigned short UINT16;
typedef unsigned int UINT32;
typedef unsigned char UCHAR;
typedef unsigned short USHORT;
typedef unsigned int UINT;
typedef unsigned long ULONG;
typedef int BOOL;
typedef int STATUS;

/* A function of any parameters. Cast an entry to FUNCPTR: taskSpawn(.., (FUNCPTR)entry, ..). C23
 * and C++ read () as "no parameters", so they need the dots. */
#if defined(__cplusplus) || (defined(__STDC_VERSION__) && __STDC_VERSION__ >= 202311L)
typedef int (*FUNCPTR)(...);
typedef void (*VOIDFUNCPTR)(...);
#else
typedef int (*FUNCPTR)();
typedef void (*VOIDFUNCPTR)();
#endif

#endif
