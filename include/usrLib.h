/* usrLib.h: calls of the shell (Reference Manual, usrLib). Any task may call sp. Only the
 * shell's task, tShell, may make the others; any other task is refused with S_wind_NOT_SHELL
 * (intLib.h). */
#ifndef USR_LIB_H
#define USR_LIB_H

#include "vxWorks.h"
#include "loadLib.h"
#include "moduleLib.h"

#ifdef __cplusplus
extern "C" {
#endif

int sp(FUNCPTR func, int arg1, int arg2, int arg3, int arg4, int arg5, int arg6, int arg7, int arg8,
       int arg9);

/* Of tShell only. syms: 0 adds global symbols, 1 local ones too, -1 none. noAbort is ignored. */
MODULE_ID ld(int syms, BOOL noAbort, const char *name);

/* Of tShell only. */
STATUS i(void);

/* Of tShell only. */
STATUS lkup(const char *substr);

/* Of tShell only. */
STATUS d(void *adrs, int nunits, int width);

#ifdef __cplusplus
}
#endif

#endif
