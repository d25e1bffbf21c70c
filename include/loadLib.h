/* loadLib.h: unloading, and errors of the loader (Reference Manual, loadLib and unldLib).
 * usrLib.h has ld. Only the shell's task, tShell, may make this call. */
#ifndef LOAD_LIB_H
#define LOAD_LIB_H

#include "vxWorks.h"
#include "moduleLib.h"

/* Error numbers that only the board has. */
#define S_wind_LOAD_FAILED 0x1d0001
#define S_wind_NO_SUCH_MODULE 0x1d0002

#ifdef __cplusplus
extern "C" {
#endif

/* By the module's id, or the address of its name. The options are ignored. */
STATUS unld(void *nameOrId, int options);

#ifdef __cplusplus
}
#endif

#endif
