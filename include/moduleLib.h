/* moduleLib.h: loaded modules (Reference Manual, moduleLib). Only the shell's task, tShell, may
 * make this call. */
#ifndef MODULE_LIB_H
#define MODULE_LIB_H

#include "vxWorks.h"

typedef struct module *MODULE_ID;

#ifdef __cplusplus
extern "C" {
#endif

/* Writes the table of all modules. */
STATUS moduleShow(void);

#ifdef __cplusplus
}
#endif

#endif
