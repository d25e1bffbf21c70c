/* errnoLib.h: the error number of the calling task, or of the interrupt level (Reference Manual,
 * errnoLib). There is no variable errno. */
#ifndef ERRNO_LIB_H
#define ERRNO_LIB_H

#include "vxWorks.h"

#ifdef __cplusplus
extern "C" {
#endif

int errnoGet(void);
STATUS errnoSet(int errorValue);

#ifdef __cplusplus
}
#endif

#endif
