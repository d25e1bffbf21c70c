/* tickLib.h: the tick count (Reference Manual, tickLib). */
#ifndef TICK_LIB_H
#define TICK_LIB_H

#include "vxWorks.h"

#ifdef __cplusplus
extern "C" {
#endif

ULONG tickGet(void);

#ifdef __cplusplus
}
#endif

#endif
