/* kernelLib.h: round-robin scheduling (Reference Manual, kernelLib). */
#ifndef KERNEL_LIB_H
#define KERNEL_LIB_H

#include "vxWorks.h"

#ifdef __cplusplus
extern "C" {
#endif

/* A time slice lasts that many ticks; 0 ends round-robin scheduling. */
STATUS kernelTimeSlice(int ticks);

#ifdef __cplusplus
}
#endif

#endif
