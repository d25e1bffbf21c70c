/* intLib.h: holding interrupts back (Reference Manual, intLib and intArchLib). windplay.h
 * connects routines to devices. */
#ifndef INT_LIB_H
#define INT_LIB_H

#include "vxWorks.h"

/* Error number; name, meaning and number are those of VxWorks. */
#define S_intLib_NOT_ISR_CALLABLE 0x430001

/* Error number that only the board has: the call is for the shell's task. */
#define S_wind_NOT_SHELL 0x430002

#ifdef __cplusplus
extern "C" {
#endif

int intLock(void);
void intUnlock(int lockKey);
BOOL intContext(void);

#ifdef __cplusplus
}
#endif

#endif
