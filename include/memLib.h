/* memLib.h: aligned blocks of memory (Reference Manual, memLib). stdlib.h has malloc and free. */
#ifndef MEM_LIB_H
#define MEM_LIB_H

#include "vxWorks.h"
#include <stdlib.h>

/* Error number; name, meaning and number are those of VxWorks. */
#define S_memLib_NOT_ENOUGH_MEMORY 0x110001

/* Error numbers that only the board has. BAD_ADDRESS: a byte of a string, a word or a buffer is
 * outside RAM. */
#define S_wind_NOT_A_BLOCK 0x110002
#define S_wind_BAD_ALIGN 0x110003
#define S_wind_BAD_ADDRESS 0x110004

/* What VxWorks calls the refusal of free. */
#define S_memLib_BLOCK_ERROR S_wind_NOT_A_BLOCK

#ifdef __cplusplus
extern "C" {
#endif

void *memalign(unsigned alignment, unsigned size);

#ifdef __cplusplus
}
#endif

#endif
