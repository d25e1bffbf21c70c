/* objLib.h: errors that calls on semaphores, queues, watchdogs and tasks share (Reference
 * Manual, semLib, msgQLib). */
#ifndef OBJ_LIB_H
#define OBJ_LIB_H

#include "vxWorks.h"

/* Error numbers; name, meaning and number are those of VxWorks. */
#define S_objLib_OBJ_ID_ERROR 0x3d0001
#define S_objLib_OBJ_UNAVAILABLE 0x3d0002
#define S_objLib_OBJ_DELETED 0x3d0003
#define S_objLib_OBJ_TIMEOUT 0x3d0004

#endif
