/* semLib.h: binary and counting semaphores, and mutexes (Reference Manual, semLib, semBLib,
 * semCLib, semMLib). */
#ifndef SEM_LIB_H
#define SEM_LIB_H

#include "vxWorks.h"
#include "objLib.h"

/* Options. SEM_DELETE_SAFE and SEM_INVERSION_SAFE are for mutexes; the latter requires
 * SEM_Q_PRIORITY. */
#define SEM_Q_FIFO 0x0
#define SEM_Q_PRIORITY 0x1
#define SEM_DELETE_SAFE 0x4
#define SEM_INVERSION_SAFE 0x8

/* Error numbers; the names S_semLib_.. are those of VxWorks, the numbers are the board's.
 * msgQCreate too is refused with INVALID_OPTION, and taskDelete of the shell's task and
 * intDisconnect with INVALID_OPERATION. */
#define S_semLib_INVALID_STATE 0x160001
#define S_semLib_INVALID_OPTION 0x160002
#define S_semLib_INVALID_OPERATION 0x160003

/* Error number that only the board has. */
#define S_wind_COUNT_OVER 0x160004

typedef struct semaphore *SEM_ID;

typedef enum { SEM_EMPTY = 0, SEM_FULL = 1 } SEM_B_STATE;

#ifdef __cplusplus
extern "C" {
#endif

SEM_ID semBCreate(int options, SEM_B_STATE initialState);
SEM_ID semCCreate(int options, int initialCount);
SEM_ID semMCreate(int options);
STATUS semTake(SEM_ID semId, int timeout);
STATUS semGive(SEM_ID semId);
STATUS semFlush(SEM_ID semId);
STATUS semDelete(SEM_ID semId);

#ifdef __cplusplus
}
#endif

#endif
