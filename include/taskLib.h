/* taskLib.h: tasks (Reference Manual, taskLib and taskInfo). Where a call takes a task id, 0 is
 * the caller. */
#ifndef TASK_LIB_H
#define TASK_LIB_H

#include "vxWorks.h"
#include "objLib.h"

/* Options of taskSpawn. The board reads and ignores them; the values are those of VxWorks. */
#define VX_SUPERVISOR_MODE 0x0001
#define VX_UNBREAKABLE 0x0002
#define VX_FP_TASK 0x0008
#define VX_STDIO 0x0010
#define VX_PRIVATE_ENV 0x0080
#define VX_NO_STACK_FILL 0x0100

/* Error numbers; the names S_taskLib_.. are those of VxWorks, the numbers are the board's. */
#define S_taskLib_ILLEGAL_PRIORITY 0x30001

/* Error numbers that only the board has. */
#define S_wind_NOT_SAFE 0x30002
#define S_wind_TOO_MANY 0x30003
#define S_wind_IDS_SPENT 0x30004
#define S_wind_TASK_NOT_FOUND 0x30005

/* What VxWorks calls the error of taskNameToId. */
#define S_taskLib_NAME_NOT_FOUND S_wind_TASK_NOT_FOUND

#ifdef __cplusplus
extern "C" {
#endif

int taskSpawn(const char *name, int priority, int options, int stackSize, FUNCPTR entryPt, int arg1,
              int arg2, int arg3, int arg4, int arg5, int arg6, int arg7, int arg8, int arg9,
              int arg10);
STATUS taskDelete(int tid);
STATUS taskSuspend(int tid);
STATUS taskResume(int tid);
STATUS taskPrioritySet(int tid, int newPriority);
STATUS taskPriorityGet(int tid, int *pPriority);
STATUS taskDelay(int ticks);
STATUS taskLock(void);
STATUS taskUnlock(void);
STATUS taskSafe(void);
STATUS taskUnsafe(void);
int taskIdSelf(void);
STATUS taskIdVerify(int tid);
int taskNameToId(const char *name);

#ifdef __cplusplus
}
#endif

#endif
