/* wdLib.h: watchdogs (Reference Manual, wdLib). The routine runs at interrupt level. */
#ifndef WD_LIB_H
#define WD_LIB_H

#include "vxWorks.h"
#include "objLib.h"

typedef struct wdog *WDOG_ID;

#ifdef __cplusplus
extern "C" {
#endif

WDOG_ID wdCreate(void);
STATUS wdStart(WDOG_ID wdId, int delay, FUNCPTR pRoutine, int parameter);
STATUS wdCancel(WDOG_ID wdId);
STATUS wdDelete(WDOG_ID wdId);

#ifdef __cplusplus
}
#endif

#endif
