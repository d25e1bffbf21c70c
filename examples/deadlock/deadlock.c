/* Two tasks that take two mutexes, each in its own order. */

#include <vxWorks.h>
#include <semLib.h>
#include <taskLib.h>

void worker(SEM_ID first, SEM_ID second)
{
    semTake(first, WAIT_FOREVER);
    taskDelay(1);
    semTake(second, WAIT_FOREVER);
    semGive(second);
    semGive(first);
}
