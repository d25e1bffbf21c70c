/* A server and a client that exchange one message a tick. */

#include <vxWorks.h>
#include <msgQLib.h>
#include <taskLib.h>

int served;
char last[8];
static const char greeting[] = "tick";

void server(MSG_Q_ID queue)
{
    for (;;) {
        int bytes = msgQReceive(queue, last, sizeof last, WAIT_FOREVER);
        served += bytes > 0;
    }
}

void client(MSG_Q_ID queue)
{
    for (;;) {
        msgQSend(queue, greeting, sizeof greeting, WAIT_FOREVER, MSG_PRI_NORMAL);
        taskDelay(1);
    }
}
