/* msgQLib.h: message queues (Reference Manual, msgQLib). */
#ifndef MSG_Q_LIB_H
#define MSG_Q_LIB_H

#include "vxWorks.h"
#include "objLib.h"

/* Options of msgQCreate. */
#define MSG_Q_FIFO 0x0
#define MSG_Q_PRIORITY 0x1

/* Priorities of msgQSend. */
#define MSG_PRI_NORMAL 0
#define MSG_PRI_URGENT 1

/* Error numbers; name, meaning and number are those of VxWorks. */
#define S_msgQLib_INVALID_MSG_LENGTH 0x410001

/* Error numbers that only the board has. */
#define S_wind_NON_ZERO_TIMEOUT 0x410002
#define S_wind_BAD_SIZE 0x410003

/* What VxWorks calls the refusal of a timeout in an interrupt routine. */
#define S_msgQLib_NON_ZERO_TIMEOUT_AT_INT_LEVEL S_wind_NON_ZERO_TIMEOUT

typedef struct msg_q *MSG_Q_ID;

#ifdef __cplusplus
extern "C" {
#endif

MSG_Q_ID msgQCreate(int maxMsgs, int maxMsgLength, int options);
STATUS msgQSend(MSG_Q_ID msgQId, const char *buffer, UINT nBytes, int timeout, int priority);
int msgQReceive(MSG_Q_ID msgQId, char *buffer, UINT maxNBytes, int timeout);
STATUS msgQDelete(MSG_Q_ID msgQId);
int msgQNumMsgs(MSG_Q_ID msgQId);

#ifdef __cplusplus
}
#endif

#endif
