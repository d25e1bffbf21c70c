/* windplay.h: what the board has and VxWorks does not: devices in slots, and their interrupts
 * (docs/devices.md). */
#ifndef WINDPLAY_H
#define WINDPLAY_H

#include "vxWorks.h"

/* Slots are 0 to DEVICE_SLOTS - 1. A device takes whole words at multiples of 4. */
#define DEVICE_SLOTS 16
#define DEVICE_BASE 0xE0000000u
#define DEVICE_SIZE 0x1000u
#define DEVICE_ADDRESS(slot) (DEVICE_BASE + DEVICE_SIZE * (slot))
#define DEVICE_WORD(slot, offset) (*(volatile UINT32 *)(DEVICE_ADDRESS(slot) + (offset)))

/* The devices of the program windplay. */
#define LATCH_SLOT 0
#define BYTE_QUEUE_SLOT 1
#define EVENT_COUNTER_SLOT 2

/* The latch's four words are at 0, 4, 8 and 12. */

/* A load takes the first byte out, or gives 0; a store puts its low byte at the end. */
#define BYTE_QUEUE_DATA 0
/* A load gives the number of bytes. */
#define BYTE_QUEUE_COUNT 4

/* A load gives the count; a store adds to it. */
#define EVENT_COUNTER_ADD 0
/* A store sets the count to 0. */
#define EVENT_COUNTER_RESET 4

#ifdef __cplusplus
extern "C" {
#endif

/* Unlike in VxWorks, intConnect takes a slot in place of a vector, and intEnable and intDisable
 * a slot in place of a level. */
STATUS intConnect(int slot, VOIDFUNCPTR routine, int parameter);
STATUS intDisconnect(int slot, VOIDFUNCPTR routine);
STATUS intEnable(int slot);
STATUS intDisable(int slot);
int intPending(int slot);
STATUS devRemove(int slot);

#ifdef __cplusplus
}
#endif

#endif
