/* An engine's controller (ecu.c), and what it wants of a board or a system. SPDX-License-Identifier: MIT OR Apache-2.0 */
#ifndef ECU_H
#define ECU_H

#include "j1939.h"

/* Runs it, without end; 1 where no memory is there. */
int ecu_run(void);

/* Microseconds, by a clock that isn't set back. */
uint64_t clock_micros(void);

/* The next frame that another controller sent: 1, or 0 where there is none. */
int can_take(j1939_frame *frame);

/* Whether one more frame can go out now. */
int can_has_room(void);

/* Sends a frame. */
void can_put(const j1939_frame *frame);

/* 1 once after bus-off, or where the interface was down: others may have missed a claim. */
int can_is_back(void);

#endif
