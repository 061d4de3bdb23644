/*
 * The proved program as one that answers requests: remote.c reaches it over a
 * pipe, on any machine; linked.c has the library in this process, on x86-64.
 */
#ifndef SECOND_OURS_H
#define SECOND_OURS_H

#include "request.h"

/* Starts the program of these words; the library is linked and needs none. */
void start_ours(char *const words[]);

/* Answers a request; all its slices stand there as they are after the call. */
void our_call(const struct request *q, struct reply *a);

/* After the last call: ends it, and tests that it ends well. */
void end_ours(void);

#endif
