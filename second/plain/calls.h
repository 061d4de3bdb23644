/* Which call of the plain program answers which kind of request. */
#ifndef PLAIN_CALLS_H
#define PLAIN_CALLS_H

#include "request.h"

/* Answers a request: gives the values, and writes into its slices. */
typedef void plain_call(const struct request *q, struct reply *a);

/* The call of a kind; NULL where there is no such kind. */
plain_call *plain_call_of(uint8_t kind);

#endif
