/* What comes of one request at the host. */
#ifndef DETIO_HOST_H
#define DETIO_HOST_H

#include "detio.h"

/* The longest wait, in milliseconds. */
#define DETIO_WAIT_MOST 60000

/* The error of this profile for one of the host. */
uint32_t detio_host_error(int error);

/* Makes the request, whose path or bytes are in `data`, and puts there what is read. A stream and an accept wait no
 * longer than `wait` milliseconds, and never longer than DETIO_WAIT_MOST, whatever signals come. Nor do a connection
 * and the opening of a FIFO, which then fail with ETIMEDOUT. A FIFO is opened at once to be read. A write raises no
 * SIGPIPE. */
void detio_host_reach(const detio_outside *, bool goes, uint64_t door, unsigned wait, uint8_t *data, size_t room,
                      detio_outcome *);

#endif
