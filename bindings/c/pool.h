/*
 * Threads that do the shares of calls, and sleep between them.
 */
#ifndef CBGRID_POOL_H
#define CBGRID_POOL_H

#include <stddef.h>

/* Does the shares 0, 1 and so on of some work, each once, and returns when all are done. The caller's thread does those that no
 * other thread has begun. Threads are started when a call first has shares for them; what can't be started isn't missed. */
void share_out(void (*do_share)(void *work, size_t share), void *work, size_t count);

#endif
