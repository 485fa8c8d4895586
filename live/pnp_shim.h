/* The Plug and Play part of a Windows driver, in user mode: the names of the driver kit, over a manager that asks by lines (docs/LIVE.md).
 * C99. A process hosts one driver, that is one DriverEntry, for any number of devices. There is one thread: what was queued, or pended
 * by the bus driver, goes on while the manager polls, or while a routine waits. */
#ifndef PNP_SHIM_H
#define PNP_SHIM_H

#include "kit_io.h"

/* The driver's own, which the shim calls once. */
DRIVER_INITIALIZE DriverEntry;

/* Tells the manager, with the next answer, that the driver broke a rule: of its author's, for those of Windows are looked after by the
 * shim. A tag has 1 to 64 letters, digits, `_`, `-` or `.`. */
void shim_broke(const char *tag);

/* Runs a routine later: at a poll, or while another routine waits. As a work item, without one. */
typedef void shim_work(void *context);
void shim_queue_work(shim_work *work, void *context);

/* What stands behind the ports, in place of the empty bus, of which each port reads as ones. Size is 1, 2 or 4 bytes. Each may be NULL. */
struct shim_hardware {
    ULONG (*read)(uint64_t port, int size);
    void (*write)(uint64_t port, int size, ULONG value);
};
void shim_set_hardware(const struct shim_hardware *hardware);

#endif
