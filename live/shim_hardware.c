/* The hardware: ports, memory and interrupts. A driver may touch what its device was given, while the bus driver has it started. */
#include "shim_inside.h"
#include <stdlib.h>

static struct shim_hardware hardware;

void shim_set_hardware(const struct shim_hardware *given) { hardware = *given; }

enum holding { NOT_GIVEN, GIVEN, GIVEN_AND_STARTED };

/* Whether one of the device's resources of a type has these numbers. */
static enum holding holds(const struct shim_device *device, int type, uint64_t low, uint64_t length)
{
    const CM_PARTIAL_RESOURCE_LIST *list = &device->given.List[0].PartialResourceList;
    for (ULONG i = 0; i < list->Count; i++) {
        const CM_PARTIAL_RESOURCE_DESCRIPTOR *one = &list->PartialDescriptors[i];
        uint64_t first = type == CmResourceTypeInterrupt ? one->u.Interrupt.Vector : (uint64_t)one->u.Generic.Start.QuadPart;
        uint64_t size = type == CmResourceTypeInterrupt ? 1 : one->u.Generic.Length;
        if (one->Type == type && low >= first && length <= size && low - first <= size - length)
            return device->started ? GIVEN_AND_STARTED : GIVEN;
    }
    return NOT_GIVEN;
}

/* The device whose driver is at work, or else the one that fits best. */
static enum holding best(int type, uint64_t low, uint64_t length)
{
    enum holding found = NOT_GIVEN;
    if (shim_now)
        return holds(shim_now, type, low, length);
    for (struct shim_device *device = shim_devices; device; device = device->next) {
        enum holding one = holds(device, type, low, length);
        found = one > found ? one : found;
    }
    return found;
}

static void touch(int type, uint64_t low, uint64_t length, const char *stopped, const char *not_assigned)
{
    enum holding found = best(type, low, length);
    if (found == GIVEN || (shim_now && !shim_now->started))
        shim_broke(stopped);
    else if (found == NOT_GIVEN)
        shim_broke(not_assigned);
}

/* ---- ports */
static ULONG read_port(const volatile void *at, int size)
{
    uint64_t port = (uint64_t)(uintptr_t)at;
    touch(CmResourceTypePort, port, (uint64_t)size, "port-while-stopped", "port-not-assigned");
    return hardware.read ? hardware.read(port, size) : MAXULONG;
}
static void write_port(const volatile void *at, int size, ULONG value)
{
    uint64_t port = (uint64_t)(uintptr_t)at;
    touch(CmResourceTypePort, port, (uint64_t)size, "port-while-stopped", "port-not-assigned");
    if (hardware.write)
        hardware.write(port, size, value);
}
UCHAR READ_PORT_UCHAR(PUCHAR port) { return (UCHAR)read_port(port, 1); }
USHORT READ_PORT_USHORT(PUSHORT port) { return (USHORT)read_port(port, 2); }
ULONG READ_PORT_ULONG(PULONG port) { return read_port(port, 4); }
VOID WRITE_PORT_UCHAR(PUCHAR port, UCHAR value) { write_port(port, 1, value); }
VOID WRITE_PORT_USHORT(PUSHORT port, USHORT value) { write_port(port, 2, value); }
VOID WRITE_PORT_ULONG(PULONG port, ULONG value) { write_port(port, 4, value); }
VOID KeStallExecutionProcessor(ULONG microseconds) { (void)microseconds; }

/* ---- memory: a block of zeroes stands for it */
#define MOST_MAPPED ((SIZE_T)1 << 24)
struct mapping {
    void *base;
    struct shim_device *device;
    struct mapping *next;
};
static struct mapping *mappings;

PVOID MmMapIoSpace(PHYSICAL_ADDRESS address, SIZE_T size, MEMORY_CACHING_TYPE caching)
{
    struct mapping *mapping;
    (void)caching;
    touch(CmResourceTypeMemory, (uint64_t)address.QuadPart, size, "memory-while-stopped", "memory-not-assigned");
    if (size > MOST_MAPPED)
        return NULL;
    mapping = shim_memory(sizeof *mapping);
    mapping->base = shim_memory(size);
    mapping->device = shim_now;
    mapping->next = mappings;
    mappings = mapping;
    if (mapping->device)
        mapping->device->mappings++;
    return mapping->base;
}
VOID MmUnmapIoSpace(PVOID base, SIZE_T size)
{
    (void)size;
    for (struct mapping **at = &mappings; *at; at = &(*at)->next)
        if ((*at)->base == base) {
            struct mapping *mapping = *at;
            *at = mapping->next;
            if (mapping->device && mapping->device->mappings > 0)
                mapping->device->mappings--;
            free(mapping->base);
            free(mapping);
            return;
        }
    shim_broke("memory-not-mapped");
}

/* ---- interrupts: none ever comes */
struct _KINTERRUPT { struct shim_device *device; PKSPIN_LOCK lock; KSPIN_LOCK own_lock; };

NTSTATUS IoConnectInterrupt(PKINTERRUPT *interrupt, PKSERVICE_ROUTINE routine, PVOID context, PKSPIN_LOCK lock, ULONG vector, KIRQL level, KIRQL synchronize_level, KINTERRUPT_MODE mode, BOOLEAN shared, KAFFINITY processors, BOOLEAN save_floating_point)
{
    PKINTERRUPT made;
    (void)routine, (void)context, (void)level, (void)synchronize_level, (void)mode, (void)shared, (void)processors, (void)save_floating_point;
    touch(CmResourceTypeInterrupt, vector, 1, "interrupt-while-stopped", "interrupt-not-assigned");
    made = shim_memory(sizeof *made);
    made->device = shim_now;
    made->lock = lock ? lock : &made->own_lock;
    if (made->device)
        made->device->interrupts++;
    *interrupt = made;
    return STATUS_SUCCESS;
}
VOID IoDisconnectInterrupt(PKINTERRUPT interrupt)
{
    if (interrupt->device && interrupt->device->interrupts > 0)
        interrupt->device->interrupts--;
    free(interrupt);
}
BOOLEAN KeSynchronizeExecution(PKINTERRUPT interrupt, PKSYNCHRONIZE_ROUTINE routine, PVOID context)
{
    BOOLEAN answer;
    KIRQL old;
    KeAcquireSpinLock(interrupt->lock, &old);
    answer = routine(context);
    KeReleaseSpinLock(interrupt->lock, old);
    return answer;
}
KIRQL KeAcquireInterruptSpinLock(PKINTERRUPT interrupt)
{
    KIRQL old;
    KeAcquireSpinLock(interrupt->lock, &old);
    return old;
}
VOID KeReleaseInterruptSpinLock(PKINTERRUPT interrupt, KIRQL old) { KeReleaseSpinLock(interrupt->lock, old); }
