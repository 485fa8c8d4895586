/* Devices, their objects, and what they are given. */
#include "shim_inside.h"
#include <stdlib.h>

struct shim_device *shim_devices;
struct shim_device *shim_now;

/* Every object that a driver made and that was not freed. */
static struct shim_object *objects;

/* What is not of the shim was made by the driver's own means, and cannot be judged. */
struct shim_object *shim_object(PDEVICE_OBJECT device)
{
    for (struct shim_object *object = objects; object; object = object->next)
        if (&object->object == device)
            return object;
    for (struct shim_device *one = shim_devices; one; one = one->next)
        if (&one->bus_object.object == device)
            return &one->bus_object;
    return NULL;
}

struct shim_device *shim_device_of(const char *path, const char *driver)
{
    struct shim_device *device;
    for (device = shim_devices; device; device = device->next)
        if (!strcmp(device->path, path) && !strcmp(device->driver, driver))
            return device;
    device = shim_memory(sizeof *device);
    strcpy(device->path, path); /* no longer than the words that were read, which fit */
    strcpy(device->driver, driver);
    device->bus_object.device = device;
    device->bus_object.object.StackSize = 1;
    device->bus_object.object.Flags = DO_BUS_ENUMERATED_DEVICE;
    device->next = shim_devices;
    return shim_devices = device;
}

/* ---- device objects */
NTSTATUS IoCreateDevice(PDRIVER_OBJECT driver, ULONG extension_size, PUNICODE_STRING name, DEVICE_TYPE type, ULONG characteristics, BOOLEAN exclusive, PDEVICE_OBJECT *device)
{
    struct shim_object *object = shim_memory(sizeof *object);
    (void)name, (void)exclusive;
    object->object.DeviceExtension = shim_memory(extension_size);
    object->extension_size = extension_size;
    object->object.Size = (USHORT)sizeof object->object;
    object->object.DriverObject = driver;
    object->object.DeviceType = type;
    object->object.Characteristics = characteristics;
    object->object.Flags = DO_DEVICE_INITIALIZING;
    object->object.StackSize = 1;
    object->object.NextDevice = driver->DeviceObject;
    driver->DeviceObject = &object->object;
    InitializeListHead(&object->packets);
    object->device = shim_now;
    object->next = objects;
    objects = object;
    *device = &object->object;
    return STATUS_SUCCESS;
}

static void unlink_from_driver(PDEVICE_OBJECT device)
{
    PDEVICE_OBJECT *at = &shim_driver.DeviceObject;
    while (*at && *at != device)
        at = &(*at)->NextDevice;
    if (*at)
        *at = device->NextDevice;
}

VOID IoDeleteDevice(PDEVICE_OBJECT device)
{
    struct shim_object *object = shim_object(device);
    if (!object || object->deleted) {
        shim_broke("deleted-twice");
        return;
    }
    if (object->below)
        shim_broke("deleted-while-attached");
    if (object->device && object->device->own == device) {
        if (!object->device->removing)
            shim_broke("deleted-early");
        object->device->own = NULL;
    }
    if (shim_forget_within(device->DeviceExtension, object->extension_size))
        shim_broke("timer-left-set");
    shim_forget_within(&object->dpc, sizeof object->dpc);
    unlink_from_driver(device);
    object->deleted = true;
}

/* A deleted object stays until what was asked is answered, so that a use of it behind its deletion is one that AddressSanitizer tells. */
void shim_free_deleted(bool all)
{
    for (struct shim_object **at = &objects; *at;) {
        struct shim_object *object = *at;
        if (all || (object->deleted && !(object->device && object->device->waits))) {
            *at = object->next;
            free(object->object.DeviceExtension);
            free(object);
        } else {
            at = &object->next;
        }
    }
}

PDEVICE_OBJECT IoGetAttachedDevice(PDEVICE_OBJECT device)
{
    while (device->AttachedDevice)
        device = device->AttachedDevice;
    return device;
}
PDEVICE_OBJECT IoGetAttachedDeviceReference(PDEVICE_OBJECT device) { return IoGetAttachedDevice(device); }

PDEVICE_OBJECT IoAttachDeviceToDeviceStack(PDEVICE_OBJECT source, PDEVICE_OBJECT target)
{
    struct shim_object *object = shim_object(source), *below;
    target = IoGetAttachedDevice(target);
    below = shim_object(target);
    if (!object || !below || object->deleted || object == below)
        return NULL;
    target->AttachedDevice = source;
    source->StackSize = (CCHAR)(target->StackSize + 1);
    object->below = target;
    object->device = below->device;
    if (object->device)
        object->device->own = source;
    return target;
}

VOID IoDetachDevice(PDEVICE_OBJECT target)
{
    struct shim_object *above = target ? shim_object(target->AttachedDevice) : NULL;
    if (!above) {
        shim_broke("detached-twice");
        return;
    }
    if (above->device && !above->device->removing)
        shim_broke("detached-early");
    above->below = NULL;
    target->AttachedDevice = NULL;
}

/* ---- what must be so when a device was stopped or has gone, and when it was removed */
void shim_judge_left(struct shim_device *device)
{
    if (device->interrupts > 0)
        shim_broke("interrupt-left-connected");
    if (device->mappings > 0)
        shim_broke("memory-left-mapped");
}

void shim_judge_removed(struct shim_device *device)
{
    shim_judge_left(device);
    if (device->bus_object.object.AttachedDevice)
        shim_broke("not-detached");
    if (device->own)
        shim_broke("not-deleted");
    if (device->interfaces > 0)
        shim_broke("interface-left-enabled");
    if (device->others)
        shim_broke("request-left-queued");
    while (device->others) {
        struct shim_request *request = device->others;
        device->others = request->next_other;
        request->device = NULL;
        request->done = NULL;
    }
    device->own = device->bus_object.object.AttachedDevice = NULL;
    device->interrupts = device->mappings = device->interfaces = 0;
    device->started = device->removing = false;
}

/* ---- resources */
static uint64_t number_of(char **at)
{
    uint64_t number = strtoull(*at, at, 0);
    return number;
}
static ULONG length_of(uint64_t low, uint64_t high) { return high - low >= MAXULONG ? MAXULONG : (ULONG)(high - low + 1); }

/* One resource, as `port:0x3f8-0x3ff` or `irq:16-16:shared`. */
static void give_one(CM_PARTIAL_RESOURCE_DESCRIPTOR *given, const char *kind, char *range)
{
    uint64_t low = number_of(&range), high = low;
    if (*range == '-') {
        range++;
        high = number_of(&range);
    }
    memset(given, 0, sizeof *given);
    given->ShareDisposition = *range == ':' ? CmResourceShareShared : CmResourceShareDeviceExclusive;
    if (!strcmp(kind, "port") || !strcmp(kind, "mem")) {
        given->Type = kind[0] == 'p' ? CmResourceTypePort : CmResourceTypeMemory;
        given->Flags = kind[0] == 'p' ? CM_RESOURCE_PORT_IO : CM_RESOURCE_MEMORY_READ_WRITE;
        memcpy(&given->u.Generic.Start.QuadPart, &low, sizeof low);
        given->u.Generic.Length = length_of(low, high);
    } else if (!strcmp(kind, "irq")) {
        given->Type = CmResourceTypeInterrupt;
        given->u.Interrupt.Level = given->u.Interrupt.Vector = (ULONG)low;
        given->u.Interrupt.Affinity = 1;
    } else if (!strcmp(kind, "dma")) {
        given->Type = CmResourceTypeDma;
        given->u.Dma.Channel = (ULONG)low;
    } else {
        given->Type = CmResourceTypeBusNumber;
        given->u.BusNumber.Start = (ULONG)low;
        given->u.BusNumber.Length = length_of(low, high);
    }
}

void shim_give(struct shim_device *device, char *words)
{
    PCM_PARTIAL_RESOURCE_LIST list = &device->given.List[0].PartialResourceList;
    memset(&device->given, 0, sizeof device->given);
    device->given.Count = 1;
    device->given.List[0].InterfaceType = Internal;
    list->Version = list->Revision = 1;
    for (char *word = strtok(words, " "); word && list->Count < SHIM_MOST_RESOURCES; word = strtok(NULL, " ")) {
        char *range = strchr(word, ':');
        if (!range)
            continue;
        *range = 0;
        give_one(&list->PartialDescriptors[list->Count++], word, range + 1);
    }
}
