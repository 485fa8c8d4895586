/* Requests: their stack locations, their way down and up, and what a driver may not do with them. */
#include "shim_inside.h"
#include <stdlib.h>

/* What a status reads as behind the completion of its request, where nobody may look at it. */
#define POISON SHIM_STATUS(0xEDEADBED)
#define MOST_LET_GO 64

static struct shim_request *requests; /* all that were not freed */

static struct shim_request *request_of(PIRP irp) { return (struct shim_request *)(void *)irp; }

static void unlink_and_free(struct shim_request *request)
{
    struct shim_request **at = &requests;
    while (*at && *at != request)
        at = &(*at)->next;
    if (*at)
        *at = request->next;
    free(request);
}

struct shim_request *shim_new_request(struct shim_device *device, CCHAR stack_size)
{
    struct shim_request *request;
    if (stack_size < 1)
        stack_size = 1;
    request = shim_memory(sizeof *request + ((size_t)stack_size + 2) * sizeof request->locations[0]);
    request->device = device;
    request->irp.StackCount = stack_size;
    request->irp.CurrentLocation = (CCHAR)(stack_size + 1);
    request->irp.Tail.Overlay.CurrentStackLocation = &request->locations[stack_size + 1];
    request->next = requests;
    return requests = request;
}

/* A request that is over stays for a while, so that a second completion is told and is no crash. */
void shim_let_go(struct shim_request *request)
{
    static struct shim_request *kept[MOST_LET_GO];
    static int at;
    if (request->let_go)
        return;
    request->let_go = true;
    if (kept[at])
        unlink_and_free(kept[at]);
    kept[at] = request;
    at = (at + 1) % MOST_LET_GO;
}

static void move(PIRP irp, int locations)
{
    irp->CurrentLocation = (CCHAR)(irp->CurrentLocation + locations);
    irp->Tail.Overlay.CurrentStackLocation += locations;
}

/* The location of the driver that is asked. */
PIO_STACK_LOCATION shim_own_location(struct shim_request *request) { return &request->locations[(int)request->irp.StackCount]; }

/* ---- from above */
struct shim_request *shim_ask(struct shim_device *device, int major, int minor)
{
    struct shim_request *request = shim_new_request(device, device->own->StackSize);
    PIO_STACK_LOCATION own;
    move(&request->irp, -1);
    own = request->irp.Tail.Overlay.CurrentStackLocation;
    own->MajorFunction = request->major = (UCHAR)major;
    own->MinorFunction = request->minor = (UCHAR)minor;
    own->DeviceObject = device->own;
    request->from_above = true;
    request->irp.IoStatus.Status = major == IRP_MJ_CREATE || major == IRP_MJ_CLOSE || major == IRP_MJ_CLEANUP ? STATUS_SUCCESS : STATUS_NOT_SUPPORTED;
    return request;
}

static bool lower_works(const struct shim_request *request) { return request->forwards > 0 && !request->lower_done; }

static void judge_return(struct shim_request *request, NTSTATUS status)
{
    if (request->completed) {
        if (status == STATUS_PENDING && !request->marked)
            shim_broke("pending-not-marked");
        if (status != STATUS_PENDING && request->marked)
            shim_broke("marked-not-pending");
        if (status != STATUS_PENDING && status != request->completed_status)
            shim_broke("other-status-returned");
    } else if (status != STATUS_PENDING) {
        shim_broke(lower_works(request) ? "returned-before-lower" : "neither-completed-nor-pended");
    } else if (!lower_works(request) && !(shim_own_location(request)->Control & SL_PENDING_RETURNED)) {
        shim_broke("pending-not-marked");
    }
}

void shim_dispatch(struct shim_request *request)
{
    PDRIVER_DISPATCH routine = shim_driver.MajorFunction[request->major];
    struct shim_device *before = shim_now;
    KIRQL level = shim_level();
    NTSTATUS status = STATUS_INVALID_DEVICE_REQUEST;
    shim_now = request->device;
    if (routine) {
        status = routine(request->device->own, &request->irp);
    } else {
        request->irp.IoStatus.Status = status;
        IoCompleteRequest(&request->irp, IO_NO_INCREMENT);
    }
    shim_level_back(level);
    shim_now = before;
    judge_return(request, status);
    request->returned = true;
    request->returned_status = status;
}

/* ---- stack locations */
PIO_STACK_LOCATION IoGetCurrentIrpStackLocation(PIRP irp) { return irp->Tail.Overlay.CurrentStackLocation; }
PIO_STACK_LOCATION IoGetNextIrpStackLocation(PIRP irp) { return irp->Tail.Overlay.CurrentStackLocation - (irp->CurrentLocation > 0); }
VOID IoSetNextIrpStackLocation(PIRP irp)
{
    if (irp->CurrentLocation > 1)
        move(irp, -1);
}
static bool is_skipped(PIRP irp) { return request_of(irp)->from_above && irp->CurrentLocation > irp->StackCount; }

VOID IoSkipCurrentIrpStackLocation(PIRP irp)
{
    if (irp->CurrentLocation > irp->StackCount)
        shim_broke("skipped-twice");
    else
        move(irp, 1);
}
VOID IoCopyCurrentIrpStackLocationToNext(PIRP irp)
{
    PIO_STACK_LOCATION next = IoGetNextIrpStackLocation(irp);
    if (is_skipped(irp)) {
        shim_broke("copied-after-skip");
        return;
    }
    *next = *IoGetCurrentIrpStackLocation(irp);
    next->CompletionRoutine = NULL;
    next->Context = NULL;
    next->Control = 0;
}
VOID IoSetCompletionRoutine(PIRP irp, PIO_COMPLETION_ROUTINE routine, PVOID context, BOOLEAN on_success, BOOLEAN on_error, BOOLEAN on_cancel)
{
    PIO_STACK_LOCATION next = IoGetNextIrpStackLocation(irp);
    if (is_skipped(irp))
        shim_broke("routine-after-skip");
    next->CompletionRoutine = routine;
    next->Context = context;
    next->Control = (UCHAR)((on_success ? SL_INVOKE_ON_SUCCESS : 0) | (on_error ? SL_INVOKE_ON_ERROR : 0) | (on_cancel ? SL_INVOKE_ON_CANCEL : 0));
}
NTSTATUS IoSetCompletionRoutineEx(PDEVICE_OBJECT device, PIRP irp, PIO_COMPLETION_ROUTINE routine, PVOID context, BOOLEAN on_success, BOOLEAN on_error, BOOLEAN on_cancel)
{
    (void)device;
    IoSetCompletionRoutine(irp, routine, context, on_success, on_error, on_cancel);
    return STATUS_SUCCESS;
}
VOID IoMarkIrpPending(PIRP irp) { IoGetCurrentIrpStackLocation(irp)->Control |= SL_PENDING_RETURNED; }

/* ---- down */
static bool is_below(const struct shim_object *target, PDEVICE_OBJECT own)
{
    struct shim_object *at = own ? shim_object(own) : NULL;
    while (at && at->below && at->below != &target->object)
        at = shim_object(at->below);
    return at && at->below;
}
NTSTATUS IoCallDriver(PDEVICE_OBJECT device, PIRP irp)
{
    struct shim_request *request = request_of(irp);
    struct shim_object *target = shim_object(device);
    PIO_STACK_LOCATION at;
    if (request->completed) {
        shim_broke("forwarded-after-completion");
        return request->completed_status;
    }
    if (irp->CurrentLocation <= 1) {
        shim_broke("forwarded-twice");
        return STATUS_INVALID_DEVICE_REQUEST;
    }
    if (!target || (request->from_above && target != &request->device->bus_object && !is_below(target, request->device->own))) {
        shim_broke("called-wrong-device");
        return STATUS_INVALID_DEVICE_REQUEST;
    }
    move(irp, -1);
    at = IoGetCurrentIrpStackLocation(irp);
    if (request->from_above && (at->MajorFunction != request->major || at->MinorFunction != request->minor)) {
        shim_broke("location-not-set");
        at->MajorFunction = request->major;
        at->MinorFunction = request->minor;
    }
    at->DeviceObject = device;
    if (target == &target->device->bus_object) {
        request->device = target->device;
        return shim_bus(request);
    }
    return target->object.DriverObject->MajorFunction[at->MajorFunction] ? target->object.DriverObject->MajorFunction[at->MajorFunction](device, irp) : STATUS_INVALID_DEVICE_REQUEST;
}
NTSTATUS IofCallDriver(PDEVICE_OBJECT device, PIRP irp) { return IoCallDriver(device, irp); }

static NTSTATUS sets_event(PDEVICE_OBJECT device, PIRP irp, PVOID context)
{
    (void)device, (void)irp;
    KeSetEvent(context, IO_NO_INCREMENT, FALSE);
    return STATUS_MORE_PROCESSING_REQUIRED;
}
BOOLEAN IoForwardIrpSynchronously(PDEVICE_OBJECT device, PIRP irp)
{
    KEVENT event;
    if (shim_level() >= DISPATCH_LEVEL)
        shim_broke("waits-at-dispatch");
    KeInitializeEvent(&event, NotificationEvent, FALSE);
    IoCopyCurrentIrpStackLocationToNext(irp);
    IoSetCompletionRoutine(irp, sets_event, &event, TRUE, TRUE, TRUE);
    if (IoCallDriver(device, irp) == STATUS_PENDING)
        KeWaitForSingleObject(&event, Executive, KernelMode, FALSE, NULL);
    return TRUE;
}

/* ---- up */
bool shim_may_be_failed(const struct shim_request *request)
{
    return request->minor == IRP_MN_START_DEVICE || request->minor == IRP_MN_QUERY_STOP_DEVICE || request->minor == IRP_MN_QUERY_REMOVE_DEVICE;
}
static void judge_completion(const struct shim_request *request)
{
    if (request->completed_status == STATUS_PENDING)
        shim_broke("completed-with-pending");
    if (request->returned && request->returned_status == STATUS_PENDING && !request->marked)
        shim_broke("pending-not-marked");
    if (request->lower_failed && NT_SUCCESS(request->completed_status))
        shim_broke("lower-failure-hidden");
    if (shim_is_of_manager(request) && request->forwards == 0 && (NT_SUCCESS(request->completed_status) || !shim_may_be_failed(request)))
        shim_broke("not-forwarded");
}
static void finish(struct shim_request *request)
{
    request->completed = true;
    request->completed_status = request->irp.IoStatus.Status;
    if (request->from_above)
        judge_completion(request);
    if (request->irp.UserIosb)
        *request->irp.UserIosb = request->irp.IoStatus;
    if (request->irp.UserEvent)
        KeSetEvent(request->irp.UserEvent, IO_NO_INCREMENT, FALSE);
    request->irp.IoStatus.Status = POISON;
    if (request->done && request->device)
        request->done(request);
    if (request->ends_alone)
        shim_let_go(request);
}
/* The device object that a completion routine gets: that of the location above. Where there is none a driver that set one behind a skip
 * gets its own, so that it lives to hear of it. */
static PDEVICE_OBJECT device_above(const struct shim_request *request)
{
    if (request->irp.CurrentLocation <= request->irp.StackCount)
        return request->irp.Tail.Overlay.CurrentStackLocation->DeviceObject;
    return request->from_above && request->device ? request->device->own : NULL;
}
/* Goes up, over the routines that are wanted. Behind a routine that stops the way the request may be gone. */
static void go_up(struct shim_request *request)
{
    PIRP irp = &request->irp;
    while (irp->CurrentLocation <= irp->StackCount) {
        PIO_STACK_LOCATION at = IoGetCurrentIrpStackLocation(irp);
        PIO_COMPLETION_ROUTINE routine = at->CompletionRoutine;
        bool is_wanted = at->Control & (NT_SUCCESS(irp->IoStatus.Status) ? SL_INVOKE_ON_SUCCESS : SL_INVOKE_ON_ERROR);
        irp->PendingReturned = request->marked = (at->Control & SL_PENDING_RETURNED) != 0;
        at->CompletionRoutine = NULL;
        move(irp, 1);
        if (routine && is_wanted) {
            if (routine(device_above(request), irp, at->Context) == STATUS_MORE_PROCESSING_REQUIRED)
                return;
        } else if (irp->PendingReturned && irp->CurrentLocation <= irp->StackCount) {
            IoMarkIrpPending(irp);
        }
        if (request->completed) {
            shim_broke("completed-twice");
            return;
        }
    }
    finish(request);
}
VOID IoCompleteRequest(PIRP irp, CCHAR boost)
{
    struct shim_request *request = request_of(irp);
    (void)boost;
    if (request->completed) {
        shim_broke("completed-twice");
        return;
    }
    if (is_skipped(irp))
        shim_broke("completed-after-skip");
    if (request->from_above && lower_works(request)) {
        shim_broke("completed-before-lower");
        request->lower_done = true;
        shim_forget_work(request);
    }
    go_up(request);
}
VOID IofCompleteRequest(PIRP irp, CCHAR boost) { IoCompleteRequest(irp, boost); }

/* ---- requests that a driver makes */
PIRP IoAllocateIrp(CCHAR stack_size, BOOLEAN charge)
{
    (void)charge;
    return &shim_new_request(shim_now, stack_size)->irp;
}
VOID IoFreeIrp(PIRP irp) { shim_let_go(request_of(irp)); }
VOID IoReuseIrp(PIRP irp, NTSTATUS status)
{
    struct shim_request *request = request_of(irp);
    move(irp, irp->StackCount + 1 - irp->CurrentLocation);
    memset(request->locations, 0, ((size_t)irp->StackCount + 2) * sizeof request->locations[0]);
    request->completed = request->lower_done = request->returned = request->marked = false;
    request->forwards = 0;
    irp->IoStatus.Status = status;
}
PIRP IoBuildSynchronousFsdRequest(ULONG major, PDEVICE_OBJECT device, PVOID buffer, ULONG length, PLARGE_INTEGER offset, PKEVENT event, PIO_STATUS_BLOCK result)
{
    PIRP irp = IoAllocateIrp(device->StackSize, FALSE);
    (void)buffer, (void)length, (void)offset;
    IoGetNextIrpStackLocation(irp)->MajorFunction = (UCHAR)major;
    irp->UserEvent = event;
    irp->UserIosb = result;
    request_of(irp)->ends_alone = true;
    return irp;
}
PIRP IoBuildDeviceIoControlRequest(ULONG code, PDEVICE_OBJECT device, PVOID input, ULONG input_length, PVOID output, ULONG output_length, BOOLEAN internal, PKEVENT event, PIO_STATUS_BLOCK result)
{
    PIRP irp = IoBuildSynchronousFsdRequest(internal ? IRP_MJ_INTERNAL_DEVICE_CONTROL : IRP_MJ_DEVICE_CONTROL, device, NULL, 0, NULL, event, result);
    PIO_STACK_LOCATION next = IoGetNextIrpStackLocation(irp);
    next->Parameters.DeviceIoControl.IoControlCode = code;
    next->Parameters.DeviceIoControl.InputBufferLength = input_length;
    next->Parameters.DeviceIoControl.OutputBufferLength = output_length;
    irp->AssociatedIrp.SystemBuffer = input ? input : output;
    return irp;
}
