/* The bus driver below: it says yes to what it is passed, at once or later. */
#include "shim_inside.h"

bool shim_is_of_manager(const struct shim_request *request)
{
    return request->from_above && request->major == IRP_MJ_PNP && (request->minor <= IRP_MN_CANCEL_STOP_DEVICE || request->minor == IRP_MN_SURPRISE_REMOVAL);
}

static void judge_forwarded(const struct shim_request *request)
{
    NTSTATUS status = request->irp.IoStatus.Status;
    if (request->forwards)
        shim_broke("forwarded-twice");
    if (!request->device->bus_object.object.AttachedDevice)
        shim_broke("forwarded-after-detach");
    if (request->major != IRP_MJ_PNP)
        return;
    if (!NT_SUCCESS(status) && status != STATUS_NOT_SUPPORTED)
        shim_broke("forwarded-a-failure");
    if (request->minor == SHIM_LATER_MINOR && status != STATUS_NOT_SUPPORTED)
        shim_broke("status-changed");
}

static NTSTATUS start(struct shim_request *request)
{
    if (shim_settings.lower_fails) {
        request->lower_failed = true;
        return STATUS_DEVICE_CONFIGURATION_ERROR;
    }
    request->device->started = true;
    return STATUS_SUCCESS;
}

/* What the bus driver answers: what it does not know stays as it was. */
static NTSTATUS answer(struct shim_request *request, UCHAR major, UCHAR minor)
{
    NTSTATUS as_it_was = request->irp.IoStatus.Status;
    switch (major) {
    case IRP_MJ_PNP:
        if (minor == IRP_MN_START_DEVICE && request->from_above)
            return start(request);
        return minor <= IRP_MN_QUERY_CAPABILITIES || minor == IRP_MN_SURPRISE_REMOVAL || minor == IRP_MN_DEVICE_USAGE_NOTIFICATION ? STATUS_SUCCESS : as_it_was;
    case IRP_MJ_CREATE:
        return request->device->started ? STATUS_SUCCESS : STATUS_DEVICE_NOT_READY;
    case IRP_MJ_POWER:
    case IRP_MJ_CLEANUP:
    case IRP_MJ_CLOSE:
        return STATUS_SUCCESS;
    case IRP_MJ_SYSTEM_CONTROL:
        return as_it_was;
    default:
        return STATUS_INVALID_DEVICE_REQUEST;
    }
}

static NTSTATUS complete(struct shim_request *request)
{
    PIO_STACK_LOCATION at = IoGetCurrentIrpStackLocation(&request->irp);
    NTSTATUS status = answer(request, at->MajorFunction, at->MinorFunction);
    request->irp.IoStatus.Status = status;
    request->lower_done = true;
    IoCompleteRequest(&request->irp, IO_NO_INCREMENT);
    return status;
}
static void complete_later(void *context) { complete(context); }

NTSTATUS shim_bus(struct shim_request *request)
{
    if (request->from_above)
        judge_forwarded(request);
    request->forwards++;
    request->lower_done = false;
    if (shim_is_of_manager(request) && (request->minor == IRP_MN_STOP_DEVICE || request->minor == IRP_MN_REMOVE_DEVICE))
        request->device->started = false;
    if (shim_is_of_manager(request) && shim_settings.lower_pends) {
        IoMarkIrpPending(&request->irp);
        shim_queue_work(complete_later, request);
        return STATUS_PENDING;
    }
    return complete(request);
}
