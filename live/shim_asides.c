/* What a driver is asked beside the manager's requests: what Windows sends to each started device too, and whether a program may open it. */
#include "shim_inside.h"
#include <stdlib.h>

static void drop_other(struct shim_request *request)
{
    for (struct shim_request **at = &request->device->others; *at; at = &(*at)->next_other)
        if (*at == request) {
            *at = request->next_other;
            break;
        }
    shim_let_go(request);
}
/* Keeps a request until it is completed, whenever that is. */
void shim_keep_other(struct shim_request *request)
{
    if (!request->done)
        request->done = drop_other;
    request->next_other = request->device->others;
    request->device->others = request;
}

/* ---- requests that each driver of a stack passes down, also what it does not know */
static void judge_other(struct shim_request *request)
{
    if (request->forwards == 0 && request->major == IRP_MJ_PNP)
        shim_broke("minor-not-forwarded");
    if (request->forwards == 0 && request->major == IRP_MJ_SYSTEM_CONTROL)
        shim_broke("wmi-not-forwarded");
    if (request->forwards == 0 && request->major == IRP_MJ_POWER && (NT_SUCCESS(request->completed_status) || !shim_driver.MajorFunction[IRP_MJ_POWER]))
        shim_broke("power-not-forwarded");
    drop_other(request);
}
static struct shim_request *other(struct shim_device *device, int major, int minor)
{
    struct shim_request *request = shim_ask(device, major, minor);
    request->done = judge_other;
    shim_keep_other(request);
    return request;
}
void shim_ask_others(struct shim_device *device)
{
    static DEVICE_CAPABILITIES capabilities;
    struct shim_request *request;
    if (!device->own)
        return;
    memset(&capabilities, 0, sizeof capabilities);
    capabilities.Size = sizeof capabilities;
    capabilities.Version = 1;
    request = other(device, IRP_MJ_PNP, IRP_MN_QUERY_CAPABILITIES);
    shim_own_location(request)->Parameters.DeviceCapabilities.Capabilities = &capabilities;
    shim_dispatch(request);
    if (device->own)
        shim_dispatch(other(device, IRP_MJ_PNP, SHIM_LATER_MINOR));
    if (!device->own)
        return;
    request = other(device, IRP_MJ_SYSTEM_CONTROL, IRP_MN_REGINFO);
    shim_own_location(request)->Parameters.WMI.ProviderId = (ULONG_PTR)&device->bus_object.object;
    shim_dispatch(request);
    if (!device->own)
        return;
    request = other(device, IRP_MJ_POWER, IRP_MN_QUERY_POWER);
    shim_own_location(request)->Parameters.Power.Type = SystemPowerState;
    shim_own_location(request)->Parameters.Power.State.SystemState = PowerSystemWorking;
    shim_dispatch(request);
}

/* ---- would the driver take a request of a program now? */
struct handle {
    struct shim_device *device;
    FILE_OBJECT file;
};
static void send_file_request(struct handle *handle, int major)
{
    struct shim_request *request;
    if (!handle->device->own || !shim_driver.MajorFunction[major])
        return;
    request = shim_ask(handle->device, major, 0);
    shim_own_location(request)->FileObject = &handle->file;
    request->irp.Tail.Overlay.OriginalFileObject = &handle->file;
    shim_keep_other(request);
    shim_dispatch(request);
}
static void close_handle(void *context)
{
    struct handle *handle = context;
    send_file_request(handle, IRP_MJ_CLEANUP);
    send_file_request(handle, IRP_MJ_CLOSE);
    free(handle);
}
/* A create that the driver queued, and that it completes now: what was opened is closed by a piece of work of its own. */
static void created(struct shim_request *request)
{
    struct handle *handle = CONTAINING_RECORD(request->irp.Tail.Overlay.OriginalFileObject, struct handle, file);
    if (request->returned && NT_SUCCESS(request->completed_status))
        shim_queue_work(close_handle, handle);
    else if (request->returned)
        free(handle);
    drop_other(request);
}
const char *shim_probe(struct shim_device *device)
{
    struct handle *handle;
    struct shim_request *request;
    NTSTATUS status;
    if (!device->own || !shim_driver.MajorFunction[IRP_MJ_CREATE])
        return "fail";
    handle = shim_memory(sizeof *handle);
    handle->device = device;
    request = shim_ask(device, IRP_MJ_CREATE, 0);
    request->done = created;
    shim_own_location(request)->FileObject = &handle->file;
    request->irp.Tail.Overlay.OriginalFileObject = &handle->file;
    shim_keep_other(request);
    shim_dispatch(request);
    if (!request->completed)
        return "pend";
    status = request->completed_status;
    if (NT_SUCCESS(status))
        close_handle(handle);
    else
        free(handle);
    return NT_SUCCESS(status) ? "ok" : "fail";
}
