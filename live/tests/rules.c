/* A driver that breaks one rule: the one that the environment names by its tag in RULE. Without one it breaks none. tools/check_live asks it. */
#include <ntddk.h>
#include <stdlib.h>

typedef struct _EXTENSION {
    PDEVICE_OBJECT self, lower, pdo;
    IO_REMOVE_LOCK lock;
    KSPIN_LOCK spin;
    UNICODE_STRING link;
    BOOLEAN started, gone;
    PKINTERRUPT interrupt;
    PVOID memory;
    PIRP held;
    KTIMER timer;
} EXTENSION, *PEXTENSION;

static int is(const char *tag)
{
    const char *rule = getenv("RULE");
    return rule && !strcmp(rule, tag);
}
static PEXTENSION of(PDEVICE_OBJECT device) { return device->DeviceExtension; }

static NTSTATUS complete(PIRP irp, NTSTATUS status)
{
    irp->IoStatus.Status = status;
    IoCompleteRequest(irp, IO_NO_INCREMENT);
    return status;
}
static NTSTATUS pass(PDEVICE_OBJECT device, PIRP irp)
{
    IoSkipCurrentIrpStackLocation(irp);
    return IoCallDriver(of(device)->lower, irp);
}
static NTSTATUS succeed(PDEVICE_OBJECT device, PIRP irp)
{
    irp->IoStatus.Status = STATUS_SUCCESS;
    return pass(device, irp);
}
static NTSTATUS wait_for_lower(PDEVICE_OBJECT device, PIRP irp)
{
    irp->IoStatus.Status = STATUS_SUCCESS;
    IoForwardIrpSynchronously(of(device)->lower, irp);
    return irp->IoStatus.Status;
}

/* ---- START_DEVICE */
static BOOLEAN serve(PKINTERRUPT interrupt, PVOID context) { return interrupt == context; }

static VOID take(PDEVICE_OBJECT device, PCM_RESOURCE_LIST given)
{
    PEXTENSION it = of(device);
    PHYSICAL_ADDRESS place = {.QuadPart = is("memory-not-assigned") ? 0x900000 : 0xfe000000};
    ULONG vector = is("interrupt-not-assigned") ? 3 : 5;
    ULONG_PTR port = is("port-not-assigned") ? 0x2f8 : 0x3f8;
    if (given->List[0].PartialResourceList.Count != 3)
        shim_broke("resources-not-as-asked");
    it->memory = MmMapIoSpace(place, 16, MmNonCached);
    WRITE_REGISTER_ULONG(it->memory, 1);
    WRITE_PORT_UCHAR((PUCHAR)port, 1);
    IoConnectInterrupt(&it->interrupt, serve, it, NULL, vector, 5, 5, Latched, FALSE, 1, FALSE);
    IoSetDeviceInterfaceState(&it->link, TRUE);
}
static VOID leave(PDEVICE_OBJECT device)
{
    PEXTENSION it = of(device);
    if (it->memory && !is("memory-left-mapped")) {
        MmUnmapIoSpace(it->memory, 16);
        if (is("memory-not-mapped"))
            MmUnmapIoSpace(&it->memory, 16);
        it->memory = NULL;
    }
    if (it->interrupt && !is("interrupt-left-connected")) {
        IoDisconnectInterrupt(it->interrupt);
        it->interrupt = NULL;
    }
}
static NTSTATUS start(PDEVICE_OBJECT device, PIRP irp)
{
    PCM_RESOURCE_LIST given = IoGetCurrentIrpStackLocation(irp)->Parameters.StartDevice.AllocatedResourcesTranslated;
    NTSTATUS status;
    if (is("port-while-stopped"))
        WRITE_PORT_UCHAR((PUCHAR)(ULONG_PTR)0x3f8, 0);
    if (is("memory-while-stopped") || is("interrupt-while-stopped"))
        take(device, given);
    if (is("completed-before-lower") || is("returned-before-lower")) {
        IoCopyCurrentIrpStackLocationToNext(irp);
        IoCallDriver(of(device)->lower, irp);
        return is("returned-before-lower") ? STATUS_SUCCESS : complete(irp, STATUS_SUCCESS);
    }
    if (is("lower-failure-hidden")) {
        wait_for_lower(device, irp);
        return complete(irp, STATUS_SUCCESS);
    }
    status = wait_for_lower(device, irp);
    if (!NT_SUCCESS(status))
        return complete(irp, status);
    if (!of(device)->memory)
        take(device, given);
    of(device)->started = TRUE;
    return complete(irp, STATUS_SUCCESS);
}

/* ---- QUERY_STOP_DEVICE: the rules of a request's way */
static NTSTATUS marks_nothing(PDEVICE_OBJECT device, PIRP irp, PVOID context)
{
    (void)device, (void)irp, (void)context;
    return STATUS_SUCCESS;
}
static NTSTATUS query_stop(PDEVICE_OBJECT device, PIRP irp)
{
    PEXTENSION it = of(device);
    if (is("not-forwarded"))
        return complete(irp, STATUS_SUCCESS);
    if (is("forwarded-twice")) {
        wait_for_lower(device, irp);
        return succeed(device, irp);
    }
    if (is("forwarded-a-failure")) {
        irp->IoStatus.Status = STATUS_UNSUCCESSFUL;
        return pass(device, irp);
    }
    if (is("forwarded-after-completion")) {
        complete(irp, STATUS_SUCCESS);
        return succeed(device, irp);
    }
    if (is("completed-twice")) {
        wait_for_lower(device, irp);
        complete(irp, STATUS_SUCCESS);
        return complete(irp, STATUS_SUCCESS);
    }
    if (is("completed-with-pending")) {
        wait_for_lower(device, irp);
        return complete(irp, STATUS_PENDING);
    }
    if (is("pending-not-marked")) {
        irp->IoStatus.Status = STATUS_SUCCESS;
        IoCopyCurrentIrpStackLocationToNext(irp);
        IoSetCompletionRoutine(irp, marks_nothing, NULL, TRUE, TRUE, TRUE);
        return IoCallDriver(it->lower, irp);
    }
    if (is("marked-not-pending")) {
        wait_for_lower(device, irp);
        IoMarkIrpPending(irp);
        return complete(irp, STATUS_SUCCESS);
    }
    if (is("other-status-returned")) {
        wait_for_lower(device, irp);
        complete(irp, STATUS_SUCCESS);
        return irp->IoStatus.Status; /* which is no longer its own to read */
    }
    if (is("neither-completed-nor-pended")) {
        it->held = irp;
        return wait_for_lower(device, irp);
    }
    if (is("routine-after-skip")) {
        irp->IoStatus.Status = STATUS_SUCCESS;
        IoSkipCurrentIrpStackLocation(irp);
        IoSetCompletionRoutine(irp, marks_nothing, NULL, TRUE, TRUE, TRUE);
        return IoCallDriver(it->lower, irp);
    }
    if (is("copied-after-skip")) {
        IoSkipCurrentIrpStackLocation(irp);
        IoCopyCurrentIrpStackLocationToNext(irp);
        return IoCallDriver(it->lower, irp);
    }
    if (is("skipped-twice")) {
        IoSkipCurrentIrpStackLocation(irp);
        return succeed(device, irp);
    }
    if (is("completed-after-skip")) {
        IoSkipCurrentIrpStackLocation(irp);
        return complete(irp, STATUS_UNSUCCESSFUL);
    }
    if (is("location-not-set")) {
        irp->IoStatus.Status = STATUS_SUCCESS;
        return IoCallDriver(it->lower, irp);
    }
    if (is("called-wrong-device")) {
        IoCopyCurrentIrpStackLocationToNext(irp);
        IoCallDriver(device, irp);
        return complete(irp, STATUS_UNSUCCESSFUL);
    }
    return succeed(device, irp);
}

/* ---- CANCEL_STOP_DEVICE: locks and levels */
static NTSTATUS cancel_stop(PDEVICE_OBJECT device, PIRP irp)
{
    PEXTENSION it = of(device);
    KIRQL old;
    if (is("waits-at-dispatch")) {
        KeAcquireSpinLock(&it->spin, &old);
        wait_for_lower(device, irp);
        KeReleaseSpinLock(&it->spin, old);
        return complete(irp, STATUS_SUCCESS);
    }
    if (is("spin-lock-taken-twice") || is("paged-code-at-dispatch") || is("paged-pool-at-dispatch")) {
        KeAcquireSpinLock(&it->spin, &old);
        if (is("spin-lock-taken-twice"))
            KeAcquireSpinLockAtDpcLevel(&it->spin);
        if (is("paged-code-at-dispatch"))
            PAGED_CODE();
        if (is("paged-pool-at-dispatch"))
            ExFreePool(ExAllocatePoolWithTag(PagedPool, 8, 0));
        KeReleaseSpinLock(&it->spin, old);
    }
    if (is("level-left-raised"))
        KeRaiseIrql(DISPATCH_LEVEL, &old);
    if (is("level-raised-to-less")) {
        KeRaiseIrql(DISPATCH_LEVEL, &old);
        KeRaiseIrql(APC_LEVEL, &old);
        KeLowerIrql(PASSIVE_LEVEL);
    }
    if (is("lock-released-too-often"))
        IoReleaseRemoveLock(&it->lock, irp);
    if (is("waits-for-ever"))
        IoAcquireRemoveLock(&it->lock, irp);
    if (is("assertion"))
        ASSERT(device == NULL);
    if (is("a.rule_of-my-own"))
        shim_broke("a.rule_of-my-own");
    if (is("no-tag"))
        shim_broke("no tag");
    return succeed(device, irp);
}

/* ---- the end of a device */
static NTSTATUS surprise(PDEVICE_OBJECT device, PIRP irp)
{
    NTSTATUS status;
    of(device)->started = FALSE;
    of(device)->gone = TRUE;
    leave(device);
    status = succeed(device, irp);
    if (is("detached-early"))
        IoDetachDevice(of(device)->lower);
    if (is("deleted-early") || is("no-device-object")) {
        IoDetachDevice(of(device)->lower);
        IoDeleteDevice(device);
    }
    return status;
}
static NTSTATUS remove_device(PDEVICE_OBJECT device, PIRP irp)
{
    PEXTENSION it = of(device);
    PDEVICE_OBJECT lower = it->lower;
    NTSTATUS status;
    if (!is("interface-left-enabled"))
        IoSetDeviceInterfaceState(&it->link, FALSE);
    leave(device);
    if (it->held && !is("request-left-queued"))
        complete(it->held, STATUS_DELETE_PENDING);
    if (is("forwarded-after-detach")) {
        IoDetachDevice(lower);
        status = succeed(device, irp);
        IoDeleteDevice(device);
        return status;
    }
    status = succeed(device, irp);
    IoReleaseRemoveLockAndWait(&it->lock, irp);
    KeSetTimerEx(&it->timer, (LARGE_INTEGER){.QuadPart = -10000}, 1, NULL);
    if (!is("timer-left-set"))
        KeCancelTimer(&it->timer);
    RtlFreeUnicodeString(&it->link);
    if (!is("not-detached") && !is("deleted-while-attached") && !is("detached-early"))
        IoDetachDevice(lower);
    if (is("detached-twice"))
        IoDetachDevice(lower);
    if (!is("not-deleted"))
        IoDeleteDevice(device);
    if (is("deleted-twice"))
        IoDeleteDevice(device);
    return status;
}

/* ---- the tables */
static NTSTATUS dispatch_pnp(PDEVICE_OBJECT device, PIRP irp)
{
    PEXTENSION it = of(device);
    UCHAR minor = IoGetCurrentIrpStackLocation(irp)->MinorFunction;
    NTSTATUS status = IoAcquireRemoveLock(&it->lock, irp);
    if (!NT_SUCCESS(status))
        return complete(irp, status);
    switch (minor) {
    case IRP_MN_START_DEVICE: status = start(device, irp); break;
    case IRP_MN_QUERY_STOP_DEVICE: status = query_stop(device, irp); break;
    case IRP_MN_CANCEL_STOP_DEVICE: status = cancel_stop(device, irp); break;
    case IRP_MN_STOP_DEVICE:
        leave(device);
        it->started = FALSE;
        status = succeed(device, irp);
        break;
    case IRP_MN_QUERY_REMOVE_DEVICE:
        it->started = FALSE;
        status = succeed(device, irp);
        break;
    case IRP_MN_CANCEL_REMOVE_DEVICE:
        it->started = TRUE;
        status = succeed(device, irp);
        break;
    case IRP_MN_SURPRISE_REMOVAL: status = surprise(device, irp); break;
    case IRP_MN_REMOVE_DEVICE: return remove_device(device, irp);
    default:
        if (is("minor-not-forwarded")) {
            status = complete(irp, STATUS_NOT_SUPPORTED);
        } else {
            if (is("status-changed"))
                irp->IoStatus.Status = STATUS_SUCCESS;
            status = pass(device, irp);
        }
    }
    IoReleaseRemoveLock(&it->lock, irp);
    return status;
}
static NTSTATUS dispatch_power(PDEVICE_OBJECT device, PIRP irp) { return is("power-not-forwarded") ? complete(irp, STATUS_SUCCESS) : pass(device, irp); }
static NTSTATUS dispatch_wmi(PDEVICE_OBJECT device, PIRP irp) { return is("wmi-not-forwarded") ? complete(irp, STATUS_INVALID_DEVICE_REQUEST) : pass(device, irp); }
static NTSTATUS dispatch_create(PDEVICE_OBJECT device, PIRP irp)
{
    PEXTENSION it = of(device);
    if (is("request-left-queued") && it->gone && !it->held) {
        it->held = irp;
        IoMarkIrpPending(irp);
        return STATUS_PENDING;
    }
    return complete(irp, it->started ? STATUS_SUCCESS : STATUS_DEVICE_NOT_READY);
}

static NTSTATUS add_device(PDRIVER_OBJECT driver, PDEVICE_OBJECT pdo)
{
    PDEVICE_OBJECT device;
    PEXTENSION it;
    if (!NT_SUCCESS(IoCreateDevice(driver, sizeof(EXTENSION), NULL, FILE_DEVICE_UNKNOWN, 0, FALSE, &device)))
        return STATUS_INSUFFICIENT_RESOURCES;
    it = of(device);
    it->self = device;
    it->pdo = pdo;
    IoInitializeRemoveLock(&it->lock, 0, 0, 0);
    KeInitializeSpinLock(&it->spin);
    KeInitializeTimer(&it->timer);
    if (is("not-attached"))
        return STATUS_SUCCESS;
    IoRegisterDeviceInterface(pdo, &(GUID){1, 2, 3, {4}}, NULL, &it->link);
    it->lower = IoAttachDeviceToDeviceStack(device, pdo);
    if (!is("still-initializing"))
        device->Flags &= ~DO_DEVICE_INITIALIZING;
    return is("attached-though-failed") ? STATUS_UNSUCCESSFUL : STATUS_SUCCESS;
}

NTSTATUS DriverEntry(PDRIVER_OBJECT driver, PUNICODE_STRING registry_path)
{
    (void)registry_path;
    driver->DriverExtension->AddDevice = add_device;
    driver->MajorFunction[IRP_MJ_PNP] = dispatch_pnp;
    driver->MajorFunction[IRP_MJ_POWER] = dispatch_power;
    driver->MajorFunction[IRP_MJ_SYSTEM_CONTROL] = dispatch_wmi;
    driver->MajorFunction[IRP_MJ_CREATE] = dispatch_create;
    return STATUS_SUCCESS;
}
