/* A function driver in Walter Oney's manner: a state, a remove lock, a table with a routine for each request, and ForwardAndWait where the
 * lower drivers go first. It has a port and perhaps an interrupt, and an interface for programs.
 *
 * -DPEND_START   it starts its device later, by a work item: as good as without
 * -DBUG_..       plants one mistake; examples/live/README.md says which script shows it
 */
#include <wdm.h>

typedef enum { STOPPED, WORKING, PENDINGSTOP, PENDINGREMOVE, SURPRISEREMOVED, REMOVED } DEVSTATE;

typedef struct _DEVICE_EXTENSION {
    PDEVICE_OBJECT DeviceObject, LowerDeviceObject, Pdo;
    IO_REMOVE_LOCK RemoveLock;
    UNICODE_STRING ifname;
    DEVSTATE state, prevstate;
    PUCHAR portbase;
    ULONG nports;
    PKINTERRUPT InterruptObject;
    LONG handles;
    PIO_WORKITEM StartItem;
    PIRP StartIrp;
} DEVICE_EXTENSION, *PDEVICE_EXTENSION;

static const GUID GUID_INTERFACE_SAMPLE = {0x5c4a1b32, 0x11d3, 0x4f6a, {0x90, 0x1e, 0x00, 0xa0, 0xc9, 0x0a, 0x57, 0x01}};

static NTSTATUS CompleteRequest(PIRP Irp, NTSTATUS status, ULONG_PTR info)
{
    Irp->IoStatus.Status = status;
    Irp->IoStatus.Information = info;
    IoCompleteRequest(Irp, IO_NO_INCREMENT);
    return status;
}

static NTSTATUS DefaultPnpHandler(PDEVICE_OBJECT fdo, PIRP Irp)
{
    PDEVICE_EXTENSION pdx = fdo->DeviceExtension;
    IoSkipCurrentIrpStackLocation(Irp);
    return IoCallDriver(pdx->LowerDeviceObject, Irp);
}

static NTSTATUS SucceedAndForward(PDEVICE_OBJECT fdo, PIRP Irp)
{
    Irp->IoStatus.Status = STATUS_SUCCESS;
    return DefaultPnpHandler(fdo, Irp);
}

static NTSTATUS OnRequestComplete(PDEVICE_OBJECT fdo, PIRP Irp, PVOID context)
{
    UNREFERENCED_PARAMETER(fdo);
    UNREFERENCED_PARAMETER(Irp);
    KeSetEvent((PKEVENT)context, IO_NO_INCREMENT, FALSE);
    return STATUS_MORE_PROCESSING_REQUIRED;
}

static NTSTATUS ForwardAndWait(PDEVICE_OBJECT fdo, PIRP Irp)
{
    PDEVICE_EXTENSION pdx = fdo->DeviceExtension;
    KEVENT event;
    PAGED_CODE();
    KeInitializeEvent(&event, NotificationEvent, FALSE);
    Irp->IoStatus.Status = STATUS_SUCCESS;
    IoCopyCurrentIrpStackLocationToNext(Irp);
    IoSetCompletionRoutine(Irp, OnRequestComplete, &event, TRUE, TRUE, TRUE);
    if (IoCallDriver(pdx->LowerDeviceObject, Irp) == STATUS_PENDING)
        KeWaitForSingleObject(&event, Executive, KernelMode, FALSE, NULL);
    return Irp->IoStatus.Status;
}

/* ---- the device */
static BOOLEAN OnInterrupt(PKINTERRUPT interrupt, PVOID context)
{
    UNREFERENCED_PARAMETER(interrupt);
    UNREFERENCED_PARAMETER(context);
    return FALSE;
}

static VOID StopDevice(PDEVICE_OBJECT fdo, BOOLEAN isRebalance)
{
    PDEVICE_EXTENSION pdx = fdo->DeviceExtension;
#ifdef BUG_STOP
    /* the interrupt was not thought of where the device only moves */
    if (isRebalance)
        return;
#else
    UNREFERENCED_PARAMETER(isRebalance);
#endif
    if (pdx->InterruptObject)
        IoDisconnectInterrupt(pdx->InterruptObject);
    pdx->InterruptObject = NULL;
    pdx->portbase = NULL;
    pdx->nports = 0;
}

static NTSTATUS StartDevice(PDEVICE_OBJECT fdo, PCM_RESOURCE_LIST translated)
{
    PDEVICE_EXTENSION pdx = fdo->DeviceExtension;
    NTSTATUS status = STATUS_SUCCESS;
    ULONG i, count = translated ? translated->List[0].PartialResourceList.Count : 0;
    for (i = 0; i < count; ++i) {
        PCM_PARTIAL_RESOURCE_DESCRIPTOR resource = &translated->List[0].PartialResourceList.PartialDescriptors[i];
        switch (resource->Type) {
        case CmResourceTypePort:
            pdx->portbase = (PUCHAR)(ULONG_PTR)resource->u.Port.Start.QuadPart;
            pdx->nports = resource->u.Port.Length;
            break;
        case CmResourceTypeInterrupt:
            status = IoConnectInterrupt(&pdx->InterruptObject, OnInterrupt, pdx, NULL, resource->u.Interrupt.Vector, (KIRQL)resource->u.Interrupt.Level,
                                        (KIRQL)resource->u.Interrupt.Level, LevelSensitive, TRUE, resource->u.Interrupt.Affinity, FALSE);
            break;
        default:
            KdPrint(("sample: an unexpected resource of type %d\n", resource->Type));
            break;
        }
    }
    if (!NT_SUCCESS(status)) {
        StopDevice(fdo, FALSE);
        return status;
    }
    if (pdx->nports)
        WRITE_PORT_UCHAR(pdx->portbase, 0x80); /* reset it */
    IoSetDeviceInterfaceState(&pdx->ifname, TRUE);
    pdx->state = WORKING;
    return STATUS_SUCCESS;
}

/* ---- the requests */
#ifdef PEND_START
static VOID StartLater(PDEVICE_OBJECT fdo, PVOID context)
{
    PDEVICE_EXTENSION pdx = fdo->DeviceExtension;
    PIRP Irp = context;
    NTSTATUS status = Irp->IoStatus.Status;
    pdx->StartIrp = NULL;
    if (NT_SUCCESS(status))
        status = StartDevice(fdo, IoGetCurrentIrpStackLocation(Irp)->Parameters.StartDevice.AllocatedResourcesTranslated);
    CompleteRequest(Irp, status, 0);
    IoReleaseRemoveLock(&pdx->RemoveLock, Irp);
}
static NTSTATUS OnStartComplete(PDEVICE_OBJECT fdo, PIRP Irp, PVOID context)
{
    PDEVICE_EXTENSION pdx = fdo->DeviceExtension;
    UNREFERENCED_PARAMETER(context);
    IoQueueWorkItem(pdx->StartItem, StartLater, DelayedWorkQueue, Irp);
    return STATUS_MORE_PROCESSING_REQUIRED;
}
static NTSTATUS HandleStartDevice(PDEVICE_OBJECT fdo, PIRP Irp)
{
    PDEVICE_EXTENSION pdx = fdo->DeviceExtension;
#ifndef BUG_PEND
    IoMarkIrpPending(Irp);
#endif
    Irp->IoStatus.Status = STATUS_SUCCESS;
    pdx->StartIrp = Irp;
    IoAcquireRemoveLock(&pdx->RemoveLock, Irp); /* the work item's */
    IoCopyCurrentIrpStackLocationToNext(Irp);
    IoSetCompletionRoutine(Irp, OnStartComplete, NULL, TRUE, TRUE, TRUE);
    IoCallDriver(pdx->LowerDeviceObject, Irp);
    return STATUS_PENDING;
}
#else
static NTSTATUS HandleStartDevice(PDEVICE_OBJECT fdo, PIRP Irp)
{
    PIO_STACK_LOCATION stack = IoGetCurrentIrpStackLocation(Irp);
    NTSTATUS status;
#ifdef BUG_START
    /* the device is there, so why wait for the bus driver? */
    status = StartDevice(fdo, stack->Parameters.StartDevice.AllocatedResourcesTranslated);
    if (!NT_SUCCESS(status))
        return CompleteRequest(Irp, status, 0);
    return SucceedAndForward(fdo, Irp);
#endif
    status = ForwardAndWait(fdo, Irp);
    if (!NT_SUCCESS(status))
        return CompleteRequest(Irp, status, Irp->IoStatus.Information);
    status = StartDevice(fdo, stack->Parameters.StartDevice.AllocatedResourcesTranslated);
    return CompleteRequest(Irp, status, Irp->IoStatus.Information);
}
#endif

static NTSTATUS HandleQueryStop(PDEVICE_OBJECT fdo, PIRP Irp)
{
    PDEVICE_EXTENSION pdx = fdo->DeviceExtension;
    if (pdx->state != WORKING)
        return DefaultPnpHandler(fdo, Irp);
    pdx->state = PENDINGSTOP;
    return SucceedAndForward(fdo, Irp);
}

static NTSTATUS HandleCancelStop(PDEVICE_OBJECT fdo, PIRP Irp)
{
    PDEVICE_EXTENSION pdx = fdo->DeviceExtension;
    NTSTATUS status;
    if (pdx->state != PENDINGSTOP)
        return SucceedAndForward(fdo, Irp);
    status = ForwardAndWait(fdo, Irp);
    pdx->state = WORKING;
#ifdef BUG_LOCK
    IoAcquireRemoveLock(&pdx->RemoveLock, Irp); /* for a queue that is restarted, and nobody releases it */
#endif
    return CompleteRequest(Irp, status, Irp->IoStatus.Information);
}

static NTSTATUS HandleStopDevice(PDEVICE_OBJECT fdo, PIRP Irp)
{
    PDEVICE_EXTENSION pdx = fdo->DeviceExtension;
    StopDevice(fdo, TRUE);
    pdx->state = STOPPED;
    return SucceedAndForward(fdo, Irp);
}

static NTSTATUS HandleQueryRemove(PDEVICE_OBJECT fdo, PIRP Irp)
{
    PDEVICE_EXTENSION pdx = fdo->DeviceExtension;
    if (pdx->handles)
        return CompleteRequest(Irp, STATUS_DEVICE_BUSY, 0);
    pdx->prevstate = pdx->state;
    pdx->state = PENDINGREMOVE;
    return SucceedAndForward(fdo, Irp);
}

static NTSTATUS HandleCancelRemove(PDEVICE_OBJECT fdo, PIRP Irp)
{
    PDEVICE_EXTENSION pdx = fdo->DeviceExtension;
    NTSTATUS status;
    if (pdx->state != PENDINGREMOVE)
        return SucceedAndForward(fdo, Irp);
    status = ForwardAndWait(fdo, Irp);
#ifndef BUG_CANCEL
    pdx->state = pdx->prevstate;
#endif
    return CompleteRequest(Irp, status, Irp->IoStatus.Information);
}

static NTSTATUS HandleSurpriseRemoval(PDEVICE_OBJECT fdo, PIRP Irp)
{
    PDEVICE_EXTENSION pdx = fdo->DeviceExtension;
    pdx->state = SURPRISEREMOVED;
#ifdef BUG_SURPRISE
    /* nobody had asked before */
    return CompleteRequest(Irp, STATUS_UNSUCCESSFUL, 0);
#endif
#ifndef BUG_GONE
    IoSetDeviceInterfaceState(&pdx->ifname, FALSE);
#endif
    StopDevice(fdo, FALSE);
    return SucceedAndForward(fdo, Irp);
}

static NTSTATUS HandleRemoveDevice(PDEVICE_OBJECT fdo, PIRP Irp)
{
    PDEVICE_EXTENSION pdx = fdo->DeviceExtension;
    NTSTATUS status;
#ifdef BUG_VETO
    /* it agreed, and now it does not */
    if (pdx->state == PENDINGREMOVE) {
        pdx->state = pdx->prevstate;
        IoReleaseRemoveLock(&pdx->RemoveLock, Irp);
        return CompleteRequest(Irp, STATUS_UNSUCCESSFUL, 0);
    }
#endif
#ifdef BUG_RESET
    /* the device is quiet when it goes, also where it has gone already */
    if (pdx->nports || pdx->state == SURPRISEREMOVED)
        WRITE_PORT_UCHAR(pdx->portbase, 0);
#endif
#ifdef BUG_GONE
    if (pdx->state != SURPRISEREMOVED)
#endif
        IoSetDeviceInterfaceState(&pdx->ifname, FALSE);
    StopDevice(fdo, FALSE);
    pdx->state = REMOVED;
    status = SucceedAndForward(fdo, Irp);
    IoReleaseRemoveLockAndWait(&pdx->RemoveLock, Irp);
    IoFreeWorkItem(pdx->StartItem);
    RtlFreeUnicodeString(&pdx->ifname);
    IoDetachDevice(pdx->LowerDeviceObject);
    IoDeleteDevice(fdo);
    return status;
}

static NTSTATUS DispatchPnp(PDEVICE_OBJECT fdo, PIRP Irp)
{
    static DRIVER_DISPATCH *const fcntab[] = {
        HandleStartDevice,  /* IRP_MN_START_DEVICE */
        HandleQueryRemove,  /* IRP_MN_QUERY_REMOVE_DEVICE */
        HandleRemoveDevice, /* IRP_MN_REMOVE_DEVICE */
        HandleCancelRemove, /* IRP_MN_CANCEL_REMOVE_DEVICE */
        HandleStopDevice,   /* IRP_MN_STOP_DEVICE */
        HandleQueryStop,    /* IRP_MN_QUERY_STOP_DEVICE */
        HandleCancelStop,   /* IRP_MN_CANCEL_STOP_DEVICE */
    };
    PDEVICE_EXTENSION pdx = fdo->DeviceExtension;
    ULONG minor = IoGetCurrentIrpStackLocation(Irp)->MinorFunction;
    NTSTATUS status = IoAcquireRemoveLock(&pdx->RemoveLock, Irp);
    PAGED_CODE();
    if (!NT_SUCCESS(status))
        return CompleteRequest(Irp, status, 0);
    if (minor < ARRAYSIZE(fcntab))
        status = fcntab[minor](fdo, Irp);
    else if (minor == IRP_MN_SURPRISE_REMOVAL)
        status = HandleSurpriseRemoval(fdo, Irp);
    else
#ifdef BUG_DEFAULT
        status = CompleteRequest(Irp, STATUS_NOT_SUPPORTED, 0);
#else
        status = DefaultPnpHandler(fdo, Irp);
#endif
    if (minor != IRP_MN_REMOVE_DEVICE) /* which released it, and its device is no more */
        IoReleaseRemoveLock(&pdx->RemoveLock, Irp);
    return status;
}

static NTSTATUS DispatchPower(PDEVICE_OBJECT fdo, PIRP Irp)
{
    PDEVICE_EXTENSION pdx = fdo->DeviceExtension;
    NTSTATUS status = IoAcquireRemoveLock(&pdx->RemoveLock, Irp);
    PoStartNextPowerIrp(Irp);
    if (!NT_SUCCESS(status))
        return CompleteRequest(Irp, status, 0);
    IoSkipCurrentIrpStackLocation(Irp);
    status = PoCallDriver(pdx->LowerDeviceObject, Irp);
    IoReleaseRemoveLock(&pdx->RemoveLock, Irp);
    return status;
}

static NTSTATUS DispatchWmi(PDEVICE_OBJECT fdo, PIRP Irp)
{
    PDEVICE_EXTENSION pdx = fdo->DeviceExtension;
    NTSTATUS status = IoAcquireRemoveLock(&pdx->RemoveLock, Irp);
    if (!NT_SUCCESS(status))
        return CompleteRequest(Irp, status, 0);
    status = DefaultPnpHandler(fdo, Irp);
    IoReleaseRemoveLock(&pdx->RemoveLock, Irp);
    return status;
}

static NTSTATUS DispatchCreate(PDEVICE_OBJECT fdo, PIRP Irp)
{
    PDEVICE_EXTENSION pdx = fdo->DeviceExtension;
    NTSTATUS status = IoAcquireRemoveLock(&pdx->RemoveLock, Irp);
    if (!NT_SUCCESS(status))
        return CompleteRequest(Irp, status, 0);
    if (pdx->state == WORKING)
        InterlockedIncrement(&pdx->handles);
    else
        status = pdx->state == STOPPED ? STATUS_DEVICE_NOT_READY : STATUS_DELETE_PENDING;
    IoReleaseRemoveLock(&pdx->RemoveLock, Irp);
    return CompleteRequest(Irp, status, 0);
}

static NTSTATUS DispatchClose(PDEVICE_OBJECT fdo, PIRP Irp)
{
    PDEVICE_EXTENSION pdx = fdo->DeviceExtension;
    InterlockedDecrement(&pdx->handles);
    return CompleteRequest(Irp, STATUS_SUCCESS, 0);
}

/* ---- the driver */
static NTSTATUS AddDevice(PDRIVER_OBJECT DriverObject, PDEVICE_OBJECT pdo)
{
    PDEVICE_OBJECT fdo;
    PDEVICE_EXTENSION pdx;
    NTSTATUS status = IoCreateDevice(DriverObject, sizeof(DEVICE_EXTENSION), NULL, FILE_DEVICE_UNKNOWN, FILE_DEVICE_SECURE_OPEN, FALSE, &fdo);
    if (!NT_SUCCESS(status))
        return status;
    pdx = fdo->DeviceExtension;
    pdx->DeviceObject = fdo;
    pdx->Pdo = pdo;
    pdx->state = STOPPED;
    IoInitializeRemoveLock(&pdx->RemoveLock, 0, 0, 0);
    status = IoRegisterDeviceInterface(pdo, &GUID_INTERFACE_SAMPLE, NULL, &pdx->ifname);
    if (!NT_SUCCESS(status)) {
        IoDeleteDevice(fdo);
        return status;
    }
    pdx->StartItem = IoAllocateWorkItem(fdo);
    fdo->Flags |= DO_BUFFERED_IO | DO_POWER_PAGABLE;
    pdx->LowerDeviceObject = IoAttachDeviceToDeviceStack(fdo, pdo);
    fdo->Flags &= ~DO_DEVICE_INITIALIZING;
    return STATUS_SUCCESS;
}

static VOID DriverUnload(PDRIVER_OBJECT DriverObject)
{
    UNREFERENCED_PARAMETER(DriverObject);
    KdPrint(("sample: unloaded\n"));
}

NTSTATUS DriverEntry(PDRIVER_OBJECT DriverObject, PUNICODE_STRING RegistryPath)
{
    UNREFERENCED_PARAMETER(RegistryPath);
    DriverObject->DriverUnload = DriverUnload;
    DriverObject->DriverExtension->AddDevice = AddDevice;
    DriverObject->MajorFunction[IRP_MJ_PNP] = DispatchPnp;
    DriverObject->MajorFunction[IRP_MJ_POWER] = DispatchPower;
    DriverObject->MajorFunction[IRP_MJ_SYSTEM_CONTROL] = DispatchWmi;
    DriverObject->MajorFunction[IRP_MJ_CREATE] = DispatchCreate;
    DriverObject->MajorFunction[IRP_MJ_CLOSE] = DispatchClose;
    return STATUS_SUCCESS;
}
