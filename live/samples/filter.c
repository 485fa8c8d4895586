/* A filter driver in Walter Oney's manner: it passes down whatever comes, takes its device's flags from below once that is started, and
 * goes when the device goes.
 *
 * -DBUG_..   plants one mistake; examples/live/README.md says which script shows it
 */
#include <wdm.h>

typedef struct _DEVICE_EXTENSION {
    PDEVICE_OBJECT DeviceObject, LowerDeviceObject, Pdo;
    IO_REMOVE_LOCK RemoveLock;
} DEVICE_EXTENSION, *PDEVICE_EXTENSION;

static NTSTATUS CompleteRequest(PIRP Irp, NTSTATUS status)
{
    Irp->IoStatus.Status = status;
    Irp->IoStatus.Information = 0;
    IoCompleteRequest(Irp, IO_NO_INCREMENT);
    return status;
}

static NTSTATUS DispatchAny(PDEVICE_OBJECT fido, PIRP Irp)
{
    PDEVICE_EXTENSION pdx = fido->DeviceExtension;
    NTSTATUS status = IoAcquireRemoveLock(&pdx->RemoveLock, Irp);
    if (!NT_SUCCESS(status))
        return CompleteRequest(Irp, status);
    IoSkipCurrentIrpStackLocation(Irp);
    status = IoCallDriver(pdx->LowerDeviceObject, Irp);
    IoReleaseRemoveLock(&pdx->RemoveLock, Irp);
    return status;
}

static NTSTATUS StartDeviceCompletionRoutine(PDEVICE_OBJECT fido, PIRP Irp, PVOID context)
{
    PDEVICE_EXTENSION pdx = context;
#ifndef BUG_PROPAGATE
    if (Irp->PendingReturned)
        IoMarkIrpPending(Irp);
#endif
    if (NT_SUCCESS(Irp->IoStatus.Status))
        fido->Characteristics |= pdx->LowerDeviceObject->Characteristics & FILE_DEVICE_SECURE_OPEN;
    IoReleaseRemoveLock(&pdx->RemoveLock, Irp);
    return STATUS_SUCCESS;
}

static NTSTATUS HandleStart(PDEVICE_OBJECT fido, PIRP Irp)
{
    PDEVICE_EXTENSION pdx = fido->DeviceExtension;
#ifdef BUG_SKIP
    IoSkipCurrentIrpStackLocation(Irp);
#else
    IoCopyCurrentIrpStackLocationToNext(Irp);
#endif
    IoSetCompletionRoutine(Irp, StartDeviceCompletionRoutine, pdx, TRUE, TRUE, TRUE);
    return IoCallDriver(pdx->LowerDeviceObject, Irp);
}

static NTSTATUS HandleRemove(PDEVICE_OBJECT fido, PIRP Irp)
{
    PDEVICE_EXTENSION pdx = fido->DeviceExtension;
    NTSTATUS status;
    IoSkipCurrentIrpStackLocation(Irp);
    status = IoCallDriver(pdx->LowerDeviceObject, Irp);
    IoReleaseRemoveLockAndWait(&pdx->RemoveLock, Irp);
#ifndef BUG_DETACH
    IoDetachDevice(pdx->LowerDeviceObject);
#endif
    IoDeleteDevice(fido);
    return status;
}

static NTSTATUS DispatchPnp(PDEVICE_OBJECT fido, PIRP Irp)
{
    PDEVICE_EXTENSION pdx = fido->DeviceExtension;
    UCHAR minor = IoGetCurrentIrpStackLocation(Irp)->MinorFunction;
    NTSTATUS status = IoAcquireRemoveLock(&pdx->RemoveLock, Irp);
    if (!NT_SUCCESS(status))
        return CompleteRequest(Irp, status);
    if (minor == IRP_MN_START_DEVICE)
        return HandleStart(fido, Irp); /* its completion routine releases the lock */
    if (minor == IRP_MN_REMOVE_DEVICE)
        return HandleRemove(fido, Irp);
    IoSkipCurrentIrpStackLocation(Irp);
    status = IoCallDriver(pdx->LowerDeviceObject, Irp);
    IoReleaseRemoveLock(&pdx->RemoveLock, Irp);
    return status;
}

static NTSTATUS DispatchPower(PDEVICE_OBJECT fido, PIRP Irp)
{
    PoStartNextPowerIrp(Irp);
    return DispatchAny(fido, Irp);
}

static NTSTATUS AddDevice(PDRIVER_OBJECT DriverObject, PDEVICE_OBJECT pdo)
{
    PDEVICE_OBJECT fido;
    PDEVICE_EXTENSION pdx;
    NTSTATUS status = IoCreateDevice(DriverObject, sizeof(DEVICE_EXTENSION), NULL, FILE_DEVICE_UNKNOWN, 0, FALSE, &fido);
    if (!NT_SUCCESS(status))
        return status;
    pdx = fido->DeviceExtension;
    pdx->DeviceObject = fido;
    pdx->Pdo = pdo;
    IoInitializeRemoveLock(&pdx->RemoveLock, 0, 0, 0);
    pdx->LowerDeviceObject = IoAttachDeviceToDeviceStack(fido, pdo);
    if (!pdx->LowerDeviceObject) {
        IoDeleteDevice(fido);
        return STATUS_DEVICE_REMOVED;
    }
    fido->Flags |= pdx->LowerDeviceObject->Flags & (DO_DIRECT_IO | DO_BUFFERED_IO | DO_POWER_PAGABLE | DO_POWER_INRUSH);
    fido->DeviceType = pdx->LowerDeviceObject->DeviceType;
    fido->Characteristics = pdx->LowerDeviceObject->Characteristics;
#ifndef BUG_FLAG
    fido->Flags &= ~DO_DEVICE_INITIALIZING;
#endif
    return STATUS_SUCCESS;
}

static VOID DriverUnload(PDRIVER_OBJECT DriverObject) { UNREFERENCED_PARAMETER(DriverObject); }

NTSTATUS DriverEntry(PDRIVER_OBJECT DriverObject, PUNICODE_STRING RegistryPath)
{
    ULONG i;
    UNREFERENCED_PARAMETER(RegistryPath);
    for (i = 0; i < ARRAYSIZE(DriverObject->MajorFunction); ++i)
        DriverObject->MajorFunction[i] = DispatchAny;
    DriverObject->MajorFunction[IRP_MJ_PNP] = DispatchPnp;
    DriverObject->MajorFunction[IRP_MJ_POWER] = DispatchPower;
    DriverObject->DriverExtension->AddDevice = AddDevice;
    DriverObject->DriverUnload = DriverUnload;
    return STATUS_SUCCESS;
}
