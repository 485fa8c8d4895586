/* Queues in which a driver keeps requests, and the deferred call of a device. */
#include "shim_inside.h"

/* ---- a cancel never comes, but for the driver's own */
static KSPIN_LOCK cancel_lock;
PDRIVER_CANCEL IoSetCancelRoutine(PIRP irp, PDRIVER_CANCEL routine)
{
    PDRIVER_CANCEL was = irp->CancelRoutine;
    irp->CancelRoutine = routine;
    return was;
}
VOID IoAcquireCancelSpinLock(PKIRQL old) { KeAcquireSpinLock(&cancel_lock, old); }
VOID IoReleaseCancelSpinLock(KIRQL old) { KeReleaseSpinLock(&cancel_lock, old); }
BOOLEAN IoCancelIrp(PIRP irp)
{
    PDRIVER_CANCEL routine;
    IoAcquireCancelSpinLock(&irp->CancelIrql);
    irp->Cancel = TRUE;
    routine = IoSetCancelRoutine(irp, NULL);
    if (routine)
        routine(irp->Tail.Overlay.CurrentStackLocation->DeviceObject, irp); /* which releases the lock */
    else
        IoReleaseCancelSpinLock(irp->CancelIrql);
    return routine != NULL;
}

/* ---- the deferred call of a device */
static VOID run_device_dpc(PKDPC dpc, PVOID context, PVOID first, PVOID second)
{
    struct shim_object *object = context;
    if (object->dpc_routine)
        object->dpc_routine(dpc, &object->object, first, second);
}
VOID IoInitializeDpcRequest(PDEVICE_OBJECT device, PIO_DPC_ROUTINE routine)
{
    struct shim_object *object = shim_object(device);
    if (!object)
        return;
    object->dpc_routine = routine;
    KeInitializeDpc(&object->dpc, run_device_dpc, object);
}
VOID IoRequestDpc(PDEVICE_OBJECT device, PIRP irp, PVOID context)
{
    struct shim_object *object = shim_object(device);
    if (object && object->dpc_routine)
        KeInsertQueueDpc(&object->dpc, irp, context);
}

/* ---- StartIo: one request of a device at a time */
static void start_io(PDEVICE_OBJECT device, PIRP irp)
{
    KIRQL old;
    device->CurrentIrp = irp;
    KeRaiseIrql(DISPATCH_LEVEL, &old);
    if (device->DriverObject->DriverStartIo)
        device->DriverObject->DriverStartIo(device, irp);
    KeLowerIrql(old);
}
VOID IoStartPacket(PDEVICE_OBJECT device, PIRP irp, PULONG key, PDRIVER_CANCEL cancel)
{
    struct shim_object *object = shim_object(device);
    (void)key;
    IoSetCancelRoutine(irp, cancel);
    if (object && device->CurrentIrp)
        InsertTailList(&object->packets, &irp->Tail.Overlay.ListEntry);
    else
        start_io(device, irp);
}
VOID IoStartNextPacket(PDEVICE_OBJECT device, BOOLEAN cancelable)
{
    struct shim_object *object = shim_object(device);
    (void)cancelable;
    device->CurrentIrp = NULL;
    if (object && !IsListEmpty(&object->packets))
        start_io(device, CONTAINING_RECORD(RemoveHeadList(&object->packets), IRP, Tail.Overlay.ListEntry));
}

/* ---- cancel-safe queues: the driver keeps the list, and this the order of the calls */
NTSTATUS IoCsqInitialize(PIO_CSQ csq, IO_CSQ_INSERT_IRP *insert, IO_CSQ_REMOVE_IRP *remove, IO_CSQ_PEEK_NEXT_IRP *peek, IO_CSQ_ACQUIRE_LOCK *acquire, IO_CSQ_RELEASE_LOCK *release, IO_CSQ_COMPLETE_CANCELED_IRP *complete)
{
    csq->CsqInsertIrp = insert;
    csq->CsqRemoveIrp = remove;
    csq->CsqPeekNextIrp = peek;
    csq->CsqAcquireLock = acquire;
    csq->CsqReleaseLock = release;
    csq->CsqCompleteCanceledIrp = complete;
    return STATUS_SUCCESS;
}
VOID IoCsqInsertIrp(PIO_CSQ csq, PIRP irp, PIO_CSQ_IRP_CONTEXT context)
{
    KIRQL old = PASSIVE_LEVEL;
    if (context) {
        context->Irp = irp;
        context->Csq = csq;
    }
    csq->CsqAcquireLock(csq, &old);
    IoMarkIrpPending(irp);
    csq->CsqInsertIrp(csq, irp);
    csq->CsqReleaseLock(csq, old);
}
PIRP IoCsqRemoveNextIrp(PIO_CSQ csq, PVOID context)
{
    KIRQL old = PASSIVE_LEVEL;
    PIRP irp;
    csq->CsqAcquireLock(csq, &old);
    irp = csq->CsqPeekNextIrp(csq, NULL, context);
    if (irp)
        csq->CsqRemoveIrp(csq, irp);
    csq->CsqReleaseLock(csq, old);
    return irp;
}
PIRP IoCsqRemoveIrp(PIO_CSQ csq, PIO_CSQ_IRP_CONTEXT context)
{
    KIRQL old = PASSIVE_LEVEL;
    PIRP irp;
    csq->CsqAcquireLock(csq, &old);
    irp = context->Irp;
    context->Irp = NULL;
    if (irp)
        csq->CsqRemoveIrp(csq, irp);
    csq->CsqReleaseLock(csq, old);
    return irp;
}
