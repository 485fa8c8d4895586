/* What the routines of the kit do, tried within DriverEntry: it fails where one does something else. tools/check_live starts it. */
#include <ntddk.h>
#include <wmilib.h>
#include <initguid.h>
#include <stdio.h>

DEFINE_GUID(GUID_OF_THE_TEST, 0x86e0d1e0L, 0x8089, 0x11d0, 0x9c, 0xe4, 0x08, 0x00, 0x3e, 0x30, 0x1f, 0x73);

static int wrong;
#define CHECK(what) ((what) ? (void)0 : (void)(wrong++, fprintf(stderr, "%s:%d: %s\n", __FILE__, __LINE__, #what)))

static LARGE_INTEGER no_time;

/* ---- what can be waited for */
static VOID sets(PVOID context) { KeSetEvent(context, 0, FALSE); }
static NTSTATUS wait_now(PVOID object) { return KeWaitForSingleObject(object, Executive, KernelMode, FALSE, &no_time); }
static void try_events(void)
{
    KEVENT event;
    KeInitializeEvent(&event, NotificationEvent, FALSE);
    CHECK(wait_now(&event) == STATUS_TIMEOUT);
    shim_queue_work(sets, &event);
    CHECK(KeWaitForSingleObject(&event, Executive, KernelMode, FALSE, NULL) == STATUS_SUCCESS);
    CHECK(wait_now(&event) == STATUS_SUCCESS && KeReadStateEvent(&event) == 1);
    CHECK(KeResetEvent(&event) == 1 && wait_now(&event) == STATUS_TIMEOUT);
    KeInitializeEvent(&event, SynchronizationEvent, TRUE);
    CHECK(wait_now(&event) == STATUS_SUCCESS && wait_now(&event) == STATUS_TIMEOUT);
}
static void try_counts(void)
{
    KMUTEX mutex;
    KSEMAPHORE semaphore;
    KeInitializeMutex(&mutex, 0);
    CHECK(wait_now(&mutex) == STATUS_SUCCESS && wait_now(&mutex) == STATUS_TIMEOUT);
    KeReleaseMutex(&mutex, FALSE);
    CHECK(wait_now(&mutex) == STATUS_SUCCESS);
    KeInitializeSemaphore(&semaphore, 0, 2);
    CHECK(KeReleaseSemaphore(&semaphore, 0, 2, FALSE) == 0 && KeReleaseSemaphore(&semaphore, 0, 1, FALSE) == 2);
    CHECK(wait_now(&semaphore) == STATUS_SUCCESS && wait_now(&semaphore) == STATUS_SUCCESS && wait_now(&semaphore) == STATUS_TIMEOUT);
}
static VOID counts(PKDPC dpc, PVOID context, PVOID first, PVOID second)
{
    CHECK(dpc->DeferredRoutine == counts && KeGetCurrentIrql() == DISPATCH_LEVEL && first == second);
    ++*(int *)context;
}
static void try_timers(void)
{
    KTIMER timer;
    KDPC dpc;
    int count = 0;
    KeInitializeTimer(&timer);
    KeInitializeDpc(&dpc, counts, &count);
    CHECK(!KeSetTimer(&timer, no_time, &dpc) && KeSetTimer(&timer, no_time, &dpc));
    CHECK(KeWaitForSingleObject(&timer, Executive, KernelMode, FALSE, NULL) == STATUS_SUCCESS && count == 1);
    CHECK(!KeCancelTimer(&timer) && !KeSetTimer(&timer, no_time, &dpc) && KeCancelTimer(&timer));
    CHECK(KeInsertQueueDpc(&dpc, NULL, NULL) && !KeInsertQueueDpc(&dpc, NULL, NULL) && KeRemoveQueueDpc(&dpc) && !KeRemoveQueueDpc(&dpc));
    KeInsertQueueDpc(&dpc, &dpc, &dpc);
    KeDelayExecutionThread(KernelMode, FALSE, &no_time);
    CHECK(count == 2 && KeGetCurrentIrql() == PASSIVE_LEVEL);
}

static VOID sets_again(PKDPC dpc, PVOID context, PVOID first, PVOID second)
{
    (void)dpc, (void)first, (void)second;
    KeSetTimer(context, no_time, dpc);
}
static void try_more_waits(void)
{
    KEVENT one, other;
    PVOID both[] = {&one, &other};
    KTIMER timer;
    KDPC dpc;
    int count = 0;
    KeInitializeEvent(&one, SynchronizationEvent, FALSE);
    KeInitializeEvent(&other, SynchronizationEvent, TRUE);
    CHECK(KeWaitForMultipleObjects(2, both, WaitAll, Executive, KernelMode, FALSE, &no_time, NULL) == STATUS_TIMEOUT);
    CHECK(KeWaitForMultipleObjects(2, both, WaitAny, Executive, KernelMode, FALSE, NULL, NULL) == STATUS_WAIT_0 + 1);
    CHECK(KeWaitForMultipleObjects(2, both, WaitAny, Executive, KernelMode, FALSE, &no_time, NULL) == STATUS_TIMEOUT);
    shim_queue_work(sets, &one);
    shim_queue_work(sets, &other);
    CHECK(KeWaitForMultipleObjects(2, both, WaitAll, Executive, KernelMode, FALSE, NULL, NULL) == STATUS_WAIT_0 && !KeReadStateEvent(&one) && !KeReadStateEvent(&other));
    KeInitializeTimer(&timer);
    KeInitializeDpc(&dpc, counts, &count);
    CHECK(!KeSetTimerEx(&timer, no_time, 10, &dpc) && !KeReadStateTimer(&timer));
    KeDelayExecutionThread(KernelMode, FALSE, &no_time);
    KeDelayExecutionThread(KernelMode, FALSE, &no_time);
    CHECK(count == 2 && KeReadStateTimer(&timer) && KeCancelTimer(&timer) && !KeCancelTimer(&timer));
    KeInsertQueueDpc(&dpc, NULL, NULL);
    KeFlushQueuedDpcs();
    CHECK(count == 3);
    /* A timer that sets itself again and again keeps nobody waiting for ever. */
    KeInitializeDpc(&dpc, sets_again, &timer);
    KeSetTimer(&timer, no_time, &dpc);
    CHECK(KeWaitForSingleObject(&one, Executive, KernelMode, FALSE, &(LARGE_INTEGER){.QuadPart = 1}) == STATUS_TIMEOUT && KeCancelTimer(&timer));
}

/* ---- locks, numbers, lists, texts */
static void try_locks(void)
{
    IO_REMOVE_LOCK lock;
    FAST_MUTEX mutex;
    KSPIN_LOCK spin;
    KLOCK_QUEUE_HANDLE handle;
    KIRQL old;
    IoInitializeRemoveLock(&lock, 0, 0, 0);
    CHECK(IoAcquireRemoveLock(&lock, NULL) == STATUS_SUCCESS && IoAcquireRemoveLock(&lock, NULL) == STATUS_SUCCESS);
    IoReleaseRemoveLock(&lock, NULL);
    IoReleaseRemoveLockAndWait(&lock, NULL);
    CHECK(IoAcquireRemoveLock(&lock, NULL) == STATUS_DELETE_PENDING);
    KeInitializeGuardedMutex(&mutex);
    ExAcquireFastMutex(&mutex);
    ExReleaseFastMutex(&mutex);
    KeInitializeSpinLock(&spin);
    KeAcquireSpinLock(&spin, &old);
    CHECK(KeGetCurrentIrql() == DISPATCH_LEVEL && old == PASSIVE_LEVEL);
    KeReleaseSpinLock(&spin, old);
    CHECK(KeGetCurrentIrql() == PASSIVE_LEVEL);
    KeAcquireInStackQueuedSpinLock(&spin, &handle);
    CHECK(KeGetCurrentIrql() == DISPATCH_LEVEL && spin);
    KeReleaseInStackQueuedSpinLock(&handle);
    CHECK(KeGetCurrentIrql() == PASSIVE_LEVEL && !spin);
}
static void try_numbers(void)
{
    LONG number = 0x7fffffff;
    PVOID place = NULL;
    LARGE_INTEGER wide = {.QuadPart = 0x1122334455667788};
    CHECK(InterlockedIncrement(&number) < 0 && InterlockedDecrement(&number) == 0x7fffffff);
    CHECK(InterlockedExchange(&number, 3) == 0x7fffffff && InterlockedExchangeAdd(&number, 4) == 3 && number == 7);
    CHECK(InterlockedCompareExchange(&number, 9, 8) == 7 && number == 7 && InterlockedCompareExchange(&number, 9, 7) == 7 && number == 9);
    CHECK(InterlockedExchangePointer(&place, &number) == NULL && place == &number);
    CHECK(InterlockedCompareExchangePointer(&place, NULL, NULL) == &number && InterlockedCompareExchangePointer(&place, NULL, &number) == &number && !place);
    CHECK(InterlockedOr(&number, 6) == 9 && InterlockedAnd(&number, 12) == 15 && number == 12);
    CHECK(wide.LowPart == 0x55667788 && wide.HighPart == 0x11223344 && wide.u.LowPart == wide.LowPart);
    CHECK(!NT_SUCCESS(STATUS_UNSUCCESSFUL) && NT_SUCCESS(STATUS_PENDING) && NT_ERROR(STATUS_CANCELLED) && NT_WARNING(STATUS_DEVICE_BUSY));
    CHECK((ULONG)STATUS_NOT_SUPPORTED == 0xC00000BBU && (ULONG)STATUS_DEVICE_BUSY == 0x80000011U);
}
static void try_lists(void)
{
    struct { int number; LIST_ENTRY entry; } one = {1, {NULL, NULL}}, two = {2, {NULL, NULL}}, three = {3, {NULL, NULL}};
    LIST_ENTRY head;
    InitializeListHead(&head);
    CHECK(IsListEmpty(&head));
    InsertTailList(&head, &two.entry);
    InsertTailList(&head, &three.entry);
    InsertHeadList(&head, &one.entry);
    CHECK(!RemoveEntryList(&two.entry) && RemoveHeadList(&head) == &one.entry && RemoveTailList(&head) == &three.entry && IsListEmpty(&head));
    CHECK(!ExInterlockedInsertTailList(&head, &two.entry, NULL) && ExInterlockedInsertHeadList(&head, &one.entry, NULL) == &two.entry);
    CHECK(ExInterlockedRemoveHeadList(&head, NULL) == &one.entry && ExInterlockedRemoveHeadList(&head, NULL) == &two.entry && !ExInterlockedRemoveHeadList(&head, NULL));
}
static void try_texts(void)
{
    DECLARE_CONST_UNICODE_STRING(name, L"nm");
    WCHAR room[4];
    UNICODE_STRING from, to = {0, sizeof room, room};
    PUCHAR block = ExAllocatePoolZero(NonPagedPool, 8, 0);
    NPAGED_LOOKASIDE_LIST list;
    RtlInitUnicodeString(&from, L"abcdef");
    CHECK(from.Length == 6 * sizeof(WCHAR) && from.MaximumLength == 7 * sizeof(WCHAR));
    RtlCopyUnicodeString(&to, &from);
    CHECK(to.Length == sizeof room && RtlCompareMemory(to.Buffer, from.Buffer, to.Length) == to.Length);
    CHECK(RtlAppendUnicodeToString(&to, L"x") == STATUS_BUFFER_TOO_SMALL && !RtlEqualUnicodeString(&to, &from, TRUE));
    to.Length = 2 * sizeof(WCHAR);
    CHECK(RtlAppendUnicodeToString(&to, L"CD") == STATUS_SUCCESS && RtlCompareUnicodeString(&to, &from, FALSE) < 0);
    from.Length = to.Length;
    CHECK(RtlEqualUnicodeString(&to, &from, TRUE) && !RtlEqualUnicodeString(&to, &from, FALSE));
    CHECK(name.Length == 2 * sizeof(WCHAR) && name.Buffer[1] == L'm');
    RtlCopyUnicodeString(&to, NULL);
    RtlInitUnicodeString(&from, NULL);
    CHECK(to.Length == 0 && from.Length == 0 && !from.Buffer);
    CHECK(block && block[7] == 0 && RtlCompareMemory("abcd", "abXd", 4) == 2);
    RtlFillMemory(block, 8, 1);
    CHECK(block[7] == 1);
    ExFreePoolWithTag(block, 0);
    ExInitializeNPagedLookasideList(&list, NULL, NULL, 0, 8, 0, 0);
    block = ExAllocateFromNPagedLookasideList(&list);
    CHECK(block != NULL);
    ExFreeToNPagedLookasideList(&list, block);
    ExDeleteNPagedLookasideList(&list);
    CHECK(GUID_OF_THE_TEST.Data1 == 0x86e0d1e0 && GUID_OF_THE_TEST.Data4[7] == 0x73);
    KdPrint(("kit: %d %8.8lX %u %wZ %ws %s %c %I64x %lld %% %hd %p %q %", -1, 255U, 7U, &to, L"wide", "text", 'c', 0x123456789aLL, -5LL, 3, (void *)NULL));
    KdPrintEx((DPFLTR_IHVDRIVER_ID, DPFLTR_INFO_LEVEL, "%s\n", ""));
}

/* ---- requests of one's own, queues, a device without a stack */
static int begun;
static VOID start_io(PDEVICE_OBJECT device, PIRP irp) { CHECK(device->CurrentIrp == irp && KeGetCurrentIrql() == DISPATCH_LEVEL), begun++; }
static VOID device_dpc(PKDPC dpc, PDEVICE_OBJECT device, PIRP irp, PVOID context)
{
    CHECK(dpc && device && !irp);
    ++*(int *)context;
}
static LIST_ENTRY queued;
static VOID csq_insert(PIO_CSQ csq, PIRP irp) { (void)csq, InsertTailList(&queued, &irp->Tail.Overlay.ListEntry); }
static VOID csq_remove(PIO_CSQ csq, PIRP irp) { (void)csq, RemoveEntryList(&irp->Tail.Overlay.ListEntry); }
static PIRP csq_peek(PIO_CSQ csq, PIRP irp, PVOID context)
{
    (void)csq, (void)irp, (void)context;
    return IsListEmpty(&queued) ? NULL : CONTAINING_RECORD(queued.Flink, IRP, Tail.Overlay.ListEntry);
}
static VOID csq_acquire(PIO_CSQ csq, PKIRQL old) { (void)csq, KeRaiseIrql(DISPATCH_LEVEL, old); }
static VOID csq_release(PIO_CSQ csq, KIRQL old) { (void)csq, KeLowerIrql(old); }
static VOID csq_cancelled(PIO_CSQ csq, PIRP irp) { (void)csq, (void)irp; }

static int cancelled;
static VOID cancels(PDEVICE_OBJECT device, PIRP irp)
{
    (void)device;
    IoReleaseCancelSpinLock(irp->CancelIrql);
    cancelled++;
}

/* ---- what is kept at the driver object, and the registry, which is empty */
static void try_keeping(PDRIVER_OBJECT driver)
{
    PVOID place;
    HANDLE key = NULL;
    UNICODE_STRING name;
    OBJECT_ATTRIBUTES attributes;
    ULONG needed = 7;
    CHECK(IoAllocateDriverObjectExtension(driver, &begun, 8, &place) == STATUS_SUCCESS && place == IoGetDriverObjectExtension(driver, &begun) && !IoGetDriverObjectExtension(driver, &place));
    CHECK(IoAllocateDriverObjectExtension(driver, &begun, 8, &place) == STATUS_OBJECT_NAME_COLLISION && !place);
    RtlInitUnicodeString(&name, L"name");
    InitializeObjectAttributes(&attributes, &name, OBJ_CASE_INSENSITIVE, NULL, NULL);
    CHECK(attributes.ObjectName == &name && ZwOpenKey(&key, KEY_READ, &attributes) == STATUS_OBJECT_NAME_NOT_FOUND);
    CHECK(ZwQueryValueKey(key, &name, KeyValuePartialInformation, NULL, 0, &needed) == STATUS_OBJECT_NAME_NOT_FOUND && !needed);
}
static void try_queues(PDRIVER_OBJECT driver)
{
    PDEVICE_OBJECT device;
    PIRP one = IoAllocateIrp(1, FALSE), two = IoAllocateIrp(0, FALSE);
    IO_CSQ csq;
    IO_CSQ_IRP_CONTEXT context;
    int count = 0;
    driver->DriverStartIo = start_io;
    CHECK(IoCreateDevice(driver, 0, NULL, FILE_DEVICE_UNKNOWN, 0, FALSE, &device) == STATUS_SUCCESS && driver->DeviceObject == device);
    IoStartPacket(device, one, NULL, NULL);
    IoStartPacket(device, two, NULL, NULL);
    CHECK(begun == 1 && device->CurrentIrp == one);
    IoStartNextPacket(device, FALSE);
    CHECK(begun == 2 && device->CurrentIrp == two);
    IoStartNextPacket(device, FALSE);
    CHECK(begun == 2 && !device->CurrentIrp);
    IoInitializeDpcRequest(device, device_dpc);
    IoRequestDpc(device, NULL, &count);
    KeDelayExecutionThread(KernelMode, FALSE, &no_time);
    CHECK(count == 1);
    InitializeListHead(&queued);
    IoCsqInitialize(&csq, csq_insert, csq_remove, csq_peek, csq_acquire, csq_release, csq_cancelled);
    IoCsqInsertIrp(&csq, one, NULL);
    IoCsqInsertIrp(&csq, two, &context);
    CHECK(IoCsqRemoveIrp(&csq, &context) == two && !IoCsqRemoveIrp(&csq, &context) && IoCsqRemoveNextIrp(&csq, NULL) == one && !IoCsqRemoveNextIrp(&csq, NULL));
    CHECK(!IoCancelIrp(one) && one->Cancel && KeGetCurrentIrql() == PASSIVE_LEVEL);
    IoSetCancelRoutine(one, cancels);
    CHECK(IoCancelIrp(one) && cancelled == 1 && KeGetCurrentIrql() == PASSIVE_LEVEL && !IoCancelIrp(one));
    IoReuseIrp(one, STATUS_NOT_SUPPORTED);
    CHECK(one->CurrentLocation == 2 && one->StackCount == 1 && two->StackCount == 1);
    IoFreeIrp(one);
    IoFreeIrp(two);
    IoDeleteDevice(device);
    CHECK(!driver->DeviceObject);
}

/* ---- below a stack: AddDevice */
static NTSTATUS capabilities_of(PDEVICE_OBJECT pdo)
{
    KEVENT event;
    IO_STATUS_BLOCK result = {.Information = 0};
    PIRP irp;
    KeInitializeEvent(&event, NotificationEvent, FALSE);
    irp = IoBuildSynchronousFsdRequest(IRP_MJ_PNP, pdo, NULL, 0, NULL, &event, &result);
    irp->IoStatus.Status = STATUS_NOT_SUPPORTED;
    IoGetNextIrpStackLocation(irp)->MinorFunction = IRP_MN_QUERY_CAPABILITIES;
    if (IoCallDriver(pdo, irp) == STATUS_PENDING)
        KeWaitForSingleObject(&event, Executive, KernelMode, FALSE, NULL);
    return result.Status;
}
static VOID works(PDEVICE_OBJECT device, PVOID context) { CHECK(device == *(PDEVICE_OBJECT *)context), *(PDEVICE_OBJECT *)context = NULL; }
static NTSTATUS add_device(PDRIVER_OBJECT driver, PDEVICE_OBJECT pdo)
{
    UNICODE_STRING link;
    PDEVICE_OBJECT marked = pdo;
    PIO_WORKITEM item = IoAllocateWorkItem(pdo);
    KEVENT event;
    IO_STATUS_BLOCK result;
    PIRP irp;
    (void)driver;
    CHECK(capabilities_of(pdo) == STATUS_SUCCESS && IoGetAttachedDeviceReference(pdo) == pdo);
    KeInitializeEvent(&event, NotificationEvent, FALSE);
    irp = IoBuildDeviceIoControlRequest(CTL_CODE(FILE_DEVICE_UNKNOWN, 1, METHOD_BUFFERED, FILE_ANY_ACCESS), pdo, NULL, 0, NULL, 0, TRUE, &event, &result);
    CHECK(IoCallDriver(pdo, irp) == STATUS_INVALID_DEVICE_REQUEST && result.Status == STATUS_INVALID_DEVICE_REQUEST && KeReadStateEvent(&event));
    IoQueueWorkItem(item, works, DelayedWorkQueue, &marked);
    KeDelayExecutionThread(KernelMode, FALSE, &no_time);
    CHECK(!marked);
    IoFreeWorkItem(item);
    CHECK(NT_SUCCESS(IoRegisterDeviceInterface(pdo, &GUID_OF_THE_TEST, NULL, &link)) && NT_SUCCESS(IoSetDeviceInterfaceState(&link, TRUE)) && NT_SUCCESS(IoSetDeviceInterfaceState(&link, FALSE)));
    RtlFreeUnicodeString(&link);
    CHECK(!NT_SUCCESS(IoSetDeviceInterfaceState(&link, TRUE)));
    return wrong ? STATUS_SUCCESS : STATUS_DEVICE_NOT_CONNECTED; /* so that the answer says whether all is well */
}

NTSTATUS DriverEntry(PDRIVER_OBJECT driver, PUNICODE_STRING registry_path)
{
    (void)registry_path;
    driver->DriverExtension->AddDevice = add_device;
    try_events();
    try_counts();
    try_timers();
    try_more_waits();
    try_locks();
    try_numbers();
    try_lists();
    try_texts();
    try_queues(driver);
    try_keeping(driver);
    return wrong ? STATUS_UNSUCCESSFUL : STATUS_SUCCESS;
}
