/* Events, locks, lists, memory and work that runs later. There is one thread: what is queued runs while another routine waits, and at polls. */
#ifndef PNP_KIT_KERNEL_H
#define PNP_KIT_KERNEL_H

#include "kit_types.h"

/* ---- what can be waited for */
typedef enum _EVENT_TYPE { NotificationEvent, SynchronizationEvent } EVENT_TYPE;
typedef enum _TIMER_TYPE { NotificationTimer, SynchronizationTimer } TIMER_TYPE;
typedef enum _KWAIT_REASON { Executive, FreePage, PageIn, PoolAllocation, DelayExecution, Suspended, UserRequest } KWAIT_REASON;
typedef enum _MODE { KernelMode, UserMode } MODE;
typedef CCHAR KPROCESSOR_MODE;
typedef LONG KPRIORITY;

typedef struct _DISPATCHER_HEADER { LONG Type, SignalState; } DISPATCHER_HEADER;
typedef struct _KEVENT { DISPATCHER_HEADER Header; } KEVENT, *PKEVENT;
typedef struct _KMUTEX { DISPATCHER_HEADER Header; } KMUTEX, *PKMUTEX;
typedef struct _KSEMAPHORE { DISPATCHER_HEADER Header; LONG Limit; } KSEMAPHORE, *PKSEMAPHORE;

struct _KDPC;
typedef VOID KDEFERRED_ROUTINE(struct _KDPC *dpc, PVOID context, PVOID first, PVOID second);
typedef KDEFERRED_ROUTINE *PKDEFERRED_ROUTINE;
typedef struct _KDPC { PKDEFERRED_ROUTINE DeferredRoutine; PVOID DeferredContext, SystemArgument1, SystemArgument2; } KDPC, *PKDPC;
typedef struct _KTIMER { DISPATCHER_HEADER Header; PKDPC Dpc; LONG Period; } KTIMER, *PKTIMER;

VOID KeInitializeEvent(PKEVENT event, EVENT_TYPE type, BOOLEAN state);
LONG KeSetEvent(PKEVENT event, KPRIORITY increment, BOOLEAN wait);
LONG KeResetEvent(PKEVENT event);
VOID KeClearEvent(PKEVENT event);
LONG KeReadStateEvent(PKEVENT event);
VOID KeInitializeMutex(PKMUTEX mutex, ULONG level);
LONG KeReleaseMutex(PKMUTEX mutex, BOOLEAN wait);
VOID KeInitializeSemaphore(PKSEMAPHORE semaphore, LONG count, LONG limit);
LONG KeReleaseSemaphore(PKSEMAPHORE semaphore, KPRIORITY increment, LONG adjustment, BOOLEAN wait);
NTSTATUS KeWaitForSingleObject(PVOID object, KWAIT_REASON reason, KPROCESSOR_MODE mode, BOOLEAN alertable, PLARGE_INTEGER timeout);
typedef enum _WAIT_TYPE { WaitAll, WaitAny } WAIT_TYPE;
typedef struct _KWAIT_BLOCK { PVOID Object; } KWAIT_BLOCK, *PKWAIT_BLOCK;
#define STATUS_WAIT_0 ((NTSTATUS)0)
NTSTATUS KeWaitForMultipleObjects(ULONG count, PVOID objects[], WAIT_TYPE type, KWAIT_REASON reason, KPROCESSOR_MODE mode, BOOLEAN alertable, PLARGE_INTEGER timeout, PKWAIT_BLOCK blocks);
#define KeWaitForMutexObject KeWaitForSingleObject
NTSTATUS KeDelayExecutionThread(KPROCESSOR_MODE mode, BOOLEAN alertable, PLARGE_INTEGER interval);

VOID KeInitializeDpc(PKDPC dpc, PKDEFERRED_ROUTINE routine, PVOID context);
BOOLEAN KeInsertQueueDpc(PKDPC dpc, PVOID first, PVOID second);
BOOLEAN KeRemoveQueueDpc(PKDPC dpc);
VOID KeInitializeTimer(PKTIMER timer);
VOID KeInitializeTimerEx(PKTIMER timer, TIMER_TYPE type);
BOOLEAN KeSetTimer(PKTIMER timer, LARGE_INTEGER due, PKDPC dpc);
BOOLEAN KeSetTimerEx(PKTIMER timer, LARGE_INTEGER due, LONG period, PKDPC dpc); /* with a period it is over at each poll */
BOOLEAN KeReadStateTimer(PKTIMER timer);
VOID KeFlushQueuedDpcs(VOID);
BOOLEAN KeCancelTimer(PKTIMER timer);

/* ---- locks and levels */
KIRQL KeGetCurrentIrql(VOID);
VOID KeRaiseIrql(KIRQL level, PKIRQL old);
VOID KeLowerIrql(KIRQL level);
VOID KeInitializeSpinLock(PKSPIN_LOCK lock);
VOID KeAcquireSpinLock(PKSPIN_LOCK lock, PKIRQL old);
VOID KeReleaseSpinLock(PKSPIN_LOCK lock, KIRQL old);
VOID KeAcquireSpinLockAtDpcLevel(PKSPIN_LOCK lock);
VOID KeReleaseSpinLockFromDpcLevel(PKSPIN_LOCK lock);
typedef struct _KLOCK_QUEUE_HANDLE { PKSPIN_LOCK Lock; KIRQL OldIrql; } KLOCK_QUEUE_HANDLE, *PKLOCK_QUEUE_HANDLE;
VOID KeAcquireInStackQueuedSpinLock(PKSPIN_LOCK lock, PKLOCK_QUEUE_HANDLE handle);
VOID KeReleaseInStackQueuedSpinLock(PKLOCK_QUEUE_HANDLE handle);
VOID shim_paged_code(VOID);
#define PAGED_CODE() shim_paged_code()

typedef struct _FAST_MUTEX { BOOLEAN Owned; KIRQL OldIrql; } FAST_MUTEX, *PFAST_MUTEX;
VOID ExInitializeFastMutex(PFAST_MUTEX mutex);
VOID ExAcquireFastMutex(PFAST_MUTEX mutex);
VOID ExReleaseFastMutex(PFAST_MUTEX mutex);
typedef FAST_MUTEX KGUARDED_MUTEX, *PKGUARDED_MUTEX;
#define KeInitializeGuardedMutex ExInitializeFastMutex
#define KeAcquireGuardedMutex ExAcquireFastMutex
#define KeReleaseGuardedMutex ExReleaseFastMutex
#define KeEnterCriticalRegion() ((void)0)
#define KeLeaveCriticalRegion() ((void)0)

typedef struct _IO_REMOVE_LOCK { LONG IoCount; BOOLEAN Removed; KEVENT RemoveEvent; } IO_REMOVE_LOCK, *PIO_REMOVE_LOCK;
VOID IoInitializeRemoveLock(PIO_REMOVE_LOCK lock, ULONG tag, ULONG minutes, ULONG most);
NTSTATUS IoAcquireRemoveLock(PIO_REMOVE_LOCK lock, PVOID tag);
VOID IoReleaseRemoveLock(PIO_REMOVE_LOCK lock, PVOID tag);
VOID IoReleaseRemoveLockAndWait(PIO_REMOVE_LOCK lock, PVOID tag);

LONG InterlockedIncrement(volatile LONG *number);
LONG InterlockedDecrement(volatile LONG *number);
LONG InterlockedExchange(volatile LONG *number, LONG value);
LONG InterlockedExchangeAdd(volatile LONG *number, LONG value);
LONG InterlockedCompareExchange(volatile LONG *number, LONG value, LONG wanted);
PVOID InterlockedExchangePointer(PVOID volatile *place, PVOID value);
PVOID InterlockedCompareExchangePointer(PVOID volatile *place, PVOID value, PVOID wanted);
LONG InterlockedOr(volatile LONG *number, LONG bits);
LONG InterlockedAnd(volatile LONG *number, LONG bits);
#define KeMemoryBarrier() ((void)0)

/* ---- lists, memory, texts */
VOID InitializeListHead(PLIST_ENTRY head);
BOOLEAN IsListEmpty(const LIST_ENTRY *head);
VOID InsertHeadList(PLIST_ENTRY head, PLIST_ENTRY entry);
VOID InsertTailList(PLIST_ENTRY head, PLIST_ENTRY entry);
PLIST_ENTRY RemoveHeadList(PLIST_ENTRY head);
PLIST_ENTRY RemoveTailList(PLIST_ENTRY head);
BOOLEAN RemoveEntryList(PLIST_ENTRY entry);
PLIST_ENTRY ExInterlockedInsertHeadList(PLIST_ENTRY head, PLIST_ENTRY entry, PKSPIN_LOCK lock);
PLIST_ENTRY ExInterlockedInsertTailList(PLIST_ENTRY head, PLIST_ENTRY entry, PKSPIN_LOCK lock);
PLIST_ENTRY ExInterlockedRemoveHeadList(PLIST_ENTRY head, PKSPIN_LOCK lock);

typedef enum _POOL_TYPE { NonPagedPool, PagedPool, NonPagedPoolNx = 512 } POOL_TYPE;
PVOID ExAllocatePool(POOL_TYPE type, SIZE_T size);
PVOID ExAllocatePoolWithTag(POOL_TYPE type, SIZE_T size, ULONG tag);
PVOID ExAllocatePool2(ULONG64 flags, SIZE_T size, ULONG tag);
#define POOL_FLAG_NON_PAGED 0x40U
#define POOL_FLAG_PAGED 0x100U
VOID ExFreePool(PVOID block);
VOID ExFreePoolWithTag(PVOID block, ULONG tag);
#define ExAllocatePoolZero(type, size, tag) ExAllocatePool2((type) == PagedPool ? POOL_FLAG_PAGED : POOL_FLAG_NON_PAGED, (size), (tag))
typedef struct _NPAGED_LOOKASIDE_LIST { POOL_TYPE Type; SIZE_T Size; ULONG Tag; } NPAGED_LOOKASIDE_LIST, *PNPAGED_LOOKASIDE_LIST;
VOID ExInitializeNPagedLookasideList(PNPAGED_LOOKASIDE_LIST list, PVOID allocate, PVOID free, ULONG flags, SIZE_T size, ULONG tag, USHORT depth);
#define ExAllocateFromNPagedLookasideList(list) ExAllocatePoolWithTag((list)->Type, (list)->Size, (list)->Tag)
#define ExFreeToNPagedLookasideList(list, block) ExFreePoolWithTag((block), (list)->Tag)
#define ExDeleteNPagedLookasideList(list) ((void)(list))
#define RtlZeroMemory(to, size) ((void)memset((to), 0, (size)))
#define RtlFillMemory(to, size, byte) ((void)memset((to), (byte), (size)))
#define RtlCopyMemory(to, from, size) ((void)memcpy((to), (from), (size)))
#define RtlMoveMemory(to, from, size) ((void)memmove((to), (from), (size)))
SIZE_T RtlCompareMemory(const VOID *one, const VOID *other, SIZE_T size);
#define RtlEqualMemory(one, other, size) (!memcmp((one), (other), (size)))

VOID RtlInitUnicodeString(PUNICODE_STRING to, PCWSTR from);
VOID RtlFreeUnicodeString(PUNICODE_STRING text);
VOID RtlCopyUnicodeString(PUNICODE_STRING to, PCUNICODE_STRING from);
NTSTATUS RtlAppendUnicodeStringToString(PUNICODE_STRING to, PCUNICODE_STRING from);
NTSTATUS RtlAppendUnicodeToString(PUNICODE_STRING to, PCWSTR from);
LONG RtlCompareUnicodeString(PCUNICODE_STRING one, PCUNICODE_STRING other, BOOLEAN regardless_of_case);
BOOLEAN RtlEqualUnicodeString(PCUNICODE_STRING one, PCUNICODE_STRING other, BOOLEAN regardless_of_case);
#define RTL_CONSTANT_STRING(text) {sizeof(text) - sizeof((text)[0]), sizeof(text), (text)}
#define DECLARE_CONST_UNICODE_STRING(name, text) const UNICODE_STRING name = RTL_CONSTANT_STRING(text)

/* Shown on standard error where the program was started with --debug. */
ULONG DbgPrint(PCSTR format, ...);
ULONG DbgPrintEx(ULONG component, ULONG severity, PCSTR format, ...);
#define DPFLTR_IHVDRIVER_ID 77
#define DPFLTR_ERROR_LEVEL 0
#define DPFLTR_WARNING_LEVEL 1
#define DPFLTR_TRACE_LEVEL 2
#define DPFLTR_INFO_LEVEL 3
#ifndef DBG
#define DBG 1
#endif
#define KdPrint(words) ((void)(DbgPrint words))
#define KdPrintEx(words) ((void)(DbgPrintEx words))
VOID shim_assertion(const char *what, const char *file, int line);
#define ASSERT(what) ((what) ? (void)0 : shim_assertion(#what, __FILE__, __LINE__))
#define NT_ASSERT ASSERT
#define NT_VERIFY ASSERT
#define ASSERTMSG(text, what) ASSERT(what)
#define KdBreakPoint() ((void)0)
#define DbgBreakPoint() ((void)0)

#endif
