/* Events, locks, levels, lists and memory, and the work that runs later. */
#include "shim_inside.h"
#include <stdarg.h>
#include <stdio.h>
#include <stdlib.h>

void *shim_memory(size_t size)
{
    void *block = calloc(1, size ? size : 1);
    if (!block) {
        fprintf(stderr, "pnp_shim: no memory\n");
        exit(3);
    }
    return block;
}

#define MOST_AT_POLL 1000 /* pieces of work at a poll, or while a routine waits */

/* ---- work that runs later: a queue, of which each entry waits for so many polls */
struct entry {
    shim_work *work;
    void *context;
    int polls;
    struct shim_device *device;
    struct entry *next;
};
static struct entry *queue;
static bool is_polling;

static void queue_for(int polls, shim_work *work, void *context)
{
    struct entry *entry = shim_memory(sizeof *entry), **at = &queue;
    entry->work = work;
    entry->context = context;
    entry->polls = polls;
    entry->device = shim_now;
    while (*at)
        at = &(*at)->next;
    *at = entry;
}
void shim_queue_work(shim_work *work, void *context) { queue_for(shim_settings.hold - is_polling, work, context); } /* what is queued at a poll counts that one */
/* Runs the first piece that is due, or of a kind, where these are asked for; whether there is one. */
static bool run_first(bool due_only, shim_work *only)
{
    for (struct entry **at = &queue; *at; at = &(*at)->next)
        if ((!due_only || (*at)->polls <= 0) && (!only || (*at)->work == only)) {
            struct entry *entry = *at;
            struct shim_device *before = shim_now;
            KIRQL old = shim_level();
            *at = entry->next;
            shim_now = entry->device;
            entry->work(entry->context);
            shim_level_back(old);
            shim_now = before;
            free(entry);
            return true;
        }
    return false;
}
bool shim_run_work(bool due_only) { return run_first(due_only, NULL); }
void shim_forget_work(void *context)
{
    for (struct entry **at = &queue; *at;)
        if ((*at)->context == context) {
            struct entry *entry = *at;
            *at = entry->next;
            free(entry);
        } else {
            at = &(*at)->next;
        }
}
bool shim_forget_within(const void *memory, size_t size)
{
    bool found = false;
    for (struct entry **at = &queue; *at;) {
        struct entry *entry = *at;
        if ((uintptr_t)entry->context - (uintptr_t)memory < size) {
            *at = entry->next;
            free(entry);
            found = true;
        } else {
            at = &entry->next;
        }
    }
    return found;
}
/* Runs what is due at a poll: so many pieces at most, since a timer may set itself again and again. */
void shim_work_of_poll(void)
{
    for (struct entry *entry = queue; entry; entry = entry->next)
        entry->polls--;
    is_polling = true;
    for (int i = 0; i < MOST_AT_POLL && shim_run_work(true); i++)
        ;
    is_polling = false;
}

/* ---- levels: there is one processor */
static KIRQL level = PASSIVE_LEVEL;

KIRQL shim_level(void) { return level; }
void shim_level_back(KIRQL to)
{
    if (level != to)
        shim_broke("level-left-raised");
    level = to;
}
KIRQL KeGetCurrentIrql(VOID) { return level; }
VOID KeRaiseIrql(KIRQL to, PKIRQL old)
{
    *old = level;
    if (to < level)
        shim_broke("level-raised-to-less");
    level = to;
}
VOID KeLowerIrql(KIRQL to) { level = to; }
VOID shim_paged_code(VOID)
{
    if (level > APC_LEVEL)
        shim_broke("paged-code-at-dispatch");
}

/* ---- what can be waited for */
enum { AUTO_RESET = 1, COUNTS = 2 };

VOID KeInitializeEvent(PKEVENT event, EVENT_TYPE type, BOOLEAN state)
{
    event->Header.Type = type == SynchronizationEvent ? AUTO_RESET : 0;
    event->Header.SignalState = state ? 1 : 0;
}
LONG KeSetEvent(PKEVENT event, KPRIORITY increment, BOOLEAN wait)
{
    LONG was = event->Header.SignalState;
    (void)increment, (void)wait;
    event->Header.SignalState = 1;
    return was;
}
LONG KeResetEvent(PKEVENT event)
{
    LONG was = event->Header.SignalState;
    event->Header.SignalState = 0;
    return was;
}
VOID KeClearEvent(PKEVENT event) { event->Header.SignalState = 0; }
LONG KeReadStateEvent(PKEVENT event) { return event->Header.SignalState; }
VOID KeInitializeMutex(PKMUTEX mutex, ULONG order)
{
    (void)order;
    mutex->Header.Type = COUNTS;
    mutex->Header.SignalState = 1;
}
LONG KeReleaseMutex(PKMUTEX mutex, BOOLEAN wait)
{
    (void)wait;
    return mutex->Header.SignalState++;
}
VOID KeInitializeSemaphore(PKSEMAPHORE semaphore, LONG count, LONG limit)
{
    semaphore->Header.Type = COUNTS;
    semaphore->Header.SignalState = count;
    semaphore->Limit = limit;
}
LONG KeReleaseSemaphore(PKSEMAPHORE semaphore, KPRIORITY increment, LONG adjustment, BOOLEAN wait)
{
    LONG was = semaphore->Header.SignalState;
    (void)increment, (void)wait;
    if (adjustment > 0 && was <= semaphore->Limit - adjustment)
        semaphore->Header.SignalState = was + adjustment;
    return was;
}
static void take(DISPATCHER_HEADER *header)
{
    if (header->Type == AUTO_RESET)
        header->SignalState = 0;
    else if (header->Type == COUNTS)
        header->SignalState--;
}
NTSTATUS KeWaitForSingleObject(PVOID object, KWAIT_REASON reason, KPROCESSOR_MODE mode, BOOLEAN alertable, PLARGE_INTEGER timeout)
{
    DISPATCHER_HEADER *header = object;
    (void)reason, (void)mode, (void)alertable;
    if (level >= DISPATCH_LEVEL && !(timeout && timeout->QuadPart == 0))
        shim_broke("waits-at-dispatch");
    for (int i = 0; header->SignalState <= 0 && !(timeout && timeout->QuadPart == 0) && i < MOST_AT_POLL && shim_run_work(false); i++)
        ;
    if (header->SignalState <= 0) {
        if (timeout)
            return STATUS_TIMEOUT;
        shim_broke("waits-for-ever");
        return STATUS_UNSUCCESSFUL;
    }
    take(header);
    return STATUS_SUCCESS;
}
/* How many of the objects are set, and the first that is. */
static ULONG count_set(ULONG count, PVOID objects[], ULONG *first)
{
    ULONG set = 0;
    for (ULONG i = count; i-- > 0;)
        if (((DISPATCHER_HEADER *)objects[i])->SignalState > 0) {
            *first = i;
            set++;
        }
    return set;
}
NTSTATUS KeWaitForMultipleObjects(ULONG count, PVOID objects[], WAIT_TYPE type, KWAIT_REASON reason, KPROCESSOR_MODE mode, BOOLEAN alertable, PLARGE_INTEGER timeout, PKWAIT_BLOCK blocks)
{
    ULONG wanted = type == WaitAny ? 1 : count, first = 0;
    bool waits = !(timeout && timeout->QuadPart == 0);
    (void)reason, (void)mode, (void)alertable, (void)blocks;
    if (level >= DISPATCH_LEVEL && waits)
        shim_broke("waits-at-dispatch");
    for (int i = 0; count_set(count, objects, &first) < wanted && waits && i < MOST_AT_POLL && shim_run_work(false); i++)
        ;
    if (count_set(count, objects, &first) < wanted) {
        if (timeout)
            return STATUS_TIMEOUT;
        shim_broke("waits-for-ever");
        return STATUS_UNSUCCESSFUL;
    }
    for (ULONG i = 0; i < count && type == WaitAll; i++)
        take(objects[i]);
    if (type == WaitAny)
        take(objects[first]);
    return STATUS_WAIT_0 + (type == WaitAny ? (NTSTATUS)first : 0);
}
NTSTATUS KeDelayExecutionThread(KPROCESSOR_MODE mode, BOOLEAN alertable, PLARGE_INTEGER interval)
{
    (void)mode, (void)alertable, (void)interval;
    if (level >= DISPATCH_LEVEL)
        shim_broke("waits-at-dispatch");
    shim_run_work(false);
    return STATUS_SUCCESS;
}

/* ---- deferred calls and timers: time passes at polls, and while a routine waits */
static void run_dpc(void *context)
{
    PKDPC dpc = context;
    KIRQL old;
    KeRaiseIrql(DISPATCH_LEVEL, &old);
    dpc->DeferredRoutine(dpc, dpc->DeferredContext, dpc->SystemArgument1, dpc->SystemArgument2);
    shim_level_back(DISPATCH_LEVEL);
    KeLowerIrql(old);
}
VOID KeInitializeDpc(PKDPC dpc, PKDEFERRED_ROUTINE routine, PVOID context)
{
    memset(dpc, 0, sizeof *dpc);
    dpc->DeferredRoutine = routine;
    dpc->DeferredContext = context;
}
static bool is_queued(const void *context)
{
    for (struct entry *entry = queue; entry; entry = entry->next)
        if (entry->context == context)
            return true;
    return false;
}
BOOLEAN KeInsertQueueDpc(PKDPC dpc, PVOID first, PVOID second)
{
    if (is_queued(dpc))
        return FALSE;
    dpc->SystemArgument1 = first;
    dpc->SystemArgument2 = second;
    shim_queue_work(run_dpc, dpc);
    return TRUE;
}
BOOLEAN KeRemoveQueueDpc(PKDPC dpc)
{
    BOOLEAN was = is_queued(dpc);
    shim_forget_work(dpc);
    return was;
}
static void run_timer(void *context)
{
    PKTIMER timer = context;
    timer->Header.SignalState = 1;
    if (timer->Period)
        queue_for(shim_settings.hold, run_timer, timer);
    if (timer->Dpc)
        run_dpc(timer->Dpc);
}
VOID KeInitializeTimerEx(PKTIMER timer, TIMER_TYPE type)
{
    memset(timer, 0, sizeof *timer);
    timer->Header.Type = type == SynchronizationTimer ? AUTO_RESET : 0;
}
VOID KeInitializeTimer(PKTIMER timer) { KeInitializeTimerEx(timer, NotificationTimer); }
BOOLEAN KeCancelTimer(PKTIMER timer)
{
    BOOLEAN was = is_queued(timer);
    shim_forget_work(timer);
    return was;
}
BOOLEAN KeReadStateTimer(PKTIMER timer) { return timer->Header.SignalState > 0; }
VOID KeFlushQueuedDpcs(VOID)
{
    for (int i = 0; i < MOST_AT_POLL && run_first(false, run_dpc); i++)
        ;
}
BOOLEAN KeSetTimer(PKTIMER timer, LARGE_INTEGER due, PKDPC dpc) { return KeSetTimerEx(timer, due, 0, dpc); }
BOOLEAN KeSetTimerEx(PKTIMER timer, LARGE_INTEGER due, LONG period, PKDPC dpc)
{
    BOOLEAN was = KeCancelTimer(timer);
    (void)due;
    timer->Header.SignalState = 0;
    timer->Dpc = dpc;
    timer->Period = period;
    shim_queue_work(run_timer, timer);
    return was;
}

/* ---- locks */
VOID KeInitializeSpinLock(PKSPIN_LOCK lock) { *lock = 0; }
VOID KeAcquireSpinLockAtDpcLevel(PKSPIN_LOCK lock)
{
    if (*lock)
        shim_broke("spin-lock-taken-twice");
    *lock = 1;
}
VOID KeReleaseSpinLockFromDpcLevel(PKSPIN_LOCK lock)
{
    if (!*lock)
        shim_broke("lock-released-too-often");
    *lock = 0;
}
VOID KeAcquireSpinLock(PKSPIN_LOCK lock, PKIRQL old)
{
    KeRaiseIrql(DISPATCH_LEVEL, old);
    KeAcquireSpinLockAtDpcLevel(lock);
}
VOID KeReleaseSpinLock(PKSPIN_LOCK lock, KIRQL old)
{
    KeReleaseSpinLockFromDpcLevel(lock);
    KeLowerIrql(old);
}
VOID KeAcquireInStackQueuedSpinLock(PKSPIN_LOCK lock, PKLOCK_QUEUE_HANDLE handle)
{
    handle->Lock = lock;
    KeAcquireSpinLock(lock, &handle->OldIrql);
}
VOID KeReleaseInStackQueuedSpinLock(PKLOCK_QUEUE_HANDLE handle) { KeReleaseSpinLock(handle->Lock, handle->OldIrql); }
VOID ExInitializeFastMutex(PFAST_MUTEX mutex) { memset(mutex, 0, sizeof *mutex); }
VOID ExAcquireFastMutex(PFAST_MUTEX mutex)
{
    if (mutex->Owned)
        shim_broke("waits-for-ever");
    mutex->Owned = TRUE;
}
VOID ExReleaseFastMutex(PFAST_MUTEX mutex)
{
    if (!mutex->Owned)
        shim_broke("lock-released-too-often");
    mutex->Owned = FALSE;
}

VOID IoInitializeRemoveLock(PIO_REMOVE_LOCK lock, ULONG tag, ULONG minutes, ULONG most)
{
    (void)tag, (void)minutes, (void)most;
    lock->IoCount = 1;
    lock->Removed = FALSE;
    KeInitializeEvent(&lock->RemoveEvent, NotificationEvent, FALSE);
}
NTSTATUS IoAcquireRemoveLock(PIO_REMOVE_LOCK lock, PVOID tag)
{
    (void)tag;
    if (lock->Removed)
        return STATUS_DELETE_PENDING;
    lock->IoCount++;
    return STATUS_SUCCESS;
}
VOID IoReleaseRemoveLock(PIO_REMOVE_LOCK lock, PVOID tag)
{
    (void)tag;
    if (lock->IoCount <= (lock->Removed ? 0 : 1)) {
        shim_broke("lock-released-too-often");
        return;
    }
    lock->IoCount--;
    if (lock->Removed && lock->IoCount == 0)
        lock->RemoveEvent.Header.SignalState = 1;
}
VOID IoReleaseRemoveLockAndWait(PIO_REMOVE_LOCK lock, PVOID tag)
{
    lock->Removed = TRUE;
    IoReleaseRemoveLock(lock, tag); /* the caller's */
    IoReleaseRemoveLock(lock, tag); /* the maker's */
    KeWaitForSingleObject(&lock->RemoveEvent, Executive, KernelMode, FALSE, NULL);
}

/* ---- numbers: there is one thread */
LONG InterlockedIncrement(volatile LONG *number) { return *number = (LONG)((ULONG)*number + 1U); }
LONG InterlockedDecrement(volatile LONG *number) { return *number = (LONG)((ULONG)*number - 1U); }
LONG InterlockedExchange(volatile LONG *number, LONG value)
{
    LONG was = *number;
    *number = value;
    return was;
}
LONG InterlockedExchangeAdd(volatile LONG *number, LONG value) { return InterlockedExchange(number, (LONG)((ULONG)*number + (ULONG)value)); }
LONG InterlockedCompareExchange(volatile LONG *number, LONG value, LONG wanted)
{
    LONG was = *number;
    if (was == wanted)
        *number = value;
    return was;
}
PVOID InterlockedExchangePointer(PVOID volatile *place, PVOID value)
{
    PVOID was = *place;
    *place = value;
    return was;
}
PVOID InterlockedCompareExchangePointer(PVOID volatile *place, PVOID value, PVOID wanted)
{
    PVOID was = *place;
    if (was == wanted)
        *place = value;
    return was;
}
LONG InterlockedOr(volatile LONG *number, LONG bits) { return InterlockedExchange(number, *number | bits); }
LONG InterlockedAnd(volatile LONG *number, LONG bits) { return InterlockedExchange(number, *number & bits); }

/* ---- lists */
VOID InitializeListHead(PLIST_ENTRY head) { head->Flink = head->Blink = head; }
BOOLEAN IsListEmpty(const LIST_ENTRY *head) { return head->Flink == head; }
static void link_between(PLIST_ENTRY before, PLIST_ENTRY entry, PLIST_ENTRY after)
{
    entry->Blink = before;
    entry->Flink = after;
    before->Flink = after->Blink = entry;
}
VOID InsertHeadList(PLIST_ENTRY head, PLIST_ENTRY entry) { link_between(head, entry, head->Flink); }
VOID InsertTailList(PLIST_ENTRY head, PLIST_ENTRY entry) { link_between(head->Blink, entry, head); }
BOOLEAN RemoveEntryList(PLIST_ENTRY entry)
{
    entry->Blink->Flink = entry->Flink;
    entry->Flink->Blink = entry->Blink;
    return entry->Flink == entry->Blink;
}
PLIST_ENTRY RemoveHeadList(PLIST_ENTRY head)
{
    PLIST_ENTRY entry = head->Flink;
    RemoveEntryList(entry);
    return entry;
}
PLIST_ENTRY RemoveTailList(PLIST_ENTRY head)
{
    PLIST_ENTRY entry = head->Blink;
    RemoveEntryList(entry);
    return entry;
}
PLIST_ENTRY ExInterlockedInsertHeadList(PLIST_ENTRY head, PLIST_ENTRY entry, PKSPIN_LOCK lock)
{
    PLIST_ENTRY was = IsListEmpty(head) ? NULL : head->Flink;
    (void)lock;
    InsertHeadList(head, entry);
    return was;
}
PLIST_ENTRY ExInterlockedInsertTailList(PLIST_ENTRY head, PLIST_ENTRY entry, PKSPIN_LOCK lock)
{
    PLIST_ENTRY was = IsListEmpty(head) ? NULL : head->Blink;
    (void)lock;
    InsertTailList(head, entry);
    return was;
}
PLIST_ENTRY ExInterlockedRemoveHeadList(PLIST_ENTRY head, PKSPIN_LOCK lock)
{
    (void)lock;
    return IsListEmpty(head) ? NULL : RemoveHeadList(head);
}

/* ---- memory */
PVOID ExAllocatePool(POOL_TYPE type, SIZE_T size)
{
    if (type == PagedPool && level > APC_LEVEL)
        shim_broke("paged-pool-at-dispatch");
    return malloc(size ? size : 1);
}
PVOID ExAllocatePoolWithTag(POOL_TYPE type, SIZE_T size, ULONG tag)
{
    (void)tag;
    return ExAllocatePool(type, size);
}
PVOID ExAllocatePool2(ULONG64 flags, SIZE_T size, ULONG tag)
{
    PVOID block = ExAllocatePoolWithTag(flags & POOL_FLAG_PAGED ? PagedPool : NonPagedPool, size, tag);
    if (block)
        memset(block, 0, size);
    return block;
}
VOID ExFreePool(PVOID block) { free(block); }
VOID ExFreePoolWithTag(PVOID block, ULONG tag)
{
    (void)tag;
    free(block);
}
VOID ExInitializeNPagedLookasideList(PNPAGED_LOOKASIDE_LIST list, PVOID allocate, PVOID free_routine, ULONG flags, SIZE_T size, ULONG tag, USHORT depth)
{
    (void)allocate, (void)free_routine, (void)flags, (void)depth;
    *list = (NPAGED_LOOKASIDE_LIST){NonPagedPool, size, tag};
}
SIZE_T RtlCompareMemory(const VOID *one, const VOID *other, SIZE_T size)
{
    const unsigned char *a = one, *b = other;
    SIZE_T same = 0;
    while (same < size && a[same] == b[same])
        same++;
    return same;
}
