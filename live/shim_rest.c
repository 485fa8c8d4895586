/* What a driver names beside Plug and Play, so that it compiles and gets a plain answer: power, WMI, work items, registry, interfaces, texts. */
#include "shim_inside.h"
#include <stdarg.h>
#include <stdio.h>
#include <stdlib.h>
#include <wctype.h>

/* ---- power: there is one state, and a request that a driver wants sent is sent to the top of its stack by a piece of work */
NTSTATUS PoCallDriver(PDEVICE_OBJECT device, PIRP irp) { return IoCallDriver(device, irp); }
VOID PoStartNextPowerIrp(PIRP irp) { (void)irp; }
POWER_STATE PoSetPowerState(PDEVICE_OBJECT device, POWER_STATE_TYPE type, POWER_STATE state)
{
    (void)device, (void)type;
    return state;
}
static void power_done(struct shim_request *request)
{
    IO_STATUS_BLOCK result = {.Information = 0};
    PIO_STACK_LOCATION own = shim_own_location(request);
    result.Status = request->completed_status;
    if (request->power_done)
        request->power_done(own->DeviceObject, request->minor, own->Parameters.Power.State, request->power_context, &result);
    shim_let_go(request);
}
static void send_power(void *context)
{
    struct shim_request *request = context;
    if (request->device->own)
        shim_dispatch(request);
}
NTSTATUS PoRequestPowerIrp(PDEVICE_OBJECT device, UCHAR minor, POWER_STATE state, PREQUEST_POWER_COMPLETE done, PVOID context, PIRP *irp)
{
    struct shim_object *object = shim_object(device);
    struct shim_request *request;
    PIO_STACK_LOCATION own;
    if (!object || !object->device || !object->device->own)
        return STATUS_INVALID_DEVICE_REQUEST;
    request = shim_ask(object->device, IRP_MJ_POWER, minor);
    own = shim_own_location(request);
    own->Parameters.Power.Type = DevicePowerState;
    own->Parameters.Power.State = state;
    request->done = power_done;
    request->power_done = done;
    request->power_context = context;
    if (irp)
        *irp = &request->irp;
    shim_queue_work(send_power, request);
    return STATUS_PENDING;
}

/* ---- WMI */
NTSTATUS IoWMIRegistrationControl(PDEVICE_OBJECT device, ULONG action)
{
    (void)device, (void)action;
    return STATUS_SUCCESS;
}
NTSTATUS WmiSystemControl(PWMILIB_CONTEXT context, PDEVICE_OBJECT device, PIRP irp, PSYSCTL_IRP_DISPOSITION disposition)
{
    (void)context, (void)device, (void)irp;
    *disposition = IrpForward;
    return STATUS_SUCCESS;
}

NTSTATUS WmiCompleteRequest(PDEVICE_OBJECT device, PIRP irp, NTSTATUS status, ULONG used, CCHAR boost)
{
    (void)device;
    irp->IoStatus.Status = status;
    irp->IoStatus.Information = used;
    IoCompleteRequest(irp, boost);
    return status;
}

/* ---- work items */
struct _IO_WORKITEM {
    PDEVICE_OBJECT device;
    PIO_WORKITEM_ROUTINE routine;
    PVOID context;
};
PIO_WORKITEM IoAllocateWorkItem(PDEVICE_OBJECT device)
{
    PIO_WORKITEM item = shim_memory(sizeof *item);
    item->device = device;
    return item;
}
VOID IoFreeWorkItem(PIO_WORKITEM item)
{
    shim_forget_work(item);
    free(item);
}
static void run_item(void *context)
{
    PIO_WORKITEM item = context;
    item->routine(item->device, item->context);
}
VOID IoQueueWorkItem(PIO_WORKITEM item, PIO_WORKITEM_ROUTINE routine, WORK_QUEUE_TYPE type, PVOID context)
{
    (void)type;
    item->routine = routine;
    item->context = context;
    shim_queue_work(run_item, item);
}

/* ---- the registry is empty */
NTSTATUS IoOpenDeviceRegistryKey(PDEVICE_OBJECT pdo, ULONG kind, ACCESS_MASK access, PHANDLE key)
{
    (void)pdo, (void)kind, (void)access;
    *key = NULL;
    return STATUS_OBJECT_NAME_NOT_FOUND;
}
NTSTATUS IoGetDeviceProperty(PDEVICE_OBJECT pdo, DEVICE_REGISTRY_PROPERTY property, ULONG length, PVOID buffer, PULONG needed)
{
    (void)pdo, (void)property, (void)length, (void)buffer;
    *needed = 0;
    return STATUS_OBJECT_NAME_NOT_FOUND;
}
NTSTATUS ZwOpenKey(PHANDLE key, ACCESS_MASK access, POBJECT_ATTRIBUTES attributes)
{
    (void)access, (void)attributes;
    *key = NULL;
    return STATUS_OBJECT_NAME_NOT_FOUND;
}
NTSTATUS ZwQueryValueKey(HANDLE key, PUNICODE_STRING name, KEY_VALUE_INFORMATION_CLASS kind, PVOID buffer, ULONG length, PULONG needed)
{
    (void)key, (void)name, (void)kind, (void)buffer, (void)length;
    *needed = 0;
    return STATUS_OBJECT_NAME_NOT_FOUND;
}
NTSTATUS ZwSetValueKey(HANDLE key, PUNICODE_STRING name, ULONG index, ULONG type, PVOID data, ULONG size)
{
    (void)key, (void)name, (void)index, (void)type, (void)data, (void)size;
    return STATUS_SUCCESS;
}
NTSTATUS ZwClose(HANDLE handle)
{
    (void)handle;
    return STATUS_SUCCESS;
}

/* ---- what a driver keeps at its driver object */
struct kept {
    PVOID id;
    struct kept *next;
    LONGLONG room[]; /* of the driver */
};
static struct kept *all_kept;
PVOID IoGetDriverObjectExtension(PDRIVER_OBJECT driver, PVOID id)
{
    (void)driver;
    for (struct kept *one = all_kept; one; one = one->next)
        if (one->id == id)
            return one->room;
    return NULL;
}
NTSTATUS IoAllocateDriverObjectExtension(PDRIVER_OBJECT driver, PVOID id, ULONG size, PVOID *extension)
{
    struct kept *one;
    *extension = NULL;
    if (IoGetDriverObjectExtension(driver, id))
        return STATUS_OBJECT_NAME_COLLISION;
    one = shim_memory(sizeof *one + size);
    one->id = id;
    one->next = all_kept;
    all_kept = one;
    *extension = one->room;
    return STATUS_SUCCESS;
}

/* ---- names that nobody looks up */
NTSTATUS IoCreateSymbolicLink(PUNICODE_STRING link, PUNICODE_STRING device_name)
{
    (void)link, (void)device_name;
    return STATUS_SUCCESS;
}
NTSTATUS IoDeleteSymbolicLink(PUNICODE_STRING link)
{
    (void)link;
    return STATUS_SUCCESS;
}

/* ---- there is no clock: time goes on by a tenth of a microsecond with each look at it */
VOID KeQuerySystemTime(PLARGE_INTEGER time)
{
    static LONGLONG now;
    time->QuadPart = ++now;
}
VOID KeQueryTickCount(PLARGE_INTEGER ticks) { KeQuerySystemTime(ticks); }
ULONG KeQueryTimeIncrement(VOID) { return 1; }

/* ---- interfaces: one that was enabled is to be disabled before its device is removed */
struct interface {
    WCHAR link[32];
    struct shim_device *device;
    bool enabled;
    struct interface *next;
};
static struct interface *interfaces;

NTSTATUS IoRegisterDeviceInterface(PDEVICE_OBJECT pdo, const GUID *interface_class, PUNICODE_STRING reference, PUNICODE_STRING link)
{
    static unsigned count;
    struct shim_object *object = shim_object(pdo);
    struct interface *made;
    (void)interface_class, (void)reference;
    if (!object || !object->device || pdo != &object->device->bus_object.object)
        return STATUS_INVALID_DEVICE_REQUEST;
    made = shim_memory(sizeof *made);
    swprintf(made->link, ARRAYSIZE(made->link), L"\\??\\shim#%u", ++count);
    made->device = object->device;
    made->next = interfaces;
    interfaces = made;
    link->Length = (USHORT)(wcslen(made->link) * sizeof(WCHAR));
    link->MaximumLength = (USHORT)(link->Length + sizeof(WCHAR));
    link->Buffer = shim_memory(link->MaximumLength);
    memcpy(link->Buffer, made->link, link->MaximumLength);
    return STATUS_SUCCESS;
}
static bool is_same(const struct interface *one, PCUNICODE_STRING link)
{
    size_t length = wcslen(one->link) * sizeof(WCHAR);
    return link->Buffer && link->Length == length && !memcmp(link->Buffer, one->link, length);
}
NTSTATUS IoSetDeviceInterfaceState(PUNICODE_STRING link, BOOLEAN enable)
{
    for (struct interface *one = interfaces; one; one = one->next)
        if (is_same(one, link)) {
            if (one->enabled != (enable != FALSE))
                one->device->interfaces += enable ? 1 : -1;
            one->enabled = enable != FALSE;
            return STATUS_SUCCESS;
        }
    return STATUS_OBJECT_NAME_NOT_FOUND;
}
VOID IoInvalidateDeviceState(PDEVICE_OBJECT pdo) { (void)pdo; }
VOID IoInvalidateDeviceRelations(PDEVICE_OBJECT pdo, DEVICE_RELATION_TYPE type) { (void)pdo, (void)type; }
VOID IoRequestDeviceEject(PDEVICE_OBJECT pdo) { (void)pdo; }

/* ---- texts */
VOID RtlInitUnicodeString(PUNICODE_STRING to, PCWSTR from)
{
    size_t length = from ? wcslen(from) * sizeof(WCHAR) : 0;
    to->Length = (USHORT)length;
    to->MaximumLength = (USHORT)(from ? length + sizeof(WCHAR) : 0);
    to->Buffer = (PWSTR)(uintptr_t)from;
}
VOID RtlFreeUnicodeString(PUNICODE_STRING text)
{
    free(text->Buffer);
    memset(text, 0, sizeof *text);
}
NTSTATUS RtlAppendUnicodeStringToString(PUNICODE_STRING to, PCUNICODE_STRING from)
{
    if (from->Length > to->MaximumLength - to->Length)
        return STATUS_BUFFER_TOO_SMALL;
    if (from->Length)
        memmove((char *)to->Buffer + to->Length, from->Buffer, from->Length);
    to->Length = (USHORT)(to->Length + from->Length);
    return STATUS_SUCCESS;
}
NTSTATUS RtlAppendUnicodeToString(PUNICODE_STRING to, PCWSTR from)
{
    UNICODE_STRING text;
    RtlInitUnicodeString(&text, from);
    return RtlAppendUnicodeStringToString(to, &text);
}
LONG RtlCompareUnicodeString(PCUNICODE_STRING one, PCUNICODE_STRING other, BOOLEAN regardless_of_case)
{
    size_t length = one->Length / sizeof(WCHAR), other_length = other->Length / sizeof(WCHAR);
    for (size_t i = 0; i < length && i < other_length; i++) {
        wint_t a = (wint_t)one->Buffer[i], b = (wint_t)other->Buffer[i];
        if (regardless_of_case) {
            a = towupper(a);
            b = towupper(b);
        }
        if (a != b)
            return a < b ? -1 : 1;
    }
    return (LONG)length - (LONG)other_length;
}
BOOLEAN RtlEqualUnicodeString(PCUNICODE_STRING one, PCUNICODE_STRING other, BOOLEAN regardless_of_case) { return RtlCompareUnicodeString(one, other, regardless_of_case) == 0; }
VOID RtlCopyUnicodeString(PUNICODE_STRING to, PCUNICODE_STRING from)
{
    to->Length = from ? from->Length : 0;
    if (to->Length > to->MaximumLength)
        to->Length = to->MaximumLength;
    if (to->Length)
        memmove(to->Buffer, from->Buffer, to->Length);
}

/* ---- what a driver prints: flags and widths are read over. An ULONG has 32 bits, also where the format says `l`. */
static void print_text(PCUNICODE_STRING text)
{
    for (USHORT i = 0; text && text->Buffer && i < text->Length / sizeof(WCHAR); i++)
        fputc(text->Buffer[i] > 0 && text->Buffer[i] < 127 ? (char)text->Buffer[i] : '?', stderr);
}
static void print_wide(PCWSTR text)
{
    for (; text && *text; text++)
        fputc(*text > 0 && *text < 127 ? (char)*text : '?', stderr);
}
static void print_number(char kind, bool is_long, va_list *rest)
{
    if (is_long)
        fprintf(stderr, kind == 'd' || kind == 'i' ? "%lld" : kind == 'u' ? "%llu" : "%llX", va_arg(*rest, long long));
    else
        fprintf(stderr, kind == 'd' || kind == 'i' ? "%d" : kind == 'u' ? "%u" : "%X", va_arg(*rest, unsigned));
}
/* Prints what a format says, from behind its `%` on; returns where it ends. */
static const char *print_one(const char *at, va_list *rest)
{
    bool is_long = false, is_wide = false;
    at += strspn(at, "-+ #0123456789.");
    for (; *at == 'l' || *at == 'h' || *at == 'w' || !strncmp(at, "I64", 3); at++) {
        is_wide = is_wide || *at == 'w' || (*at == 'l' && (at[1] == 's' || at[1] == 'S'));
        if (*at == 'I' || (*at == 'l' && at[1] == 'l')) {
            is_long = true;
            at += *at == 'I' ? 2 : 1;
        }
    }
    if (*at && strchr("diuxX", *at))
        print_number(*at, is_long, rest);
    else if (*at == 'c')
        fputc(va_arg(*rest, int), stderr);
    else if (*at == 'p' || *at == 'P')
        fprintf(stderr, "%p", va_arg(*rest, void *));
    else if (*at == 'Z' && is_wide)
        print_text(va_arg(*rest, PCUNICODE_STRING));
    else if (*at == 'S' || (*at == 's' && is_wide))
        print_wide(va_arg(*rest, PCWSTR));
    else if (*at == 's')
        fprintf(stderr, "%s", va_arg(*rest, const char *));
    else
        fputc(*at ? *at : '%', stderr);
    return *at ? at + 1 : at;
}
static void print_all(const char *format, va_list *rest)
{
    while (shim_settings.debug && *format)
        if (*format == '%')
            format = print_one(format + 1, rest);
        else
            fputc(*format++, stderr);
}
ULONG DbgPrint(PCSTR format, ...)
{
    va_list rest;
    va_start(rest, format);
    print_all(format, &rest);
    va_end(rest);
    return 0;
}
ULONG DbgPrintEx(ULONG component, ULONG severity, PCSTR format, ...)
{
    va_list rest;
    (void)component, (void)severity;
    va_start(rest, format);
    print_all(format, &rest);
    va_end(rest);
    return 0;
}
VOID shim_assertion(const char *what, const char *file, int line)
{
    fprintf(stderr, "%s:%d: assertion: %s\n", file, line, what);
    shim_broke("assertion");
}
