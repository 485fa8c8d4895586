/* Types, statuses and codes of the Windows Driver Kit, as far as the Plug and Play part of a driver names them. */
#ifndef PNP_KIT_TYPES_H
#define PNP_KIT_TYPES_H

#include <stddef.h>
#include <stdint.h>
#include <string.h>
#include <wchar.h>

/* ---- words that say something to Windows' compiler alone. The headers of C that a driver may include come first, as some name these. */
#define VOID void
#define CONST const
#define IN
#define OUT
#define OPTIONAL
#define NTAPI
#define FASTCALL
#define NTKERNELAPI
#define NTSYSAPI
#define FORCEINLINE static inline
#define DECLSPEC_NORETURN
#define _In_
#define _In_opt_
#define _Inout_
#define _Inout_opt_
#define _Out_
#define _Out_opt_
#define _In_reads_(n)
#define _In_reads_bytes_(n)
#define _Out_writes_(n)
#define _Out_writes_bytes_(n)
#define _Use_decl_annotations_
#define _Must_inspect_result_
#define _Success_(what)
#define _Function_class_(name)
#define _Dispatch_type_(code)
#define _IRQL_requires_(level)
#define _Analysis_assume_(what)
#define __drv_dispatchType(code)
#define __drv_requiresIRQL(level)
#define __drv_maxIRQL(level)
#define __drv_aliasesMem
#define __in
#define __in_opt
#define __inout
#define __out
#define __out_opt
#define __forceinline static inline
#define _IRQL_requires_max_(level)
#define _IRQL_requires_same_
#define _IRQL_raises_(level)
#define _IRQL_saves_
#define _IRQL_restores_
#define _IRQL_requires_min_(level)
#define _IRQL_always_function_min_(level)
#define _IRQL_uses_cancel_
#define _Requires_lock_held_(lock)
#define _Acquires_lock_(lock)
#define _Releases_lock_(lock)
#define _When_(condition, what)
#define _At_(place, what)
#define _In_z_
#define _In_opt_z_
#define _Inout_updates_bytes_(n)
#define _Out_writes_bytes_to_(n, written)
#define _Outptr_
#define _Reserved_
#define _Check_return_
#define _Kernel_clear_do_init_(yes)
#define __drv_allocatesMem(kind)
#define __drv_freesMem(kind)
#define __cdecl
#define __stdcall
#define UNREFERENCED_PARAMETER(p) ((void)(p))
#define DBG_UNREFERENCED_PARAMETER UNREFERENCED_PARAMETER
#define UNREFERENCED_LOCAL_VARIABLE UNREFERENCED_PARAMETER
#define ARRAYSIZE(a) (sizeof(a) / sizeof((a)[0]))
#define RTL_NUMBER_OF ARRAYSIZE
#define FIELD_OFFSET(type, field) ((LONG)offsetof(type, field))
#define C_ASSERT(what) typedef char shim_assert[(what) ? 1 : -1]
#define TRUE 1
#define FALSE 0
#define MAXULONG 0xFFFFFFFFU
#define MAXUSHORT 0xFFFFU
#define MAXLONG 0x7FFFFFFF
#define PAGE_SIZE 4096U
#define PAGE_SHIFT 12

/* ---- numbers */
typedef char CHAR, CCHAR, *PCHAR, *PSTR;
typedef const char *PCSTR;
typedef uint8_t UCHAR, BOOLEAN, KIRQL, *PUCHAR, *PBOOLEAN, *PKIRQL;
typedef int16_t SHORT, CSHORT, *PSHORT;
typedef int INT;
typedef unsigned int UINT;
typedef uint16_t USHORT, *PUSHORT;
typedef int32_t LONG, NTSTATUS, *PLONG, *PNTSTATUS;
typedef uint32_t ULONG, *PULONG, ACCESS_MASK;
typedef int64_t LONGLONG, *PLONGLONG;
typedef uint64_t ULONGLONG, ULONG64, *PULONGLONG, *PULONG64;
typedef intptr_t LONG_PTR;
typedef uintptr_t ULONG_PTR, KAFFINITY, KSPIN_LOCK, *PULONG_PTR, *PKSPIN_LOCK;
typedef size_t SIZE_T, *PSIZE_T;
typedef void *PVOID, *HANDLE, **PHANDLE;
typedef wchar_t WCHAR, *PWSTR, *PWCHAR;
typedef const wchar_t *PCWSTR;

typedef union _LARGE_INTEGER {
    __extension__ struct { ULONG LowPart; LONG HighPart; };
    struct { ULONG LowPart; LONG HighPart; } u;
    LONGLONG QuadPart;
} LARGE_INTEGER, PHYSICAL_ADDRESS, *PLARGE_INTEGER, *PPHYSICAL_ADDRESS;

typedef struct _UNICODE_STRING { USHORT Length, MaximumLength; PWSTR Buffer; } UNICODE_STRING, *PUNICODE_STRING;
typedef const UNICODE_STRING *PCUNICODE_STRING;
typedef struct _LIST_ENTRY { struct _LIST_ENTRY *Flink, *Blink; } LIST_ENTRY, *PLIST_ENTRY;
#define CONTAINING_RECORD(address, type, field) ((type *)(void *)((char *)(address) - offsetof(type, field)))

typedef struct _GUID { ULONG Data1; USHORT Data2, Data3; UCHAR Data4[8]; } GUID, *LPGUID;
typedef const GUID *LPCGUID;
#ifdef INITGUID
#define DEFINE_GUID(name, l, w1, w2, b1, b2, b3, b4, b5, b6, b7, b8) const GUID name = {l, w1, w2, {b1, b2, b3, b4, b5, b6, b7, b8}}
#else
#define DEFINE_GUID(name, l, w1, w2, b1, b2, b3, b4, b5, b6, b7, b8) extern const GUID name
#endif

/* ---- statuses */
#define NT_SUCCESS(s) ((NTSTATUS)(s) >= 0)
#define NT_ERROR(s) ((ULONG)(s) >> 30 == 3)
#define NT_WARNING(s) ((ULONG)(s) >> 30 == 2)
#define SHIM_STATUS(code) ((NTSTATUS)(code##U - 0x80000000U) + INT32_MIN)
#define STATUS_SUCCESS ((NTSTATUS)0x00000000)
#define STATUS_TIMEOUT ((NTSTATUS)0x00000102)
#define STATUS_PENDING ((NTSTATUS)0x00000103)
#define STATUS_OBJECT_NAME_EXISTS ((NTSTATUS)0x40000000)
#define STATUS_BUFFER_OVERFLOW SHIM_STATUS(0x80000005)
#define STATUS_DEVICE_OFF_LINE SHIM_STATUS(0x80000010)
#define STATUS_DEVICE_BUSY SHIM_STATUS(0x80000011)
#define STATUS_NO_MORE_ENTRIES SHIM_STATUS(0x8000001A)
#define STATUS_UNSUCCESSFUL SHIM_STATUS(0xC0000001)
#define STATUS_NOT_IMPLEMENTED SHIM_STATUS(0xC0000002)
#define STATUS_INFO_LENGTH_MISMATCH SHIM_STATUS(0xC0000004)
#define STATUS_INVALID_HANDLE SHIM_STATUS(0xC0000008)
#define STATUS_INVALID_PARAMETER SHIM_STATUS(0xC000000D)
#define STATUS_NO_SUCH_DEVICE SHIM_STATUS(0xC000000E)
#define STATUS_NO_SUCH_FILE SHIM_STATUS(0xC000000F)
#define STATUS_INVALID_DEVICE_REQUEST SHIM_STATUS(0xC0000010)
#define STATUS_END_OF_FILE SHIM_STATUS(0xC0000011)
#define STATUS_MORE_PROCESSING_REQUIRED SHIM_STATUS(0xC0000016)
#define STATUS_NO_MEMORY SHIM_STATUS(0xC0000017)
#define STATUS_ACCESS_DENIED SHIM_STATUS(0xC0000022)
#define STATUS_BUFFER_TOO_SMALL SHIM_STATUS(0xC0000023)
#define STATUS_OBJECT_NAME_NOT_FOUND SHIM_STATUS(0xC0000034)
#define STATUS_OBJECT_NAME_COLLISION SHIM_STATUS(0xC0000035)
#define STATUS_SHARING_VIOLATION SHIM_STATUS(0xC0000043)
#define STATUS_DELETE_PENDING SHIM_STATUS(0xC0000056)
#define STATUS_INSUFFICIENT_RESOURCES SHIM_STATUS(0xC000009A)
#define STATUS_DEVICE_NOT_CONNECTED SHIM_STATUS(0xC000009D)
#define STATUS_DEVICE_NOT_READY SHIM_STATUS(0xC00000A3)
#define STATUS_IO_TIMEOUT SHIM_STATUS(0xC00000B5)
#define STATUS_NOT_SUPPORTED SHIM_STATUS(0xC00000BB)
#define STATUS_DEVICE_DOES_NOT_EXIST SHIM_STATUS(0xC00000C0)
#define STATUS_INVALID_DEVICE_STATE SHIM_STATUS(0xC0000184)
#define STATUS_IO_DEVICE_ERROR SHIM_STATUS(0xC0000185)
#define STATUS_DRIVER_INTERNAL_ERROR SHIM_STATUS(0xC0000183)
#define STATUS_INTERNAL_ERROR SHIM_STATUS(0xC00000E5)
#define STATUS_INVALID_BUFFER_SIZE SHIM_STATUS(0xC0000206)
#define STATUS_NOT_FOUND SHIM_STATUS(0xC0000225)
#define STATUS_CONFLICTING_ADDRESSES SHIM_STATUS(0xC0000018)
#define STATUS_CANCELLED SHIM_STATUS(0xC0000120)
#define STATUS_DEVICE_CONFIGURATION_ERROR SHIM_STATUS(0xC0000182)
#define STATUS_DEVICE_DATA_ERROR SHIM_STATUS(0xC000009C)
#define STATUS_DEVICE_REMOVED SHIM_STATUS(0xC00002B6)
#define STATUS_DEVICE_POWERED_OFF SHIM_STATUS(0x8000002F)
#define STATUS_WMI_GUID_NOT_FOUND SHIM_STATUS(0xC0000295)
#define STATUS_WMI_INSTANCE_NOT_FOUND SHIM_STATUS(0xC0000296)
#define STATUS_WMI_READ_ONLY SHIM_STATUS(0xC00002C6)
#define STATUS_CONTINUE_COMPLETION STATUS_SUCCESS
#define ContinueCompletion STATUS_CONTINUE_COMPLETION
#define StopCompletion STATUS_MORE_PROCESSING_REQUIRED

/* ---- requests */
#define IRP_MJ_CREATE 0x00
#define IRP_MJ_CLOSE 0x02
#define IRP_MJ_READ 0x03
#define IRP_MJ_WRITE 0x04
#define IRP_MJ_QUERY_INFORMATION 0x05
#define IRP_MJ_SET_INFORMATION 0x06
#define IRP_MJ_FLUSH_BUFFERS 0x09
#define IRP_MJ_DEVICE_CONTROL 0x0e
#define IRP_MJ_INTERNAL_DEVICE_CONTROL 0x0f
#define IRP_MJ_SCSI IRP_MJ_INTERNAL_DEVICE_CONTROL
#define IRP_MJ_SHUTDOWN 0x10
#define IRP_MJ_CLEANUP 0x12
#define IRP_MJ_POWER 0x16
#define IRP_MJ_SYSTEM_CONTROL 0x17
#define IRP_MJ_PNP 0x1b
#define IRP_MJ_PNP_POWER IRP_MJ_PNP
#define IRP_MJ_MAXIMUM_FUNCTION 0x1b

#define IRP_MN_START_DEVICE 0x00
#define IRP_MN_QUERY_REMOVE_DEVICE 0x01
#define IRP_MN_REMOVE_DEVICE 0x02
#define IRP_MN_CANCEL_REMOVE_DEVICE 0x03
#define IRP_MN_STOP_DEVICE 0x04
#define IRP_MN_QUERY_STOP_DEVICE 0x05
#define IRP_MN_CANCEL_STOP_DEVICE 0x06
#define IRP_MN_QUERY_DEVICE_RELATIONS 0x07
#define IRP_MN_QUERY_INTERFACE 0x08
#define IRP_MN_QUERY_CAPABILITIES 0x09
#define IRP_MN_QUERY_RESOURCES 0x0a
#define IRP_MN_QUERY_RESOURCE_REQUIREMENTS 0x0b
#define IRP_MN_QUERY_DEVICE_TEXT 0x0c
#define IRP_MN_FILTER_RESOURCE_REQUIREMENTS 0x0d
#define IRP_MN_READ_CONFIG 0x0f
#define IRP_MN_WRITE_CONFIG 0x10
#define IRP_MN_EJECT 0x11
#define IRP_MN_SET_LOCK 0x12
#define IRP_MN_QUERY_ID 0x13
#define IRP_MN_QUERY_PNP_DEVICE_STATE 0x14
#define IRP_MN_QUERY_BUS_INFORMATION 0x15
#define IRP_MN_DEVICE_USAGE_NOTIFICATION 0x16
#define IRP_MN_SURPRISE_REMOVAL 0x17
#define IRP_MN_QUERY_LEGACY_BUS_INFORMATION 0x18
#define IRP_MN_DEVICE_ENUMERATED 0x19

#define IRP_MN_WAIT_WAKE 0x00
#define IRP_MN_POWER_SEQUENCE 0x01
#define IRP_MN_SET_POWER 0x02
#define IRP_MN_QUERY_POWER 0x03

#define IRP_MN_QUERY_ALL_DATA 0x00
#define IRP_MN_QUERY_SINGLE_INSTANCE 0x01
#define IRP_MN_CHANGE_SINGLE_INSTANCE 0x02
#define IRP_MN_CHANGE_SINGLE_ITEM 0x03
#define IRP_MN_ENABLE_EVENTS 0x04
#define IRP_MN_DISABLE_EVENTS 0x05
#define IRP_MN_ENABLE_COLLECTION 0x06
#define IRP_MN_DISABLE_COLLECTION 0x07
#define IRP_MN_REGINFO 0x08
#define IRP_MN_EXECUTE_METHOD 0x09
#define IRP_MN_REGINFO_EX 0x0b

#define IO_NO_INCREMENT 0
#define EVENT_INCREMENT 1
#define IO_DISK_INCREMENT 1
#define IO_SERIAL_INCREMENT 2
#define IO_KEYBOARD_INCREMENT 6
#define METHOD_BUFFERED 0
#define METHOD_IN_DIRECT 1
#define METHOD_OUT_DIRECT 2
#define METHOD_NEITHER 3
#define FILE_ANY_ACCESS 0
#define FILE_READ_ACCESS 1
#define FILE_WRITE_ACCESS 2
#define FILE_READ_DATA 1
#define FILE_WRITE_DATA 2
#define CTL_CODE(type, function, method, access) (((ULONG)(type) << 16) | ((ULONG)(access) << 14) | ((ULONG)(function) << 2) | (ULONG)(method))

/* ---- levels */
#define PASSIVE_LEVEL 0
#define APC_LEVEL 1
#define DISPATCH_LEVEL 2

/* ---- resources */
#define CmResourceTypeNull 0
#define CmResourceTypePort 1
#define CmResourceTypeInterrupt 2
#define CmResourceTypeMemory 3
#define CmResourceTypeDma 4
#define CmResourceTypeDeviceSpecific 5
#define CmResourceTypeBusNumber 6
#define CmResourceTypeConfigData 128
#define CmResourceTypeDevicePrivate 129
#define CmResourceShareUndetermined 0
#define CmResourceShareDeviceExclusive 1
#define CmResourceShareDriverExclusive 2
#define CmResourceShareShared 3
#define CM_RESOURCE_INTERRUPT_LEVEL_SENSITIVE 0
#define CM_RESOURCE_INTERRUPT_LATCHED 1
#define CM_RESOURCE_INTERRUPT_MESSAGE 2
#define CM_RESOURCE_MEMORY_READ_WRITE 0
#define CM_RESOURCE_MEMORY_READ_ONLY 1
#define CM_RESOURCE_MEMORY_PREFETCHABLE 4
#define CM_RESOURCE_PORT_MEMORY 0
#define CM_RESOURCE_PORT_IO 1
#define CM_RESOURCE_PORT_10_BIT_DECODE 4
#define CM_RESOURCE_PORT_16_BIT_DECODE 16

/* As many as a device can hold here. In the kit it is an array of one, with more behind it. */
#define SHIM_MOST_RESOURCES 16

typedef enum _INTERFACE_TYPE { InterfaceTypeUndefined = -1, Internal, Isa, Eisa, MicroChannel, TurboChannel, PCIBus } INTERFACE_TYPE;
typedef struct _CM_PARTIAL_RESOURCE_DESCRIPTOR {
    UCHAR Type, ShareDisposition;
    USHORT Flags;
    union {
        struct { PHYSICAL_ADDRESS Start; ULONG Length; } Generic, Port, Memory;
        struct { ULONG Level, Vector; KAFFINITY Affinity; } Interrupt;
        struct { ULONG Channel, Port, Reserved1; } Dma;
        struct { ULONG Start, Length, Reserved; } BusNumber;
        struct { ULONG DataSize, Reserved1, Reserved2; } DeviceSpecificData;
        struct { ULONG Data[3]; } DevicePrivate;
    } u;
} CM_PARTIAL_RESOURCE_DESCRIPTOR, *PCM_PARTIAL_RESOURCE_DESCRIPTOR;
typedef struct _CM_PARTIAL_RESOURCE_LIST {
    USHORT Version, Revision;
    ULONG Count;
    CM_PARTIAL_RESOURCE_DESCRIPTOR PartialDescriptors[SHIM_MOST_RESOURCES];
} CM_PARTIAL_RESOURCE_LIST, *PCM_PARTIAL_RESOURCE_LIST;
typedef struct _CM_FULL_RESOURCE_DESCRIPTOR {
    INTERFACE_TYPE InterfaceType;
    ULONG BusNumber;
    CM_PARTIAL_RESOURCE_LIST PartialResourceList;
} CM_FULL_RESOURCE_DESCRIPTOR, *PCM_FULL_RESOURCE_DESCRIPTOR;
typedef struct _CM_RESOURCE_LIST { ULONG Count; CM_FULL_RESOURCE_DESCRIPTOR List[1]; } CM_RESOURCE_LIST, *PCM_RESOURCE_LIST;

/* ---- what a device needs: no request with these comes, but a driver may look at them */
#define IO_RESOURCE_PREFERRED 1
#define IO_RESOURCE_ALTERNATIVE 8
typedef struct _IO_RESOURCE_DESCRIPTOR {
    UCHAR Option, Type, ShareDisposition, Spare1;
    USHORT Flags, Spare2;
    union {
        struct { ULONG Length, Alignment; PHYSICAL_ADDRESS MinimumAddress, MaximumAddress; } Generic, Port, Memory;
        struct { ULONG MinimumVector, MaximumVector; } Interrupt;
        struct { ULONG MinimumChannel, MaximumChannel; } Dma;
        struct { ULONG Length, MinBusNumber, MaxBusNumber, Reserved; } BusNumber;
        struct { ULONG Data[3]; } DevicePrivate;
    } u;
} IO_RESOURCE_DESCRIPTOR, *PIO_RESOURCE_DESCRIPTOR;
typedef struct _IO_RESOURCE_LIST { USHORT Version, Revision; ULONG Count; IO_RESOURCE_DESCRIPTOR Descriptors[1]; } IO_RESOURCE_LIST, *PIO_RESOURCE_LIST;
typedef struct _IO_RESOURCE_REQUIREMENTS_LIST {
    ULONG ListSize;
    INTERFACE_TYPE InterfaceType;
    ULONG BusNumber, SlotNumber, Reserved[3], AlternativeLists;
    IO_RESOURCE_LIST List[1];
} IO_RESOURCE_REQUIREMENTS_LIST, *PIO_RESOURCE_REQUIREMENTS_LIST;

#endif
