/* What the parts of the shim know of each other. A driver does not include this. */
#ifndef PNP_SHIM_INSIDE_H
#define PNP_SHIM_INSIDE_H

#include "pnp_shim.h"
#include <stdbool.h>

#define SHIM_PATH_SIZE 640 /* a path has three parts of at most 199 bytes */
#define SHIM_NAME_SIZE 65  /* of a driver, or of a tag, with its end */

struct shim_device;

/* A device object, with what the shim knows of it. */
struct shim_object {
    DEVICE_OBJECT object; /* first: a DEVICE_OBJECT of the shim is one of these */
    struct shim_device *device;
    PDEVICE_OBJECT below;
    ULONG extension_size;
    bool deleted;
    KDPC dpc;
    PIO_DPC_ROUTINE dpc_routine;
    LIST_ENTRY packets; /* requests that StartIo has not begun */
    struct shim_object *next;
};

/* A request, with what the shim knows of it. Location 1 is the bus driver's, and StackCount that of the driver that is asked. */
struct shim_request {
    IRP irp;                    /* first: an IRP of the shim is one of these */
    struct shim_device *device; /* whose driver is asked, or sends it; NULL where it is of no interest any more */
    bool from_above;            /* not made by the driver */
    UCHAR major, minor;
    int forwards;               /* how often it was passed down to the bus driver */
    bool lower_done, lower_failed, returned, marked, completed, let_go, ends_alone;
    NTSTATUS returned_status, completed_status;
    void (*done)(struct shim_request *request); /* called when it is completed */
    PREQUEST_POWER_COMPLETE power_done;
    PVOID power_context;
    struct shim_request *next_other, *next;
    IO_STACK_LOCATION locations[]; /* 0 is below all of them, and StackCount + 1 above */
};

/* A device of a path, as one driver has it. */
struct shim_device {
    char path[SHIM_PATH_SIZE], driver[SHIM_NAME_SIZE];
    struct shim_object bus_object; /* what the bus driver made */
    PDEVICE_OBJECT own;            /* what the driver attached above it; NULL where there is none */
    CM_RESOURCE_LIST given;
    bool started, gone, removing;  /* as the bus driver knows it */
    struct shim_request *waits;    /* the request of the manager that the driver pended */
    const char *waits_word;
    struct shim_request *others;   /* what else it was asked and has not completed */
    int interrupts, mappings, interfaces;
    struct shim_device *next;
};

struct shim_settings {
    bool lower_pends, lower_fails, debug;
    int hold;
};
extern struct shim_settings shim_settings;
extern DRIVER_OBJECT shim_driver;
extern struct shim_device *shim_devices;
extern struct shim_device *shim_now; /* whose driver is at work; NULL where that is not known */

/* shim_kernel.c */
void *shim_memory(size_t size);      /* zeroes; ends the program where there is none */
bool shim_run_work(bool due_only);   /* runs one piece of work, if there is one */
void shim_forget_work(void *context);
bool shim_forget_within(const void *memory, size_t size); /* the same of all whose context is there; whether there was one */
void shim_work_of_poll(void);
KIRQL shim_level(void);
void shim_level_back(KIRQL level);

/* shim_devices.c */
struct shim_object *shim_object(PDEVICE_OBJECT device);
struct shim_device *shim_device_of(const char *path, const char *driver);
void shim_give(struct shim_device *device, char *words);
void shim_free_deleted(bool all);
void shim_judge_removed(struct shim_device *device);
void shim_judge_left(struct shim_device *device);

/* shim_requests.c */
struct shim_request *shim_new_request(struct shim_device *device, CCHAR stack_size);
struct shim_request *shim_ask(struct shim_device *device, int major, int minor);
void shim_dispatch(struct shim_request *request);
PIO_STACK_LOCATION shim_own_location(struct shim_request *request);
void shim_let_go(struct shim_request *request);
bool shim_may_be_failed(const struct shim_request *request);

/* shim_bus.c */
NTSTATUS shim_bus(struct shim_request *request);
bool shim_is_of_manager(const struct shim_request *request);

/* shim_asides.c: what a driver is asked beside the manager's requests */
#define SHIM_LATER_MINOR 0x7e /* a PnP request that no driver knows */
void shim_ask_others(struct shim_device *device);
const char *shim_probe(struct shim_device *device);
void shim_keep_other(struct shim_request *request);

#endif
