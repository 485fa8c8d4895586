/* The lines: what the manager asks, and what is answered. */
#include "shim_inside.h"
#include <stdio.h>
#include <stdlib.h>

#define LINE_SIZE 16384
#define MOST_TAGS 32

struct shim_settings shim_settings = {.hold = 1};
static DRIVER_EXTENSION extension;
DRIVER_OBJECT shim_driver = {.DriverExtension = &extension};

static void die(const char *why)
{
    fprintf(stderr, "pnp_shim: %s\n", why);
    exit(3);
}

/* ---- what was broken: told with the next answer that has room for it */
static char tags[MOST_TAGS][SHIM_NAME_SIZE];
static int tag_count;

void shim_broke(const char *tag)
{
    size_t length = strlen(tag);
    if (length == 0 || length >= SHIM_NAME_SIZE || strspn(tag, "ABCDEFGHIJKLMNOPQRSTUVWXYZabcdefghijklmnopqrstuvwxyz0123456789_-.") != length) {
        fprintf(stderr, "pnp_shim: this is no tag: %s\n", tag);
        tag = "no-tag";
    }
    for (int i = 0; i < tag_count; i++)
        if (!strcmp(tags[i], tag))
            return;
    if (tag_count == MOST_TAGS)
        fprintf(stderr, "pnp_shim: one tag too many: %s\n", tag);
    else
        strcpy(tags[tag_count++], tag);
}
static void tell(const char *number, const char *answer, bool has_tags)
{
    printf("%s %s", number, answer);
    for (int i = 0; has_tags && i < tag_count; i++)
        printf(" %s", tags[i]);
    printf("\n");
    if (fflush(stdout))
        die("the answers cannot be written");
    if (has_tags)
        tag_count = 0;
}

/* Cuts the next word off a line; an empty one where there is none. */
static char *word_of(char **line)
{
    char *word = *line;
    size_t length = strcspn(word, " ");
    *line = word + length + (word[length] == ' ');
    word[length] = 0;
    return word;
}

/* ---- AddDevice */
static void add(struct shim_device *device, const char *number)
{
    NTSTATUS status;
    device->started = device->gone = false;
    device->removing = true; /* what it made it may delete again */
    shim_now = device;
    status = shim_driver.DriverExtension->AddDevice(&shim_driver, &device->bus_object.object);
    shim_level_back(PASSIVE_LEVEL);
    shim_now = NULL;
    device->removing = false;
    if (NT_SUCCESS(status) && !device->own)
        shim_broke("not-attached");
    if (!NT_SUCCESS(status) && device->own)
        shim_broke("attached-though-failed");
    if (device->own && (device->own->Flags & DO_DEVICE_INITIALIZING))
        shim_broke("still-initializing");
    tell(number, NT_SUCCESS(status) ? "ok" : "fail", true);
}

/* ---- the eight requests */
static const struct minor { const char *word; int code; } minors[] = {
    {"START_DEVICE", IRP_MN_START_DEVICE}, {"QUERY_REMOVE_DEVICE", IRP_MN_QUERY_REMOVE_DEVICE}, {"REMOVE_DEVICE", IRP_MN_REMOVE_DEVICE},
    {"CANCEL_REMOVE_DEVICE", IRP_MN_CANCEL_REMOVE_DEVICE}, {"STOP_DEVICE", IRP_MN_STOP_DEVICE}, {"QUERY_STOP_DEVICE", IRP_MN_QUERY_STOP_DEVICE},
    {"CANCEL_STOP_DEVICE", IRP_MN_CANCEL_STOP_DEVICE}, {"SURPRISE_REMOVAL", IRP_MN_SURPRISE_REMOVAL}};

static const struct minor *minor_of(const char *word)
{
    for (size_t i = 0; i < ARRAYSIZE(minors); i++)
        if (!strcmp(minors[i].word, word))
            return &minors[i];
    return NULL;
}

/* Once a request is over: what must be so now, and what else is asked. */
static void settle(struct shim_device *device, const struct shim_request *request)
{
    if (request->minor == IRP_MN_REMOVE_DEVICE)
        shim_judge_removed(device);
    else if (request->minor == IRP_MN_STOP_DEVICE || request->minor == IRP_MN_SURPRISE_REMOVAL)
        shim_judge_left(device);
    else if (request->minor == IRP_MN_START_DEVICE && NT_SUCCESS(request->completed_status))
        shim_ask_others(device);
}

static void begin(struct shim_device *device, struct shim_request *request, char *words)
{
    PIO_STACK_LOCATION own = shim_own_location(request);
    if (request->minor == IRP_MN_START_DEVICE) {
        shim_give(device, words);
        if (device->given.List[0].PartialResourceList.Count)
            own->Parameters.StartDevice.AllocatedResources = own->Parameters.StartDevice.AllocatedResourcesTranslated = &device->given;
    }
    if (request->minor == IRP_MN_SURPRISE_REMOVAL) {
        device->started = false;
        device->gone = true;
    }
    device->removing = request->minor == IRP_MN_REMOVE_DEVICE;
}

/* Nobody waits any more for what the driver pended. */
static void give_up_waiting(struct shim_device *device)
{
    if (device->waits && device->waits->completed)
        shim_let_go(device->waits);
    else if (device->waits)
        shim_keep_other(device->waits);
    device->waits = NULL;
}
static void ask(struct shim_device *device, const struct minor *minor, const char *number, char *words)
{
    struct shim_request *request;
    if (!device->own) {
        shim_broke("no-device-object");
        tell(number, "ok", true);
        return;
    }
    request = shim_ask(device, IRP_MJ_PNP, minor->code);
    begin(device, request, words);
    shim_dispatch(request);
    if (!request->completed) {
        give_up_waiting(device);
        device->waits = request;
        device->waits_word = minor->word;
        tell(number, "pend", true);
        return;
    }
    settle(device, request);
    tell(number, NT_SUCCESS(request->completed_status) ? "ok" : "fail", true);
    shim_let_go(request);
}

/* ---- what is completed later */
static void poll(const char *number)
{
    char answer[SHIM_PATH_SIZE + 64];
    shim_work_of_poll();
    for (struct shim_device *device = shim_devices; device; device = device->next)
        if (device->waits && device->waits->completed) {
            struct shim_request *request = device->waits;
            device->waits = NULL;
            settle(device, request);
            snprintf(answer, sizeof answer, "complete %s %s %s", device->path, device->waits_word, NT_SUCCESS(request->completed_status) ? "ok" : "fail");
            tell(number, answer, true);
            shim_let_go(request);
            return;
        }
    tell(number, "none", false);
}
/* A line of the script completed what a driver pended, before the driver did. */
static void completed_by_script(char *rest)
{
    const char *path = word_of(&rest), *word = word_of(&rest);
    for (struct shim_device *device = shim_devices; device; device = device->next)
        if (device->waits && !strcmp(device->path, path) && !strcmp(device->waits_word, word))
            give_up_waiting(device);
}

/* ---- lines */
static void hear_ask(char *rest)
{
    const char *number = word_of(&rest), *what = word_of(&rest), *path = word_of(&rest), *name = word_of(&rest);
    const struct minor *minor = minor_of(what);
    if (!strcmp(what, "poll")) {
        poll(number);
        return;
    }
    if (!*name || strlen(path) >= SHIM_PATH_SIZE || strlen(name) >= SHIM_NAME_SIZE)
        die("an ask is not understood");
    if (!strcmp(what, "add"))
        add(shim_device_of(path, name), number);
    else if (!strcmp(what, "probe"))
        tell(number, shim_probe(shim_device_of(path, name)), true);
    else if (minor)
        ask(shim_device_of(path, name), minor, number, rest);
    else
        die("an ask has an unknown request");
    shim_free_deleted(false);
}
static void hear_all(void)
{
    static char line[LINE_SIZE];
    while (fgets(line, sizeof line, stdin)) {
        size_t length = strcspn(line, "\n");
        if (line[length] != '\n' && !feof(stdin))
            die("a line is too long");
        line[length] = 0;
        if (!strncmp(line, "# ask ", 6))
            hear_ask(line + 6);
        else if (!strncmp(line, "event complete ", 15))
            completed_by_script(line + 15);
    }
}

static void usage(void)
{
    fprintf(stderr, "Usage: DRIVER [--lower-pends] [--lower-fails] [--hold K] [--debug]\n\n"
                    "A driver over pnp_shim: asked by lines on standard input, it answers on standard output (docs/LIVE.md).\n\n"
                    "  --lower-pends   the bus driver below completes each PnP request later\n"
                    "  --lower-fails   it fails START_DEVICE\n"
                    "  --hold K        what is done later is done at the K-th poll, 1 without it\n"
                    "  --debug         shows what the driver prints\n\n"
                    "Statuses: 0 the input is over; 1 DriverEntry failed, or named no AddDevice; 2 other words; 3 a fault; 4 a tag is untold\n");
}
static bool read_words(int count, char **words)
{
    for (int i = 1; i < count; i++) {
        if (!strcmp(words[i], "--lower-pends"))
            shim_settings.lower_pends = true;
        else if (!strcmp(words[i], "--lower-fails"))
            shim_settings.lower_fails = true;
        else if (!strcmp(words[i], "--debug"))
            shim_settings.debug = true;
        else if (!strcmp(words[i], "--hold") && i + 1 < count && atoi(words[i + 1]) > 0)
            shim_settings.hold = atoi(words[++i]);
        else
            return false;
    }
    return true;
}

static bool any_is_attached(void)
{
    for (struct shim_device *device = shim_devices; device; device = device->next)
        if (device->own)
            return true;
    return false;
}

int main(int count, char **words)
{
    UNICODE_STRING registry_path = {0, 0, NULL};
    if (!read_words(count, words)) {
        usage();
        return 2;
    }
    shim_driver.DriverExtension->DriverObject = &shim_driver;
    if (!NT_SUCCESS(DriverEntry(&shim_driver, &registry_path)) || !shim_driver.DriverExtension->AddDevice) {
        fprintf(stderr, "pnp_shim: DriverEntry failed, or named no AddDevice\n");
        return 1;
    }
    printf("live 1\n");
    if (fflush(stdout))
        die("the answers cannot be written");
    hear_all();
    if (shim_driver.DriverUnload && !any_is_attached())
        shim_driver.DriverUnload(&shim_driver);
    for (int i = 0; i < tag_count; i++)
        fprintf(stderr, "pnp_shim: broke %s, with no answer to tell it by\n", tags[i]);
    return tag_count ? 4 : 0;
}
