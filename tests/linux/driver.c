/* driver.c - loads the driver, and calls it as the kernel's other parts do. */
#include "environment.h"
#include <acpi/apei.h>
#include <linux/cper.h>
#include <linux/pstore.h>
#undef memcpy
#undef memmove
#include "bus.h"
#include "driver.h"
#include <dlfcn.h>
#include <stdio.h>
#include <stdlib.h>

/* The driver's library, beside the program; `run` puts it there. */
#ifndef DRIVER_PATH
#define DRIVER_PATH "driver.so"
#endif

enum { TABLE_ROOM = 65536, DUMP_HEADERS = sizeof(struct cper_record_header) + sizeof(struct cper_section_descriptor) };

static void *module;
static struct pstore_info *backend;
static uint8_t table[TABLE_ROOM];
static size_t table_size;
static u64 last_id;

static int (*start)(void);
static __typeof__(&erst_write) call_write;
static __typeof__(&erst_read) call_read;
static __typeof__(&erst_clear) call_clear;
static __typeof__(&erst_get_record_count) call_count;
static __typeof__(&erst_get_record_id_begin) call_begin;
static __typeof__(&erst_get_record_id_next) call_next;
static __typeof__(&erst_get_record_id_end) call_end;

/* What the driver asks of the kernel about tables and records. */

acpi_status acpi_get_table(const char *signature, u32 instance, struct acpi_table_header **found)
{
    struct acpi_table_header *header = (struct acpi_table_header *)table;
    uint8_t sum = 0;

    (void)instance;
    if (table_size < sizeof *header || memcmp(header->signature, signature, ACPI_NAMESEG_SIZE))
        return AE_NOT_FOUND;
    for (size_t i = 0; i < table_size; i++)
        sum += table[i];
    if (header->length != table_size || sum)
        return AE_ERROR;
    *found = header;
    return AE_OK;
}

u64 cper_next_record_id(void)
{
    return last_id++;
}

int pstore_register(struct pstore_info *info)
{
    backend = info;
    return 0;
}

/* The start. */

static void *symbol(const char *name)
{
    void *found = dlsym(module, name);

    BUG_ON(!found);
    return found;
}

static void load(void)
{
    if (module)
        dlclose(module);
    backend = NULL;
    module = dlopen(DRIVER_PATH, RTLD_NOW | RTLD_LOCAL);
    if (!module) {
        fprintf(stderr, "%s\n", dlerror());
        abort();
    }
    start = symbol("driver_start");
    call_write = symbol("erst_write");
    call_read = symbol("erst_read");
    call_clear = symbol("erst_clear");
    call_count = symbol("erst_get_record_count");
    call_begin = symbol("erst_get_record_id_begin");
    call_next = symbol("erst_get_record_id_next");
    call_end = symbol("erst_get_record_id_end");
}

int driver_start_on(struct device *device, uint64_t base)
{
    int status;

    table_size = device_table(device, base, table, sizeof table);
    bus_attach(device, base);
    memory_forget();
    load();
    status = start();
    return status ? status : backend ? 0 : -ENODEV;
}

size_t driver_range(void)
{
    return backend->bufsize + DUMP_HEADERS;
}

/* Records. */

int driver_write(const uint8_t *record)
{
    return call_write((const struct cper_record_header *)record);
}

ssize_t driver_read(uint64_t id, uint8_t *record, size_t room)
{
    return call_read(id, (struct cper_record_header *)record, room);
}

int driver_clear(uint64_t id)
{
    return call_clear(id);
}

ssize_t driver_count(void)
{
    return call_count();
}

int driver_list(uint64_t *ids, int room)
{
    int place, count = 0, status = call_begin(&place);
    u64 id;

    while (!status && !(status = call_next(&place, &id)) && id != APEI_ERST_INVALID_RECORD_ID && count < room)
        ids[count++] = id;
    call_end();
    return status ? status : count;
}

/* Dumps. The store's identifiers begin with the time of the start, as the kernel's do. */

size_t pstore_room(void)
{
    return backend->bufsize;
}

int pstore_write(struct dump *dump)
{
    struct pstore_record record = {
        .psi = backend,
        .type = dump->machine_check ? PSTORE_TYPE_MCE : PSTORE_TYPE_DMESG,
        .buf = backend->buf,
        .size = (ssize_t)dump->size,
        .compressed = dump->compressed,
    };
    int status;

    if (!last_id)
        last_id = (u64)ktime_get_real_seconds() << 32;
    memmove(backend->buf, dump->bytes, dump->size);
    status = backend->write(&record);
    dump->id = record.id;
    return status;
}

int pstore_read(struct dump *dumps, int room)
{
    int count = 0, status = backend->open(backend);

    while (!status && count < room) {
        struct pstore_record record = { .psi = backend };
        ssize_t size = backend->read(&record);
        if (size <= 0)
            break;
        dumps[count++] = (struct dump){
            .id = record.id,
            .machine_check = record.type == PSTORE_TYPE_MCE,
            .compressed = record.compressed,
            .size = (size_t)size,
            .bytes = (uint8_t *)record.buf,
        };
    }
    if (!status)
        status = backend->close(backend);
    return status ? status : count;
}

int pstore_erase(uint64_t id)
{
    struct pstore_record record = { .psi = backend, .type = PSTORE_TYPE_DMESG, .id = id };

    return backend->erase(&record);
}
