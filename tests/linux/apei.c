/*
 * apei.c - the library's device over device.h. Its words are the geometry of a new medium: bytes a sector, sectors a slot,
 * slots, with commas between them. With `,halves` behind them the table names VALUE as a register of 32 bits where that is
 * enough, as other firmwares do. The registers stand at the window's base, the log range one page behind.
 */
#include <apei.h>
#include "device.h"
#include <stdbool.h>
#include <stdio.h>
#include <stdlib.h>
#include <string.h>

enum { RANGE = 4096 };

struct device {
    apei_erst erst;
    apei_geometry geometry;
    uint8_t *medium;
    size_t size;
    uint64_t range_size;
    bool halves;
};

static void say(const char *what, enum apei_status status)
{
    fprintf(stderr, "apei: %s: %s\n", what, apei_status_text(status));
}

static bool make(struct device *d, const apei_change *change, const uint8_t *bytes)
{
    static uint8_t erased[32768];

    if (!erased[0])
        memset(erased, 0xFF, sizeof erased);
    return !medium_change(d->medium + change->offset, change->kind == APEI_ERASE ? erased : bytes, change->length);
}

/* Every change that is due is made on the medium before the call that made it due returns. Behind one that fails the device
 * goes on over what the medium holds. */
static int make_all(struct device *d)
{
    apei_change change;
    uint8_t bytes[APEI_PROGRAM_MAX];
    enum apei_status status;

    while ((status = apei_erst_change(&d->erst, &change, bytes)) == APEI_OK) {
        if (make(d, &change, bytes))
            status = apei_erst_done(&d->erst);
        else
            status = apei_erst_failed(&d->erst, d->medium, d->size);
        if (status)
            break;
    }
    return status == APEI_NONE ? 0 : (int)status;
}

static enum apei_status format(struct device *d)
{
    apei_change change;
    uint8_t bytes[APEI_PROGRAM_MAX];
    uint64_t size;
    enum apei_status status = apei_medium_size(&d->geometry, &size);

    if (status || size > d->size)
        return status ? status : APEI_SIZE;
    for (uint64_t step = 0; (status = apei_format_change(&d->geometry, step, &change, bytes)) == APEI_OK; step++)
        make(d, &change, bytes);
    return status == APEI_NONE ? APEI_OK : status;
}

static bool is_erased(const uint8_t *bytes, size_t size)
{
    while (size && bytes[size - 1] == 0xFF)
        size--;
    return !size;
}

struct device *device_open(const char *words, uint8_t *image, size_t size)
{
    struct device *d = calloc(1, sizeof *d);
    apei_addresses addresses = { 0, RANGE };
    enum apei_status status = APEI_OK;

    if (!d)
        return NULL;
    d->geometry = (apei_geometry){ 4096, 2, 64 };
    d->medium = image;
    d->size = size;
    d->halves = strstr(words, "halves");
    if (*words && sscanf(words, "%u,%u,%u", &d->geometry.sector, &d->geometry.sectors_per_slot, &d->geometry.slots) != 3)
        status = APEI_GEOMETRY;
    if (!status && is_erased(image, size))
        status = format(d);
    if (!status)
        status = apei_erst_open(&d->erst, image, size, &addresses);
    if (!status)
        status = (enum apei_status)make_all(d);
    if (!status)
        status = apei_erst_range_size(&d->erst, &d->range_size);
    if (status) {
        say("the device does not open", status);
        free(d);
        return NULL;
    }
    return d;
}

/* What the library holds in memory, behind its own sector, has to be what the medium has. */
void device_close(struct device *d)
{
    size_t own = d->geometry.sector, size = d->size - own;
    uint8_t *image = malloc(size);

    if (image && (apei_erst_image(&d->erst, own, image, size) || memcmp(image, d->medium + own, size))) {
        fprintf(stderr, "apei: the medium is not what the device holds\n");
        abort();
    }
    free(image);
    apei_erst_close(&d->erst);
    free(d);
}

/* The entries of actions whose numbers have no more than 32 bits get a register of 32 bits (ACPI 6.4, section 18.5.1.2). */
static void name_halves(uint8_t *table, size_t size)
{
    enum { HEADER = 48, ENTRY = 32, SUM = 9 };
    static const uint8_t short_numbers[] = { 0x4, 0x6, 0x7, 0xA, 0xF };

    for (uint8_t *entry = table + HEADER; entry < table + size; entry += ENTRY)
        if (entry[5] == 64 && memchr(short_numbers, entry[0], sizeof short_numbers)) {
            entry[5] = 32;
            entry[7] = 3;
            memset(entry + 28, 0, 4);
        }
    table[SUM] = 0;
    for (size_t i = 0; i < size; i++)
        if (i != SUM)
            table[SUM] -= table[i];
}

size_t device_table(struct device *d, uint64_t base, uint8_t *table, size_t room)
{
    apei_addresses addresses = { base, base + RANGE };
    size_t size;
    enum apei_status status = apei_erst_move(&d->erst, &addresses);

    if (!status)
        status = apei_erst_table(&d->erst, table, room, &size);
    if (status)
        say("no table", status);
    else if (d->halves)
        name_halves(table, size);
    return status ? 0 : size;
}

size_t device_window(struct device *d)
{
    return RANGE + (size_t)d->range_size;
}

int device_read(struct device *d, uint64_t offset, unsigned size, uint64_t *value)
{
    enum apei_window window = offset < RANGE ? APEI_REGISTERS : APEI_RANGE;

    return (int)apei_erst_read(&d->erst, window, offset - (window == APEI_RANGE ? RANGE : 0), size, value);
}

int device_write(struct device *d, uint64_t offset, unsigned size, uint64_t value)
{
    enum apei_window window = offset < RANGE ? APEI_REGISTERS : APEI_RANGE;
    int status = (int)apei_erst_write(&d->erst, window, offset - (window == APEI_RANGE ? RANGE : 0), size, value);

    return status ? status : make_all(d);
}

int device_get(struct device *d, uint64_t offset, uint8_t *bytes, size_t size)
{
    return offset < RANGE ? (int)APEI_ACCESS : (int)apei_erst_get(&d->erst, offset - RANGE, bytes, size);
}

int device_put(struct device *d, uint64_t offset, const uint8_t *bytes, size_t size)
{
    return offset < RANGE ? (int)APEI_ACCESS : (int)apei_erst_put(&d->erst, offset - RANGE, bytes, size);
}
