/*
 * standin.c - a device that stands in for a real one: a plain table of slots, in which a record counts where its checksum
 * is right. Its words are faults, with commas between them (`run` has a list of them): each makes a scenario fail.
 */
#include "device.h"
#include <stdbool.h>
#include <stdlib.h>
#include <string.h>

enum { ACTION = 0, VALUE = 8, RANGE = 4096, RANGE_SIZE = 8192, WINDOW = RANGE + RANGE_SIZE, ENTRY = 32, TABLE_HEADER = 48 };
enum { SUCCESS, NO_SPACE, NOT_AVAILABLE, FAILED, EMPTY, NOT_FOUND };
enum { WRITE, READ, CLEAR, END, SET_OFFSET, EXECUTE, IS_BUSY, GET_STATUS, GET_ID, SET_ID, GET_COUNT, DUMMY };
enum { GET_RANGE = 13, GET_LENGTH, GET_ATTRIBUTES, GET_TIMINGS };
enum { READ_REGISTER, READ_REGISTER_VALUE, WRITE_REGISTER, WRITE_REGISTER_VALUE };
static const uint64_t NO_ID = ~0ull;

/* A slot of the image counts where its checksum is right. Of two with one identifier the later one counts. */
struct slot {
    uint64_t sequence, checksum, length;
    uint8_t record[RANGE_SIZE];
};

struct device {
    const char *faults;
    uint64_t base, value, id, offset, action, status, before;
    struct slot *slots;
    bool *stands; /* which slots count: looked at when the device is opened, and kept since */
    size_t count, cursor;
    uint8_t range[RANGE_SIZE];
};

static bool has(const struct device *d, const char *fault)
{
    const char *at = strstr(d->faults, fault);
    size_t length = strlen(fault);

    return at && (at == d->faults || at[-1] == ',') && (!at[length] || at[length] == ',');
}

static uint64_t number(const uint8_t *at, int bytes)
{
    uint64_t value = 0;

    while (bytes--)
        value = value << 8 | at[bytes];
    return value;
}

static void put(uint8_t *at, uint64_t value, int bytes)
{
    for (int i = 0; i < bytes; i++)
        at[i] = (uint8_t)(value >> 8 * i);
}

static uint64_t checksum_of(const struct slot *slot)
{
    uint64_t sum = slot->sequence * 31 + slot->length;

    for (size_t i = 0; i < slot->length; i += 8)
        sum = (sum ^ number(slot->record + i, i + 8 > slot->length ? (int)(slot->length - i) : 8)) * 0x100000001B3ull;
    return sum;
}

static bool is_whole(const struct device *d, const struct slot *slot)
{
    return slot->length >= 128 && slot->length <= RANGE_SIZE && (has(d, "torn-counts") || slot->checksum == checksum_of(slot));
}

static uint64_t id_of(const struct slot *slot)
{
    return number(slot->record + 96, 8);
}

static struct slot *find(const struct device *d, uint64_t id)
{
    struct slot *found = NULL;

    for (size_t i = 0; i < d->count; i++)
        if (d->stands[i] && id_of(&d->slots[i]) == id && (!found || d->slots[i].sequence > found->sequence))
            found = &d->slots[i];
    return found;
}

/* Behind a change that failed a slot counts where it is whole, and of two with one identifier the later one alone. */
static bool change(const struct device *d, struct slot *slot, const void *bytes, size_t size)
{
    bool is_made = !medium_change((uint8_t *)slot, bytes, size);

    d->stands[slot - d->slots] = is_whole(d, slot);
    for (size_t i = 0; !is_made && i < d->count; i++)
        d->stands[i] = d->stands[i] && find(d, id_of(&d->slots[i])) == &d->slots[i];
    return is_made || has(d, "failed-is-told-as-done");
}

static bool end(const struct device *d, struct slot *slot)
{
    static const uint8_t none[sizeof(struct slot) - RANGE_SIZE];

    return has(d, "not-kept") || has(d, "clear-forgotten") || change(d, slot, none, sizeof none);
}

static uint64_t records(const struct device *d)
{
    uint64_t count = 0;

    for (size_t i = 0; i < d->count; i++)
        count += d->stands[i];
    return count;
}

static uint64_t write_record(struct device *d)
{
    static struct slot fresh;
    struct slot *free_slot = NULL, *old;
    uint64_t last = 0;

    fresh.length = number(d->range + 20, 4);
    if (d->offset || fresh.length < 128 || fresh.length > RANGE_SIZE)
        return FAILED;
    memcpy(fresh.record, d->range, fresh.length);
    for (size_t i = 0; i < d->count; i++) {
        if (!d->stands[i])
            free_slot = &d->slots[i];
        else if (d->slots[i].sequence > last)
            last = d->slots[i].sequence;
    }
    old = find(d, id_of(&fresh));
    if (!free_slot || has(d, "not-kept"))
        return free_slot || has(d, "full-is-told-as-done") ? SUCCESS : NO_SPACE;
    if (old && has(d, "replacement-lost"))
        return SUCCESS;
    if (has(d, "cut-at-4096") && fresh.length > 4096)
        memset(fresh.record + 4096, 0, RANGE_SIZE - 4096);
    fresh.sequence = last + 1;
    fresh.checksum = checksum_of(&fresh);
    if (old && has(d, "old-is-ended-first"))
        end(d, old);
    if (!change(d, free_slot, &fresh, sizeof fresh - RANGE_SIZE + fresh.length))
        return FAILED;
    return !old || has(d, "old-is-ended-first") || end(d, old) ? SUCCESS : FAILED;
}

static uint64_t read_record(struct device *d)
{
    const struct slot *slot = find(d, d->id);

    if (!slot)
        return has(d, "not-found-is-failed") ? FAILED : records(d) ? NOT_FOUND : EMPTY;
    d->cursor = (size_t)(slot - d->slots) + 1;
    if (!has(d, "stale-range"))
        memcpy(d->range, slot->record, slot->length);
    return SUCCESS;
}

static uint64_t clear_record(struct device *d)
{
    struct slot *slot = find(d, d->id);

    if (has(d, "another-is-cleared") && d->stands[d->count - 1])
        slot = &d->slots[d->count - 1];
    if (!slot)
        return records(d) ? NOT_FOUND : EMPTY;
    return end(d, slot) ? SUCCESS : FAILED;
}

static uint64_t next_id(struct device *d)
{
    for (size_t round = 0; round < 2; round++) {
        while (d->cursor < d->count)
            if (d->stands[d->cursor++])
                return id_of(&d->slots[d->cursor - 1]);
        d->cursor = 0;
        if (has(d, "list-ends"))
            break;
    }
    return NO_ID;
}

static void execute(struct device *d)
{
    d->before = d->status;
    switch (d->action) {
    case WRITE: d->status = write_record(d); break;
    case READ: d->status = read_record(d); break;
    case CLEAR: d->status = clear_record(d); break;
    default: d->status = SUCCESS; break;
    }
}

static void act(struct device *d, uint64_t code)
{
    switch (code) {
    case WRITE: case READ: case CLEAR: case DUMMY: case END: d->action = code; break;
    case SET_OFFSET: d->offset = d->value; break;
    case EXECUTE: execute(d); break;
    case IS_BUSY: d->value = has(d, "busy-for-ever"); break;
    case GET_STATUS: d->value = has(d, "status-of-the-command-before") ? d->before : d->status; break;
    case GET_ID: d->value = next_id(d); break;
    case SET_ID: d->id = d->value; break;
    case GET_COUNT: d->value = records(d) + has(d, "count-of-one-more"); break;
    case GET_RANGE: d->value = d->base + RANGE; break;
    case GET_LENGTH: d->value = has(d, "range-beyond-the-window") ? 2 * RANGE_SIZE : RANGE_SIZE; break;
    case GET_ATTRIBUTES: d->value = has(d, "nvram") ? 2 : 0; break;
    case GET_TIMINGS: d->value = 0; break;
    }
}

/* The eight functions of device.h. */

struct device *device_open(const char *words, uint8_t *image, size_t size)
{
    struct device *d = calloc(1, sizeof *d);

    if (!d)
        return NULL;
    d->faults = words;
    d->slots = (struct slot *)image;
    d->count = size / sizeof(struct slot);
    d->stands = calloc(d->count + 1, sizeof *d->stands);
    for (size_t i = 0; d->stands && i < d->count; i++)
        d->stands[i] = is_whole(d, &d->slots[i]);
    for (size_t i = 0; d->stands && i < d->count; i++)
        if (d->stands[i] && find(d, id_of(&d->slots[i])) != &d->slots[i])
            end(d, &d->slots[i]);
    return d->stands ? d : NULL;
}

void device_close(struct device *d)
{
    free(d->stands);
    free(d);
}

size_t device_window(struct device *d)
{
    (void)d;
    return WINDOW;
}

/* One instruction entry (ACPI 6.4, section 18.5.1.2). */
static uint8_t *entry(struct device *d, uint8_t *at, unsigned action, unsigned instruction, uint64_t offset, unsigned bits,
                      uint64_t value)
{
    memset(at, 0, ENTRY);
    at[0] = (uint8_t)action;
    at[1] = (uint8_t)instruction;
    at[5] = (uint8_t)bits;
    at[6] = has(d, "bit-offset") && bits == 64 ? 8 : 0;
    at[7] = bits == 64 ? 4 : 3;
    put(at + 8, d->base + offset, 8);
    put(at + 16, value, 8);
    put(at + 24, bits == 64 && !has(d, "half-of-an-identifier") ? ~0ull : 0xFFFFFFFF, 8);
    return at + ENTRY;
}

size_t device_table(struct device *d, uint64_t base, uint8_t *table, size_t room)
{
    uint8_t *at = table + TABLE_HEADER, sum = 0;

    if (room < TABLE_HEADER + 2 * ENTRY * (GET_TIMINGS + 1))
        return 0;
    if (!d->base || !has(d, "table-of-the-first-base"))
        d->base = base;
    for (unsigned action = WRITE; action <= GET_TIMINGS; action++) {
        bool gives = action == SET_OFFSET || action == SET_ID;
        bool takes = action >= IS_BUSY && action != SET_ID && action != DUMMY;
        if (action == DUMMY + 1)
            continue;
        if (gives)
            at = entry(d, at, action, WRITE_REGISTER, VALUE, 64, 0);
        at = entry(d, at, action, WRITE_REGISTER_VALUE, ACTION, 32, action);
        if (takes)
            at = entry(d, at, action, action == IS_BUSY ? READ_REGISTER_VALUE : READ_REGISTER, VALUE, 64, action == IS_BUSY);
    }
    size_t size = (size_t)(at - table);
    memset(table, 0, TABLE_HEADER);
    memcpy(table, "ERST", 4);
    put(table + 4, size, 4);
    table[8] = 1;
    put(table + 36, TABLE_HEADER, 4);
    put(table + 44, (size - TABLE_HEADER) / ENTRY + has(d, "one-entry-too-many"), 4);
    for (size_t i = 0; i < size; i++)
        sum += table[i];
    table[9] = (uint8_t)(has(d, "checksum") ? 1 - sum : -sum);
    return size;
}

int device_read(struct device *d, uint64_t offset, unsigned size, uint64_t *value)
{
    *value = d->value;
    return offset != VALUE || size != 8;
}

int device_write(struct device *d, uint64_t offset, unsigned size, uint64_t value)
{
    if (offset == VALUE && size == 8)
        d->value = value;
    else if (offset == ACTION && size == 4)
        act(d, value);
    else
        return 1;
    return 0;
}

int device_get(struct device *d, uint64_t offset, uint8_t *bytes, size_t size)
{
    if (offset < RANGE || size > WINDOW || offset > WINDOW - size)
        return 1;
    memcpy(bytes, d->range + (offset - RANGE), size);
    return 0;
}

int device_put(struct device *d, uint64_t offset, const uint8_t *bytes, size_t size)
{
    if (offset < RANGE || size > WINDOW || offset > WINDOW - size)
        return 1;
    memcpy(d->range + (offset - RANGE), bytes, size);
    return 0;
}
