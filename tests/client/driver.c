/*
 * driver.c - the library's client in the place of Linux's driver, under the harness of tests/linux: all that the harness asks of a driver,
 * by the calls of apei.h. Dumps of pstore are Linux's own, so none are played.
 */
#include "harness.h"
#include <apei.h>
#include <errno.h>
#include <string.h>

enum { TABLE_ROOM = 65536, LENGTH_AT = 20 };

bool kernel_is_verbose;
const struct scenario pstore_scenarios[] = { { NULL, NULL } };

static apei_client client;
static apei_range range;
static bool is_attached;

/* What a command works on. */
struct work {
    const uint8_t *record;
    size_t size;
    uint8_t *buffer;
    uint64_t *ids;
    size_t room;
};

static uint64_t number(const uint8_t *at, int bytes)
{
    uint64_t value = 0;

    while (bytes--)
        value = value << 8 | at[bytes];
    return value;
}

static bool move(const apei_demand *demand)
{
    static uint8_t bytes[LONGEST];

    return demand->length <= sizeof bytes && bus_get(demand->address, bytes, demand->length)
        && bus_put(demand->value, bytes, demand->length);
}

static bool make(const apei_demand *demand, const struct work *work, uint64_t *value)
{
    uint8_t bytes[4] = { (uint8_t)demand->value, (uint8_t)(demand->value >> 8) };
    bool is_made;

    switch (demand->kind) {
    case APEI_LOAD: return !demand->space && bus_read(demand->address, (unsigned)demand->length, value);
    case APEI_STORE: return !demand->space && bus_write(demand->address, (unsigned)demand->length, demand->value);
    case APEI_PAUSE: bus_counts.waits++; return true;
    case APEI_COPY: return move(demand);
    case APEI_PUT_RECORD: return bus_put(demand->address, work->record, work->size);
    case APEI_PUT_MARK: return bus_put(demand->address, bytes, 2);
    case APEI_TAKE_RECORD: return bus_get(demand->address, work->buffer, demand->length);
    default:
        is_made = bus_get(demand->address, bytes, 4);
        *value = number(bytes, 4);
        return is_made;
    }
}

/* The most steps of a command, and demands of what was begun (apei.h). */
static uint64_t steps(void)
{
    uint64_t most = is_attached && range.greatest ? 1024 + 8 * (range.greatest / 10) : 65536;

    return most < 1048576 ? most : 1048576;
}

static uint64_t demands(const struct work *work)
{
    return work->ids ? (work->room + 2) * 4 * steps() : 302 + 4 * steps();
}

static enum apei_status run(struct work work, uint64_t *found)
{
    uint64_t left = demands(&work);
    apei_demand demand;

    while (apei_client_demand(&client, &demand) == APEI_OK) {
        uint64_t value = 0;
        check(left--, "more demands than a command has");
        bool is_made = make(&demand, &work, &value);
        apei_client_list_answer(&client, !is_made, value, work.ids, work.room);
    }
    return apei_client_result(&client, found);
}

/* As Linux's driver says it. */
static int error_of(enum apei_status status)
{
    switch (status) {
    case APEI_OK: return 0;
    case APEI_NO_SPACE: return -ENOSPC;
    case APEI_NONE: case APEI_EMPTY: case APEI_NOT_FOUND: return -ENOENT;
    case APEI_HARDWARE: case APEI_NON_VOLATILE: return -ENODEV;
    case APEI_STEPS: case APEI_TOO_LATE: return -EIO;
    default: return -EINVAL;
    }
}

int driver_start_on(struct device *device, uint64_t base)
{
    static uint8_t table[TABLE_ROOM];
    size_t size = device_table(device, base, table, sizeof table);
    uint64_t none;
    enum apei_status status;

    bus_attach(device, base);
    if (client.is_open)
        apei_client_close(&client);
    is_attached = false;
    status = apei_client_open(&client, table, size);
    if (!status)
        status = run((struct work){ 0 }, &none);
    if (!status)
        status = apei_client_range(&client, &range);
    is_attached = !status;
    return status ? error_of(status) : bus_has("a log range", range.address, range.length) ? 0 : -EIO;
}

size_t driver_range(void)
{
    return range.length;
}

int driver_write(const uint8_t *record)
{
    size_t size = number(record + LENGTH_AT, 4);
    uint64_t none;
    enum apei_status status = apei_client_write(&client, record, size);

    return error_of(status ? status : run((struct work){ .record = record, .size = size }, &none));
}

static enum apei_status command(enum apei_command command, uint64_t id, size_t room, uint8_t *buffer, uint64_t *found)
{
    enum apei_status status = apei_client_begin(&client, command, id, room);

    return status ? status : run((struct work){ .buffer = buffer }, found);
}

/* The length. Where the buffer is too small it stands in the log range. */
ssize_t driver_read(uint64_t id, uint8_t *record, size_t room)
{
    uint8_t bytes[4];
    uint64_t length = 0;
    enum apei_status status = command(APEI_READ_RECORD, id, room, record, &length);

    if (status == APEI_SMALL)
        return bus_get(range.address + LENGTH_AT, bytes, 4) ? (ssize_t)number(bytes, 4) : -EINVAL;
    return status ? error_of(status) : (ssize_t)length;
}

int driver_clear(uint64_t id)
{
    uint64_t none;

    return error_of(command(APEI_CLEAR, id, 0, NULL, &none));
}

ssize_t driver_count(void)
{
    uint64_t count = 0;
    enum apei_status status = command(APEI_COUNT_RECORDS, 0, 0, NULL, &count);

    return status ? error_of(status) : (ssize_t)count;
}

int driver_list(uint64_t *ids, int room)
{
    uint64_t count = 0;
    enum apei_status status = apei_client_list(&client, ids, (size_t)room);

    if (!status)
        status = run((struct work){ .ids = ids, .room = (size_t)room }, &count);
    return status == APEI_LIST_FULL ? room : status ? error_of(status) : (int)count;
}

/* No scenario asks for these. */
size_t pstore_room(void) { return 0; }
int pstore_write(struct dump *dump) { (void)dump; return -ENODEV; }
int pstore_read(struct dump *dumps, int room) { (void)dumps, (void)room; return -ENODEV; }
int pstore_erase(uint64_t id) { (void)id; return -ENODEV; }
