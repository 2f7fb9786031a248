/*
 * An ERST driver for a kernel of one's own: `run` is all of it. The client tells what is to be done, `make` does it, and neither takes a
 * lock or memory, so it also runs where the kernel panics.
 *
 * In a kernel `make` reads and writes registers and memory that it mapped. Here the firmware is the library's own device, in memory: the
 * driver attaches, writes records, lists them, reads them back, and clears them. The last line says whether all were as written.
 */
#include "apei.h"

#include <stdbool.h>
#include <stdio.h>
#include <string.h>

enum { RECORDS = 10, LENGTH = 200, LENGTH_AT = 20, IDENTIFIER_AT = 96 };

static const apei_addresses where = {.registers = 0xFED40000, .range = 0xFED50000};
static uint8_t medium[17 * 8192];
static apei_erst firmware;

/* Duty 1 of a firmware: each change that is due is made on its medium. */
static void settle(void)
{
    apei_change change;
    uint8_t bytes[APEI_PROGRAM_MAX];
    while (apei_erst_change(&firmware, &change, bytes) == APEI_OK) {
        if (change.kind == APEI_ERASE)
            memset(medium + change.offset, 0xFF, change.length);
        else
            memcpy(medium + change.offset, bytes, change.length);
        apei_erst_done(&firmware);
    }
}

/* What one command works on: the record that it writes, the buffer that it reads into, and the identifiers that it lists. */
struct work {
    const uint8_t *record;
    size_t size;
    uint8_t *buffer;
    uint64_t *ids;
    size_t room;
};

/* Does what the client wants, and says whether it went well. */
static bool make(const apei_demand *demand, const struct work *work, uint64_t *value)
{
    uint64_t in_range = demand->address - where.range, offset = demand->address - where.registers;
    uint8_t bytes[4] = {(uint8_t)demand->value, (uint8_t)(demand->value >> 8)};
    enum apei_status status = APEI_ACCESS;
    switch (demand->kind) {
    case APEI_LOAD:
        return apei_erst_read(&firmware, APEI_REGISTERS, offset, (uint32_t)demand->length, value) == APEI_OK;
    case APEI_STORE:
        status = apei_erst_write(&firmware, APEI_REGISTERS, offset, (uint32_t)demand->length, demand->value);
        settle();
        break;
    case APEI_PAUSE:
        return true;
    case APEI_PUT_RECORD:
        status = apei_erst_put(&firmware, in_range, work->record, work->size);
        break;
    case APEI_PUT_MARK:
        status = apei_erst_put(&firmware, in_range, bytes, 2);
        break;
    case APEI_TAKE_LENGTH:
        status = apei_erst_get(&firmware, in_range, bytes, 4);
        *value = bytes[0] | (uint64_t)bytes[1] << 8 | (uint64_t)bytes[2] << 16 | (uint64_t)bytes[3] << 24;
        break;
    case APEI_TAKE_RECORD:
        status = apei_erst_get(&firmware, in_range, work->buffer, demand->length);
        break;
    }
    return status == APEI_OK;
}

/* The driver: brings the command to its end, and gives its answer. */
static enum apei_status run(apei_client *client, struct work work, uint64_t *number)
{
    apei_demand demand;
    while (apei_client_demand(client, &demand) == APEI_OK) {
        uint64_t value = 0;
        bool done = make(&demand, &work, &value);
        apei_client_list_answer(client, !done, value, work.ids, work.room);
    }
    return apei_client_result(client, number);
}

static void fill(uint8_t record[LENGTH], unsigned id)
{
    memset(record, (int)id, LENGTH);
    memcpy(record, "CPER\0\1\xFF\xFF\xFF\xFF\0\0", 12);
    memset(record + LENGTH_AT, 0, 4);
    record[LENGTH_AT] = LENGTH;
    memset(record + IDENTIFIER_AT, 0, 8);
    record[IDENTIFIER_AT] = (uint8_t)id;
}

int main(void)
{
    const apei_geometry geometry = {.sector = 4096, .sectors_per_slot = 2, .slots = 16};
    struct work none = {0};
    apei_client client = {0};
    apei_change change;
    uint8_t bytes[APEI_PROGRAM_MAX], table[1024], record[LENGTH], found[LENGTH];
    uint64_t size, step, number = 0, ids[RECORDS], length;
    bool as_written = true;

    apei_medium_size(&geometry, &size);
    for (step = 0; apei_format_change(&geometry, step, &change, bytes) == APEI_OK; step++) {
        if (change.kind == APEI_ERASE)
            memset(medium + change.offset, 0xFF, change.length);
        else
            memcpy(medium + change.offset, bytes, change.length);
    }
    if (apei_erst_open(&firmware, medium, size, &where) != APEI_OK
        || apei_erst_table(&firmware, table, sizeof table, &length) != APEI_OK)
        return 1;
    settle();

    if (apei_client_open(&client, table, length) != APEI_OK || run(&client, none, &number) != APEI_OK)
        return 1;
    for (unsigned id = 1; id <= RECORDS; id++) {
        struct work write = {.record = record, .size = LENGTH};
        fill(record, id);
        apei_client_write(&client, record, LENGTH);
        if (run(&client, write, &number) != APEI_OK)
            return 1;
    }

    apei_client_list(&client, ids, RECORDS);
    if (run(&client, (struct work){.ids = ids, .room = RECORDS}, &number) != APEI_OK)
        return 1;
    printf("listed: %u\n", (unsigned)number);
    for (uint64_t i = 0; i < number; i++) {
        fill(record, (unsigned)ids[i]);
        memcpy(record + 108, "ER", 2); /* the mark of a record in storage */
        apei_client_begin(&client, APEI_READ_RECORD, ids[i], sizeof found);
        as_written &= run(&client, (struct work){.buffer = found}, &length) == APEI_OK && length == LENGTH
            && memcmp(found, record, LENGTH) == 0;
        apei_client_begin(&client, APEI_CLEAR, ids[i], 0);
        as_written &= run(&client, none, &length) == APEI_OK;
    }
    apei_client_begin(&client, APEI_COUNT_RECORDS, 0, 0);
    as_written &= run(&client, none, &length) == APEI_OK && length == 0;
    apei_client_close(&client);
    apei_erst_close(&firmware);
    printf("as written: %s\n", as_written ? "true" : "false");
    return as_written ? 0 : 1;
}
