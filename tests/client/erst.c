/*
 * The library's client over QEMU's own device `acpi-erst`, through QEMU's test socket: its machine stands still, and each line that is
 * sent makes one access.
 *
 *     erst SOCKET
 *
 * The first call places the device's two windows. Then records are written, counted, listed, read, replaced and cleared, until the store
 * is full and empty again. What is wrong is told on standard error, and the last line says how many accesses were made.
 */
#define _POSIX_C_SOURCE 200809L

#include "apei.h"
#include "qemu.h"

#include <inttypes.h>
#include <stdbool.h>
#include <stdio.h>
#include <stdlib.h>
#include <string.h>
#include <sys/socket.h>
#include <sys/un.h>

enum { SLOT = 4, RECORDS = 20, LONGEST = 8192, MOST = 128, LENGTH_AT = 20, IDENTIFIER_AT = 96, MARK_AT = 108 };
static const uint32_t registers = 0xE0000000, exchange = 0xE0002000;

static FILE *from, *to;
static char line[2 * LONGEST + 64];
static unsigned loads, stores, waits, wrong;

static void expect(bool holds, const char *what)
{
    if (!holds) {
        fprintf(stderr, "%s\n", what);
        wrong++;
    }
}

/* The answer to the line that was written: what stands behind its "OK ". */
static const char *answered(void)
{
    fflush(to);
    do {
        if (fgets(line, sizeof line, from) == NULL) {
            fprintf(stderr, "QEMU has gone\n");
            exit(1);
        }
    } while (strncmp(line, "IRQ ", 4) == 0);
    if (strncmp(line, "OK", 2) != 0) {
        fprintf(stderr, "QEMU says: %s", line);
        exit(1);
    }
    return line[2] == ' ' ? line + 3 : "";
}

static void configure(unsigned offset, uint32_t value)
{
    fprintf(to, "outl 0xcf8 0x%x\n", 0x80000000u | SLOT << 11 | offset);
    answered();
    fprintf(to, "outl 0xcfc 0x%x\n", value);
    answered();
}

static char width_of(uint64_t length)
{
    return length == 1 ? 'b' : length == 2 ? 'w' : length == 4 ? 'l' : 'q';
}

static void put(uint64_t address, const uint8_t *bytes, size_t size)
{
    size_t i;
    fprintf(to, "write 0x%" PRIx64 " 0x%zx 0x", address, size);
    for (i = 0; i < size; i++)
        fprintf(to, "%02x", bytes[i]);
    fprintf(to, "\n");
    answered();
}

static void get(uint64_t address, uint8_t *bytes, size_t size)
{
    const char *found;
    size_t i;
    fprintf(to, "read 0x%" PRIx64 " 0x%zx\n", address, size);
    found = answered() + 2;
    for (i = 0; i < size; i++) {
        char digits[3] = {found[2 * i], found[2 * i + 1], 0};
        bytes[i] = (uint8_t)strtoul(digits, NULL, 16);
    }
}

/* What a command works on. */
struct work {
    const uint8_t *record;
    size_t size;
    uint8_t *buffer;
    uint64_t *ids;
    size_t room;
};

static uint64_t make(const apei_demand *demand, const struct work *work)
{
    uint8_t bytes[4] = {(uint8_t)demand->value, (uint8_t)(demand->value >> 8)};
    switch (demand->kind) {
    case APEI_LOAD:
        loads++;
        fprintf(to, "read%c 0x%" PRIx64 "\n", width_of(demand->length), demand->address);
        return strtoull(answered(), NULL, 0);
    case APEI_STORE:
        stores++;
        fprintf(to, "write%c 0x%" PRIx64 " 0x%" PRIx64 "\n", width_of(demand->length), demand->address, demand->value);
        answered();
        return 0;
    case APEI_PAUSE:
        waits++;
        return 0;
    case APEI_PUT_RECORD:
        put(demand->address, work->record, work->size);
        return 0;
    case APEI_PUT_MARK:
        put(demand->address, bytes, 2);
        return 0;
    case APEI_TAKE_LENGTH:
        get(demand->address, bytes, 4);
        return bytes[0] | (uint64_t)bytes[1] << 8 | (uint64_t)bytes[2] << 16 | (uint64_t)bytes[3] << 24;
    case APEI_TAKE_RECORD:
        get(demand->address, work->buffer, demand->length);
        return 0;
    }
    expect(false, "a demand of another kind");
    return 0;
}

static apei_client client;
static uint64_t number;

static enum apei_status run(struct work work)
{
    apei_demand demand;
    while (apei_client_demand(&client, &demand) == APEI_OK)
        apei_client_list_answer(&client, 0, make(&demand, &work), work.ids, work.room);
    return apei_client_result(&client, &number);
}

static enum apei_status command(enum apei_command command, uint64_t id)
{
    expect(apei_client_begin(&client, command, id, 0) == APEI_OK, "a command is not begun");
    return run((struct work){0});
}

static enum apei_status store(const uint8_t *record, size_t size)
{
    expect(apei_client_write(&client, record, size) == APEI_OK, "a write is not begun");
    return run((struct work){.record = record, .size = size});
}

static enum apei_status list(uint64_t *ids, size_t room)
{
    expect(apei_client_list(&client, ids, room) == APEI_OK, "a listing is not begun");
    return run((struct work){.ids = ids, .room = room});
}

static size_t length_of(uint64_t id)
{
    return 200 + id * 331;
}

/* The record of an identifier, whose bytes are others in each edition. */
static size_t fill(uint8_t *record, uint64_t id, unsigned edition)
{
    size_t size = length_of(id), i;
    for (i = 0; i < size; i++)
        record[i] = (uint8_t)(id + 7 * i + edition);
    memset(record, 0, 128);
    memcpy(record, "CPER\0\1\xFF\xFF\xFF\xFF", 10); /* it has no sections */
    for (i = 0; i < 4; i++)
        record[LENGTH_AT + i] = (uint8_t)(size >> 8 * i);
    for (i = 0; i < 8; i++)
        record[IDENTIFIER_AT + i] = (uint8_t)(id >> 8 * i);
    return size;
}

static bool is_stored(uint64_t id, unsigned edition)
{
    static uint8_t record[LONGEST], found[LONGEST];
    size_t size = fill(record, id, edition);
    memcpy(record + MARK_AT, "ER", 2);
    apei_client_begin(&client, APEI_READ_RECORD, id, sizeof found);
    return run((struct work){.buffer = found}) == APEI_OK && number == size && memcmp(found, record, size) == 0;
}

/* Whether the list has each identifier from 1 on once. */
static bool has_all(const uint64_t *ids, uint64_t count)
{
    bool seen[MOST] = {false};
    uint64_t i;
    for (i = 0; i < count; i++) {
        if (ids[i] < 1 || ids[i] > count || seen[ids[i]])
            return false;
        seen[ids[i]] = true;
    }
    return true;
}

int main(int count, char **words)
{
    static uint8_t table[QEMU_TABLE], record[LONGEST];
    static uint64_t ids[MOST];
    struct sockaddr_un address = {.sun_family = AF_UNIX};
    uint64_t id, stored;
    apei_range range;
    int socket_of = socket(AF_UNIX, SOCK_STREAM, 0);
    if (count != 2 || strlen(words[1]) >= sizeof address.sun_path)
        return 2;
    strcpy(address.sun_path, words[1]);
    if (connect(socket_of, (struct sockaddr *)&address, sizeof address) != 0) {
        perror(words[1]);
        return 1;
    }
    from = fdopen(socket_of, "r");
    to = fdopen(socket_of, "w");
    configure(0x10, registers);
    configure(0x14, exchange);
    configure(0x04, 2); /* it answers to memory */

    qemu_table(registers, table);
    expect(apei_client_open(&client, table, sizeof table) == APEI_OK, "the table is refused");
    expect(run((struct work){0}) == APEI_OK, "it does not attach");
    expect(apei_client_range(&client, &range) == APEI_OK && range.address == exchange && range.length == LONGEST, "another range");
    expect(command(APEI_COUNT_RECORDS, 0) == APEI_OK && number == 0, "the store is not empty");
    expect(list(ids, MOST) == APEI_OK && number == 0, "an empty store has identifiers");

    for (id = 1; id <= RECORDS; id++)
        expect(store(record, fill(record, id, 0)) == APEI_OK, "a record is not stored");
    expect(command(APEI_COUNT_RECORDS, 0) == APEI_OK && number == RECORDS, "the count is another");
    for (id = 0; id <= RECORDS; id++) { /* wherever its cursor is */
        expect(list(ids, RECORDS) == APEI_OK && number == RECORDS && has_all(ids, RECORDS), "a listing has not each once");
        enum apei_status next = command(APEI_NEXT, 0);
        expect(next == APEI_OK || next == APEI_NONE, "there is no next one");
    }
    expect(list(ids, RECORDS - 1) == APEI_LIST_FULL, "a listing goes on past its room");
    for (id = 1; id <= RECORDS; id++)
        expect(is_stored(id, 0), "a record is not as it was written");
    expect(store(record, fill(record, 7, 1)) == APEI_OK && is_stored(7, 1), "a record is not replaced");
    expect(command(APEI_COUNT_RECORDS, 0) == APEI_OK && number == RECORDS, "a replacement is counted");
    expect(command(APEI_READ_RECORD, 99) == APEI_NOT_FOUND, "an unknown record is read");
    expect(command(APEI_CLEAR, 99) == APEI_NOT_FOUND, "an unknown record is cleared");
    expect(command(APEI_DUMMY_WRITE, 0) == APEI_OK, "a dummy write is refused");
    for (id = 1; id <= RECORDS; id++)
        expect(command(APEI_CLEAR, id) == APEI_OK, "a record is not cleared");
    expect(command(APEI_COUNT_RECORDS, 0) == APEI_OK && number == 0, "a cleared record is counted");
    expect(command(APEI_READ_RECORD, 1) == APEI_EMPTY, "an empty store is read");

    for (stored = 0; stored + 1 < MOST; stored++) {
        size_t size = fill(record, 1, 0);
        record[IDENTIFIER_AT] = (uint8_t)(stored + 1);
        if (store(record, size) != APEI_OK)
            break;
    }
    expect(apei_client_result(&client, &number) == APEI_NO_SPACE, "a store is never full");
    expect(list(ids, MOST) == APEI_OK && number == stored && has_all(ids, stored), "a full store is not listed");
    apei_client_close(&client);
    printf("%u loads, %u stores, %u waits: %s\n", loads, stores, waits, wrong == 0 ? "all well" : "not all well");
    return wrong == 0 ? 0 : 1;
}
