/*
 * Opens, uses and closes devices, and counts the memory that the archive takes and gives back. In each of the four ways of
 * opening, over two geometries:
 *
 *   - an opening takes 12 blocks, with as many bytes as apei_memory_size tells, and no call between it and the close takes or gives
 *     back any, but that a device whose medium failed a change takes 11 and gives back as many;
 *   - a close gives each block back, once;
 *   - an opening that is refused has given back what it took: with each request for memory refused, and for each other reason;
 *   - so it is over each medium that power lost in a replacement leaves: an opening ends the older one of two records there.
 *
 * A check of a Hardware Error Source Table gives back what it took. The last line says how many openings there were.
 */
#include "apei.h"
#include "heap.h"
#include "opening.h"

#include <limits.h>
#include <stdbool.h>
#include <stdio.h>
#include <string.h>

enum { ROUNDS = 25, BLOCKS = 12, ANEW = BLOCKS - 1 };

static const char *const names[WAYS] = {"open", "open_raw", "load", "load_raw"};

static unsigned openings, wrong;

static void expect(bool right, const char *what)
{
    if (right && heap.strange == 0)
        return;
    fprintf(stderr, "memory: opening %u: %s\n", openings, right ? "a block is given back that is not held" : what);
    heap.strange = 0;
    wrong++;
}

static enum apei_status try_open(const struct opening *with, apei_erst *erst)
{
    openings++;
    return open_device(with, erst);
}

/* An opening and its close, with calls between them. */
static void open_and_close(struct opening *with, void (*use)(struct opening *with, apei_erst *erst))
{
    apei_erst erst = {0};
    unsigned before = heap.requests;
    size_t bytes = heap.bytes;
    uint64_t told = 0;
    expect(try_open(with, &erst) == APEI_OK, "it is refused");
    expect(heap.requests == before + BLOCKS && heap.held == BLOCKS, "it takes another number of blocks");
    expect(apei_memory_size(&with->geometry, &told) == APEI_OK && heap.bytes - bytes == told, "it takes another number of bytes");
    drain(with, &erst);
    use(with, &erst);
    expect(try_open(with, &erst) == APEI_OPEN, "a device is opened twice");
    expect(heap.requests == before + BLOCKS && heap.held == BLOCKS, "a call takes memory or gives it back");
    expect(apei_erst_close(&erst) == APEI_OK && heap.held == 0, "a close does not give all memory back");
    expect(apei_erst_close(&erst) == APEI_CLOSED && heap.requests == before + BLOCKS, "a device is closed twice");
}

/* ---- A guest, by the serialization actions (ACPI 6.4, section 18.5.1.1) ---- */

enum action { WRITE, READ, CLEAR, END, OFFSET, EXECUTE, BUSY, STATUS, NEXT, IDENTIFIER, COUNT };

static uint64_t act(struct opening *with, apei_erst *erst, enum action action, uint64_t value)
{
    apei_erst_write(erst, APEI_REGISTERS, 8, 8, value);
    apei_erst_write(erst, APEI_REGISTERS, 0, 4, action);
    drain(with, erst);
    apei_erst_read(erst, APEI_REGISTERS, 8, 8, &value);
    return value;
}

static void command(struct opening *with, apei_erst *erst, enum action begin, uint64_t identifier)
{
    act(with, erst, begin, 0);
    act(with, erst, OFFSET, 0);
    act(with, erst, IDENTIFIER, identifier);
    act(with, erst, EXECUTE, 0);
    while (act(with, erst, BUSY, 0) == 1)
        ;
    expect(act(with, erst, STATUS, 0) == 0, "a command is refused");
    act(with, erst, END, 0);
}

/* A record without sections (UEFI 2.8, appendix N.2.1). */
static void write_record(struct opening *with, apei_erst *erst, uint8_t identifier, uint16_t length)
{
    uint8_t record[1024] = {'C', 'P', 'E', 'R', 0x01, 0x01, 0xFF, 0xFF, 0xFF, 0xFF};
    record[20] = (uint8_t)(length % 256);
    record[21] = (uint8_t)(length / 256);
    record[96] = identifier;
    apei_erst_put(erst, 0, record, length);
    command(with, erst, WRITE, 0);
}

static void replace(struct opening *with, apei_erst *erst)
{
    write_record(with, erst, 1, 600);
    write_record(with, erst, 1, 400);
}

static void use_none(struct opening *with, apei_erst *erst)
{
    (void)with;
    (void)erst;
}

/* Calls that are refused while a write is executed, and a restart in the middle of it. */
static void interrupt(struct opening *with, apei_erst *erst)
{
    apei_change change;
    uint8_t bytes[APEI_PROGRAM_MAX];
    size_t size;
    act(with, erst, WRITE, 0);
    act(with, erst, EXECUTE, 0);
    expect(apei_erst_save(erst, with->saved, sizeof with->saved, &size) == APEI_BUSY, "a device is saved in the middle");
    while (apei_erst_change(erst, &change, bytes) == APEI_NONE)
        apei_erst_write(erst, APEI_REGISTERS, 0, 4, BUSY);
    expect(apei_erst_write(erst, APEI_REGISTERS, 0, 4, BUSY) == APEI_DUE, "an action is taken while a change is due");
    expect(apei_erst_reset(erst) == APEI_DUE, "a device restarts while a change is due");
    expect(apei_erst_settle(erst) == APEI_DUE, "an execution goes on while a change is due");
    drain(with, erst);
    expect(apei_erst_settle(erst) == APEI_OK, "an execution does not go on");
    drain(with, erst);
    expect(apei_erst_reset(erst) == APEI_OK, "a restart is refused");
    drain(with, erst);
    expect(apei_erst_settle(erst) == APEI_NONE, "an execution goes on that does not run");
}

/* Each call on a device. */
static void use_all(struct opening *with, apei_erst *erst)
{
    uint8_t bytes[APEI_TABLE_SIZE];
    uint64_t value;
    size_t size;
    replace(with, erst);
    write_record(with, erst, 2, 200);
    command(with, erst, READ, 1);
    expect(act(with, erst, NEXT, 0) == 2 && act(with, erst, COUNT, 0) == 2, "the records are others");
    command(with, erst, CLEAR, 2);
    interrupt(with, erst);
    expect(apei_erst_done(erst) == APEI_NONE, "a change is done that was not due");
    expect(apei_erst_read(erst, APEI_REGISTERS, 3, 4, &value) == APEI_ACCESS, "there is a register between the registers");
    expect(apei_erst_get(erst, 0, bytes, sizeof bytes) == APEI_OK, "the log range is not read");
    expect(apei_erst_image(erst, with->geometry.sector, bytes, 256) == APEI_OK, "the flash is not read");
    expect(apei_erst_range_size(erst, &value) == APEI_OK && value > sizeof bytes, "the log range is too short");
    expect(apei_erst_table(erst, bytes, 256, &size) == APEI_SHORT, "a table fits into too little room");
    expect(apei_erst_table(erst, bytes, sizeof bytes, &size) == APEI_OK, "there is no table");
    expect(apei_erst_move(erst, &with->addresses) == APEI_OK, "a device is not moved");
    expect(apei_erst_save(erst, with->saved, sizeof with->saved, &with->saved_size) == APEI_OK, "a device is not saved");
}

/* ---- A medium that fails a change ---- */

static enum apei_status fail_change(const struct opening *with, apei_erst *erst)
{
    size_t from = is_raw(with) ? with->geometry.sector : 0;
    return apei_erst_failed(erst, with->medium + from, with->size - from);
}

/* The medium fails a change of a write: with each request for memory refused, then with none. */
static void fail_write(struct opening *with)
{
    apei_erst erst = {0};
    apei_change change;
    uint8_t bytes[APEI_PROGRAM_MAX], record[200] = {'C', 'P', 'E', 'R', [20] = sizeof record, [96] = 9};
    unsigned before;
    openings++;
    expect(open_device(with, &erst) == APEI_OK, "it is refused");
    drain(with, &erst);
    apei_erst_put(&erst, 0, record, sizeof record);
    act(with, &erst, WRITE, 0);
    act(with, &erst, EXECUTE, 0);
    apei_erst_write(&erst, APEI_REGISTERS, 0, 4, BUSY);
    expect(apei_erst_change(&erst, &change, bytes) == APEI_OK, "a write makes no change");
    for (heap.answered = 0; heap.answered < ANEW;) {
        unsigned answered = heap.answered;
        expect(fail_change(with, &erst) == APEI_MEMORY && heap.held == BLOCKS, "a failure without memory is another one");
        expect(apei_erst_change(&erst, &change, bytes) == APEI_OK, "a change is no longer due that failed");
        heap.answered = answered + 1;
    }
    heap.answered = UINT_MAX;
    before = heap.requests;
    expect(apei_erst_failed(&erst, with->medium, 1) != APEI_OK && heap.requests == before, "a byte is taken for a medium");
    expect(fail_change(with, &erst) == APEI_OK, "a failure is refused");
    expect(heap.requests == before + ANEW && heap.held == BLOCKS, "a failure takes another number of blocks");
    drain(with, &erst);
    expect(act(with, &erst, BUSY, 0) == 0 && act(with, &erst, STATUS, 0) == 3, "a failed write is told as another one");
    act(with, &erst, EXECUTE, 0);
    expect(act(with, &erst, BUSY, 0) == 0 && act(with, &erst, STATUS, 0) == 3, "a failure is told no longer");
    write_record(with, &erst, 9, 200);
    command(with, &erst, CLEAR, 9);
    expect(apei_erst_close(&erst) == APEI_OK && heap.held == 0, "a close does not give all memory back");
}

/* ---- What is tried ---- */

static void expect_refused(const struct opening *with, enum apei_status why)
{
    apei_erst erst = {0};
    enum apei_status status = try_open(with, &erst);
    if (status != why)
        fprintf(stderr, "memory: %s: %s, and not: %s\n", names[with->way], apei_status_text(status), apei_status_text(why));
    expect(status == why, "it is refused for another reason");
    expect(heap.held == 0, "it is refused and keeps memory");
    expect(apei_erst_close(&erst) == APEI_CLOSED, "it is refused and leaves a device");
}

static uint32_t number_at(const uint8_t *at)
{
    return at[0] | (uint32_t)at[1] << 8 | (uint32_t)at[2] << 16 | (uint32_t)at[3] << 24;
}

static void put_number(uint8_t *at, uint32_t number)
{
    for (int i = 0; i < 4; i++)
        at[i] = (uint8_t)(number >> 8 * i);
}

/* A copy of an opening, of which one thing will be another. */
static struct opening *copy_of(const struct opening *with)
{
    static struct opening copy;
    copy = *with;
    return &copy;
}

static void refuse_medium(const struct opening *with)
{
    struct opening *bad = copy_of(with);
    put_number(bad->medium, 0);
    expect_refused(bad, APEI_FOREIGN);
    bad = copy_of(with);
    put_number(bad->medium + 8, 2);
    put_number(bad->medium + 40, number_at(with->medium + 40) - 1);
    expect_refused(bad, APEI_VERSION);
}

static void refuse_geometry(const struct opening *with)
{
    struct opening *bad = copy_of(with);
    bad->geometry.slots = 1;
    expect_refused(bad, APEI_GEOMETRY);
}

static void refuse_addresses(const struct opening *with)
{
    struct opening *bad = copy_of(with);
    bad->addresses.range = bad->addresses.registers;
    expect_refused(bad, APEI_ADDRESSES);
}

static void refuse_saved(const struct opening *with)
{
    static const struct {
        size_t at;
        uint32_t number;
        enum apei_status why;
    } faults[] = {
        {0, 0, APEI_UNSAVED},         /* another signature */
        {8, 2, APEI_SAVED_VERSION},
        {20, 2, APEI_SAVED_FLASH},    /* fewer slots */
        {28, 6, APEI_UNSAVED},        /* no command status */
        {40, 0xFED40000, APEI_ADDRESSES},
    };
    struct opening *bad;
    for (size_t i = 0; i < sizeof faults / sizeof *faults; i++) {
        bad = copy_of(with);
        put_number(bad->saved + faults[i].at, faults[i].number);
        expect_refused(bad, faults[i].why);
    }
    bad = copy_of(with);
    bad->saved_size--;
    expect_refused(bad, APEI_UNSAVED);
}

static void refuse_for_each_reason(const struct opening *with)
{
    struct opening *bad = copy_of(with);
    bad->size--;
    expect_refused(bad, APEI_SIZE);
    (is_raw(with) ? refuse_geometry : refuse_medium)(with);
    (is_load(with) ? refuse_saved : refuse_addresses)(with);
}

static void refuse_each_request(const struct opening *with)
{
    for (unsigned answered = 0; answered < BLOCKS; answered++) {
        heap.answered = answered;
        expect_refused(with, APEI_MEMORY);
    }
    heap.answered = UINT_MAX;
}

/* Opens each medium that is left where power is lost before a change of a replacement. */
static void lose_power(const struct opening *with)
{
    struct opening *cut;
    unsigned at = 0, made;
    do {
        cut = copy_of(with);
        cut->changes = 0;
        cut->lost_at = at;
        open_and_close(cut, replace);
        made = cut->changes;
        cut->lost_at = UINT_MAX;
        open_and_close(cut, use_none);
    } while (at++ < made);
}

/* A check of a table of one Generic Hardware Error Source (ACPI 6.4, sections 18.3.2 and 18.3.2.7). */
static void check_table(void)
{
    uint8_t table[104] = {'H', 'E', 'S', 'T', sizeof table, 0, 0, 0, 1, [36] = 1, [40] = 9};
    apei_fault fault;
    apei_part part;
    uint32_t parts = 0;
    uint8_t sum = 0;
    expect(apei_check_hest(table, sizeof table, &parts, &fault) == APEI_BAD && heap.held == 0, "a bad table keeps memory");
    for (size_t at = 0; at < sizeof table; at++)
        sum = (uint8_t)(sum + table[at]);
    table[9] = (uint8_t)-sum;
    expect(apei_check_hest(table, sizeof table, &parts, &fault) == APEI_OK && parts == 1, "a table is not well formed");
    expect(apei_part_at(APEI_ITEM_HEST, table, sizeof table, 0, &part) == APEI_OK, "a table has no part");
    expect(heap.held == 0, "a check keeps memory");
    heap.answered = 0;
    expect(apei_check_hest(table, sizeof table, &parts, &fault) == APEI_MEMORY && heap.held == 0, "a check keeps memory");
    heap.answered = UINT_MAX;
}

int main(void)
{
    static const apei_geometry geometries[] = {
        {.sector = 4096, .sectors_per_slot = 2, .slots = 16},
        {.sector = 256, .sectors_per_slot = 2, .slots = 8},
    };
    static struct opening with = {.addresses = {.registers = 0xFED40000, .range = 0xFED50000}};
    for (size_t at = 0; at < sizeof geometries / sizeof *geometries; at++) {
        with.geometry = geometries[at];
        with.way = OPEN;
        format(&with);
        open_and_close(&with, use_all);
        for (int way = 0; way < WAYS; way++) {
            with.way = (enum way)way;
            refuse_for_each_reason(&with);
            refuse_each_request(&with);
            lose_power(&with);
            for (int round = 0; round < ROUNDS; round++)
                open_and_close(&with, use_all);
            fail_write(&with);
        }
    }
    check_table();
    printf("%u openings, %u wrong\n", openings, wrong);
    return wrong == 0 ? 0 : 1;
}
