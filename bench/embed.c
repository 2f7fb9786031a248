/*
 * Times the device from C, beside two plain tables of records that promise nothing: one on the same flash, and one in memory.
 *
 *     ./libapei --out=lib && cc -O2 -Ilib bench/embed.c -Llib -lapei -o embed && ./embed
 *
 * It writes nanoseconds, the least of 1,000 runs of each, which are so short that other work on the machine leaves most
 * alone: a read of VALUE, a write of it, a write of 8 bytes of the log range, an action that makes no change, and a record
 * of 400 bytes that is put into the log range and written: by numbers of 8 bytes, as a guest does, and by one call, as a
 * firmware can. First each change is taken and said to be done, and nothing makes it: that is the device's own time, over
 * its flash in memory. Then each is made on a medium in memory too. Both plain tables take the same record by the same
 * accesses. The one on flash erases the sectors of its identifier's slot, as NOR flash asks, and programs a header and the
 * record; the one in memory copies the record into a slot. Device and tables run in turn. A second part has slots of small
 * sectors.
 */
#define _POSIX_C_SOURCE 199309L

#include "apei.h"

#include <stdio.h>
#include <stdlib.h>
#include <string.h>
#include <time.h>

enum { RUNS = 1000, ACCESSES = 20000, RECORDS = 500, LENGTH = 400, SLOTS = 64, IDENTIFIERS = 32 };

static const apei_geometry geometries[] = {
    {.sector = 4096, .sectors_per_slot = 2, .slots = SLOTS},
    {.sector = 256, .sectors_per_slot = 2, .slots = SLOTS},
};
static const apei_addresses addresses = {.registers = 0xFED40000, .range = 0xFED50000};

static uint8_t *medium;
static int has_medium = 1;
static apei_erst erst;
static uint64_t record[LENGTH / 8];

static double now(void)
{
    struct timespec time;
    clock_gettime(CLOCK_MONOTONIC, &time);
    return (double)time.tv_sec * 1e9 + (double)time.tv_nsec;
}

static void make(const apei_change *change, const uint8_t *bytes)
{
    if (change->kind == APEI_ERASE)
        memset(medium + change->offset, 0xFF, change->length);
    else
        memcpy(medium + change->offset, bytes, change->length);
}

/* An action makes at most one change due. */
static void drain(void)
{
    apei_change change;
    uint8_t bytes[APEI_PROGRAM_MAX];
    if (apei_erst_change(&erst, &change, bytes) == APEI_OK) {
        if (has_medium)
            make(&change, bytes);
        apei_erst_done(&erst);
    }
}

static uint64_t act(uint32_t action)
{
    uint64_t value = 0;
    apei_erst_write(&erst, APEI_REGISTERS, 0, 4, action);
    drain();
    apei_erst_read(&erst, APEI_REGISTERS, 8, 8, &value);
    return value;
}

static void reads(void)
{
    uint64_t value, sum = 0;
    for (int i = 0; i < ACCESSES; i++) {
        apei_erst_read(&erst, APEI_REGISTERS, 8, 8, &value);
        sum += value;
    }
    if (sum == 1)
        puts("");
}

static void writes(void)
{
    for (int i = 0; i < ACCESSES; i++)
        apei_erst_write(&erst, APEI_REGISTERS, 8, 8, (uint64_t)i);
}

static void range_writes(void)
{
    for (int i = 0; i < ACCESSES; i++)
        apei_erst_write(&erst, APEI_RANGE, (uint64_t)(i % 1024) * 8, 8, (uint64_t)i);
}

static void actions(void)
{
    for (int i = 0; i < ACCESSES; i++)
        apei_erst_write(&erst, APEI_REGISTERS, 0, 4, 0x7);
}

static void put_by_numbers(void)
{
    for (int at = 0; at < LENGTH; at += 8)
        apei_erst_write(&erst, APEI_RANGE, (uint64_t)at, 8, record[at / 8]);
}

static void put_at_once(void)
{
    apei_erst_put(&erst, 0, (const uint8_t *)record, LENGTH);
}

static inline void device_records(void (*put)(void), int with_medium)
{
    has_medium = with_medium;
    for (int i = 0; i < RECORDS; i++) {
        record[12] = 1 + (uint64_t)(i % IDENTIFIERS);
        act(0x0);
        put();
        act(0x5);
        while (act(0x6) == 1)
            ;
        if (act(0x7) != 0)
            exit(1);
        act(0x3);
    }
}

static void records_by_numbers(void)
{
    device_records(put_by_numbers, 0);
}

static void records_at_once(void)
{
    device_records(put_at_once, 0);
}

static void medium_by_numbers(void)
{
    device_records(put_by_numbers, 1);
}

static void medium_at_once(void)
{
    device_records(put_at_once, 1);
}

/* The plain device: registers and a log range, over a table of records. */
static struct {
    uint64_t value;
    uint8_t range[65536];
    void (*store)(uint64_t identifier, uint32_t length);
} plain;

/* A table in memory: a slot for each identifier. */
static struct {
    uint64_t identifier;
    uint32_t length;
    uint8_t bytes[8128];
} slots[SLOTS];

static void store_in_memory(uint64_t identifier, uint32_t length)
{
    int at = 0;
    while (at < SLOTS - 1 && slots[at].identifier != 0 && slots[at].identifier != identifier)
        at++;
    slots[at].identifier = identifier;
    slots[at].length = length;
    memcpy(slots[at].bytes, plain.range, length);
}

/* A table on flash: a slot for each identifier, which is erased and then programmed. Which identifier stands where is kept in
 * memory. Power lost before the end loses the record, and the one that it replaces. */
static struct {
    uint64_t identifiers[SLOTS];
    uint64_t slot_size;
    uint8_t *bytes;
} on_flash;

static void store_on_flash(uint64_t identifier, uint32_t length)
{
    struct {
        uint64_t identifier;
        uint64_t length;
    } header = {identifier, length};
    uint8_t *slot;
    int at = 0;
    while (at < SLOTS - 1 && on_flash.identifiers[at] != 0 && on_flash.identifiers[at] != identifier)
        at++;
    on_flash.identifiers[at] = identifier;
    slot = on_flash.bytes + (uint64_t)at * on_flash.slot_size;
    memset(slot, 0xFF, on_flash.slot_size);
    memcpy(slot, &header, sizeof header);
    memcpy(slot + sizeof header, plain.range, length);
}

static void plain_store(void)
{
    uint64_t identifier;
    uint32_t length;
    memcpy(&identifier, plain.range + 96, 8);
    memcpy(&length, plain.range + 20, 4);
    plain.store(identifier, length);
}

static __attribute__((noinline)) void plain_write(int window, uint64_t offset, uint64_t value)
{
    if (window == 1)
        memcpy(plain.range + offset % sizeof plain.range, &value, 8);
    else if (offset == 8)
        plain.value = value;
    else if (value == 0x6)
        plain_store(), plain.value = 0;
    else
        plain.value = 0;
}

static __attribute__((noinline)) uint64_t plain_read(void)
{
    return plain.value;
}

static uint64_t plain_act(uint32_t action)
{
    plain_write(0, 0, action);
    return plain_read();
}

static void plain_put_by_numbers(void)
{
    for (int at = 0; at < LENGTH; at += 8)
        plain_write(1, (uint64_t)at, record[at / 8]);
}

static void plain_put_at_once(void)
{
    memcpy(plain.range, record, LENGTH);
}

static inline void plain_records(void (*put)(void), void (*store)(uint64_t, uint32_t))
{
    plain.store = store;
    for (int i = 0; i < RECORDS; i++) {
        record[12] = 1 + (uint64_t)(i % IDENTIFIERS);
        plain_act(0x0);
        put();
        plain_act(0x5);
        while (plain_act(0x6) == 1)
            ;
        plain_act(0x7);
        plain_act(0x3);
    }
}

static void flash_by_numbers(void)
{
    plain_records(plain_put_by_numbers, store_on_flash);
}

static void flash_at_once(void)
{
    plain_records(plain_put_at_once, store_on_flash);
}

static void memory_by_numbers(void)
{
    plain_records(plain_put_by_numbers, store_in_memory);
}

static void memory_at_once(void)
{
    plain_records(plain_put_at_once, store_in_memory);
}

/* The least time of each of up to four jobs, which run in turn. */
enum { JOBS = 4 };

static void measure(void (*const *jobs)(void), int count, double *least)
{
    for (int run = 0; run < RUNS; run++)
        for (int job = 0; job < JOBS && jobs[job] != NULL; job++) {
            double start = now(), took;
            jobs[job]();
            took = (now() - start) / count;
            if (run == 0 || took < least[job])
                least[job] = took;
        }
}

static void show(const char *what, void (*job)(void))
{
    void (*const jobs[JOBS])(void) = {job};
    double least[JOBS];
    measure(jobs, ACCESSES, least);
    printf("%-54s %9.1f ns\n", what, least[0]);
}

static void compare(const char *what, void (*const jobs[JOBS])(void))
{
    double least[JOBS];
    measure(jobs, RECORDS, least);
    printf("%-54s %9.1f ns\n", what, least[0]);
    printf("%-54s %9.1f ns\n", "  and its changes are made on a medium in memory", least[1]);
    printf("%-54s %9.1f ns, the device takes %4.1f and %4.1f times that\n", "  in a plain table on such a flash", least[2],
           least[0] / least[2], least[1] / least[2]);
    printf("%-54s %9.1f ns, the device takes %4.1f and %4.1f times that\n", "  in a plain table in memory", least[3],
           least[0] / least[3], least[1] / least[3]);
}

static void (*const by_numbers[JOBS])(void) = {records_by_numbers, medium_by_numbers, flash_by_numbers, memory_by_numbers};
static void (*const at_once[JOBS])(void) = {records_at_once, medium_at_once, flash_at_once, memory_at_once};

/* A medium of the geometry with a device, and a flash of the same size for the plain table. */
static int begin(const apei_geometry *geometry)
{
    uint64_t size = 0;
    apei_change change;
    uint8_t bytes[APEI_PROGRAM_MAX];
    apei_medium_size(geometry, &size);
    medium = malloc(size);
    memset(&on_flash, 0, sizeof on_flash);
    on_flash.slot_size = (uint64_t)geometry->sector * geometry->sectors_per_slot;
    on_flash.bytes = malloc(SLOTS * on_flash.slot_size);
    if (medium == NULL || on_flash.bytes == NULL)
        return 0;
    for (uint64_t step = 0; apei_format_change(geometry, step, &change, bytes) == APEI_OK; step++)
        make(&change, bytes);
    return apei_erst_open(&erst, medium, size, &addresses) == APEI_OK;
}

static void end(void)
{
    apei_erst_close(&erst);
    free(medium);
    free(on_flash.bytes);
}

int main(void)
{
    memcpy(record, "CPER\x01\x01\xFF\xFF\xFF\xFF", 10);
    ((uint8_t *)record)[20] = LENGTH % 256;
    ((uint8_t *)record)[21] = LENGTH / 256;
    for (size_t at = 0; at < sizeof geometries / sizeof *geometries; at++) {
        const apei_geometry *geometry = &geometries[at];
        if (!begin(geometry))
            return 1;
        printf("slots of %u sectors of %u bytes\n", (unsigned)geometry->sectors_per_slot, (unsigned)geometry->sector);
        if (at == 0) {
            show("a read of VALUE", reads);
            show("a write of VALUE", writes);
            show("a write of 8 bytes of the log range", range_writes);
            show("an action that makes no change", actions);
        }
        compare("a record of 400 bytes, by numbers of 8 bytes", by_numbers);
        compare("a record of 400 bytes, put by one call", at_once);
        end();
    }
    return 0;
}
