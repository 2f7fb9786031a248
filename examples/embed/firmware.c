/*
 * A firmware that keeps error records in flash. Its flash is a file here.
 *
 *     firmware FILE format            makes the file a medium of 16 slots
 *     firmware FILE play [N [TEAR]]   writes, replaces and clears records; power is lost in change N, from 0
 *     firmware FILE play N TEAR fail  the same, but the flash fails that change, and power stays
 *     firmware FILE list              opens the file as after a reset, and shows the records in it
 *
 * TEAR says what such a change leaves in its range: nothing, whole, zeros, or marks (0xA5 in each byte).
 *
 * The firmware reaches its own device as an operating system would: by the registers and the log range of its table. Each
 * line of `play` is written once the device has told the guest that the command is done.
 */
#define _POSIX_C_SOURCE 200809L

#include "apei.h"

#include <fcntl.h>
#include <stdbool.h>
#include <stdio.h>
#include <stdlib.h>
#include <string.h>
#include <unistd.h>

/* The serialization actions of the table (ACPI 6.4, section 18.5.1.1). */
enum action {
    BEGIN_WRITE = 0x0,
    BEGIN_READ = 0x1,
    BEGIN_CLEAR = 0x2,
    END = 0x3,
    SET_RECORD_OFFSET = 0x4,
    EXECUTE = 0x5,
    CHECK_BUSY = 0x6,
    GET_STATUS = 0x7,
    GET_IDENTIFIER = 0x8,
    SET_IDENTIFIER = 0x9,
    GET_COUNT = 0xA
};

enum { ACTION = 0, VALUE = 8 };

/* The header of an error record (UEFI 2.8, appendix N.2.1), and where its length and its identifier stand. */
enum { RECORD_HEADER = 128, LENGTH_AT = 20, IDENTIFIER_AT = 96, LONGEST = 8192 };

static const apei_geometry geometry = {.sector = 4096, .sectors_per_slot = 2, .slots = 16};
static const apei_addresses addresses = {.registers = 0xFED40000, .range = 0xFED50000};

/* The medium: a file, and the change in which power is lost or which the flash fails. */
struct medium {
    int file;
    bool is_cut;
    bool only_fails;
    uint64_t cut_at;
    const char *tear;
    uint64_t changes;
};

static void stop(const char *what)
{
    perror(what);
    exit(1);
}

static void stop_at(const char *call, enum apei_status status)
{
    fprintf(stderr, "%s: %s\n", call, apei_status_text(status));
    exit(1);
}

static void put_bytes(int file, uint64_t offset, const uint8_t *bytes, size_t size)
{
    if (pwrite(file, bytes, size, (off_t)offset) != (ssize_t)size)
        stop("write");
}

/* What a change that is cut leaves in its range. */
static void tear_change(const struct medium *medium, const apei_change *change, const uint8_t *whole)
{
    static uint8_t left[32768];
    if (strcmp(medium->tear, "whole") == 0)
        put_bytes(medium->file, change->offset, whole, change->length);
    if (strcmp(medium->tear, "zeros") == 0 || strcmp(medium->tear, "marks") == 0) {
        memset(left, medium->tear[0] == 'z' ? 0x00 : 0xA5, change->length);
        put_bytes(medium->file, change->offset, left, change->length);
    }
}

/* Makes one change of the medium, durably: false where the flash fails it. */
static bool make_change(struct medium *medium, const apei_change *change, const uint8_t *bytes)
{
    static uint8_t erased[32768];
    const uint8_t *whole = bytes;
    if (change->kind == APEI_ERASE) {
        memset(erased, 0xFF, change->length);
        whole = erased;
    }
    if (medium->is_cut && medium->changes++ == medium->cut_at) {
        tear_change(medium, change, whole);
        if (!medium->only_fails)
            _exit(9);
        return false;
    }
    put_bytes(medium->file, change->offset, whole, change->length);
    if (fdatasync(medium->file) != 0)
        stop("sync");
    return true;
}

/* All bytes of the medium. */
static uint8_t *read_medium(const struct medium *medium, size_t *size)
{
    off_t end = lseek(medium->file, 0, SEEK_END);
    uint8_t *bytes = malloc((size_t)end);
    if (bytes == NULL || pread(medium->file, bytes, (size_t)end, 0) != end)
        stop("read");
    *size = (size_t)end;
    return bytes;
}

/* The flash failed a change: the device goes on over what the flash holds. */
static void go_on(const struct medium *medium, apei_erst *erst)
{
    size_t size;
    uint8_t *bytes = read_medium(medium, &size);
    enum apei_status status = apei_erst_failed(erst, bytes, size);
    free(bytes);
    if (status != APEI_OK)
        stop_at("apei_erst_failed", status);
}

/* Makes all changes that are due. */
static void drain(struct medium *medium, apei_erst *erst)
{
    apei_change change;
    uint8_t bytes[APEI_PROGRAM_MAX];
    while (apei_erst_change(erst, &change, bytes) == APEI_OK) {
        if (make_change(medium, &change, bytes))
            apei_erst_done(erst);
        else
            go_on(medium, erst);
    }
}

static void format(struct medium *medium)
{
    apei_change change;
    uint8_t bytes[APEI_PROGRAM_MAX];
    uint64_t size;
    enum apei_status status = apei_medium_size(&geometry, &size);
    if (status != APEI_OK)
        stop_at("apei_medium_size", status);
    if (ftruncate(medium->file, (off_t)size) != 0)
        stop("truncate");
    for (uint64_t step = 0; apei_format_change(&geometry, step, &change, bytes) == APEI_OK; step++)
        if (!make_change(medium, &change, bytes))
            stop_at("a change of the format", APEI_FLASH);
}

static void open_device(struct medium *medium, apei_erst *erst)
{
    size_t size;
    uint8_t *bytes = read_medium(medium, &size);
    enum apei_status status = apei_erst_open(erst, bytes, size, &addresses);
    free(bytes);
    if (status != APEI_OK)
        stop_at("apei_erst_open", status);
    drain(medium, erst);
}

/* One serialization action, and what it leaves in VALUE. */
static uint64_t act(struct medium *medium, apei_erst *erst, enum action action)
{
    uint64_t value = 0;
    enum apei_status status = apei_erst_write(erst, APEI_REGISTERS, ACTION, 4, action);
    if (status != APEI_OK)
        stop_at("apei_erst_write", status);
    drain(medium, erst);
    apei_erst_read(erst, APEI_REGISTERS, VALUE, 8, &value);
    return value;
}

static void act_with(struct medium *medium, apei_erst *erst, enum action action, uint64_t value)
{
    apei_erst_write(erst, APEI_REGISTERS, VALUE, 8, value);
    act(medium, erst, action);
}

/* An operation that was begun, with its offset and identifier set, to its status. */
static uint64_t execute(struct medium *medium, apei_erst *erst)
{
    uint64_t status;
    act(medium, erst, EXECUTE);
    while (act(medium, erst, CHECK_BUSY) == 1)
        ;
    status = act(medium, erst, GET_STATUS);
    act(medium, erst, END);
    return status;
}

static void put_number(uint8_t *at, uint64_t number, size_t size)
{
    for (size_t i = 0; i < size; i++)
        at[i] = (uint8_t)(number >> (8 * i));
}

/* A record without sections that carries bytes of its own behind its header. */
static void fill_record(uint8_t *record, uint32_t length, uint64_t identifier, uint8_t filling)
{
    static const uint8_t front[] = {'C', 'P', 'E', 'R', 0x01, 0x01, 0xFF, 0xFF, 0xFF, 0xFF};
    memset(record, 0, RECORD_HEADER);
    memset(record + RECORD_HEADER, filling, length - RECORD_HEADER);
    memcpy(record, front, sizeof front);
    put_number(record + LENGTH_AT, length, 4);
    put_number(record + IDENTIFIER_AT, identifier, 8);
}

static void write_record(struct medium *medium, apei_erst *erst, uint64_t identifier, uint32_t length, uint8_t filling)
{
    uint8_t record[LONGEST];
    uint64_t status;
    fill_record(record, length, identifier, filling);
    act(medium, erst, BEGIN_WRITE);
    apei_erst_put(erst, 0, record, length);
    act_with(medium, erst, SET_RECORD_OFFSET, 0);
    status = execute(medium, erst);
    printf("write %llu %u %u status %llu\n", (unsigned long long)identifier, length, filling, (unsigned long long)status);
    fflush(stdout);
}

static void clear_record(struct medium *medium, apei_erst *erst, uint64_t identifier)
{
    uint64_t status;
    act(medium, erst, BEGIN_CLEAR);
    act_with(medium, erst, SET_IDENTIFIER, identifier);
    status = execute(medium, erst);
    printf("clear %llu status %llu\n", (unsigned long long)identifier, (unsigned long long)status);
    fflush(stdout);
}

static void play(struct medium *medium)
{
    apei_erst erst = {0};
    open_device(medium, &erst);
    write_record(medium, &erst, 1, 200, 'a');
    write_record(medium, &erst, 2, 400, 'b');
    write_record(medium, &erst, 1, 300, 'c');
    clear_record(medium, &erst, 2);
    write_record(medium, &erst, 3, 2000, 'd');
    write_record(medium, &erst, 3, 128, 'e');
    apei_erst_close(&erst);
}

static void show_record(struct medium *medium, apei_erst *erst, uint64_t identifier)
{
    uint8_t record[LONGEST];
    uint8_t field[4];
    uint32_t length, filling = 0;
    act(medium, erst, BEGIN_READ);
    act_with(medium, erst, SET_RECORD_OFFSET, 0);
    act_with(medium, erst, SET_IDENTIFIER, identifier);
    if (execute(medium, erst) != 0)
        stop_at("a record that was listed", APEI_NONE);
    apei_erst_get(erst, LENGTH_AT, field, sizeof field);
    length = (uint32_t)field[0] | (uint32_t)field[1] << 8 | (uint32_t)field[2] << 16 | (uint32_t)field[3] << 24;
    if (length > sizeof record)
        stop_at("the length of a record", APEI_SIZE);
    apei_erst_get(erst, 0, record, length);
    for (uint32_t i = RECORD_HEADER; i < length; i++)
        if (record[i] != record[RECORD_HEADER])
            stop_at("the bytes of a record", APEI_BAD);
    if (length > RECORD_HEADER)
        filling = record[RECORD_HEADER];
    printf("record %llu %u %u\n", (unsigned long long)identifier, length, filling);
}

static void list(struct medium *medium)
{
    apei_erst erst = {0};
    uint64_t count;
    open_device(medium, &erst);
    count = act(medium, &erst, GET_COUNT);
    for (uint64_t i = 0; i < count; i++)
        show_record(medium, &erst, act(medium, &erst, GET_IDENTIFIER));
    apei_erst_close(&erst);
}

int main(int count, char **words)
{
    struct medium medium = {.tear = "nothing"};
    if (count < 3) {
        fprintf(stderr, "firmware FILE format | play [CHANGE [TEAR [fail]]] | list\n");
        return 2;
    }
    medium.file = open(words[1], O_RDWR | O_CREAT, 0644);
    if (medium.file < 0)
        stop(words[1]);
    if (count > 3) {
        medium.is_cut = true;
        medium.cut_at = strtoull(words[3], NULL, 10);
    }
    if (count > 4)
        medium.tear = words[4];
    medium.only_fails = count > 5 && strcmp(words[5], "fail") == 0;
    if (strcmp(words[2], "format") == 0)
        format(&medium);
    else if (strcmp(words[2], "play") == 0)
        play(&medium);
    else
        list(&medium);
    return close(medium.file) == 0 ? 0 : 1;
}
