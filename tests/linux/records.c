/* records.c - records written, read, listed, replaced and cleared by the driver. */
#include "harness.h"
#include <errno.h>
#include <string.h>

enum { RECORDS = 40 };
static const uint64_t FIRST = 0x5D5A1C3100000000ull;

static void nothing(void) { }

static void the_driver_starts(void)
{
    machine(nothing);
}

static void the_driver_starts_twice(void)
{
    machine(nothing);
    machine(nothing);
}

/* A store without records. */

static void look_into_an_empty_store(void)
{
    static uint8_t record[LONGEST];
    uint64_t id;

    check(driver_count() == 0, "it has records");
    check(driver_list(&id, 1) == 0, "it lists records");
    check(driver_read(FIRST, record, sizeof record) == -ENOENT, "a read does not answer ENOENT");
    check(driver_clear(FIRST) == -ENOENT, "a clear does not answer ENOENT");
}

static void an_empty_store(void)
{
    machine(look_into_an_empty_store);
}

/* Forty records. */

static void write_forty(void)
{
    for (int i = 0; i < RECORDS; i++)
        write_record(FIRST + (uint64_t)i * 3, length_of(i, RECORDS), (uint32_t)i);
}

static void write_and_check_forty(void)
{
    write_forty();
    check_records();
}

static void forty_records(void)
{
    machine(write_and_check_forty);
}

static void forty_records_behind_a_start(void)
{
    machine(write_forty);
    machine(check_records);
    machine(check_records);
}

/* Identifiers that rise and fall, far apart, of the whole width. */

static void write_far_apart(void)
{
    static const uint64_t ids[] = {
        1, 0xFFFFFFFFFFFFFFFEull, 2, 0x8000000000000000ull, 0x100000000ull, 0xFFFFFFFFull, 0x7FFFFFFFFFFFFFFFull,
    };

    for (size_t i = 0; i < sizeof ids / sizeof *ids; i++)
        write_record(ids[i], length_of((int)i, RECORDS), (uint32_t)i);
    check_records();
}

static void identifiers_of_64_bits(void)
{
    machine(write_far_apart);
    machine(check_records);
}

/* Lengths. */

static void write_shortest_and_longest(void)
{
    static uint8_t record[2 * LONGEST];

    write_record(FIRST, 128, 1);
    write_record(FIRST + 1, shared->range, 2);
    make_record(record, FIRST + 2, shared->range + 1, 3);
    check(driver_write(record) == -EINVAL, "a record that is longer than the log range is not refused by EINVAL");
    check_records();
}

static void the_least_and_the_greatest_length(void)
{
    machine(write_shortest_and_longest);
    machine(check_records);
}

static void read_into_little_room(void)
{
    static uint8_t found[LONGEST];

    size_t length = length_of(5, RECORDS);

    write_record(FIRST, length, 1);
    check(driver_read(FIRST, found, 128) == (ssize_t)length, "a read with little room does not answer the length");
    check(found[0] == 0, "a read with little room writes into it");
}

static void a_read_with_little_room(void)
{
    machine(read_into_little_room);
}

/* Replaced. */

static void replace_all(void)
{
    write_forty();
    for (int i = 0; i < RECORDS; i++)
        write_record(FIRST + (uint64_t)i * 3, length_of(RECORDS - 1 - i, RECORDS), (uint32_t)(100 + i));
    check_records();
}

static void records_are_replaced(void)
{
    machine(replace_all);
    machine(check_records);
}

static void replace_often(void)
{
    for (int i = 0; i < 300; i++)
        write_record(FIRST + (uint64_t)(i % 2), length_of(i % RECORDS, RECORDS), (uint32_t)i);
    check_records();
}

static void two_records_are_replaced_again_and_again(void)
{
    machine(replace_often);
    machine(check_records);
}

/* Cleared. */

static void clear_half(void)
{
    static uint8_t record[LONGEST];

    write_forty();
    for (int i = 0; i < RECORDS; i += 2)
        clear_record(FIRST + (uint64_t)i * 3);
    check(driver_read(FIRST, record, sizeof record) == -ENOENT, "a cleared record is read");
    check(driver_clear(FIRST) == -ENOENT, "a cleared record is cleared again");
    check_records();
}

static void half_of_the_records_are_cleared(void)
{
    machine(clear_half);
    machine(check_records);
}

static void clear_what_is_listed(void)
{
    uint64_t ids[RECORDS];
    int count = driver_list(ids, RECORDS);

    check(count == RECORDS, "%d records are listed", count);
    for (int i = 0; i < count; i++)
        clear_record(ids[i]);
    check_records();
}

static void all_records_are_cleared_as_listed(void)
{
    machine(write_forty);
    machine(clear_what_is_listed);
    machine(look_into_an_empty_store);
}

/* Full. */

static void fill(void)
{
    static uint8_t record[LONGEST];
    size_t length = length_of(RECORDS - 1, RECORDS);
    int status = 0;

    for (uint64_t id = FIRST; !status; id++) {
        check(id < FIRST + MOST, "the store takes %d records of %zu bytes, and never says that there is no space", MOST, length);
        make_record(record, id, length, (uint32_t)id);
        status = driver_write(record);
        if (!status)
            know(&shared->records, id, length, (uint32_t)id);
    }
    check(status == -ENOSPC, "a full store answers %s", strerror(-status));
    check(shared->records.count > 0, "a store without records is full");
    check_records();
}

static void clear_one_and_write_one(void)
{
    size_t length = shared->records.at[0].length;

    clear_record(shared->records.at[0].id);
    write_record(FIRST + 2 * MOST, length, 7);
    check_records();
}

static void a_full_store(void)
{
    machine(fill);
    machine(check_records);
    machine(clear_one_and_write_one);
    machine(check_records);
}

/* Another place in memory. */

static void the_window_elsewhere(void)
{
    machine_at(LOW_BASE, write_forty);
    machine_at(HIGH_BASE, check_records);
    machine_at(HIGH_BASE, clear_what_is_listed);
    machine_at(LOW_BASE, look_into_an_empty_store);
}

static void move_while_it_runs(void)
{
    int status;

    write_forty();
    status = driver_start_on(the_device, HIGH_BASE);
    check(!status, "the driver does not start at the other base: %s", strerror(-status));
    write_record(FIRST + 1, length_of(4, RECORDS), 3);
    check_records();
}

static void the_window_moves(void)
{
    machine(move_while_it_runs);
    machine_at(HIGH_BASE, check_records);
}

/* A driver that starts while the device is in the midst of something, as after kexec: the device is not reset. */

static void start_within_a_list(void)
{
    uint64_t ids[RECORDS];

    write_forty();
    for (int listed = 1; listed <= RECORDS; listed++) {
        check(!driver_start_on(the_device, LOW_BASE), "the driver does not start again");
        check(driver_list(ids, listed) == listed, "fewer than %d records are listed", listed);
        check(!driver_start_on(the_device, LOW_BASE), "the driver does not start again");
        int count = driver_list(ids, RECORDS);
        check(count == RECORDS, "behind %d that were listed before, %d of %d records are listed", listed, count, RECORDS);
    }
    check_records();
}

static void a_start_within_a_list(void)
{
    machine(start_within_a_list);
}

static void list_behind_each_read(void)
{
    static uint8_t record[LONGEST];
    uint64_t ids[RECORDS];

    write_forty();
    for (int i = 0; i < RECORDS; i++) {
        check(driver_read(FIRST + (uint64_t)i * 3, record, sizeof record) > 0, "record %d is not read", i);
        check(!driver_start_on(the_device, LOW_BASE), "the driver does not start again");
        int count = driver_list(ids, RECORDS);
        check(count == RECORDS, "behind a read of record %d, %d of %d records are listed", i, count, RECORDS);
    }
}

static void a_list_behind_each_read(void)
{
    machine(list_behind_each_read);
}

static void write_while_listing(void)
{
    uint64_t ids[2 * RECORDS];

    write_forty();
    check(driver_list(ids, RECORDS / 2) == RECORDS / 2, "half of the records are not listed");
    for (int i = 0; i < RECORDS; i += 4)
        clear_record(FIRST + (uint64_t)i * 3);
    write_record(FIRST + 1, length_of(2, RECORDS), 1);
    write_record(FIRST + 1000, length_of(3, RECORDS), 2);
    check(!driver_start_on(the_device, LOW_BASE), "the driver does not start again");
    check_records();
}

static void writes_and_clears_within_a_list(void)
{
    machine(write_while_listing);
    machine(check_records);
}

const struct scenario record_scenarios[] = {
    { "the-driver-starts", the_driver_starts },
    { "the-driver-starts-twice", the_driver_starts_twice },
    { "an-empty-store", an_empty_store },
    { "40-records", forty_records },
    { "40-records-behind-a-start", forty_records_behind_a_start },
    { "identifiers-of-64-bits", identifiers_of_64_bits },
    { "the-least-and-the-greatest-length", the_least_and_the_greatest_length },
    { "a-read-with-little-room", a_read_with_little_room },
    { "records-are-replaced", records_are_replaced },
    { "two-records-are-replaced-again-and-again", two_records_are_replaced_again_and_again },
    { "half-of-the-records-are-cleared", half_of_the_records_are_cleared },
    { "all-records-are-cleared-as-listed", all_records_are_cleared_as_listed },
    { "a-full-store", a_full_store },
    { "the-window-elsewhere", the_window_elsewhere },
    { "the-window-moves", the_window_moves },
    { "a-start-within-a-list", a_start_within_a_list },
    { "a-list-behind-each-read", a_list_behind_each_read },
    { "writes-and-clears-within-a-list", writes_and_clears_within_a_list },
    { NULL, NULL },
};
