/* pstore.c - dumps written, read and erased as the kernel's file system of dumps does. */
#include "harness.h"
#include <errno.h>
#include <string.h>

enum { PARTS = 6 };

static struct dump dumps[PARTS];
static uint8_t bytes[PARTS][LONGEST];

static void fill_dump(int part, size_t size)
{
    for (size_t i = 0; i < size; i++)
        bytes[part][i] = (uint8_t)((size_t)part * 31 + i * 7 + i / 256);
    dumps[part] = (struct dump){ .machine_check = part == 4, .compressed = part % 2 == 1, .size = size, .bytes = bytes[part] };
}

static void fill_dumps(void)
{
    size_t room = pstore_room();

    for (int part = 0; part < PARTS; part++)
        fill_dump(part, part == 0 ? 1 : part == 1 ? room : room * (size_t)part / (PARTS + 1));
}

/* The identifiers go to `shared->records`, where a length of 0 says that the dump was erased. */
static void write_dumps(void)
{
    fill_dumps();
    for (int part = 0; part < PARTS; part++) {
        int status = pstore_write(&dumps[part]);
        check(!status, "dump %d of %zu bytes is not written: %s", part, dumps[part].size, strerror(-status));
        shared->records.at[part] = (struct known){ dumps[part].id, dumps[part].size, (uint32_t)part };
    }
    shared->records.count = PARTS;
}

static void check_dump(const struct dump *found, const struct known *known)
{
    const struct dump *wanted = &dumps[known->seed];

    check(found->size == wanted->size, "dump %u has %zu bytes and not %zu", known->seed, found->size, wanted->size);
    check(!memcmp(found->bytes, wanted->bytes, wanted->size), "dump %u has other bytes", known->seed);
    check(found->compressed == (wanted->compressed && !wanted->machine_check), "dump %u is compressed, or is not", known->seed);
    check(found->machine_check == wanted->machine_check, "dump %u is of another type", known->seed);
}

static void check_dumps(void)
{
    struct dump found[PARTS + 1];
    int count, wanted = 0;

    fill_dumps();
    count = pstore_read(found, PARTS + 1);
    check(count >= 0, "the store of dumps is not read: %s", strerror(-count));
    for (int part = 0; part < PARTS; part++) {
        const struct known *known = &shared->records.at[part];
        int at = 0;
        while (at < count && found[at].id != known->id)
            at++;
        check((at < count) == (known->length != 0), "dump %d is %s", part, known->length ? "not there" : "still there");
        if (known->length)
            check_dump(&found[at], known);
        wanted += known->length != 0;
    }
    check(count == wanted, "%d dumps are read and not %d", count, wanted);
}

static void write_and_check_dumps(void)
{
    write_dumps();
    check_dumps();
}

static void dumps_are_written_and_read(void)
{
    machine(write_and_check_dumps);
}

static void dumps_are_read_behind_a_start(void)
{
    machine(write_dumps);
    machine(check_dumps);
    machine(check_dumps);
}

static void erase_some(void)
{
    for (int part = 0; part < PARTS; part += 2) {
        int status = pstore_erase(shared->records.at[part].id);
        check(!status, "dump %d is not erased: %s", part, strerror(-status));
        shared->records.at[part].length = 0;
    }
    check(pstore_erase(shared->records.at[0].id) == -ENOENT, "an erased dump is erased again");
    check_dumps();
}

static void dumps_are_erased(void)
{
    machine(write_dumps);
    machine(erase_some);
    machine(check_dumps);
}

static void write_other_records(void)
{
    static uint8_t record[LONGEST];

    for (uint64_t id = 1; id <= 3; id++) {
        make_record(record, id, 128 + 100 * id, 1);
        check(!driver_write(record), "a record is not written");
    }
}

static void look_for_other_records(void)
{
    static uint8_t record[LONGEST];

    for (uint64_t id = 1; id <= 3; id++)
        check(driver_read(id, record, sizeof record) == (ssize_t)(128 + 100 * id), "a record that is no dump is gone");
}

static void records_that_are_no_dumps(void)
{
    machine(write_other_records);
    machine(write_dumps);
    machine(check_dumps);
    machine(look_for_other_records);
}

const struct scenario pstore_scenarios[] = {
    { "dumps-are-written-and-read", dumps_are_written_and_read },
    { "dumps-are-read-behind-a-start", dumps_are_read_behind_a_start },
    { "dumps-are-erased", dumps_are_erased },
    { "records-that-are-no-dumps", records_that_are_no_dumps },
    { NULL, NULL },
};
