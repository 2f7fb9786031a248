/* random.c - commands at random, beside a map. */
#include "harness.h"
#include <errno.h>
#include <string.h>

enum { COMMANDS = 4000, A_MACHINE = 50, STOPPED_WRITES = 200, IDS = 24 };

static uint32_t state;

/* Each machine has numbers of its own, the same in each run. */
static void seed(int machine)
{
    state = (uint32_t)(machine + 1) * 2654435761u | 1;
}

static uint32_t below(uint32_t limit)
{
    state ^= state << 13;
    state ^= state >> 17;
    state ^= state << 5;
    return state % limit;
}

static uint64_t some_id(void)
{
    return 0x1000000000ull * (1 + below(IDS)) + 5;
}

static void read_one(uint64_t id)
{
    static uint8_t wanted[LONGEST], found[LONGEST];
    const struct known *known = known_of(&shared->records, id);
    ssize_t length = driver_read(id, found, sizeof found);

    if (!known) {
        check(length == -ENOENT, "a read of what is not stored answers %zd", length);
        return;
    }
    make_record(wanted, id, known->length, known->seed);
    check(length == (ssize_t)known->length && !memcmp(wanted, found, known->length), "a read gives other bytes than the map has");
}

static void clear_one(uint64_t id)
{
    if (known_of(&shared->records, id))
        clear_record(id);
    else
        check(driver_clear(id) == -ENOENT, "a clear of what is not stored does not answer ENOENT");
}

static void one_command(void)
{
    uint64_t id = some_id();
    uint32_t kind = below(100);

    if (kind < 45)
        write_record(id, length_of((int)below(100), 100), below(1000000));
    else if (kind < 70)
        read_one(id);
    else if (kind < 95)
        clear_one(id);
    else if (kind < 98)
        check(driver_count() == shared->records.count, "another count of records");
    else
        check_records();
}

static void some_commands(void)
{
    for (int i = 0; i < A_MACHINE; i++)
        one_command();
}

static void commands_at_random(void)
{
    for (int played = 0; played < COMMANDS; played += A_MACHINE) {
        seed(played);
        machine_at(played / A_MACHINE % 2 ? HIGH_BASE : LOW_BASE, some_commands);
        machine(check_records);
    }
}

/* Writes, each of them stopped at random, or not; the next machine finds the records before it or after it. */

static struct known wanted;

static void stopped_write(void)
{
    static uint8_t record[LONGEST];

    make_record(record, wanted.id, wanted.length, wanted.seed);
    shared->number = below(2);
    if (shared->number)
        bus_stop_within(below(40), (enum tear)below(TEARS));
    else
        bus_stop_before(below(40));
    check(!driver_write(record), "a record is not written");
}

static void find_before_or_after(void)
{
    if (!difference(&shared->records))
        return;
    const char *found = difference(&shared->after);
    check(!found, "neither before nor after a write that was stopped: %s", found);
    shared->records = shared->after;
}

static void stops_at_random(void)
{
    machine(check_records);
    for (int played = 0; played < STOPPED_WRITES; played++) {
        seed(played);
        wanted = (struct known){ some_id(), length_of((int)below(100), 100), (uint32_t)played };
        shared->after = shared->records;
        know(&shared->after, wanted.id, wanted.length, wanted.seed);
        if (machine(stopped_write))
            shared->records = shared->after;
        else if (shared->number)
            shared->tears++;
        else
            shared->stops++;
        machine(find_before_or_after);
    }
}

const struct scenario random_scenarios[] = {
    { "4000-commands-at-random", commands_at_random },
    { "200-writes-stopped-at-random", stops_at_random },
    { NULL, NULL },
};
