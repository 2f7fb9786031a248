/*
 * stops.c - a machine that is stopped before each access of a command, and within each change that the device makes for it.
 * The next machine has to find the records from before the command, or those from behind it. And a medium that fails each of
 * these changes: the driver is told that the command failed, and the machine goes on.
 */
#include "harness.h"
#include <string.h>

static const uint64_t FIRST = 0x700;

/* The commands. Each also says in `shared->after` what the records are behind it. */

static uint64_t stop_number;
static enum tear stop_tear;
static enum { TO_THE_END, BEFORE_AN_ACCESS, WITHIN_A_CHANGE, FAILS_A_CHANGE } stop_kind;

static void set_stop(void)
{
    if (stop_kind == BEFORE_AN_ACCESS)
        bus_stop_before(stop_number);
    else if (stop_kind == WITHIN_A_CHANGE)
        bus_stop_within(stop_number, stop_tear);
    else if (stop_kind == FAILS_A_CHANGE)
        bus_fail_change(stop_number, stop_tear);
}

static void count_from(struct bus_counts before)
{
    shared->counts.accesses = bus_counts.accesses - before.accesses;
    shared->counts.changes = bus_counts.changes - before.changes;
}

static void find_before_or_after(void);

/* The command was answered so. Behind a change that failed the same machine lists and reads, and writes and clears another. */
static void check_answer(int answer)
{
    static uint8_t record[LONGEST];

    if (stop_kind != FAILS_A_CHANGE) {
        check(!answer, "it is not carried out: %s", strerror(-answer));
        return;
    }
    check(answer, "change %llu failed, and the command is told as done", (unsigned long long)stop_number);
    bus_stop_nowhere();
    find_before_or_after();
    make_record(record, FIRST + 0x20, length_of(1, 5), 20);
    check(!driver_write(record), "no record is written behind a change that failed");
    check(!driver_clear(FIRST + 0x20), "no record is cleared behind a change that failed");
}

static void write_known(uint64_t id, size_t length, uint32_t seed)
{
    static uint8_t record[LONGEST];
    struct bus_counts before = bus_counts;

    shared->after = shared->records;
    know(&shared->after, id, length, seed);
    make_record(record, id, length, seed);
    set_stop();
    int answer = driver_write(record);
    count_from(before);
    check_answer(answer);
}

static void command_write(void)
{
    write_known(FIRST + 9, length_of(3, 5), 9);
}

static void command_replace(void)
{
    write_known(FIRST + 1, length_of(2, 5), 10);
}

static void command_read(void)
{
    static uint8_t record[LONGEST];
    struct bus_counts before = bus_counts;

    shared->after = shared->records;
    set_stop();
    check(driver_read(FIRST + 1, record, sizeof record) > 0, "it is not read");
    count_from(before);
}

static void command_clear(void)
{
    struct bus_counts before = bus_counts;

    shared->after = shared->records;
    forget(&shared->after, FIRST + 1);
    set_stop();
    int answer = driver_clear(FIRST + 1);
    count_from(before);
    check_answer(answer);
}

/* What the next machine finds. */

static void find_before_or_after(void)
{
    const char *before = difference(&shared->records), *after;
    static char before_text[300];

    if (!before) {
        shared->number = 0;
        return;
    }
    strncpy(before_text, before, sizeof before_text - 1);
    after = difference(&shared->after);
    check(!after, "neither before (%s) nor after (%s)", before_text, after);
    shared->number = 1;
}

static void find_after(void)
{
    const char *after = difference(&shared->after);

    check(!after, "behind the whole command: %s", after);
}

static void write_three(void)
{
    for (int i = 0; i < 3; i++)
        write_record(FIRST + (uint64_t)i, length_of(1 + i, 5), (uint32_t)i);
}

static void prepare(void (*command)(void))
{
    machine(write_three);
    image_keep(0);
    stop_kind = TO_THE_END;
    machine(command);
    machine(find_after);
}

static void nothing(void) { }

static void stop_each_access(void (*command)(void))
{
    prepare(command);
    uint64_t accesses = shared->counts.accesses;
    check(accesses > 0, "the command makes no access");
    stop_kind = BEFORE_AN_ACCESS;
    for (stop_number = 0; stop_number < accesses; stop_number++) {
        image_restore(0);
        check(!machine(command), "the machine was not stopped before access %llu", (unsigned long long)stop_number);
        machine(find_before_or_after);
        check(stop_number || !shared->number, "stopped before the first access, it finds the command carried out");
        shared->stops++;
    }
}

/* The next start may make changes too, to end what was begun: it is stopped within each of them, and started once more. */
static void stop_each_change_of_the_start(void)
{
    image_keep(1);
    for (uint64_t change = 0;; change++)
        for (enum tear tear = NOTHING; tear < TEARS; tear++) {
            image_restore(1);
            bus_stop_within(change, tear);
            bool ran = machine(nothing);
            bus_stop_nowhere();
            if (ran)
                return;
            machine(find_before_or_after);
            shared->tears++;
        }
}

static void stop_each_change(void (*command)(void))
{
    prepare(command);
    uint64_t changes = shared->counts.changes;
    if (!changes)
        leave_out();
    stop_kind = WITHIN_A_CHANGE;
    for (stop_number = 0; stop_number < changes; stop_number++)
        for (stop_tear = NOTHING; stop_tear < TEARS; stop_tear++) {
            image_restore(0);
            check(!machine(command), "the machine was not stopped within change %llu", (unsigned long long)stop_number);
            stop_each_change_of_the_start();
            machine(find_before_or_after);
            shared->tears++;
        }
}

/* The machine that starts behind it finds what the one found that went on. */
static void fail_each_change(void (*command)(void))
{
    prepare(command);
    uint64_t changes = shared->counts.changes;
    if (!changes)
        leave_out();
    stop_kind = FAILS_A_CHANGE;
    for (stop_number = 0; stop_number < changes; stop_number++)
        for (stop_tear = NOTHING; stop_tear < TEARS; stop_tear++) {
            image_restore(0);
            check(machine(command), "the machine did not go on behind change %llu", (unsigned long long)stop_number);
            uint64_t found = shared->number;
            machine(find_before_or_after);
            check(shared->number == found, "behind change %llu the next machine finds other records", (unsigned long long)stop_number);
            shared->fails++;
        }
}

static void before_each_access_of_a_write(void) { stop_each_access(command_write); }
static void before_each_access_of_a_replacement(void) { stop_each_access(command_replace); }
static void before_each_access_of_a_read(void) { stop_each_access(command_read); }
static void before_each_access_of_a_clear(void) { stop_each_access(command_clear); }
static void within_each_change_of_a_write(void) { stop_each_change(command_write); }
static void within_each_change_of_a_replacement(void) { stop_each_change(command_replace); }
static void within_each_change_of_a_clear(void) { stop_each_change(command_clear); }
static void failed_changes_of_a_write(void) { fail_each_change(command_write); }
static void failed_changes_of_a_replacement(void) { fail_each_change(command_replace); }
static void failed_changes_of_a_clear(void) { fail_each_change(command_clear); }

const struct scenario stop_scenarios[] = {
    { "stopped-before-each-access-of-a-write", before_each_access_of_a_write },
    { "stopped-before-each-access-of-a-replacement", before_each_access_of_a_replacement },
    { "stopped-before-each-access-of-a-read", before_each_access_of_a_read },
    { "stopped-before-each-access-of-a-clear", before_each_access_of_a_clear },
    { "stopped-within-each-change-of-a-write", within_each_change_of_a_write },
    { "stopped-within-each-change-of-a-replacement", within_each_change_of_a_replacement },
    { "stopped-within-each-change-of-a-clear", within_each_change_of_a_clear },
    { "each-change-of-a-write-fails", failed_changes_of_a_write },
    { "each-change-of-a-replacement-fails", failed_changes_of_a_replacement },
    { "each-change-of-a-clear-fails", failed_changes_of_a_clear },
    { NULL, NULL },
};
