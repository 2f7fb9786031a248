/*
 * harness.c - plays the scenarios, each in a process of its own and each start of the machine in another.
 *
 *   harness [--words=WORDS] [--size=BYTES] [--only=TEXT] [--until-failed] [--verbose] [--figures]
 */
#include "harness.h"
#include <errno.h>
#include <stdarg.h>
#include <stdio.h>
#include <stdlib.h>
#include <string.h>
#include <sys/mman.h>
#include <sys/wait.h>
#include <time.h>
#include <unistd.h>

enum { FAILED = 1, LEFT_OUT = 4, PATIENCE = 300 };

struct shared *shared;
struct device *the_device;
static const char *words = "", *only = "";
static size_t size = 528384; /* of a medium of the library with 64 slots of 8,192 bytes, in sectors of 4,096 */
static bool stops_at_failure;
static uint8_t *image, *kept[2];

/* Failures. */

void fail(const char *format, ...)
{
    if (!shared->why[0]) {
        va_list values;
        va_start(values, format);
        int length = vsnprintf(shared->why, sizeof shared->why, format, values);
        va_end(values);
        if (*bus_refusal() && length >= 0 && (size_t)length < sizeof shared->why)
            snprintf(shared->why + length, sizeof shared->why - (size_t)length, "; refused: %s", bus_refusal());
    }
    _exit(FAILED);
}

void leave_out(void)
{
    _exit(LEFT_OUT);
}

/* Processes. */

static void *share(size_t bytes)
{
    void *memory = mmap(NULL, bytes, PROT_READ | PROT_WRITE, MAP_SHARED | MAP_ANONYMOUS, -1, 0);

    if (memory == MAP_FAILED) {
        perror("mmap");
        exit(2);
    }
    return memory;
}

static int status_of(pid_t child)
{
    int status;

    while (waitpid(child, &status, 0) < 0)
        ;
    return status;
}

static pid_t split(void)
{
    fflush(stdout);
    pid_t child = fork();
    if (child < 0) {
        perror("fork");
        exit(2);
    }
    return child;
}

static void run_machine(uint64_t base, void (*does)(void))
{
    int status;

    the_device = device_open(words, image, size);
    check(the_device, "the device does not open");
    status = driver_start_on(the_device, base);
    check(!status, "the driver does not start: %s", strerror(-status));
    shared->range = driver_range();
    does();
    device_close(the_device);
    _exit(0);
}

bool machine_at(uint64_t base, void (*does)(void))
{
    pid_t child = split();

    if (!child) {
        alarm(PATIENCE);
        run_machine(base, does);
    }
    int status = status_of(child);
    check(WIFEXITED(status), "signal %d (%s)", WTERMSIG(status), strsignal(WTERMSIG(status)));
    if (WEXITSTATUS(status) == FAILED || (WEXITSTATUS(status) != 0 && WEXITSTATUS(status) != STOPPED))
        fail("the machine ended with status %d", WEXITSTATUS(status));
    return WEXITSTATUS(status) == 0;
}

bool machine(void (*does)(void))
{
    return machine_at(LOW_BASE, does);
}

void image_keep(int place)
{
    memcpy(kept[place], image, size);
}

void image_restore(int place)
{
    memcpy(image, kept[place], size);
}

/* Records. */

static uint32_t next_random(uint32_t *state)
{
    *state ^= *state << 13;
    *state ^= *state >> 17;
    *state ^= *state << 5;
    return *state;
}

static void put(uint8_t *at, uint64_t value, int bytes)
{
    for (int i = 0; i < bytes; i++)
        at[i] = (uint8_t)(value >> 8 * i);
}

/* UEFI 2.8, appendix N.2: the header, the descriptor of one section where there is room for it, and its body. Linux writes
 * "ER" into the persistence information of each record. */
void make_record(uint8_t *record, uint64_t id, size_t length, uint32_t seed)
{
    enum { HEADER = 128, DESCRIPTOR = 72 };
    size_t body = length >= HEADER + DESCRIPTOR ? HEADER + DESCRIPTOR : length;
    uint32_t state = seed * 2654435761u + 1;

    memset(record, 0, body);
    memcpy(record, "CPER", 4);
    put(record + 4, 0x0100, 2);
    put(record + 6, 0xFFFFFFFF, 4);
    put(record + 10, body == HEADER + DESCRIPTOR, 2);
    put(record + 12, 1, 4);
    put(record + 20, length, 4);
    put(record + 24, seed, 8);
    put(record + 96, id, 8);
    memcpy(record + 108, "ER", 2);
    if (body == HEADER + DESCRIPTOR) {
        put(record + HEADER, body, 4);
        put(record + HEADER + 4, length - body, 4);
        put(record + HEADER + 8, 0x0100, 2);
        put(record + HEADER + 12, 1, 4);
        put(record + HEADER + 48, 1, 4);
    }
    for (size_t i = body; i < length; i++)
        record[i] = (uint8_t)(next_random(&state) >> 24);
}

struct known *known_of(struct records *records, uint64_t id)
{
    for (int i = 0; i < records->count; i++)
        if (records->at[i].id == id)
            return &records->at[i];
    return NULL;
}

void know(struct records *records, uint64_t id, size_t length, uint32_t seed)
{
    struct known *known = known_of(records, id);

    if (!known) {
        check(records->count < MOST, "the scenario has more than %d records", MOST);
        known = &records->at[records->count++];
    }
    *known = (struct known){ id, length, seed };
}

void forget(struct records *records, uint64_t id)
{
    struct known *known = known_of(records, id);

    if (known)
        *known = records->at[--records->count];
}

size_t length_of(int part, int parts)
{
    size_t longest = shared->range < 8000 ? shared->range : 8000;

    return 128 + (longest - 128) * (size_t)part / (size_t)(parts - 1);
}

void write_record(uint64_t id, size_t length, uint32_t seed)
{
    static uint8_t record[LONGEST];

    make_record(record, id, length, seed);
    int status = driver_write(record);
    check(!status, "record 0x%llx of %zu bytes is not written: %s", (unsigned long long)id, length, strerror(-status));
    know(&shared->records, id, length, seed);
}

void clear_record(uint64_t id)
{
    int status = driver_clear(id);

    check(!status, "record 0x%llx is not cleared: %s", (unsigned long long)id, strerror(-status));
    forget(&shared->records, id);
}

/* What the store holds. */

static char reason[256];

static const char *because(const char *what, uint64_t id, long long number)
{
    snprintf(reason, sizeof reason, "%s: 0x%llx (%lld)", what, (unsigned long long)id, number);
    return reason;
}

static const char *list_difference(struct records *records)
{
    static uint64_t ids[MOST + 1];
    int count = driver_list(ids, MOST + 1);

    if (count < 0)
        return because("the list ends with an error", 0, count);
    for (int i = 0; i < count; i++)
        if (!known_of(records, ids[i]))
            return because("listed and not stored", ids[i], i);
    for (int i = 0; i < records->count; i++) {
        int at = 0;
        while (at < count && ids[at] != records->at[i].id)
            at++;
        if (at == count)
            return because("stored and not listed", records->at[i].id, count);
    }
    return count == records->count ? NULL : because("listed twice", 0, count - records->count);
}

static const char *bytes_difference(struct records *records)
{
    static uint8_t wanted[LONGEST], found[LONGEST];

    for (int i = 0; i < records->count; i++) {
        struct known *known = &records->at[i];
        memset(found, 0, known->length);
        ssize_t length = driver_read(known->id, found, sizeof found);
        if (length != (ssize_t)known->length)
            return because("read with another length, or not at all", known->id, length);
        make_record(wanted, known->id, known->length, known->seed);
        if (memcmp(wanted, found, known->length))
            return because("read with other bytes", known->id, length);
    }
    return NULL;
}

const char *difference(struct records *records)
{
    const char *found = list_difference(records);
    ssize_t count = driver_count();

    if (!found && count != records->count)
        found = because("another count of records", 0, count);
    if (!found)
        found = bytes_difference(records);
    if (!found && driver_start_on(the_device, LOW_BASE))
        found = because("the driver does not start again", 0, 0);
    if (!found && (found = list_difference(records))) {
        static char again[300];
        snprintf(again, sizeof again, "behind a read, by a driver that starts anew, %s", found);
        found = again;
    }
    return found;
}

void check_records(void)
{
    const char *found = difference(&shared->records);

    check(!found, "%s", found);
}

/* Scenarios. */

static struct { int ok, failed, left_out; } results;

static void figures(void);
static const struct scenario the_figures = { "figures", figures };

static void play(const struct scenario *scenario)
{
    pid_t child;

    if (scenario != &the_figures && !strstr(scenario->name, only))
        return;
    memset(image, 0xFF, size);
    uint64_t stops = shared->stops, tears = shared->tears, fails = shared->fails;
    memset(shared, 0, sizeof *shared);
    shared->stops = stops;
    shared->tears = tears;
    shared->fails = fails;
    child = split();
    if (!child) {
        scenario->runs();
        _exit(0);
    }
    int status = status_of(child);
    if (WIFEXITED(status) && WEXITSTATUS(status) == LEFT_OUT) {
        results.left_out++;
    } else if (WIFEXITED(status) && WEXITSTATUS(status) == 0) {
        results.ok++;
        if (scenario != &the_figures)
            printf("ok %s\n", scenario->name);
    } else {
        results.failed++;
        printf("FAILED %s %s\n", scenario->name, shared->why[0] ? shared->why : "the scenario's process ended early");
    }
}

static void play_all(const struct scenario *scenarios)
{
    for (; scenarios->name && !(stops_at_failure && results.failed); scenarios++)
        play(scenarios);
}

/* Figures. */

static double seconds(void)
{
    struct timespec now;

    clock_gettime(CLOCK_PROCESS_CPUTIME_ID, &now);
    return (double)now.tv_sec + (double)now.tv_nsec * 1e-9;
}

static void write_often(void)
{
    enum { WRITES = 10000, IDS = 16, LENGTH = 400 };
    static uint8_t record[IDS][LENGTH];
    size_t length = shared->range < LENGTH ? shared->range : LENGTH;
    struct bus_counts before = bus_counts;

    for (int i = 0; i < IDS; i++)
        make_record(record[i], 1 + (uint64_t)i, length, (uint32_t)i);
    double begin = seconds();
    for (int i = 0; i < WRITES; i++) {
        int status = driver_write(record[i % IDS]);
        check(!status, "not written: %s", strerror(-status));
    }
    double taken = seconds() - begin;
    printf("a write of %zu bytes: %.0f nanoseconds, %.1f accesses, %.1f waits, %.1f changes of the image\n", length,
           taken / WRITES * 1e9, (double)(bus_counts.accesses - before.accesses) / WRITES,
           (double)(bus_counts.waits - before.waits) / WRITES, (double)(bus_counts.changes - before.changes) / WRITES);
    fflush(stdout);
}

static void figures(void)
{
    machine(write_often);
}

static bool option(const char *word, const char *name, const char **value)
{
    size_t length = strlen(name);

    return !strncmp(word, name, length) && (*value = word + length);
}

int main(int count, char **given)
{
    const char *value;
    bool wants_figures = false;

    for (int i = 1; i < count; i++) {
        if (option(given[i], "--words=", &words) || option(given[i], "--only=", &only))
            continue;
        if (option(given[i], "--size=", &value)) {
            size = strtoull(value, NULL, 0);
        } else if (!strcmp(given[i], "--verbose")) {
            kernel_is_verbose = true;
        } else if (!strcmp(given[i], "--figures")) {
            wants_figures = true;
        } else if (!strcmp(given[i], "--until-failed")) {
            stops_at_failure = true;
        } else {
            fprintf(stderr, "usage: %s [--words=WORDS] [--size=BYTES] [--only=TEXT] [--until-failed] [--verbose] [--figures]\n",
                    given[0]);
            return 2;
        }
    }
    shared = share(sizeof *shared);
    image = share(size);
    kept[0] = share(size);
    kept[1] = share(size);
    if (wants_figures) {
        play(&the_figures);
        return results.failed != 0;
    }
    play_all(record_scenarios);
    play_all(pstore_scenarios);
    play_all(stop_scenarios);
    play_all(random_scenarios);
    if (shared->stops)
        printf("the machine was stopped %llu times before an access and %llu times within a change\n",
               (unsigned long long)shared->stops, (unsigned long long)shared->tears);
    if (shared->fails)
        printf("the medium failed %llu changes\n", (unsigned long long)shared->fails);
    if (results.left_out)
        printf("%d scenarios within changes left out: the device does not change its image by medium_change\n", results.left_out);
    printf("%d ok, %d failed\n", results.ok, results.failed);
    return results.failed != 0;
}
