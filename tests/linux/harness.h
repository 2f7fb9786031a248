/* harness.h - machines that start and stop over one image, and what a scenario says of them. */
#ifndef HARNESS_H
#define HARNESS_H

#include <stdbool.h>
#include <stddef.h>
#include <stdint.h>
#include "bus.h"
#include "driver.h"

/* Where the device's window is, by turns. */
#define LOW_BASE 0xC0000000ull
#define HIGH_BASE 0x3800000000ull

/* What stands in the store, by what the driver was told: each record's identifier, length, and the seed of its bytes. */
enum { LONGEST = 65536, MOST = 1024 };
struct known { uint64_t id; size_t length; uint32_t seed; };
struct records { int count; struct known at[MOST]; };

/* What the processes of a scenario share. */
struct shared {
    char why[512];               /* the first reason to fail */
    struct records records;      /* what stands in the store */
    struct records after;        /* what stands there if the command that was stopped was carried out */
    struct bus_counts counts;    /* of the command that ran last */
    size_t range;                /* the size of the log range */
    uint64_t number;             /* a number that a machine leaves to the scenario */
    uint64_t stops, tears;       /* how often a machine was stopped before an access, and within a change */
    uint64_t fails;              /* how often the medium failed a change */
};
extern struct shared *shared;

/* The scenario fails, and its process ends. */
void fail(const char *format, ...) __attribute__((format(printf, 1, 2), noreturn));
#define check(condition, ...) do { if (!(condition)) fail(__VA_ARGS__); } while (0)

/* The scenario has nothing to test, since the device does not change its image by medium_change. */
void leave_out(void) __attribute__((noreturn));

/* Starts a machine at `base` over the image, has it do one thing, and ends it: false where it was stopped before its end. */
bool machine_at(uint64_t base, void (*does)(void));
bool machine(void (*does)(void));

/* The device of the machine that runs. */
extern struct device *the_device;

/* The image as it is now, kept in one of two places, and brought back. */
void image_keep(int place);
void image_restore(int place);

/* Records. */
void make_record(uint8_t *record, uint64_t id, size_t length, uint32_t seed);
struct known *known_of(struct records *records, uint64_t id);
void know(struct records *records, uint64_t id, size_t length, uint32_t seed);
void forget(struct records *records, uint64_t id);

/* A length between 128 and the longest record of the scenarios: number `part` of `parts`. */
size_t length_of(int part, int parts);

/* Commands that have to be carried out, and are noted in `shared->records`. */
void write_record(uint64_t id, size_t length, uint32_t seed);
void clear_record(uint64_t id);

/* Why the store holds other records than these, or null: it lists, reads each record, and lists again by a driver that
 * starts anew. */
const char *difference(struct records *records);
void check_records(void);

/* A scenario. */
struct scenario { const char *name; void (*runs)(void); };
extern const struct scenario record_scenarios[], pstore_scenarios[], stop_scenarios[], random_scenarios[];

#endif
