/* bus.h - the memory bus: one device at a base, counts of its accesses, and the place where the machine stops. */
#ifndef BUS_H
#define BUS_H

#include <stdbool.h>
#include <stdint.h>
#include "device.h"

/* The exit status of a process whose machine was stopped. */
enum { STOPPED = 3 };

/* What a stop within a change, or a change that fails, leaves in its range: nothing, its first half, all of it, or other bytes. */
enum tear { NOTHING, HALF, WHOLE, OTHER, TEARS };

struct bus_counts {
    uint64_t accesses; /* reads, writes and copies of the driver */
    uint64_t changes;  /* changes of the image */
    uint64_t waits;    /* times that the driver waited for a device that was busy */
};

extern struct bus_counts bus_counts;

void bus_attach(struct device *device, uint64_t base);

/* Accesses of the machine at physical addresses: false where the bus or the device refuses one. */
bool bus_read(uint64_t address, unsigned size, uint64_t *value);
bool bus_write(uint64_t address, unsigned size, uint64_t value);
bool bus_get(uint64_t address, uint8_t *bytes, size_t size);
bool bus_put(uint64_t address, const uint8_t *bytes, size_t size);

/* As bus_get, but it is none of the machine's accesses. */
bool bus_look(uint64_t address, uint8_t *bytes, size_t size);

/* Whether the device's window has all these bytes. */
bool bus_has(const char *what, uint64_t address, uint64_t size);

/* The machine stops before the access, or within the change, of this number, counted from this call. */
void bus_stop_before(uint64_t access);
void bus_stop_within(uint64_t change, enum tear tear);
void bus_stop_nowhere(void);

/* The medium fails the change of this number, counted from this call, and no other. The machine goes on. */
void bus_fail_change(uint64_t change, enum tear tear);

/* The last access that the bus or the device refused, in words; "" where there was none. */
const char *bus_refusal(void);
bool bus_refuse(const char *what, uint64_t address, uint64_t size);

/* Forgets what the driver before has mapped and claimed (memory.c). */
void memory_forget(void);

#endif
