/* bus.c - the machine's accesses go to the device from here, and the device's changes to its image. */
#include "bus.h"
#include <stdio.h>
#include <string.h>
#include <unistd.h>

struct bus_counts bus_counts;
static struct device *device;
static uint64_t base;
static size_t window;
static char refusal[128];
static bool stops_before, stops_within, fails_change;
static uint64_t stop_access, stop_change;
static enum tear stop_tear;

void bus_attach(struct device *attached, uint64_t at)
{
    device = attached;
    base = at;
    window = device_window(attached);
    refusal[0] = 0;
}

void bus_stop_before(uint64_t access)
{
    stops_before = true;
    stop_access = bus_counts.accesses + access;
}

void bus_stop_within(uint64_t change, enum tear tear)
{
    stops_within = true;
    stop_change = bus_counts.changes + change;
    stop_tear = tear;
}

void bus_fail_change(uint64_t change, enum tear tear)
{
    fails_change = true;
    stop_change = bus_counts.changes + change;
    stop_tear = tear;
}

void bus_stop_nowhere(void)
{
    stops_before = stops_within = fails_change = false;
}

/* Refusals. */

const char *bus_refusal(void)
{
    return refusal;
}

bool bus_refuse(const char *what, uint64_t address, uint64_t size)
{
    snprintf(refusal, sizeof refusal, "%s of %llu bytes at 0x%llx", what, (unsigned long long)size, (unsigned long long)address);
    return false;
}

static bool lies_within(uint64_t address, uint64_t size)
{
    return address >= base && address - base <= window && size <= window - (address - base);
}

bool bus_has(const char *what, uint64_t address, uint64_t size)
{
    return lies_within(address, size) || bus_refuse(what, address, size);
}

/* Accesses. */

static void count_access(void)
{
    if (stops_before && bus_counts.accesses == stop_access)
        _exit(STOPPED);
    bus_counts.accesses++;
}

bool bus_read(uint64_t address, unsigned size, uint64_t *value)
{
    count_access();
    return (lies_within(address, size) && !device_read(device, address - base, size, value)) || bus_refuse("a read", address, size);
}

bool bus_write(uint64_t address, unsigned size, uint64_t value)
{
    count_access();
    return (lies_within(address, size) && !device_write(device, address - base, size, value)) || bus_refuse("a write", address, size);
}

bool bus_look(uint64_t address, uint8_t *bytes, size_t size)
{
    return !device_get(device, address - base, bytes, size) || bus_refuse("no bytes out", address, size);
}

bool bus_get(uint64_t address, uint8_t *bytes, size_t size)
{
    count_access();
    return bus_look(address, bytes, size);
}

bool bus_put(uint64_t address, const uint8_t *bytes, size_t size)
{
    count_access();
    return !device_put(device, address - base, bytes, size) || bus_refuse("no bytes in", address, size);
}

/* Changes of the image. */

static void tear_change(uint8_t *at, const uint8_t *bytes, size_t size)
{
    if (stop_tear == OTHER)
        for (size_t i = 0; i < size; i++)
            at[i] = (uint8_t)(0xA5 ^ i);
    else
        memmove(at, bytes, stop_tear == NOTHING ? 0 : stop_tear == HALF ? size / 2 : size);
}

int medium_change(uint8_t *at, const uint8_t *bytes, size_t size)
{
    bool is_torn = (stops_within || fails_change) && bus_counts.changes == stop_change;

    if (is_torn)
        tear_change(at, bytes, size);
    if (is_torn && stops_within)
        _exit(STOPPED);
    bus_counts.changes++;
    if (!is_torn)
        memmove(at, bytes, size);
    return is_torn;
}
