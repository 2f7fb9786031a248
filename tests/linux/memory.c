/* memory.c - memory and registers as Linux's driver has them: mapped, claimed, and copied from and to. */
#include "environment.h"
#undef memcpy
#undef memmove
#include "bus.h"
#include <stdlib.h>

/* Memory that the driver has mapped. The driver's copies from and to it are made by `bus_copy`, so `bytes` is a place for
 * what passes by; the header of a record, which the driver also reads by itself, is brought there behind each register
 * access. */
struct mapping {
    uint8_t *bytes;
    uint64_t address;
    size_t size;
    struct mapping *next;
};

enum { HEADER = 128 };

static struct mapping *mappings;
static struct resource *resources;

void memory_forget(void)
{
    mappings = NULL;
    resources = NULL;
}

/* Accesses of registers. */

static void show_headers(void)
{
    for (struct mapping *m = mappings; m; m = m->next)
        bus_look(m->address, m->bytes, m->size < HEADER ? m->size : HEADER);
}

acpi_status acpi_os_read_memory(acpi_physical_address address, u64 *value, u32 bits)
{
    uint64_t read;

    if (!bus_read(address, bits / 8, &read))
        return AE_ERROR;
    *value = read;
    return AE_OK;
}

acpi_status acpi_os_write_memory(acpi_physical_address address, u64 value, u32 bits)
{
    if (!bus_write(address, bits / 8, value))
        return AE_ERROR;
    show_headers();
    return AE_OK;
}

void *acpi_os_map_generic_address(struct acpi_generic_address *place)
{
    return bus_has("a register", get_unaligned(&place->address), 1) ? place : NULL;
}

void acpi_os_unmap_generic_address(struct acpi_generic_address *place)
{
    (void)place;
}

/* Mapped memory. */

void *ioremap(u64 address, size_t size)
{
    struct mapping *m = calloc(1, sizeof *m);

    if (!bus_has("a log range", address, size) || !m || !(m->bytes = calloc(1, size))) {
        free(m);
        return NULL;
    }
    m->address = address;
    m->size = size;
    m->next = mappings;
    mappings = m;
    show_headers();
    return m->bytes;
}

void iounmap(void *mapped)
{
    struct mapping **place = &mappings;

    while (*place && (*place)->bytes != mapped)
        place = &(*place)->next;
    if (*place) {
        struct mapping *m = *place;
        *place = m->next;
        free(m->bytes);
        free(m);
    }
}

static struct mapping *mapping_of(const void *place)
{
    uintptr_t at = (uintptr_t)place;

    for (struct mapping *m = mappings; m; m = m->next)
        if (at >= (uintptr_t)m->bytes && at < (uintptr_t)m->bytes + m->size)
            return m;
    return NULL;
}

/* The bytes behind the end of a mapping are not the device's: the kernel would fault there, and the harness ends. */
static uint64_t address_of(const struct mapping *m, const void *place, size_t size)
{
    size_t start = (size_t)((const uint8_t *)place - m->bytes);

    BUG_ON(size > m->size - start);
    return m->address + start;
}

void *bus_copy(void *to, const void *from, size_t size)
{
    struct mapping *source = mapping_of(from), *target = mapping_of(to);

    if (source)
        bus_get(address_of(source, from, size), (uint8_t *)from, size);
    if (size)
        memmove(to, from, size);
    if (target)
        bus_put(address_of(target, to, size), to, size);
    return to;
}

/* Places that a driver claims for itself: two claims that meet are a conflict, as in the kernel. */

struct resource *request_mem_region(u64 start, u64 size, const char *name)
{
    struct resource *claim;

    (void)name;
    for (struct resource *r = resources; r; r = r->next)
        if (start < r->start + r->size && r->start < start + size) {
            bus_refuse("a claim that meets another,", start, size);
            return NULL;
        }
    claim = calloc(1, sizeof *claim);
    if (claim)
        *claim = (struct resource){ start, size, resources };
    return resources = claim;
}

void release_mem_region(u64 start, u64 size)
{
    struct resource **place = &resources;

    while (*place && ((*place)->start != start || (*place)->size != size))
        place = &(*place)->next;
    if (*place)
        *place = (*place)->next;
}
