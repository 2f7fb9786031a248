#include "opening.h"

#include <limits.h>
#include <string.h>

enum { PAGE = 256 };

bool is_raw(const struct opening *with)
{
    return with->way == OPEN_RAW || with->way == LOAD_RAW;
}

bool is_load(const struct opening *with)
{
    return with->way == LOAD || with->way == LOAD_RAW;
}

/* A raw flash is what stands behind the library's own sector. */
static size_t origin(const struct opening *with)
{
    return is_raw(with) ? with->geometry.sector : 0;
}

/* As SPI NOR flash does it: behind the end of a page the next byte is the page's first one. */
static void program(uint8_t *medium, size_t at, const uint8_t *bytes, size_t length)
{
    size_t page = at / PAGE * PAGE;
    for (size_t i = 0; i < length; i++)
        medium[page + (at + i) % PAGE] = bytes[i];
}

static void make(struct opening *with, const apei_change *change, const uint8_t *bytes, size_t from)
{
    size_t at = from + change->offset;
    if (with->changes++ >= with->lost_at)
        return;
    if (change->kind == APEI_ERASE)
        memset(with->medium + at, 0xFF, change->length);
    else
        program(with->medium, at, bytes, change->length);
}

void drain(struct opening *with, apei_erst *erst)
{
    apei_change change;
    uint8_t bytes[APEI_PROGRAM_MAX];
    while (apei_erst_change(erst, &change, bytes) == APEI_OK) {
        make(with, &change, bytes, origin(with));
        apei_erst_done(erst);
    }
}

void format(struct opening *with)
{
    apei_change change;
    uint8_t bytes[APEI_PROGRAM_MAX];
    uint64_t size = 0;
    apei_medium_size(&with->geometry, &size);
    with->size = (size_t)size;
    with->changes = 0;
    with->lost_at = UINT_MAX;
    for (uint64_t step = 0; apei_format_change(&with->geometry, step, &change, bytes) == APEI_OK; step++)
        make(with, &change, bytes, 0);
}

enum apei_status open_device(const struct opening *with, apei_erst *erst)
{
    const uint8_t *flash = with->medium + origin(with);
    size_t size = with->size - origin(with);
    switch (with->way) {
    case OPEN: return apei_erst_open(erst, flash, size, &with->addresses);
    case OPEN_RAW: return apei_erst_open_raw(erst, flash, size, &with->geometry, &with->addresses);
    case LOAD: return apei_erst_load(erst, flash, size, with->saved, with->saved_size);
    default: return apei_erst_load_raw(erst, flash, size, &with->geometry, with->saved, with->saved_size);
    }
}
