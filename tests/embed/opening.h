/* How a device is opened: the way, the medium, and what else the call takes. The medium is in memory, and its power can be lost. */
#ifndef OPENING_H
#define OPENING_H

#include "apei.h"

#include <stdbool.h>

enum { MEDIUM = 140000, SAVED = 40000 };

enum way { OPEN, OPEN_RAW, LOAD, LOAD_RAW, WAYS };

struct opening {
    enum way way;
    apei_geometry geometry;
    apei_addresses addresses;
    size_t size;
    uint8_t medium[MEDIUM];
    size_t saved_size;
    uint8_t saved[SAVED];
    unsigned changes; /* that were made on the medium */
    unsigned lost_at; /* power is lost before this change */
};

bool is_raw(const struct opening *with);
bool is_load(const struct opening *with);

/* Makes the medium an empty one of the geometry, whose power stays. */
void format(struct opening *with);

enum apei_status open_device(const struct opening *with, apei_erst *erst);

/* Makes each change that is due, up to the loss of power, and says to the device that it was made. */
void drain(struct opening *with, apei_erst *erst);

#endif
