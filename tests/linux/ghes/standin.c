/*
 * standin.c - error sources of a few lines, in the place of the library's, and their faults. It takes no care of memory or of refusals.
 *
 * The faults are for the tests: Linux has to find each.
 */
#include "apei.h"
#include "standin.h"

#include <stdlib.h>
#include <string.h>

enum { PLACES = 4, LONGEST = 440 };
enum stage { HIDE, TELL, READ_FIRST, SET, FILL, READ, CLEAR, SHOW, NOTIFY, AWAIT };

struct one {
    apei_source is;
    enum stage stage;
    uint64_t value;
    uint32_t filled;
    unsigned waiting, last_size;
    struct { size_t size; uint8_t bytes[LONGEST]; } queue[PLACES];
};

struct all {
    size_t count;
    struct one list[APEI_SOURCES_MAX];
};

enum standin_fault standin_fault;

static struct one *one_of(apei_ghes *ghes, uint32_t source)
{
    return &((struct all *)ghes->sources)->list[source];
}

uint32_t apei_c_ghes_open(apei_ghes *ghes, const apei_source *sources, size_t count, uint64_t *refused)
{
    struct all *all = calloc(1, sizeof *all);
    (void)refused;
    if (all == NULL)
        return APEI_MEMORY;
    all->count = count;
    for (size_t i = 0; i < count; i++)
        all->list[i].is = sources[i];
    ghes->sources = all;
    ghes->is_open = 1;
    return APEI_OK;
}

uint32_t apei_c_ghes_close(apei_ghes *ghes)
{
    free(ghes->sources);
    ghes->is_open = 0;
    return APEI_OK;
}

/* ---- The table ---- */

static uint8_t *put(uint8_t *to, uint64_t number, unsigned bytes)
{
    memcpy(to, &number, bytes);
    return to + bytes;
}

static uint8_t *put_register(uint8_t *to, const apei_register *it, bool is_moved)
{
    to = put(put(put(put(to, it->space, 1), it->width, 1), it->offset, 1), it->access, 1);
    return put(to, it->address + (is_moved ? 4 : 0), 8);
}

static uint8_t *put_source(uint8_t *to, const apei_source *it)
{
    to = put(put(put(put(put(to, it->type, 2), it->id, 2), it->related, 2), it->flags, 1), it->enabled, 1);
    to = put(put(put(to, it->records, 4), it->sections, 4), it->raw, 4);
    to = put_register(to, &it->address, false);
    memcpy(to, &it->notification, 28);
    to = put(to + 28, standin_fault == LENGTH_OF_LESS ? it->length / 2 : it->length, 4);
    if (it->type == 9)
        return to;
    to = put_register(to, &it->ack, standin_fault == ACK_ELSEWHERE);
    return put(put(to, it->preserve, 8), standin_fault == MASK_OF_ONE_BIT ? it->write & -it->write : it->write, 8);
}

uint32_t apei_c_ghes_table(apei_ghes *ghes, uint8_t *table, size_t room, uint64_t *size)
{
    const struct all *all = ghes->sources;
    uint8_t *end = table + 40, sum = 0;
    (void)room;
    memset(table, 0, 40);
    memcpy(table, "HEST", 4);
    table[8] = 1;
    put(table + 36, all->count, 4);
    for (size_t i = 0; i < all->count; i++)
        end = put_source(end, &all->list[i].is);
    *size = (uint64_t)(end - table);
    put(table + 4, *size, 4);
    for (const uint8_t *at = table; at < end; at++)
        sum += *at;
    table[9] = (uint8_t)-sum;
    return APEI_OK;
}

/* ---- The accesses ---- */

uint32_t apei_c_ghes_submit(apei_ghes *ghes, uint32_t source, const uint8_t *block, size_t size)
{
    struct one *one = one_of(ghes, source);
    if (one->waiting == one->is.places)
        return APEI_FULL;
    one->queue[one->waiting].size = size;
    memcpy(one->queue[one->waiting++].bytes, block, size);
    return APEI_OK;
}

static uint32_t write_of(apei_access *access, uint64_t address, uint8_t *to, const void *bytes, size_t size)
{
    *access = (apei_access){.address = address, .length = (uint32_t)size, .kind = APEI_WRITE};
    memcpy(to, bytes, size);
    return APEI_OK;
}

static uint32_t of_register(apei_access *access, const apei_register *it, uint32_t kind, uint8_t *to, uint64_t value)
{
    *access = (apei_access){.address = it->address, .length = it->access != 0 ? 1u << (it->access - 1) : it->width / 8u, .kind = kind, .space = it->space};
    memcpy(to, &value, access->length);
    return APEI_OK;
}

static uint64_t ack_bits(const struct one *one)
{
    return one->is.write << (standin_fault == OFFSET_FORGOTTEN ? 0 : one->is.ack.offset);
}

uint32_t apei_c_ghes_access(apei_ghes *ghes, uint32_t source, apei_access *access, uint8_t *bytes, size_t room)
{
    struct one *one = one_of(ghes, source);
    const uint8_t *block = one->queue[0].bytes;
    uint32_t rest = (uint32_t)one->queue[0].size - 4 - one->filled;
    (void)room;
    switch (one->stage) {
    case HIDE: return write_of(access, one->is.block, bytes, "\0\0\0\0", 4);
    case TELL: return of_register(access, &one->is.address, APEI_WRITE, bytes, one->is.block << one->is.address.offset);
    case READ_FIRST: case READ: return of_register(access, &one->is.ack, APEI_READ, bytes, 0);
    case SET: return of_register(access, &one->is.ack, APEI_WRITE, bytes, one->value | ack_bits(one));
    case FILL:
        if (one->waiting == 0)
            return APEI_NONE;
        if (standin_fault == FIRST_PIECE_AGAIN && one->filled > 0)
            block -= 64;
        return write_of(access, one->is.block + 4 + one->filled, bytes, block + 4 + one->filled, rest < 64 ? rest : 64);
    case CLEAR:
        return of_register(access, &one->is.ack, APEI_WRITE, bytes,
            standin_fault == ALL_BITS_CLEARED ? 0 : standin_fault == ACK_STAYS ? one->value : one->value & ~ack_bits(one));
    case SHOW: return write_of(access, one->is.block, bytes, block, standin_fault == HALF_A_STATUS ? 2 : 4);
    case NOTIFY: *access = (apei_access){.kind = APEI_NOTIFY}; return APEI_OK;
    default:
        if (one->is.type == 10 && standin_fault != STATUS_FOR_ACK)
            return of_register(access, &one->is.ack, APEI_READ, bytes, 0);
        *access = (apei_access){.address = one->is.block, .length = 4, .kind = APEI_READ};
        return APEI_OK;
    }
}

static bool is_freed(const struct one *one, uint64_t value)
{
    if (standin_fault == NO_WAIT)
        return true;
    if (one->is.type == 9 || standin_fault == STATUS_FOR_ACK)
        return (uint32_t)value == 0;
    return (value & ack_bits(one)) == ack_bits(one);
}

uint32_t apei_c_ghes_done(apei_ghes *ghes, uint32_t source, uint64_t value)
{
    struct one *one = one_of(ghes, source);
    bool is_ten = one->is.type == 10;
    switch (one->stage) {
    case HIDE: one->stage = TELL; break;
    case TELL: one->stage = is_ten ? READ_FIRST : FILL; break;
    case READ_FIRST: one->value = value; one->stage = SET; break;
    case SET: one->stage = FILL; break;
    case FILL:
        if (one->waiting == 0)
            return APEI_NONE;
        one->filled += 64;
        if (one->filled + 4 >= one->queue[0].size || (standin_fault == LAST_PIECE_LEFT_OUT && one->filled + 68 > one->queue[0].size))
            one->stage = standin_fault == SHOWN_FIRST ? SHOW : is_ten ? READ : SHOW;
        break;
    case READ: one->value = value; one->stage = CLEAR; break;
    case CLEAR: one->stage = standin_fault == SHOWN_FIRST ? NOTIFY : SHOW; break;
    case SHOW: one->stage = standin_fault == SHOWN_FIRST && is_ten ? READ : standin_fault == NOT_NOTIFIED ? AWAIT : NOTIFY; break;
    case NOTIFY: one->stage = AWAIT; break;
    default:
        if (!is_freed(one, value))
            return APEI_WAITS;
        one->filled = 0;
        one->stage = FILL;
        if (standin_fault == BLOCK_STAYS && one->waiting > 1 && ++one->last_size % 16 == 0)
            break;
        one->waiting--;
        memmove(&one->queue[0], &one->queue[1], one->waiting * sizeof one->queue[0]);
        if (standin_fault == TWO_GIVEN_BACK && one->waiting > 0 && ++one->last_size % 16 == 0)
            memmove(&one->queue[0], &one->queue[1], --one->waiting * sizeof one->queue[0]);
    }
    return APEI_OK;
}

uint32_t apei_c_ghes_reset(apei_ghes *ghes, uint32_t source, uint32_t blocks)
{
    struct one *one = one_of(ghes, source);
    one->stage = standin_fault == RESET_WITHOUT_HIDING ? FILL : HIDE;
    if (standin_fault != PIECE_OF_BEFORE)
        one->filled = 0;
    if (blocks == APEI_FORGET && standin_fault != NOT_FORGOTTEN)
        one->waiting = 0;
    if (blocks == APEI_TELL_AGAIN && standin_fault == NEVER_AGAIN)
        one->waiting = 0;
    return APEI_OK;
}

/* What the worlds of tests/embed call, of which only the blocks are used. */
uint32_t apei_c_check(uint32_t item, const uint8_t *bytes, size_t size, uint32_t *parts, apei_fault *fault)
{
    (void)item, (void)bytes, (void)size, (void)parts, (void)fault;
    return APEI_BAD;
}

uint32_t apei_c_part_at(uint32_t item, const uint8_t *bytes, size_t size, uint32_t index, apei_part *part)
{
    (void)item, (void)bytes, (void)size, (void)index, (void)part;
    return APEI_BAD;
}
