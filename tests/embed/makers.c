/*
 * Error status blocks and error records that are made: each is well formed with one part, which has the section's bytes, its
 * fields stand where a plain writer puts them, and one that has no room is refused with the size that it wants.
 *
 * `makers show` writes one block and one record, as hexadecimal digits, of fields that are all different. The last line of
 * another run says how many were made.
 */
#include "apei.h"

#include <stdbool.h>
#include <stdio.h>
#include <stdlib.h>
#include <string.h>

enum { ROUNDS = 20000, SECTION = 300, HEAD = APEI_RECORD_HEAD, ROOM = HEAD + SECTION + 40 };

static unsigned long wrong;
static uint64_t state = 7;

static void expect(bool is_right, const char *what)
{
    if (!is_right && wrong++ < 10)
        fprintf(stderr, "%s\n", what);
}

static uint64_t drawn(void)
{
    state ^= state << 13;
    state ^= state >> 7;
    state ^= state << 17;
    return state;
}

static uint64_t below(uint64_t end)
{
    return drawn() % end;
}

static void draw(void *bytes, size_t size)
{
    for (size_t i = 0; i < size; i++)
        ((uint8_t *)bytes)[i] = (uint8_t)drawn();
}

/* A plain writer: numbers and bytes one after another. */
static uint8_t plain[ROOM];
static size_t end;

static void number(uint64_t value, size_t size)
{
    for (size_t i = 0; i < size; i++)
        plain[end++] = (uint8_t)(value >> 8 * i);
}

static void bytes(const void *from, size_t size, bool is_given)
{
    if (is_given)
        memcpy(plain + end, from, size);
    else
        memset(plain + end, 0, size);
    end += size;
}

static void write_block(const apei_block_fields *it, const uint8_t *section, size_t length)
{
    static const uint8_t statuses[] = {0x11, 0x11, 0x12, 0x10};
    end = 0;
    number(statuses[it->severity], 4);
    number(0, 8);
    number(72 + length, 4);
    number(it->severity, 4);
    bytes(it->type, 16, true);
    number(it->severity, 4);
    number(0x300, 2);
    number((it->has_fru != 0) + 2 * (it->has_fru_text != 0) + 4 * (it->has_timestamp != 0), 1);
    number(it->flags, 1);
    number(length, 4);
    bytes(it->fru, 16, it->has_fru);
    bytes(it->fru_text, 20, it->has_fru_text);
    number(it->has_timestamp ? it->timestamp : 0, 8);
    bytes(section, length, true);
}

static void write_record(const apei_record_fields *it, const uint8_t *section, size_t length)
{
    end = 0;
    bytes("CPER", 4, true);
    number(0x101, 2);
    number(0xFFFFFFFF, 4);
    number(1, 2);
    number(it->severity, 4);
    number(it->has_timestamp ? 2 : 0, 4);
    number(HEAD + length, 4);
    number(it->has_timestamp ? it->timestamp : 0, 8);
    bytes(NULL, 32, false);
    bytes(it->creator, 16, true);
    bytes(it->notification, 16, true);
    number(it->id, 8);
    number(it->flags, 4);
    bytes(NULL, 20, false);
    number(HEAD, 4);
    number(length, 4);
    number(0x100, 2);
    number((it->has_fru != 0) + 2 * (it->has_fru_text != 0), 1);
    number(0, 1);
    number(it->section_flags, 4);
    bytes(it->type, 16, true);
    bytes(it->fru, 16, it->has_fru);
    number(it->severity, 4);
    bytes(it->fru_text, 20, it->has_fru_text);
    bytes(section, length, true);
}

/* What was made in `out`, all of whose bytes were as in `before`, and what the library says of it. */
static void expect_made(enum apei_item item, const uint8_t *out, const uint8_t *before, size_t size, size_t head, size_t length)
{
    uint32_t parts = 0;
    apei_fault fault;
    apei_part part;
    expect(size == end && memcmp(out, plain, end) == 0, "the bytes are others");
    expect(memcmp(out + end, before + end, ROOM - end) == 0, "a byte behind the item is changed");
    expect(apei_check(item, out, ROOM, &parts, &fault) == APEI_OK && parts == 1, "what was made is not well formed");
    expect(apei_part_at(item, out, ROOM, 0, &part) == APEI_OK && part.body == head && part.body_length == length, "the section stands elsewhere");
}

static void expect_refused(enum apei_status status, enum apei_status wanted, size_t size, size_t need, const uint8_t *out, const uint8_t *before)
{
    expect(status == wanted && size == need && memcmp(out, before, ROOM) == 0, "a refused item changes something");
}

static void make_one(void)
{
    uint8_t section[SECTION], out[ROOM], before[ROOM];
    apei_block_fields block;
    apei_record_fields record;
    size_t length = (size_t)below(SECTION + 1), size = 1, room;
    enum apei_status status;
    draw(section, sizeof section);
    draw(before, sizeof before);
    draw(&block, sizeof block);
    draw(&record, sizeof record);
    block.severity = (uint32_t)below(4);
    record.severity = (uint32_t)below(4);
    block.has_fru &= 1;
    block.has_timestamp &= 3;
    record.has_fru_text &= 1;
    record.has_timestamp &= 1;

    memcpy(out, before, ROOM);
    write_block(&block, section, length);
    room = (size_t)below(end);
    status = apei_make_block(&block, section, length, out, room, &size);
    expect_refused(status, APEI_SHORT, size, end, out, before);
    expect(apei_make_block(&block, section, length, out, below(2) ? end : ROOM, &size) == APEI_OK, "a block is not made");
    expect_made(APEI_ITEM_BLOCK, out, before, size, APEI_BLOCK_HEAD, length);

    memcpy(out, before, ROOM);
    write_record(&record, section, length);
    room = (size_t)below(end);
    status = apei_make_record(&record, section, length, out, room, &size);
    expect_refused(status, APEI_SHORT, size, end, out, before);
    expect(apei_make_record(&record, section, length, out, below(2) ? end : ROOM, &size) == APEI_OK, "a record is not made");
    expect_made(APEI_ITEM_RECORD, out, before, size, APEI_RECORD_HEAD, length);

    memcpy(out, before, ROOM);
    size = 1;
    block.severity = record.severity = 4 + (uint32_t)below(1u << 31);
    status = apei_make_block(&block, section, length, out, ROOM, &size);
    expect_refused(status, APEI_CHOICE, size, 1, out, before);
    status = apei_make_record(&record, section, length, out, ROOM, &size);
    expect_refused(status, APEI_CHOICE, size, 1, out, before);
}

static void refuse_pointers(void)
{
    apei_block_fields block = {0};
    uint8_t out[ROOM];
    size_t size = 1;
    expect(apei_make_block(NULL, out, 0, out, ROOM, &size) == APEI_POINTER, "no fields are taken");
    expect(apei_make_block(&block, NULL, 1, out, ROOM, &size) == APEI_POINTER, "no section is taken");
    expect(apei_make_block(&block, NULL, 0, NULL, 0, &size) == APEI_SHORT, "a block has no bytes");
    expect(size == APEI_BLOCK_HEAD, "a block without a section has another size");
}

static void show(const uint8_t *item, size_t size)
{
    for (size_t i = 0; i < size; i++)
        printf("%02x", item[i]);
    printf("\n");
}

/* All bytes of a field are its number. */
static void show_both(void)
{
    static const uint8_t section[] = {0xA0, 0xA1, 0xA2, 0xA3, 0xA4};
    apei_block_fields block = {.timestamp = 0x1111111111111111, .severity = APEI_SEVERITY_CORRECTED, .flags = 0x12,
        .has_timestamp = 1, .has_fru = 1, .has_fru_text = 1};
    apei_record_fields record = {.id = 0x2121212121212121, .timestamp = 0x2222222222222222, .severity = APEI_SEVERITY_FATAL,
        .flags = 0x23232323, .section_flags = 0x24242424, .has_timestamp = 1, .has_fru = 1, .has_fru_text = 1};
    uint8_t out[ROOM];
    size_t size = 0;
    memset(block.type, 0x13, 16);
    memset(block.fru, 0x14, 16);
    memset(block.fru_text, 0x15, 20);
    memset(record.creator, 0x25, 16);
    memset(record.notification, 0x26, 16);
    memset(record.type, 0x27, 16);
    memset(record.fru, 0x28, 16);
    memset(record.fru_text, 0x29, 20);
    expect(apei_make_block(&block, section, sizeof section, out, ROOM, &size) == APEI_OK, "no block is made");
    show(out, size);
    expect(apei_make_record(&record, section, sizeof section, out, ROOM, &size) == APEI_OK, "no record is made");
    show(out, size);
}

int main(int count, char **words)
{
    if (count > 1 && strcmp(words[1], "show") == 0) {
        show_both();
        return wrong == 0 ? 0 : 1;
    }
    refuse_pointers();
    for (unsigned i = 0; i < ROUNDS; i++)
        make_one();
    printf("%d blocks and as many records, %lu wrong\n", ROUNDS, wrong);
    return wrong == 0 ? 0 : 1;
}
