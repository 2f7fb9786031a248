/*
 * The client over firmwares that answer anything. Tables of several makers, as they stand or with some bytes changed, and tables drawn at
 * random are given to it, and each access is answered by a number drawn at random, or fails. Whatever is answered, a command ends within
 * its bound by one of the statuses, and reaches nothing but the registers of its table and its log range.
 *
 *     answers [RUNS]
 *
 * The last line says how many commands were played, and how they ended.
 */
#include "apei.h"
#include "device.h"
#include "qemu.h"

#include <inttypes.h>
#include <stdbool.h>
#include <stdio.h>
#include <stdlib.h>

enum { HEADER = 48, ENTRY = 32, ROOM = 8192, RECORD = 300, BUFFER = 4096, PLACES = 4, COMMANDS = 5 };
enum { LENGTH_AT = 20, IDENTIFIER_AT = 96, MARK_AT = 108, GOTO = 0x0F, INSTRUCTIONS = 0x13, ACTIONS = 0x11 };

static unsigned long wrong, commands, ended_well, refused, failed, endless, most;
static uint64_t state = 1;

static void expect(bool is_right, const char *what)
{
    if (!is_right && wrong++ < 10)
        fprintf(stderr, "%s\n", what);
}

static uint64_t drawn(void)
{
    state ^= state << 13;
    state ^= state >> 7;
    state ^= state << 17;
    return state;
}

static uint64_t below(uint64_t end)
{
    return drawn() % end;
}

static void put(uint8_t *at, uint64_t value, size_t size)
{
    for (size_t i = 0; i < size; i++)
        at[i] = (uint8_t)(value >> 8 * i);
}

static uint64_t number(const uint8_t *at, size_t size)
{
    uint64_t value = 0;
    while (size--)
        value = value << 8 | at[size];
    return value;
}

/* Tables. */

struct table {
    uint8_t bytes[ROOM];
    size_t size;
};

static void seal(struct table *table)
{
    uint8_t sum = 0;
    table->bytes[9] = 0;
    for (size_t i = 0; i < table->size; i++)
        sum += table->bytes[i];
    table->bytes[9] = (uint8_t)-sum;
}

/* The stand-in changes its image by this. */
int medium_change(uint8_t *at, const uint8_t *bytes, size_t size)
{
    memmove(at, bytes, size);
    return 0;
}

static void standins_table(struct table *table)
{
    static uint8_t image[65536];
    struct device *device = device_open("", image, sizeof image);
    if (device == NULL)
        exit(2);
    table->size = device_table(device, 0xC0000000, table->bytes, ROOM);
    device_close(device);
}

static void qemus_table(struct table *table)
{
    qemu_table(0xE0000000, table->bytes);
    table->size = QEMU_TABLE;
}

static void own_table(struct table *table)
{
    static const apei_geometry geometry = {.sector = 4096, .sectors_per_slot = 2, .slots = 4};
    static const apei_addresses where = {.registers = 0xFED40000, .range = 0xFED50000};
    static uint8_t medium[9 * 4096];
    uint8_t bytes[APEI_PROGRAM_MAX];
    apei_erst erst = {0};
    apei_change change;
    uint64_t step;
    for (step = 0; apei_format_change(&geometry, step, &change, bytes) == APEI_OK; step++) {
        if (change.kind == APEI_ERASE)
            memset(medium + change.offset, 0xFF, change.length);
        else
            memcpy(medium + change.offset, bytes, change.length);
    }
    if (apei_erst_open(&erst, medium, sizeof medium, &where) != APEI_OK
        || apei_erst_table(&erst, table->bytes, ROOM, &table->size) != APEI_OK)
        exit(2);
    apei_erst_close(&erst);
}

static void draw_entry(uint8_t *entry, unsigned action)
{
    static const uint8_t bits[] = {8, 16, 32, 64};
    unsigned width = (unsigned)below(4), instruction = (unsigned)below(INSTRUCTIONS);
    memset(entry, 0, ENTRY);
    entry[0] = (uint8_t)action;
    entry[1] = (uint8_t)instruction;
    entry[2] = (uint8_t)below(2);
    entry[4] = below(8) == 0;
    entry[5] = bits[width];
    entry[7] = (uint8_t)(width + 1);
    put(entry + 8, (entry[4] ? 0x80 : 0xA0000000) + 8 * below(4), 8);
    put(entry + 16, instruction == GOTO ? below(6) : below(4) == 0 ? drawn() : below(4), 8);
    put(entry + 24, below(2) == 0 ? drawn() : ~0ull, 8);
}

static void draw_table(struct table *table)
{
    uint8_t *end = table->bytes + HEADER;
    for (unsigned action = 0; action < ACTIONS; action++)
        for (uint64_t left = below(4) == 0 ? 4 : 1; left > 0; left--, end += ENTRY)
            draw_entry(end, action);
    table->size = (size_t)(end - table->bytes);
    memset(table->bytes, 0, HEADER);
    memcpy(table->bytes, "ERST", 4);
    put(table->bytes + 4, table->size, 4);
    table->bytes[8] = 1;
    table->bytes[36] = HEADER;
    put(table->bytes + 44, (table->size - HEADER) / ENTRY, 4);
}

/* Other bytes in some entries. */
static void change_table(struct table *table)
{
    for (uint64_t left = below(3); left > 0; left--) {
        uint8_t *entry = table->bytes + HEADER + ENTRY * below((table->size - HEADER) / ENTRY);
        if (below(2) == 0)
            draw_entry(entry, entry[0]);
        else
            entry[below(ENTRY)] = (uint8_t)below(20);
    }
}

static void give_table(struct table *table)
{
    static void (*const makers[])(struct table *) = {own_table, qemus_table, standins_table, draw_table};
    static struct table made[3];
    uint64_t maker = below(4);
    if (maker < 3 && made[maker].size == 0)
        makers[maker](&made[maker]);
    if (maker < 3)
        *table = made[maker];
    else
        draw_table(table);
    change_table(table);
    seal(table);
}

static bool names(const struct table *table, const apei_demand *demand)
{
    for (const uint8_t *entry = table->bytes + HEADER; entry < table->bytes + table->size; entry += ENTRY)
        if (entry[4] == demand->space && number(entry + 8, 8) == demand->address)
            return true;
    return false;
}

/* Answers. To attach, a client mostly has to find numbers that a range can have. */

static bool is_attached;
enum manner { ANY, SMALL, FITTING, LARGE, ONE_NUMBER };
static enum manner manner;
static uint64_t one_number;

static uint64_t answer(void)
{
    switch (manner) {
    case SMALL: return below(6);
    case FITTING: return below(4) == 0 ? 0x10000 + 8 * below(64) : below(3);
    case LARGE: return 0x10000 + 8 * below(64);
    case ONE_NUMBER: return one_number;
    default: return below(4) == 0 ? ~0ull >> below(64) : drawn();
    }
}

static void draw_manner(void)
{
    manner = (enum manner)(below(64) == 0 ? ONE_NUMBER : below(ONE_NUMBER));
    if (!is_attached && below(4) > 0)
        manner = LARGE;
    one_number = below(2) == 0 ? below(3) : drawn();
}

/* Commands. */

static apei_client client;
static apei_range range;
static uint8_t record[RECORD];

struct work {
    bool writes;
    uint64_t room;
    uint64_t *ids;
    uint64_t places;
};

static void look_at(const struct table *table, const apei_demand *demand, const struct work *work)
{
    bool in_range = is_attached;
    switch (demand->kind) {
    case APEI_LOAD:
    case APEI_STORE:
        expect(names(table, demand), "a register that its table does not name");
        expect(demand->length == 1 || demand->length == 2 || demand->length == 4 || demand->length == 8, "an access of another width");
        return;
    case APEI_PAUSE:
    case APEI_COPY:
        return;
    case APEI_PUT_RECORD:
        in_range &= work->writes && demand->address == range.address && RECORD <= range.length;
        break;
    case APEI_PUT_MARK:
        in_range &= work->writes && demand->address == range.address + MARK_AT;
        break;
    case APEI_TAKE_LENGTH:
        in_range &= work->room > 0 && demand->address == range.address + LENGTH_AT;
        break;
    case APEI_TAKE_RECORD:
        in_range &= demand->address == range.address && demand->length <= range.length && demand->length <= work->room;
        break;
    default:
        in_range = false;
    }
    expect(in_range, "bytes that are not the log range's");
}

static uint64_t steps(void)
{
    uint64_t named = is_attached && range.greatest > 0 ? 1024 + 8 * (uint64_t)(range.greatest / 10) : 65536;
    return named < 1048576 ? named : 1048576;
}

static enum apei_status run(const struct table *table, struct work work, uint64_t *found)
{
    uint64_t bound = work.ids != NULL ? (work.places + 2) * 4 * steps() : 302 + 4 * steps(), made = 0;
    apei_demand demand;
    enum apei_status status;
    draw_manner();
    while (apei_client_demand(&client, &demand) == APEI_OK && made <= bound) {
        look_at(table, &demand, &work);
        made++;
        apei_client_list_answer(&client, below(256) == 0, answer(), work.ids, work.places);
    }
    expect(made <= bound, "a command has more demands than its bound");
    status = apei_client_result(&client, found);
    most = made > most ? made : most;
    commands++;
    ended_well += status == APEI_OK;
    failed += status == APEI_FAULT;
    endless += status == APEI_STEPS || status == APEI_TOO_LATE;
    expect(status == APEI_OK || status == APEI_NONE || (status >= APEI_UNATTACHED && status <= APEI_LIST_FULL), "a command ends by another status");
    return status;
}

static void play(const struct table *table)
{
    uint64_t found = 0, ids[PLACES], id = drawn();
    struct work work = {.room = below(BUFFER)};
    switch (below(COMMANDS + 1)) {
    case APEI_READ_RECORD:
        apei_client_begin(&client, APEI_READ_RECORD, id, work.room);
        work.room += work.room == 0;
        if (run(table, work, &found) == APEI_OK)
            expect(found <= work.room, "a record is longer than its buffer");
        return;
    case COMMANDS:
        apei_client_list(&client, ids, PLACES);
        work = (struct work){.ids = ids, .places = PLACES};
        if (run(table, work, &found) == APEI_OK)
            expect(found <= PLACES, "more is listed than there are places");
        for (uint64_t i = 0; i < found && i < PLACES; i++)
            for (uint64_t k = 0; k < i; k++)
                expect(ids[i] != ids[k], "an identifier is listed twice");
        return;
    default:
        if (below(3) == 0) {
            work.writes = true;
            put(record + IDENTIFIER_AT, id, 8);
            apei_client_write(&client, record, RECORD);
        } else {
            apei_client_begin(&client, (enum apei_command)(1 + below(COMMANDS - 1)), id, 0);
        }
        run(table, work, &found);
    }
}

static void play_table(void)
{
    static struct table table;
    uint32_t parts;
    apei_fault fault;
    uint64_t none;
    bool is_well;
    give_table(&table);
    is_well = apei_check_erst(table.bytes, table.size, &parts, &fault) == APEI_OK;
    is_attached = false;
    if (apei_client_open(&client, table.bytes, table.size) != APEI_OK) {
        expect(!is_well, "a table that is well is refused");
        refused++;
        return;
    }
    expect(is_well, "a table that is not well is taken");
    run(&table, (struct work){0}, &none);
    is_attached = apei_client_range(&client, &range) == APEI_OK;
    for (uint64_t left = is_attached ? 4 : 0; left > 0; left--)
        play(&table);
    expect(apei_client_close(&client) == APEI_OK, "it is not closed");
}

int main(int count, char **words)
{
    unsigned long runs = count > 1 ? strtoul(words[1], NULL, 10) : 2000;
    memcpy(record, "CPER\0\1\xFF\xFF\xFF\xFF\0\0", 12);
    put(record + LENGTH_AT, RECORD, 4);
    for (unsigned long i = 0; i < runs; i++)
        play_table();
    printf("%lu tables, %lu refused; %lu commands, %lu well, %lu with a failed access, %lu endless; %lu demands at most; %lu wrong\n", runs, refused,
           commands, ended_well, failed, endless, most, wrong);
    return wrong == 0 ? 0 : 1;
}
