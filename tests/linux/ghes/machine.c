#include "machine.h"
#include "linux.h"

#include <stdio.h>
#include <string.h>

enum { SPACE = 1 << 16, PAGE = 4096, POLLED = 0, EXTERNAL = 1, SCI = 3, BY_NMI = 4, GPIO = 7, GSIV = 10 };

struct machine machine;
struct counts counts;
unsigned long long machine_takes_others;
void (*machine_turn)(void);

static _Alignas(8) uint8_t memory[SPACE], ports[PORTS];

static void expect_here(bool right, const char *what)
{
    if (machine.is_strict)
        expect(right, what);
}

/* ---- Bytes ---- */

static uint8_t *at(uint32_t space, uint64_t address, uint32_t length)
{
    if (address > (space == 1 ? (uint64_t)PORTS : (uint64_t)SPACE) - length)
        return NULL;
    return (space == 1 ? ports : memory) + address;
}

static uint64_t read_number(uint32_t space, uint64_t address, uint32_t length)
{
    uint64_t value = 0;
    if (at(space, address, length) != NULL)
        memcpy(&value, at(space, address, length), length);
    return value;
}

static void write_number(uint32_t space, uint64_t address, uint32_t length, uint64_t value)
{
    if (at(space, address, length) != NULL)
        memcpy(at(space, address, length), &value, length);
}

void machine_scribble(void)
{
    for (unsigned i = 0; i < 100; i++) {
        uint8_t *place = below(8) == 0 ? ports + below(PORTS) : memory + below(SPACE);
        *place = (uint8_t)below(256);
    }
    for (unsigned i = 0; i < machine.count; i++)
        for (unsigned k = 0; k < 24; k++)
            memory[machine.served[i].source.block + k] = (uint8_t)below(256);
}

/* ---- Sources ---- */

static uint64_t any(void)
{
    return below(UINT64_C(1) << 32) << 32 | below(UINT64_C(1) << 32);
}

static uint32_t bytes_of(const apei_register *it)
{
    return it->access != 0 ? 1u << (it->access - 1) : it->width / 8u;
}

static bool is_register(const apei_register *it, uint32_t space, uint64_t address, uint32_t length)
{
    return it->space == space && it->address == address && bytes_of(it) == length;
}

static bool has_ack(const struct served *served)
{
    return served->source.type == 10;
}

static uint64_t place_for(unsigned space, size_t n, size_t multiple)
{
    size_t start = machine.next[space] + below(3) * below(40);
    /* Some places cross a page. */
    if (space == 0 && below(4) == 0)
        start = (start / PAGE + 1) * PAGE - below(n + 1);
    start += (multiple - start % multiple) % multiple;
    machine.next[space] = start + n;
    return start;
}

static apei_register register_for(unsigned log, unsigned least, bool may_begin_later)
{
    bool is_port = log < 3 && below(4) == 0;
    unsigned bits = 8u << log, offset = may_begin_later && below(2) == 0 ? (unsigned)below(bits - least + 1) : 0;
    apei_register it = {
        .space = is_port, .width = (uint8_t)(bits - offset), .offset = (uint8_t)offset, .access = (uint8_t)(log + 1)};
    it.address = place_for(is_port, (size_t)1 << log, (size_t)1 << log);
    return it;
}

void machine_lay_out(void)
{
    static const uint8_t ways[] = {POLLED, POLLED, EXTERNAL, SCI, BY_NMI, BY_NMI, GPIO, GSIV};
    memset(&machine, 0, sizeof machine);
    machine.is_strict = true;
    machine.next[0] = machine.next[1] = 1;
    machine.count = 1 + (unsigned)below(GUESTS);
    for (unsigned i = 0; i < machine.count; i++) {
        apei_source *source = &machine.served[i].source;
        *source = (apei_source){.type = below(2) == 0 ? 9 : 10, .related = 0xFFFF, .enabled = 1, .records = 1, .sections = 1};
        source->id = (uint16_t)(below(1000) * GUESTS + i);
        source->length = (uint32_t)(20 + below(WINDOW - 20));
        source->notification = (apei_notification){.type = ways[below(sizeof ways)], .length = 28, .poll_interval = 100, .vector = i};
        source->places = (uint32_t)(1 + below(4));
        source->address = register_for(1 + (unsigned)below(3), 16, false);
        source->block = place_for(0, source->length, 4);
        if (source->type == 10) {
            source->ack = register_for((unsigned)below(4), 1, true);
            source->preserve = any();
            do
                source->write = any() & any() & (source->ack.width == 64 ? UINT64_MAX : (UINT64_C(1) << source->ack.width) - 1);
            while (source->write == 0);
        }
    }
}

void machine_open(void)
{
    apei_source sources[GUESTS];
    uint64_t refused;
    for (unsigned i = 0; i < machine.count; i++)
        sources[i] = machine.served[i].source;
    machine_scribble();
    expect(apei_ghes_open(&machine.ghes, sources, machine.count, &refused) == APEI_OK, "sources are refused");
}

void machine_close(void)
{
    expect(apei_ghes_close(&machine.ghes) == APEI_OK, "sources are not closed");
}

void machine_first_accesses(void)
{
    for (unsigned i = 0; i < machine.count; i++)
        while (machine_serve(&machine.served[i])) {}
    memset(machine.raised, 0, sizeof machine.raised);
    machine.device = machine.nmi = false;
}

bool machine_start(unsigned copies)
{
    uint8_t table[APEI_HEST_SIZE];
    size_t size = 0;
    bool ends;
    expect(apei_ghes_table(&machine.ghes, table, sizeof table, &size) == APEI_OK, "there is no table");
    linux_prepare(table, size, (enum copies)copies);
    ends = linux_does(START, 0);
    for (unsigned i = 0; ends && i < machine.count; i++)
        expect_here(linux_has(machine.served[i].source.id), "Linux does not take a source");
    return ends;
}

/* ---- The hypervisor's side ---- */

/* A block as others make it, but with a severity that the standard has; few are fatal; and of types that Linux knows. */
static void draw_block(struct block *block, size_t most)
{
    static const uint8_t severities[] = {0, 2, 2, 3};
    static const uint8_t types[][16] = {
        {0x14, 0x11, 0xBC, 0xA5, 0x64, 0x6F, 0xDE, 0x4E, 0xB8, 0x63, 0x3E, 0x83, 0xED, 0x7C, 0x83, 0xB1},  /* memory */
        {0x54, 0xE9, 0x95, 0xD9, 0xC1, 0xBB, 0x0F, 0x43, 0xAD, 0x91, 0xB4, 0x4D, 0xCB, 0x3C, 0x6F, 0x35}}; /* PCIe */
    make_block(block, most);
    block->bytes[16] = below(64) == 0 ? 1 : severities[below(4)];
    if (block->size >= 20 + 72 && block->bytes[12] >= 72 && below(2) == 0)
        memcpy(block->bytes + 20, types[below(2)], 16);
}

void machine_submit(struct served *served)
{
    struct block *block = &served->blocks[served->submitted % KEPT], refused;
    bool is_full = served->submitted - served->given_back == served->source.places;
    enum apei_status status;
    if (served->submitted - served->taken >= KEPT - 1)
        return;
    if (is_full)
        block = &refused;
    draw_block(block, served->source.length);
    status = apei_ghes_submit(&machine.ghes, (uint32_t)(served - machine.served), block->bytes, block->size);
    expect(status == (is_full ? APEI_FULL : APEI_OK), "a block is taken over without a place, or refused with one");
    served->submitted += !is_full;
}

/* What the bits of an acknowledgement are, in its register. */
static uint64_t moved(const struct served *served, uint64_t mask)
{
    uint64_t width = 8 * bytes_of(&served->source.ack);
    return mask << served->source.ack.offset & (width == 64 ? UINT64_MAX : (UINT64_C(1) << width) - 1);
}

static void notify(struct served *served)
{
    expect(!served->awaits, "a block is notified twice");
    served->awaits = true;
    switch (served->source.notification.type) {
    case EXTERNAL: machine.raised[served->source.notification.vector] = true; break;
    case BY_NMI: machine.nmi = true; break;
    case SCI: case GSIV: case GPIO: machine.device = true; break;
    }
}

static uint64_t make(struct served *served, const apei_access *access, const uint8_t *bytes)
{
    if (access->kind == APEI_READ)
        return read_number(access->space, access->address, access->length);
    if (access->kind == APEI_NOTIFY) {
        notify(served);
        return 0;
    }
    expect_here(!served->is_shown, "something is written while a block stands there");
    if (has_ack(served) && is_register(&served->source.ack, access->space, access->address, access->length)) {
        uint64_t before = read_number(access->space, access->address, access->length), after = 0;
        memcpy(&after, bytes, access->length);
        expect_here(((before ^ after) & ~moved(served, served->source.write)) == 0, "other bits of an acknowledge register are written");
    }
    memcpy(at(access->space, access->address, access->length), bytes, access->length);
    if (access->space == 0 && access->address == served->source.block && read_number(0, access->address, 4) != 0)
        served->is_shown = true;
    return 0;
}

bool machine_serve(struct served *served)
{
    apei_access access;
    uint8_t bytes[APEI_ACCESS_MAX];
    uint32_t number = (uint32_t)(served - machine.served);
    bool was_awaiting = served->awaits;
    enum apei_status status;
    if (apei_ghes_access(&machine.ghes, number, &access, bytes) != APEI_OK)
        return false;
    status = apei_ghes_done(&machine.ghes, number, make(served, &access, bytes));
    tally.steps++;
    if (was_awaiting && status == APEI_OK) {
        served->awaits = false;
        served->given_back++;
        expect_here(served->cleared >= served->given_back && !served->is_shown, "a block is given back that Linux has not acknowledged");
    }
    return status == APEI_OK;
}

/* ---- Linux's side ---- */

static struct served *of_id(unsigned id)
{
    for (unsigned i = 0; i < machine.count; i++)
        if (machine.served[i].source.id == id)
            return &machine.served[i];
    return NULL;
}

bool machine_is_of_ten(void)
{
    for (unsigned i = 0; i < machine.count; i++)
        if (!has_ack(&machine.served[i]))
            return false;
    return true;
}

/* The source in whose window an access lies. */
static struct served *of_window(uint32_t space, uint64_t address, uint32_t length)
{
    for (unsigned i = 0; space == 0 && i < machine.count; i++) {
        const apei_source *it = &machine.served[i].source;
        if (address >= it->block && address + length <= it->block + it->length)
            return &machine.served[i];
    }
    return NULL;
}

static struct served *of_ack(uint32_t space, uint64_t address, uint32_t length)
{
    for (unsigned i = 0; i < machine.count; i++)
        if (has_ack(&machine.served[i]) && is_register(&machine.served[i].source.ack, space, address, length))
            return &machine.served[i];
    return NULL;
}

static bool is_address(uint32_t space, uint64_t address, uint32_t length)
{
    for (unsigned i = 0; i < machine.count; i++)
        if (is_register(&machine.served[i].source.address, space, address, length))
            return true;
    return false;
}

static void others_turn(struct served *served)
{
    enum phase phase = served != NULL ? served->phase : RESTS;
    counts.accesses++;
    if (machine.stop != 0 && (machine.stop_in == PHASES || machine.stop_in == phase) && --machine.stop == 0) {
        machine.is_stopped = true;
        counts.stops[phase]++;
        linux_stop();
    }
    machine_turn();
}

uint64_t machine_read(uint32_t space, uint64_t address, uint32_t length)
{
    struct served *window = of_window(space, address, length), *ack = of_ack(space, address, length);
    uint64_t value;
    others_turn(window != NULL ? window : ack);
    value = read_number(space, address, length);
    expect_here(window != NULL || ack != NULL || is_address(space, address, length), "Linux reads elsewhere");
    if (window != NULL && address == window->source.block && value != 0 && window->phase == RESTS)
        window->phase = READS;
    if (ack != NULL) {
        expect_here(ack->phase == CLEARED, "Linux reads the acknowledge register while it owes nothing");
        ack->phase = ASKED;
        ack->asked = value;
    }
    return value;
}

/* Linux is done with a block. */
static void is_done(struct served *served)
{
    served->phase = RESTS;
    served->is_shown = false;
}

void machine_write(uint32_t space, uint64_t address, uint32_t length, uint64_t value)
{
    struct served *window = of_window(space, address, length), *ack = of_ack(space, address, length);
    bool is_clear;
    others_turn(window != NULL ? window : ack);
    is_clear = window != NULL && read_number(0, window->source.block, 4) == 0;
    write_number(space, address, length, value);
    if (ack != NULL) {
        expect_here(ack->phase == ASKED, "Linux writes the acknowledge register without having read it");
        expect_here(value == ((ack->asked & moved(ack, ack->source.preserve)) | moved(ack, ack->source.write)), "Linux acknowledges otherwise");
        is_done(ack);
    } else if (window != NULL) {
        expect_here(value == 0 && address + length <= window->source.block + 4, "Linux writes more than the block status");
        if (is_clear || read_number(0, window->source.block, 4) != 0)
            return;
        window->cleared++;
        window->phase = CLEARED;
        if (!has_ack(window))
            is_done(window);
    } else {
        expect_here(false, "Linux writes elsewhere");
    }
}

void machine_takes(unsigned id, const uint8_t *bytes, size_t length, bool panics)
{
    struct served *served = of_id(id);
    const struct block *block;
    bool is_next;
    /* A fatal block in an NMI: those that were put off before it are printed at most. */
    if (panics && linux_is_in_nmi()) {
        counts.lost += served->cleared - served->taken;
        served->taken = served->cleared;
    }
    block = &served->blocks[served->taken % KEPT];
    expect_here(served->taken < served->submitted, "Linux takes a block that was not submitted");
    is_next = length == block->size && memcmp(bytes, block->bytes, length) == 0;
    machine_takes_others += !is_next;
    expect_here(is_next, "Linux takes another block");
    served->taken++;
    counts.taken++;
    counts.panics += panics;
    if (served->phase == READS && !linux_is_in_nmi())
        served->phase = TOOK;
}

/* ---- Stops ---- */

/* Linux has acknowledged a block before it dealt with it: it does so in an NMI alone. */
static void count_lost(const struct served *served, uint64_t n)
{
    counts.lost += n;
    expect(n == 0 || served->source.notification.type == BY_NMI, "Linux has acknowledged a block and not taken it");
}

static void count_again(struct served *served, uint64_t goes_on)
{
    if (served->taken > goes_on)
        counts.again += served->taken - goes_on;
    else
        count_lost(served, goes_on - served->taken);
    served->taken = served->cleared = goes_on;
}

void machine_reset(struct served *served, enum apei_unacknowledged blocks)
{
    expect(apei_ghes_reset(&machine.ghes, (uint32_t)(served - machine.served), blocks) == APEI_OK, "a reset is refused");
    if (blocks == APEI_FORGET) {
        uint64_t first = served->taken > served->given_back ? served->taken : served->given_back;
        count_lost(served, first - served->taken);
        counts.forgotten += served->submitted - first;
        served->taken = served->cleared = served->given_back = served->submitted;
    } else {
        count_again(served, served->given_back);
    }
    served->awaits = false;
    is_done(served);
}

bool machine_is_stuck(const struct served *served)
{
    return served->phase == CLEARED || served->phase == ASKED;
}

void machine_not_told(struct served *served)
{
    count_again(served, served->cleared);
    if (!machine_is_stuck(served))
        served->phase = RESTS;
}
