#include "guests.h"

#include <stdio.h>
#include <string.h>

struct tally tally;

static _Alignas(8) uint8_t memory[MEMORY], ports[PORTS];
static uint64_t state = 1;

void expect(bool right, const char *what)
{
    if (right)
        return;
    if (tally.wrong++ < 20)
        fprintf(stderr, "sources: step %llu: %s\n", tally.steps, what);
}

void seed(uint64_t number)
{
    state = number * 0x9E3779B97F4A7C15u + 1;
}

static uint64_t any(void)
{
    state ^= state >> 12;
    state ^= state << 25;
    state ^= state >> 27;
    return state * 0x2545F4914F6CDD1Du;
}

uint64_t below(uint64_t n)
{
    return (any() >> 16) % n;
}

/* ---- Bytes of the machine ---- */

static uint8_t *at(uint32_t space, uint64_t address)
{
    return (space == 1 ? ports : memory) + address;
}

static uint64_t read_number(uint32_t space, uint64_t address, uint32_t length)
{
    uint8_t *place = at(space, address);
    switch (length) {
    case 1: return __atomic_load_n(place, __ATOMIC_ACQUIRE);
    case 2: return __atomic_load_n((uint16_t *)(void *)place, __ATOMIC_ACQUIRE);
    case 4: return __atomic_load_n((uint32_t *)(void *)place, __ATOMIC_ACQUIRE);
    default: return __atomic_load_n((uint64_t *)(void *)place, __ATOMIC_ACQUIRE);
    }
}

static void write_number(uint32_t space, uint64_t address, uint32_t length, uint64_t value)
{
    uint8_t *place = at(space, address);
    switch (length) {
    case 1: __atomic_store_n(place, (uint8_t)value, __ATOMIC_RELEASE); break;
    case 2: __atomic_store_n((uint16_t *)(void *)place, (uint16_t)value, __ATOMIC_RELEASE); break;
    case 4: __atomic_store_n((uint32_t *)(void *)place, (uint32_t)value, __ATOMIC_RELEASE); break;
    default: __atomic_store_n((uint64_t *)(void *)place, value, __ATOMIC_RELEASE); break;
    }
}

void scribble(void)
{
    size_t n = 1 + below(64);
    uint8_t *place = below(8) == 0 ? ports + below(PORTS - n) : memory + below(MEMORY - n);
    while (n-- > 0)
        place[n] = below(3) == 0 ? 0 : (uint8_t)any();
}

/* ---- Blocks ---- */

static void put_number(uint8_t *bytes, uint32_t number)
{
    for (int i = 0; i < 4; i++)
        bytes[i] = (uint8_t)(number >> 8 * i);
}

static uint32_t number_in(const uint8_t *bytes)
{
    return bytes[0] | (uint32_t)bytes[1] << 8 | (uint32_t)bytes[2] << 16 | (uint32_t)bytes[3] << 24;
}

size_t block_length(const uint8_t *bytes)
{
    uint32_t raw = number_in(bytes + 8);
    return raw != 0 ? (size_t)number_in(bytes + 4) + raw : (size_t)20 + number_in(bytes + 12);
}

/* An entry of so many bytes of any content. */
static size_t put_entry(uint8_t *bytes, size_t length)
{
    for (size_t i = 0; i < 72 + length; i++)
        bytes[i] = (uint8_t)any();
    bytes[20] = 0;
    bytes[21] = 3;
    put_number(bytes + 24, (uint32_t)length);
    return 72 + length;
}

void make_block(struct block *block, size_t most)
{
    size_t end = 20, length, raw = 0;
    memset(block->bytes, 0, 20);
    while (end + 72 <= most && below(3) != 0) {
        length = below(most - end - 72 + 1);
        end += put_entry(block->bytes + end, length < 40 ? length : 40);
    }
    put_number(block->bytes, (uint32_t)any() | 1);
    put_number(block->bytes + 12, (uint32_t)end - 20);
    put_number(block->bytes + 16, (uint32_t)below(4));
    if (end < most && below(2) == 0) {
        size_t gap = below(2) == 0 ? 0 : below(most - end);
        memset(block->bytes + end, 0, gap);
        raw = 1 + below(most - end - gap);
        put_number(block->bytes + 4, (uint32_t)(end + gap));
        put_number(block->bytes + 8, (uint32_t)raw);
        end += gap;
        for (size_t i = 0; i < raw; i++)
            block->bytes[end + i] = (uint8_t)any();
    }
    block->size = end + raw;
}

/* ---- A world ---- */

/* So many bytes that nothing else has, at a multiple of a number. */
static uint64_t place_for(struct world *world, uint32_t space, size_t n, size_t multiple)
{
    size_t start = world->next[space] + below(3) * below(40);
    start += (multiple - start % multiple) % multiple;
    world->next[space] = start + n;
    return start;
}

static apei_register register_for(struct world *world, unsigned log, unsigned least)
{
    unsigned bits = 8u << log, offset = below(2) == 0 ? 0 : (unsigned)below(bits - least + 1);
    bool is_port = below(4) == 0 && world->next[1] + 100 < PORTS;
    apei_register it = {
        .space = is_port, .width = (uint8_t)(bits - offset), .offset = (uint8_t)offset, .access = (uint8_t)(log + 1)};
    it.address = place_for(world, it.space, (size_t)1 << log, (size_t)1 << log);
    return it;
}

static uint32_t bytes_of(const apei_register *it)
{
    return 1u << (it->access - 1);
}

static void lay_out(struct world *world, struct guest *guest)
{
    apei_source *source = &guest->source;
    *source = (apei_source){.type = below(2) == 0 ? 9 : 10, .related = 0xFFFF, .enabled = 1, .records = 1, .sections = 1};
    source->id = (uint16_t)(below(1000) * GUESTS + guest->number);
    source->length = (uint32_t)(20 + below(WINDOW - 20));
    source->notification = (apei_notification){.type = (uint8_t)below(12), .length = 28, .poll_interval = 100};
    source->places = (uint32_t)(1 + below(4));
    source->address = register_for(world, 1 + (unsigned)below(3), 13);
    source->block = place_for(world, 0, source->length, 4);
    if (source->type == 10) {
        source->ack = register_for(world, (unsigned)below(4), 1);
        source->preserve = any();
        do
            source->write = any() & any() & (source->ack.width == 64 ? UINT64_MAX : (UINT64_C(1) << source->ack.width) - 1);
        while (source->write == 0);
    }
}

static void expect_table(struct world *world)
{
    uint8_t table[APEI_HEST_SIZE];
    size_t size = 0;
    uint32_t parts = 0;
    apei_fault fault;
    apei_part part;
    expect(apei_ghes_table(&world->ghes, table, sizeof table, &size) == APEI_OK, "there is no table");
    expect(apei_check_hest(table, size, &parts, &fault) == APEI_OK && parts == world->count, "the table has other sources");
    for (uint32_t i = 0; i < world->count; i++) {
        const apei_source *source = &world->guests[i].source;
        expect(apei_part_at(APEI_ITEM_HEST, table, size, i, &part) == APEI_OK && part.type == source->type, "a source has another type");
        expect(number_in(table + part.offset) >> 16 == source->id, "a source has another identifier");
        expect(memcmp(table + part.offset + 32, &source->notification, 28) == 0, "a source notifies otherwise");
        expect(number_in(table + part.offset + 60) == source->length, "a source has another window");
    }
}

void begin(struct world *world)
{
    apei_source sources[GUESTS];
    uint64_t refused;
    memset(world, 0, sizeof *world);
    world->next[0] = 1;
    world->count = 1 + (unsigned)below(GUESTS);
    for (uint32_t i = 0; i < world->count; i++) {
        world->guests[i].number = i;
        lay_out(world, &world->guests[i]);
        sources[i] = world->guests[i].source;
    }
    for (size_t i = 0; i < 100; i++)
        scribble();
    expect(apei_ghes_open(&world->ghes, sources, world->count, &refused) == APEI_OK, "sources are refused");
    expect_table(world);
}

void end(struct world *world)
{
    expect(apei_ghes_close(&world->ghes) == APEI_OK, "sources are not closed");
}

/* ---- The hypervisor's side ---- */

void submit(struct world *world, struct guest *guest)
{
    struct block *block = &guest->blocks[guest->submitted % KEPT];
    struct block refused;
    bool is_full = guest->submitted - guest->given_back == guest->source.places;
    enum apei_status status;
    if (is_full)
        block = &refused;
    make_block(block, guest->source.length);
    status = apei_ghes_submit(&world->ghes, guest->number, block->bytes, block->size);
    expect(status == (is_full ? APEI_FULL : APEI_OK), "a block is taken over without a place, or refused with one");
    guest->submitted += !is_full;
    tally.full += is_full;
}

void submit_bad(struct world *world, struct guest *guest)
{
    struct block block;
    enum apei_status why = APEI_BLOCK;
    make_block(&block, guest->source.length);
    switch (below(4)) {
    case 0: put_number(block.bytes, 0); break;
    case 1: block.size -= 1 + below(block.size); break;
    case 2: block.bytes[block.size++] = 0; break;
    default: block.size = guest->source.length + 1; break;
    }
    if (block.size > guest->source.length)
        why = APEI_LONG;
    expect(apei_ghes_submit(&world->ghes, guest->number, block.bytes, block.size) == why, "a bad block is not refused as it is bad");
    expect(apei_ghes_submit(&world->ghes, world->count, block.bytes, block.size) == APEI_SOURCE, "a source takes a block that is not there");
}

static bool is_register(const apei_access *access, const apei_register *it)
{
    return access->space == it->space && access->address == it->address && access->length == bytes_of(it);
}

static bool is_own(const struct guest *guest, const apei_access *access)
{
    const apei_source *source = &guest->source;
    bool has_ack = source->type == 10;
    if (access->kind == APEI_NOTIFY)
        return access->length == 0;
    if (has_ack && is_register(access, &source->ack))
        return true;
    if (access->kind == APEI_READ)
        return !has_ack && access->space == 0 && access->address == source->block && access->length == 4;
    return is_register(access, &source->address)
        || (access->space == 0 && access->address >= source->block && access->length >= 1 && access->length <= APEI_ACCESS_MAX
            && access->address + access->length <= source->block + source->length);
}

static uint64_t make(struct guest *guest, const apei_access *access, const uint8_t *bytes)
{
    uint64_t value = 0;
    uint32_t n = access->length;
    switch (access->kind) {
    case APEI_READ: return read_number(access->space, access->address, n);
    case APEI_NOTIFY:
        expect(!guest->awaits, "a block is notified twice");
        guest->awaits = true;
        tally.notices++;
        return below(2) == 0 ? 0 : any();
    default:
        if ((n == 1 || n == 2 || n == 4 || n == 8) && access->address % n == 0) {
            memcpy(&value, bytes, n);
            write_number(access->space, access->address, n, value);
        } else {
            memcpy(at(access->space, access->address), bytes, n);
        }
        return any();
    }
}

/* An access is told the same until it is made. */
static void ask_again(struct world *world, struct guest *guest, const apei_access *access, const uint8_t *bytes)
{
    apei_access again = {0};
    uint8_t others[APEI_ACCESS_MAX] = {0};
    expect(apei_ghes_access(&world->ghes, guest->number, &again, others) == APEI_OK && memcmp(&again, access, sizeof again) == 0
            && (access->kind != APEI_WRITE || memcmp(others, bytes, access->length) == 0),
        "an access is told another way");
}

bool serve(struct world *world, struct guest *guest)
{
    apei_access access;
    uint8_t bytes[APEI_ACCESS_MAX];
    enum apei_status status = apei_ghes_access(&world->ghes, guest->number, &access, bytes);
    bool was_awaiting = guest->awaits;
    tally.steps++;
    if (status == APEI_NONE) {
        expect(guest->submitted == guest->given_back, "a source rests that has a block");
        expect(apei_ghes_done(&world->ghes, guest->number, any()) == APEI_NONE, "a source that rests goes on");
        return false;
    }
    expect(status == APEI_OK && is_own(guest, &access), "an access leaves its source");
    expect(guest->reader == LOOKS || access.kind != APEI_WRITE, "something is written while a guest reads");
    if (below(16) == 0)
        ask_again(world, guest, &access, bytes);
    status = apei_ghes_done(&world->ghes, guest->number, make(guest, &access, bytes));
    guest->made++;
    expect(status == APEI_OK || (status == APEI_WAITS && was_awaiting), "an access is not done");
    if (was_awaiting && status == APEI_OK) {
        guest->awaits = false;
        guest->given_back++;
    }
    return status == APEI_OK;
}

/* ---- The guest's side ---- */

static uint64_t block_address(const struct guest *guest)
{
    const apei_register *it = &guest->source.address;
    return read_number(it->space, it->address, bytes_of(it)) >> it->offset;
}

/* It has a whole block, which is the first that it did not take. */
static void take(struct guest *guest, uint64_t address, size_t size)
{
    const struct block *block = &guest->blocks[guest->taken % KEPT];
    expect(guest->taken < guest->submitted, "a block is taken that was not submitted");
    expect(size == block->size && memcmp(guest->copy, block->bytes, size) == 0, "another block is taken");
    write_number(0, address, 4, 0);
    guest->taken++;
    tally.blocks++;
    guest->reader = guest->source.type == 10 ? OWES : LOOKS;
}

static void copy_on(struct guest *guest)
{
    uint64_t address = block_address(guest);
    size_t left = guest->source.length - guest->copied, n = 1 + below(100), size;
    if (n > left)
        n = left;
    memcpy(guest->copy + guest->copied, memory + address + guest->copied, n);
    guest->copied += n;
    if (guest->copied < 20)
        return;
    size = block_length(guest->copy);
    expect(size <= guest->source.length, "a block leaves its window");
    if (guest->copied >= size)
        take(guest, address, size);
}

void read_on(struct guest *guest)
{
    const apei_register *ack = &guest->source.ack;
    tally.steps++;
    if (guest->made < 2)
        return;
    switch (guest->reader) {
    case LOOKS:
        expect(block_address(guest) == guest->source.block, "a guest is told another address");
        if (read_number(0, block_address(guest), 4) != 0) {
            guest->copied = 0;
            guest->reader = COPIES;
        }
        break;
    case COPIES: copy_on(guest); break;
    case OWES:
        guest->answer = read_number(ack->space, ack->address, bytes_of(ack));
        guest->reader = ANSWERS;
        break;
    default:
        guest->answer &= guest->source.preserve << ack->offset;
        write_number(ack->space, ack->address, bytes_of(ack), guest->answer | guest->source.write << ack->offset);
        guest->reader = LOOKS;
    }
}

void restart(struct world *world, struct guest *guest)
{
    bool forgets = below(2) == 0;
    expect(apei_ghes_reset(&world->ghes, guest->number, (enum apei_unacknowledged)2) == APEI_CHOICE, "a reset of no kind is made");
    expect(apei_ghes_reset(&world->ghes, guest->number, forgets ? APEI_FORGET : APEI_TELL_AGAIN) == APEI_OK, "a reset is refused");
    if (forgets)
        guest->given_back = guest->submitted;
    guest->taken = guest->given_back;
    guest->made = 0;
    guest->awaits = false;
    guest->reader = LOOKS;
}
