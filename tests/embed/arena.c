/*
 * Devices whose memory comes from the arena of glue/heap_arena.c:
 *
 *   - an arena is refused that is null, too short, or given while a device is open, and the one before it stays;
 *   - beside an open device others are opened and closed, as often as one likes, in the same memory;
 *   - an opening for which the arena is too small is refused, and has given back what it took;
 *   - an arena may lie at any address, and no byte outside of it is written.
 *
 * The last line says how many openings there were, and the memory of each device.
 */
#include "heap_arena.h"
#include "opening.h"

#include <stdbool.h>
#include <stdio.h>
#include <string.h>

enum { ROUNDS = 100, ROOM = 500000, GUARD = 64, FILLING = 0xA5 };

static uint8_t memory[GUARD + ROOM + GUARD];
static unsigned openings, wrong;

static void expect(bool right, const char *what)
{
    if (right)
        return;
    fprintf(stderr, "arena: opening %u: %s\n", openings, what);
    wrong++;
}

/* An arena at an address that is a multiple of nothing. */
static void give(size_t size)
{
    memset(memory, FILLING, sizeof memory);
    expect(apei_arena(memory + GUARD, size) == APEI_OK, "an arena is refused");
}

static void expect_guards(size_t size)
{
    for (size_t at = 0; at < sizeof memory; at++)
        if ((at < GUARD || at >= GUARD + size) && memory[at] != FILLING) {
            expect(false, "a byte outside of the arena is written");
            return;
        }
}

static enum apei_status try_open(struct opening *with, apei_erst *erst)
{
    openings++;
    return open_device(with, erst);
}

static void refuse_arenas(struct opening *with)
{
    apei_erst erst = {0};
    size_t most;
    give(ROOM - 1);
    expect(apei_arena(NULL, ROOM) == APEI_POINTER, "an arena at no address");
    expect(apei_arena(memory, 63) == APEI_SHORT, "an arena of 63 bytes");
    expect(try_open(with, &erst) == APEI_OK, "a device is refused");
    most = apei_arena_most();
    expect(apei_arena(memory, sizeof memory) == APEI_OPEN, "an arena is taken away from an open device");
    expect(apei_erst_close(&erst) == APEI_OK && apei_arena_most() == most, "a refused arena is taken");
    expect(try_open(with, &erst) == APEI_OK && apei_arena_most() == most, "a second opening takes more");
    expect(apei_erst_close(&erst) == APEI_OK, "a device is not closed");
    expect_guards(ROOM - 1);
}

/* The memory of a device, as the arena counts it. */
static size_t memory_of(struct opening *with)
{
    apei_erst erst = {0};
    give(ROOM);
    expect(try_open(with, &erst) == APEI_OK, "a device is refused");
    expect(apei_erst_close(&erst) == APEI_OK, "a device is not closed");
    return apei_arena_most();
}

static void open_beside(struct opening *with, size_t size)
{
    apei_erst first = {0}, second = {0};
    give(2 * size + 15);
    for (int round = 0; round < ROUNDS; round++) {
        expect(try_open(with, &first) == APEI_OK, "the first device has no memory");
        for (int again = 0; again < 3; again++) {
            expect(try_open(with, &second) == APEI_OK, "a device beside an open one has no memory");
            expect(apei_erst_close(&second) == APEI_OK, "a device is not closed");
        }
        expect(try_open(with, &second) == APEI_OK, "the second device has no memory");
        expect(apei_erst_close(&first) == APEI_OK && apei_erst_close(&second) == APEI_OK, "a device is not closed");
    }
    expect(apei_arena_most() <= 2 * size, "two devices take more than twice the memory of one");
    expect_guards(2 * size + 15);
}

static void open_in_too_little(struct opening *with, size_t size)
{
    apei_erst erst = {0};
    for (size_t room = 64; room < size; room += size / 50) {
        give(room);
        expect(try_open(with, &erst) == APEI_MEMORY, "a device is opened in too little memory");
        expect_guards(room);
    }
    give(size + 15);
    expect(try_open(with, &erst) == APEI_OK, "a device is refused in memory enough");
    expect(apei_erst_close(&erst) == APEI_OK, "a device is not closed");
    expect_guards(size + 15);
}

int main(void)
{
    static const apei_geometry geometries[] = {
        {.sector = 4096, .sectors_per_slot = 2, .slots = 16},
        {.sector = 256, .sectors_per_slot = 2, .slots = 8},
    };
    static struct opening with = {.addresses = {.registers = 0xFED40000, .range = 0xFED50000}};
    size_t sizes[2];
    for (size_t at = 0; at < sizeof geometries / sizeof *geometries; at++) {
        with.geometry = geometries[at];
        format(&with);
        refuse_arenas(&with);
        sizes[at] = memory_of(&with);
        open_beside(&with, sizes[at]);
        open_in_too_little(&with, sizes[at]);
    }
    printf("%u openings, %u wrong, memory %zu and %zu bytes\n", openings, wrong, sizes[0], sizes[1]);
    return wrong == 0 ? 0 : 1;
}
