/*
 * Opens, uses and closes error sources and boot error regions, and counts the memory that the archive takes and gives back:
 *
 *   - sources hold 3 blocks, 2 more for each source, and 1 more for each of its places; a region holds 2;
 *   - no call between an opening and the close takes memory or gives it back, and a close gives all back;
 *   - an opening that is refused has given back what it took: with each request for memory refused, and for each other reason.
 *
 * The last line says how many openings there were.
 */
#include "guests.h"
#include "heap.h"

#include <limits.h>
#include <stdio.h>
#include <string.h>

enum { WORLDS = 200 };

static unsigned openings;

static void expect_held(unsigned held, const char *what)
{
    expect(heap.held == held && heap.strange == 0, what);
    heap.strange = 0;
}

/* ---- Sources ---- */

static unsigned blocks_of(const struct world *world)
{
    unsigned count = 3;
    for (unsigned i = 0; i < world->count; i++)
        count += 2 + world->guests[i].source.places;
    return count;
}

static void use(struct world *world)
{
    unsigned before = heap.requests;
    for (unsigned round = 0; round < 200; round++) {
        struct guest *guest = &world->guests[below(world->count)];
        submit(world, guest);
        submit_bad(world, guest);
        serve(world, guest);
        read_on(guest);
        if (below(20) == 0)
            restart(world, guest);
    }
    expect(heap.requests == before, "a call takes memory");
    expect_held(blocks_of(world), "a call gives memory back");
}

static void expect_refused(const apei_source *sources, size_t count, enum apei_status why, uint64_t index)
{
    apei_ghes ghes = {0};
    uint64_t refused = 99;
    enum apei_status status = apei_ghes_open(&ghes, sources, count, &refused);
    openings++;
    if (status != why)
        fprintf(stderr, "source_memory: %s, and not: %s\n", apei_status_text(status), apei_status_text(why));
    expect(status == why && refused == index, "sources are refused for another reason");
    expect_held(0, "refused sources keep memory");
    expect(apei_ghes_close(&ghes) == APEI_CLOSED, "refused sources are open");
}

static void refuse_each_request(const struct world *world)
{
    apei_source sources[GUESTS];
    unsigned answered = 0, before;
    apei_ghes ghes = {0};
    uint64_t refused;
    for (unsigned i = 0; i < world->count; i++)
        sources[i] = world->guests[i].source;
    before = heap.requests;
    expect(apei_ghes_open(&ghes, sources, world->count, &refused) == APEI_OK, "sources are refused");
    before = heap.requests - before;
    expect(apei_ghes_open(&ghes, sources, world->count, &refused) == APEI_OPEN, "sources are opened twice");
    expect(apei_ghes_close(&ghes) == APEI_OK, "sources are not closed");
    for (; answered < before; answered++) {
        heap.answered = answered;
        expect_refused(sources, world->count, APEI_MEMORY, 99);
    }
    heap.answered = UINT_MAX;
}

static const apei_source good[2] = {
    {.type = 10, .id = 1, .related = 0xFFFF, .enabled = 1, .records = 1, .sections = 1, .length = 100, .places = 1,
        .notification = {.length = 28}, .block = 64, .address = {.width = 64, .access = 4, .address = 16},
        .ack = {.width = 64, .access = 4, .address = 24}, .preserve = ~UINT64_C(1), .write = 1},
    {.type = 9, .id = 2, .related = 0xFFFF, .enabled = 1, .records = 1, .sections = 1, .length = 100, .places = 1,
        .notification = {.length = 28}, .block = 200, .address = {.width = 32, .access = 3, .address = 32}},
};

/* The second of two sources is changed, and is the reason then. */
#define REFUSED(why, change) \
    do { \
        apei_source sources[2] = {good[0], good[1]}, *second = &sources[1]; \
        second->change; \
        expect_refused(sources, 2, why, 1); \
    } while (0)

/* The same, with an acknowledge register. */
#define REFUSED_WITH(why, change) \
    do { \
        apei_source sources[2] = {good[0], good[1]}, *second = &sources[1]; \
        second->type = 10; \
        second->write = 1; \
        second->ack = (apei_register){.width = 32, .access = 3, .address = 40}; \
        second->change; \
        expect_refused(sources, 2, why, 1); \
    } while (0)

static void refuse_for_each_reason(void)
{
    REFUSED(APEI_SOURCE_TYPE, type = 11);
    REFUSED(APEI_RESERVED, flags = 1);
    REFUSED(APEI_RESERVED, enabled = 2);
    REFUSED(APEI_PREALLOCATION, records = 0);
    REFUSED(APEI_PREALLOCATION, sections = 0);
    REFUSED(APEI_NOTIFICATION, notification.type = 12);
    REFUSED(APEI_NOTIFICATION, notification.length = 27);
    REFUSED(APEI_LENGTH, length = 19);
    REFUSED(APEI_LENGTH, length = 65537);
    REFUSED(APEI_PLACES, places = 0);
    REFUSED(APEI_PLACES, places = 65537);
    REFUSED(APEI_ADDRESS_REGISTER, address.space = 2);
    REFUSED(APEI_ADDRESS, block = UINT64_C(1) << 32);
    REFUSED(APEI_ZERO, block = 0);
    REFUSED(APEI_ALIGNMENT, block = 202);
    REFUSED(APEI_LATE, address.address = UINT64_MAX - 3);
    REFUSED(APEI_CLASH, block = 160);
    REFUSED(APEI_CLASH, address.address = 24);
    REFUSED(APEI_IDENTIFIER, id = 1);
    REFUSED_WITH(APEI_ACK_REGISTER, ack.width = 0);
    REFUSED_WITH(APEI_MASK, write = 0);
    REFUSED_WITH(APEI_MASK, write = UINT64_C(1) << 32);
    REFUSED_WITH(APEI_ALIGNMENT, ack.address = 42);
    REFUSED_WITH(APEI_CLASH, ack.address = 32);
    expect_refused(good, 0, APEI_COUNT, 99);
}

/* ---- A region ---- */

static void open_region(void)
{
    apei_boot boot = {0};
    apei_access access;
    uint8_t bytes[APEI_ACCESS_MAX];
    struct block block;
    for (heap.answered = 0; heap.answered < 2;) {
        unsigned answered = heap.answered;
        openings++;
        expect(apei_boot_open(&boot, 64, 1000) == APEI_MEMORY, "a region is opened without memory");
        expect_held(0, "a refused region keeps memory");
        heap.answered = answered + 1;
    }
    heap.answered = UINT_MAX;
    openings++;
    expect(apei_boot_open(&boot, 64, 1000) == APEI_OK && apei_boot_open(&boot, 64, 1000) == APEI_OPEN, "a region is not opened once");
    make_block(&block, 100);
    for (int i = 0; i < 3; i++) {
        while (apei_boot_access(&boot, &access, bytes) == APEI_OK)
            apei_boot_done(&boot);
        expect(apei_boot_lay(&boot, block.bytes, block.size) == APEI_OK, "a block is refused");
    }
    expect_held(2, "a region holds another number of blocks");
    expect(apei_boot_close(&boot) == APEI_OK, "a region is not closed");
    expect_held(0, "a close does not give all memory back");
}

int main(void)
{
    static struct world world;
    for (unsigned i = 0; i < WORLDS; i++) {
        seed(i);
        openings++;
        begin(&world);
        expect_held(blocks_of(&world), "sources hold another number of blocks");
        use(&world);
        end(&world);
        expect_held(0, "a close does not give all memory back");
        refuse_each_request(&world);
    }
    refuse_for_each_reason();
    open_region();
    printf("%u openings, %llu wrong\n", openings, tally.wrong);
    return tally.wrong == 0 ? 0 : 1;
}
