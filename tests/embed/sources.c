/*
 * Error sources of a hypervisor, and the guests that read them:
 *
 *     sources [SCHEDULES HOSTILE BLOCKS]
 *
 *   - SCHEDULES runs of a hypervisor and 1 to 3 guests, in any order of their steps, over memories of any bytes: each guest takes the
 *     submitted blocks whole, each once and in order, and is notified of each once; nothing is written while it reads;
 *   - HOSTILE runs with guests that write anything anywhere: each access stays in its source's parts, and behind a reset a guest
 *     takes the blocks again;
 *   - BLOCKS blocks for a guest in a thread of its own.
 *
 * Without words it is a hundredth of 1,000,000, 100,000 and 200,000. The last line says how many steps and blocks there were.
 */
#include "guests.h"

#include <stdio.h>
#include <stdlib.h>
#include <string.h>
#include <threads.h>

static struct guest *any_guest(struct world *world)
{
    return &world->guests[below(world->count)];
}

/* Steps in any order, with guests that keep to the reader's side. */
static void mingle(struct world *world, unsigned steps)
{
    while (steps-- > 0) {
        struct guest *guest = any_guest(world);
        switch (below(16)) {
        case 0: case 1: submit(world, guest); break;
        case 2: submit_bad(world, guest); break;
        case 3: case 4: case 5: case 6: case 7: case 8: read_on(guest); break;
        case 9: if (below(20) == 0) restart(world, guest); break;
        default: serve(world, guest); break;
        }
    }
}

/* Each guest reads on until it took all blocks, and its source rests. */
static void settle(struct world *world)
{
    for (unsigned i = 0; i < world->count; i++) {
        struct guest *guest = &world->guests[i];
        unsigned rounds = 0;
        while (rounds++ < 10000 && (guest->given_back < guest->submitted || guest->reader != LOOKS)) {
            serve(world, guest);
            read_on(guest);
        }
        expect(guest->taken == guest->submitted && !guest->awaits, "a guest did not take all blocks");
    }
}

static void schedule(uint64_t number)
{
    static struct world world;
    seed(number);
    begin(&world);
    mingle(&world, 100 + (unsigned)below(200));
    settle(&world);
    end(&world);
}

static void hostile(uint64_t number)
{
    static struct world world;
    unsigned steps;
    seed(~number);
    begin(&world);
    for (steps = 100 + (unsigned)below(200); steps-- > 0;) {
        struct guest *guest = any_guest(&world);
        switch (below(8)) {
        case 0: submit(&world, guest); break;
        case 1: submit_bad(&world, guest); break;
        case 2: case 3: scribble(); break;
        default: serve(&world, guest); break;
        }
    }
    for (unsigned i = 0; i < world.count; i++)
        restart(&world, &world.guests[i]);
    mingle(&world, 50);
    settle(&world);
    end(&world);
}

/* ---- A guest in a thread of its own ---- */

enum { SHOWN = 1000, ADDRESS = 16, ACK = 24 };

static _Alignas(8) uint8_t shared[2048];

static uint64_t make(const apei_access *access, const uint8_t *bytes)
{
    uint8_t *at = shared + access->address;
    uint64_t value = 0;
    if (access->kind == APEI_READ)
        return access->length == 8 ? __atomic_load_n((uint64_t *)(void *)at, __ATOMIC_ACQUIRE)
                                   : __atomic_load_n((uint32_t *)(void *)at, __ATOMIC_ACQUIRE);
    if (access->kind != APEI_WRITE)
        return 0;
    memcpy(&value, bytes, access->length < 8 ? access->length : 8);
    if (access->length == 8 && access->address % 8 == 0)
        __atomic_store_n((uint64_t *)(void *)at, value, __ATOMIC_RELEASE);
    else if (access->length == 4 && access->address % 4 == 0)
        __atomic_store_n((uint32_t *)(void *)at, (uint32_t)value, __ATOMIC_RELEASE);
    else
        memcpy(at, bytes, access->length);
    return 0;
}

/* A block that says its number at each of its bytes. */
static size_t numbered(uint8_t *block, uint64_t number)
{
    size_t raw = 1 + number % 300;
    memset(block, 0, 20);
    block[0] = 1;
    block[4] = 20;
    block[8] = (uint8_t)raw;
    block[9] = (uint8_t)(raw >> 8);
    for (size_t i = 0; i < raw; i++)
        block[20 + i] = (uint8_t)(number * 7 + i * (number % 5 + 1));
    return 20 + raw;
}

/* The reader's side: `data` is how many blocks it takes; it answers how many were others. */
static int read_all(void *data)
{
    uint64_t count = *(const uint64_t *)data, ack;
    uint8_t copy[400], block[400];
    int others = 0;
    for (uint64_t number = 0; number < count; number++) {
        size_t size = numbered(block, number);
        uint64_t at = __atomic_load_n((uint64_t *)(void *)(shared + ADDRESS), __ATOMIC_ACQUIRE);
        while (__atomic_load_n((uint32_t *)(void *)(shared + at), __ATOMIC_ACQUIRE) == 0)
            thrd_yield();
        memcpy(copy, shared + at, sizeof copy);
        others += block_length(copy) != size || memcmp(copy, block, size) != 0;
        __atomic_store_n((uint32_t *)(void *)(shared + at), 0, __ATOMIC_RELEASE);
        ack = __atomic_load_n((uint64_t *)(void *)(shared + ACK), __ATOMIC_ACQUIRE);
        __atomic_store_n((uint64_t *)(void *)(shared + ACK), ack | 1, __ATOMIC_RELEASE);
    }
    return others;
}

static bool serve_shared(apei_ghes *ghes)
{
    apei_access access;
    uint8_t bytes[APEI_ACCESS_MAX];
    while (apei_ghes_access(ghes, 0, &access, bytes) == APEI_OK)
        if (apei_ghes_done(ghes, 0, make(&access, bytes)) == APEI_WAITS)
            return false;
    return true;
}

static void serve_a_thread(uint64_t count)
{
    const apei_source source = {.type = 10, .related = 0xFFFF, .enabled = 1, .records = 1, .sections = 1, .length = 400, .places = 4,
        .notification = {.length = 28}, .block = SHOWN, .address = {.width = 64, .access = 4, .address = ADDRESS},
        .ack = {.width = 64, .access = 4, .address = ACK}, .preserve = ~UINT64_C(1), .write = 1};
    apei_ghes ghes = {0};
    uint64_t refused, submitted = 0;
    uint8_t block[400];
    thrd_t reader;
    int others = 0;
    memset(shared, 0xA5, sizeof shared);
    expect(apei_ghes_open(&ghes, &source, 1, &refused) == APEI_OK, "a source is refused");
    expect(serve_shared(&ghes), "a source does not rest at first");
    expect(thrd_create(&reader, read_all, &count) == thrd_success, "there is no thread");
    while (!serve_shared(&ghes) || submitted < count) {
        size_t size = numbered(block, submitted);
        if (submitted < count && apei_ghes_submit(&ghes, 0, block, size) == APEI_OK)
            submitted++;
        else
            thrd_yield();
    }
    thrd_join(reader, &others);
    expect(others == 0, "a guest in a thread of its own takes another block");
    tally.blocks += count;
    expect(apei_ghes_close(&ghes) == APEI_OK, "a source is not closed");
}

static unsigned long long number_of(const char *word)
{
    return strtoull(word, NULL, 10);
}

int main(int count, char **words)
{
    unsigned long long schedules = 10000, others = 1000, blocks = 2000;
    if (count == 4) {
        schedules = number_of(words[1]);
        others = number_of(words[2]);
        blocks = number_of(words[3]);
    }
    for (unsigned long long i = 0; i < schedules; i++)
        schedule(i);
    for (unsigned long long i = 0; i < others; i++)
        hostile(i);
    serve_a_thread(blocks);
    printf("%llu schedules, %llu hostile ones, %llu steps, %llu blocks taken, %llu notifications, %llu blocks refused as full, %llu wrong\n",
        schedules, others, tally.steps, tally.blocks, tally.notices, tally.full, tally.wrong);
    return tally.wrong == 0 ? 0 : 1;
}
