/*
 * Times an error source from C:
 *
 *     ./libapei --out=lib && cc -O2 -Ilib bench/sources.c -Llib -lapei -o sources && ./sources
 *
 * It writes nanoseconds of processor time for a block of 100, 172 and 892 bytes, the least of 200 runs: the call that takes the block
 * over, each access with the copy that the program makes of it, and the reader's two writes. Then that of one access more, as the
 * longest block has them: the two calls on it and its copy of 64 bytes. Then that of a source that rests, which is asked for an access.
 */
#define _POSIX_C_SOURCE 199309L

#include "apei.h"

#include <stdio.h>
#include <stdlib.h>
#include <string.h>
#include <time.h>

enum { RUNS = 200, BLOCKS = 2000, WINDOW = 1024, BLOCK = 64, ADDRESS = 16, ACK = 24 };

static _Alignas(8) uint8_t memory[BLOCK + WINDOW];
static apei_ghes ghes;
static unsigned long accesses;

static double now(void)
{
    struct timespec time;
    clock_gettime(CLOCK_PROCESS_CPUTIME_ID, &time);
    return (double)time.tv_sec * 1e9 + (double)time.tv_nsec;
}

static uint64_t make(const apei_access *access, const uint8_t *bytes)
{
    uint8_t *at = memory + access->address;
    uint64_t value = 0;
    if (access->kind == APEI_READ)
        return access->length == 8 ? __atomic_load_n((uint64_t *)(void *)at, __ATOMIC_ACQUIRE)
                                   : __atomic_load_n((uint32_t *)(void *)at, __ATOMIC_ACQUIRE);
    if (access->kind == APEI_NOTIFY)
        return 0;
    if (access->length == 64) {
        memcpy(at, bytes, 64);
    } else if (access->length == 8 && access->address % 8 == 0) {
        memcpy(&value, bytes, 8);
        __atomic_store_n((uint64_t *)(void *)at, value, __ATOMIC_RELEASE);
    } else if (access->length == 4) {
        memcpy(&value, bytes, 4);
        __atomic_store_n((uint32_t *)(void *)at, (uint32_t)value, __ATOMIC_RELEASE);
    } else {
        memcpy(at, bytes, access->length);
    }
    return 0;
}

static void serve(void)
{
    apei_access access;
    uint8_t bytes[APEI_ACCESS_MAX];
    while (apei_ghes_access(&ghes, 0, &access, bytes) == APEI_OK) {
        accesses++;
        if (apei_ghes_done(&ghes, 0, make(&access, bytes)) == APEI_WAITS)
            break;
    }
}

/* The reader's two writes. */
static void take(void)
{
    __atomic_store_n((uint32_t *)(void *)(memory + BLOCK), 0, __ATOMIC_RELEASE);
    __atomic_store_n((uint64_t *)(void *)(memory + ACK), 1, __ATOMIC_RELEASE);
}

static void put_number(uint8_t *at, uint32_t number)
{
    for (int i = 0; i < 4; i++)
        at[i] = (uint8_t)(number >> 8 * i);
}

/* A block with one entry. */
static void make_block(uint8_t *block, uint32_t size)
{
    memset(block, 0, size);
    put_number(block, 0x12);
    put_number(block + 12, size - 20);
    put_number(block + 16, 2);
    block[41] = 3;
    put_number(block + 44, size - 92);
}

static double time_blocks(const uint8_t *block, size_t size)
{
    double least = 0;
    for (int run = 0; run < RUNS; run++) {
        double start = now(), took;
        for (int i = 0; i < BLOCKS; i++) {
            if (apei_ghes_submit(&ghes, 0, block, size) != APEI_OK)
                exit(1);
            serve();
            take();
        }
        took = (now() - start) / BLOCKS;
        if (run == 0 || took < least)
            least = took;
    }
    serve();
    return least;
}

static double time_rest(void)
{
    double least = 0;
    apei_access access;
    uint8_t bytes[APEI_ACCESS_MAX];
    for (int run = 0; run < RUNS; run++) {
        double start = now(), took;
        for (int i = 0; i < BLOCKS; i++)
            if (apei_ghes_access(&ghes, 0, &access, bytes) != APEI_NONE)
                exit(1);
        took = (now() - start) / BLOCKS;
        if (run == 0 || took < least)
            least = took;
    }
    return least;
}

int main(void)
{
    static const uint32_t sizes[] = {100, 172, 892};
    const apei_source source = {.type = 10, .related = 0xFFFF, .enabled = 1, .records = 1, .sections = 1, .length = WINDOW, .places = 4,
        .notification = {.length = 28}, .block = BLOCK, .address = {.width = 64, .access = 4, .address = ADDRESS},
        .ack = {.width = 64, .access = 4, .address = ACK}, .preserve = ~UINT64_C(1), .write = 1};
    uint8_t block[WINDOW];
    uint64_t refused;
    double took[3];
    unsigned long each[3];
    if (apei_ghes_open(&ghes, &source, 1, &refused) != APEI_OK)
        return 1;
    serve();
    for (size_t i = 0; i < sizeof sizes / sizeof *sizes; i++) {
        unsigned long before = accesses;
        make_block(block, sizes[i]);
        took[i] = time_blocks(block, sizes[i]);
        each[i] = (accesses - before + RUNS * BLOCKS / 2) / (RUNS * BLOCKS);
        printf("a block of %u bytes: %.0f ns, with %lu accesses\n", sizes[i], took[i], each[i]);
    }
    printf("an access more: %.0f ns\n", (took[2] - took[1]) / (double)(each[2] - each[1]));
    printf("a source that rests: %.1f ns\n", time_rest());
    return apei_ghes_close(&ghes) == APEI_OK ? 0 : 1;
}
