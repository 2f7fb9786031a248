/*
 * The hypervisor's side of error sources, beside a QEMU whose guest's memory is a file:
 *
 *     apei-sources MEMORY SIZE HEST BERT BLOCKS
 *
 * makes the file of so many bytes, with a fatal block in a boot error region, and the two tables. It says `ready`, and makes the
 * accesses of two polled sources, of type 9 and type 10, until the guest has acknowledged so many blocks of each. Each block
 * has a section of a type that nobody knows, with a number: 1, 2, .. for type 9, and from 1,000,001 on for type 10.
 */
#include "apei.h"

#include <fcntl.h>
#include <stdio.h>
#include <stdlib.h>
#include <string.h>
#include <sys/mman.h>
#include <time.h>
#include <unistd.h>

/* What the guest's kernel is told to leave alone: 64 kB at 0xF000000. */
enum { SOURCES = 2, REGISTERS = 0xF000000, WINDOW = 0xF001000, REGION = 0xF008000, LENGTH = 4096, SECTION = 72, PATIENCE = 900 };

static uint8_t *memory;

static void check(int right, const char *what)
{
    if (right)
        return;
    fprintf(stderr, "apei-sources: %s\n", what);
    exit(1);
}

/* One access of the guest's memory. */
static uint64_t make(const apei_access *access, const uint8_t *bytes)
{
    uint8_t *at = memory + access->address;
    uint64_t value = 0;
    if (access->kind == APEI_NOTIFY)
        return 0;
    if (access->kind == APEI_READ)
        return access->length == 8 ? __atomic_load_n((uint64_t *)(void *)at, __ATOMIC_ACQUIRE)
                                   : __atomic_load_n((uint32_t *)(void *)at, __ATOMIC_ACQUIRE);
    memcpy(&value, bytes, access->length < 8 ? access->length : 8);
    if (access->length == 8 && access->address % 8 == 0)
        __atomic_store_n((uint64_t *)(void *)at, value, __ATOMIC_RELEASE);
    else if (access->length == 4 && access->address % 4 == 0)
        __atomic_store_n((uint32_t *)(void *)at, (uint32_t)value, __ATOMIC_RELEASE);
    else
        memcpy(at, bytes, access->length);
    return 0;
}

/* A block of one section, whose 8 bytes are a number. */
static size_t block_of(uint8_t *block, uint8_t severity, uint64_t number)
{
    /* A type of section that is none of the standard's. */
    static const char type[16] = "apei sources tes";
    memset(block, 0, 20 + SECTION + 8);
    block[0] = 0x12; /* one entry, corrected */
    block[12] = SECTION + 8;
    block[16] = severity;
    memcpy(block + 20, type, sizeof type);
    block[36] = severity;
    block[41] = 3;
    block[44] = 8;
    memcpy(block + 20 + SECTION, &number, 8);
    return 20 + SECTION + 8;
}

static void write_table(const char *name, const uint8_t *table, size_t size)
{
    FILE *file = fopen(name, "wb");
    check(file != NULL && fwrite(table, 1, size, file) == size && fclose(file) == 0, "a table can't be written");
}

static void lay_boot_block(const char *name)
{
    uint8_t block[128], bytes[APEI_ACCESS_MAX], table[APEI_BERT_SIZE];
    apei_boot boot = {0};
    apei_access access;
    check(apei_boot_open(&boot, REGION, LENGTH) == APEI_OK, "the region is refused");
    for (int laid = 0;; laid++) {
        while (apei_boot_access(&boot, &access, bytes) == APEI_OK) {
            make(&access, bytes);
            apei_boot_done(&boot);
        }
        if (laid == 1)
            break;
        check(apei_boot_lay(&boot, block, block_of(block, 1, 7)) == APEI_OK, "the fatal block is refused");
    }
    check(apei_boot_table(REGION, LENGTH, table) == APEI_OK, "there is no BERT");
    write_table(name, table, sizeof table);
    apei_boot_close(&boot);
}

static int rests(apei_ghes *ghes, uint32_t source)
{
    apei_access access;
    uint8_t bytes[APEI_ACCESS_MAX];
    while (apei_ghes_access(ghes, source, &access, bytes) == APEI_OK)
        if (apei_ghes_done(ghes, source, make(&access, bytes)) == APEI_WAITS)
            return 0;
    return 1;
}

int main(int count, char **words)
{
    static apei_source sources[SOURCES];
    apei_ghes ghes = {0};
    uint8_t table[APEI_HEST_SIZE], block[128];
    size_t size = 0;
    uint64_t refused, blocks, submitted[SOURCES] = {0};
    time_t begin = time(NULL);
    int file, are_done;
    check(count == 6, "apei-sources MEMORY SIZE HEST BERT BLOCKS");
    file = open(words[1], O_RDWR | O_CREAT | O_TRUNC, 0600);
    blocks = strtoull(words[5], NULL, 10);
    check(file >= 0 && ftruncate(file, strtoll(words[2], NULL, 10)) == 0, "the memory's file can't be made");
    memory = mmap(NULL, (size_t)strtoll(words[2], NULL, 10), PROT_READ | PROT_WRITE, MAP_SHARED, file, 0);
    check(memory != MAP_FAILED, "the memory's file can't be mapped");
    for (uint16_t i = 0; i < SOURCES; i++)
        sources[i] = (apei_source){.type = (uint16_t)(9 + i), .id = i, .related = 0xFFFF, .enabled = 1, .records = 1, .sections = 1,
            .notification = {.length = 28, .poll_interval = 10}, .length = LENGTH, .places = 4, .block = WINDOW + i * LENGTH,
            .address = {.width = 64, .access = 4, .address = REGISTERS + 16 * i},
            .ack = {.width = 64, .access = 4, .address = REGISTERS + 16 * i + 8}, .preserve = ~UINT64_C(1), .write = 1};
    check(apei_ghes_open(&ghes, sources, SOURCES, &refused) == APEI_OK, "the sources are refused");
    check(apei_ghes_table(&ghes, table, sizeof table, &size) == APEI_OK, "there is no HEST");
    write_table(words[3], table, size);
    lay_boot_block(words[4]);
    for (uint32_t i = 0; i < SOURCES; i++)
        rests(&ghes, i);
    puts("ready");
    fflush(stdout);
    do {
        are_done = 1;
        for (uint32_t i = 0; i < SOURCES; i++) {
            while (submitted[i] < blocks
                && apei_ghes_submit(&ghes, i, block, block_of(block, 2, 1000000 * i + submitted[i] + 1)) == APEI_OK)
                submitted[i]++;
            are_done &= rests(&ghes, i) && submitted[i] == blocks;
        }
        nanosleep(&(struct timespec){.tv_nsec = 1000000}, NULL);
    } while (!are_done && time(NULL) - begin < PATIENCE);
    printf("%s\n", are_done ? "all acknowledged" : "not all acknowledged");
    return are_done ? 0 : 1;
}
