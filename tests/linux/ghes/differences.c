#include "differences.h"
#include "linux.h"
#include "machine.h"

#include <stdio.h>
#include <string.h>

enum { POLLED = 0, BY_NMI = 4, WINDOW_AT = 4096, REGISTERS = 1024, CORRECTED = 2 };

static struct served *const first = &machine.served[0], *const second = &machine.served[1];
static unsigned others, wrong;

static void nothing(void) {}

/* So many plain sources, which are not opened yet. */
static void lay_out(unsigned count, uint16_t type, uint8_t notification)
{
    memset(&machine, 0, sizeof machine);
    environment_start(1);
    machine_turn = nothing;
    machine.count = count;
    for (unsigned i = 0; i < count; i++)
        machine.served[i].source = (apei_source){.type = type, .id = (uint16_t)i, .related = 0xFFFF, .enabled = 1, .records = 1,
            .sections = 1, .length = WINDOW, .places = 4, .block = WINDOW_AT * (i + 1), .preserve = ~UINT64_C(1), .write = 1,
            .notification = {.type = notification, .length = 28, .poll_interval = 100},
            .address = {.width = 64, .access = 4, .address = REGISTERS + 16 * i},
            .ack = {.width = 64, .access = 4, .address = REGISTERS + 16 * i + 8}};
}

/* The sources are opened, and Linux runs. */
static void start(enum copies copies)
{
    machine_open();
    machine_first_accesses();
    if (machine_start(copies))
        return;
    puts("FAILED Linux does not start");
    wrong++;
}

static void go(struct served *served)
{
    while (machine_serve(served)) {}
}

/* A block with this status and severity, and its number at each byte. */
static void put(struct served *served, uint32_t status, uint8_t severity, uint8_t number)
{
    struct block *block = &served->blocks[served->submitted++ % KEPT];
    memset(block->bytes, number, sizeof block->bytes);
    memset(block->bytes, 0, 20);
    memcpy(block->bytes, &status, 4);
    block->bytes[4] = 20;
    block->bytes[8] = 100;
    block->bytes[16] = severity;
    block->size = 120;
    expect(apei_ghes_submit(&machine.ghes, (uint32_t)(served - machine.served), block->bytes, block->size) == APEI_OK, "a block is refused");
}

/* Linux polls and the hypervisor goes on, again and again. */
static void go_on(struct served *served)
{
    for (unsigned i = 0; i < 100; i++) {
        go(served);
        linux_does(TIMER, served->source.id);
    }
}

static void close_as(const char *name, bool is_as_written)
{
    printf("%s %s: taken %llu, given back %llu\n", is_as_written ? "ok" : "FAILED", name, (unsigned long long)first->taken,
        (unsigned long long)first->given_back);
    wrong += !is_as_written;
    machine_close();
}

/* ---- Registers ---- */

static void a_bit_offset_of_the_address(void)
{
    lay_out(1, 10, POLLED);
    first->source.address.width = 56;
    first->source.address.offset = 8;
    start(BY_FOUR);
    put(first, 1, CORRECTED, 1);
    go_on(first);
    close_as("the-address-has-a-bit-offset", linux_has(0) && first->taken == 0);
}

static void a_bit_offset_of_the_acknowledgement(void)
{
    lay_out(1, 10, POLLED);
    machine.is_strict = true;
    first->source.ack.width = 56;
    first->source.ack.offset = 8;
    first->source.preserve >>= 8;
    start(BY_FOUR);
    put(first, 1, CORRECTED, 1);
    go_on(first);
    close_as("the-acknowledge-register-has-a-bit-offset", first->taken == 1 && first->given_back == 1);
}

static void an_undefined_access(void)
{
    lay_out(1, 10, POLLED);
    first->source.address.access = 0;
    start(BY_FOUR);
    close_as("the-access-size-is-undefined", !linux_has(0));
}

static void an_address_in_ports(void)
{
    lay_out(1, 10, POLLED);
    first->source.address.space = 1;
    first->source.address.address = 64;
    start(BY_FOUR);
    put(first, 1, CORRECTED, 1);
    go_on(first);
    close_as("the-address-is-a-port-of-64-bits", linux_has(0) && first->taken == 0);
}

static void an_acknowledgement_in_ports(void)
{
    lay_out(1, 10, POLLED);
    first->source.ack.space = 1;
    first->source.ack.address = 64;
    start(BY_FOUR);
    put(first, 1, CORRECTED, 1);
    put(first, 1, CORRECTED, 2);
    go_on(first);
    close_as("the-acknowledge-register-is-a-port-of-64-bits", first->taken == 1 && first->given_back == 0);
}

/* ---- Blocks ---- */

static void the_same_block_twice(uint8_t notification, const char *name, uint64_t taken)
{
    lay_out(1, 10, notification);
    start(BY_FOUR);
    /* Until one is printed, no block is known again. */
    for (unsigned i = 0; i < 40; i++) {
        put(first, 1, CORRECTED, 1);
        go(first);
        linux_does(notification == BY_NMI ? NMI : TIMER, 0);
        linux_does(WORK, 0);
        go(first);
    }
    close_as(name, first->given_back == 40 && (taken != 0 ? first->taken == taken : first->taken < 40));
}

static void a_severity_above_three(void)
{
    lay_out(1, 10, POLLED);
    start(BY_FOUR);
    put(first, 1, 4, 1);
    go(first);
    bool ends = linux_does(TIMER, 0);
    go(first);
    close_as("a-severity-above-3-is-a-panic-behind-the-acknowledgement", !ends && first->taken == 1 && first->given_back == 1);
}

/* ---- Stops ---- */

static void stop_in(enum phase phase)
{
    put(first, 1, CORRECTED, 1);
    go(first);
    machine.stop_in = phase;
    machine.stop = 1;
    linux_does(TIMER, 0);
}

static void stopped_and_not_told(uint16_t type, enum phase phase, const char *name, uint64_t taken, uint64_t given_back)
{
    lay_out(1, type, POLLED);
    start(BY_FOUR);
    stop_in(phase);
    first->phase = RESTS;
    machine_start(BY_FOUR);
    go_on(first);
    close_as(name, first->taken == taken && first->given_back == given_back);
}

static void stopped_and_told(void)
{
    lay_out(1, 10, POLLED);
    start(BY_FOUR);
    stop_in(CLEARED);
    expect(apei_ghes_reset(&machine.ghes, 0, APEI_TELL_AGAIN) == APEI_OK, "a reset is refused");
    first->awaits = first->is_shown = false;
    first->phase = RESTS;
    go(first);
    machine_start(BY_FOUR);
    go_on(first);
    close_as("stopped-before-the-acknowledgement-and-reset", first->taken == 2 && first->given_back == 1);
}

static void reset_at_once(bool looks, const char *name, uint64_t taken)
{
    lay_out(1, 10, POLLED);
    start(BY_FOUR);
    put(first, 1, CORRECTED, 1);
    go(first);
    linux_does(TIMER, 0);
    if (looks)
        go(first);
    expect(apei_ghes_reset(&machine.ghes, 0, APEI_TELL_AGAIN) == APEI_OK, "a reset is refused");
    first->awaits = first->is_shown = false;
    go(first);
    machine_start(BY_FOUR);
    go_on(first);
    close_as(name, first->taken == taken);
}

/* ---- Accesses of two at once ---- */

/* The hypervisor goes on in the middle of Linux's copies. */
static void go_first(void)
{
    if (first->phase != READS)
        go(first);
}

static void a_status_cleared_by_bytes(uint16_t type, const char *name, bool is_altered)
{
    lay_out(1, type, POLLED);
    start(BY_ONE);
    others = 0;
    put(first, 1, CORRECTED, 1);
    put(first, 0x10101, CORRECTED, 2);
    go(first);
    machine_turn = go_first;
    linux_does(TIMER, 0);
    machine_turn = nothing;
    /* The second block stands there, with another status. */
    machine_takes_others = 0;
    go_on(first);
    close_as(name, (machine_takes_others > 0) == is_altered);
}

static void nmi_elsewhere(void)
{
    if (first->phase != READS || second->submitted > 0)
        return;
    put(second, 1, CORRECTED, 2);
    go(second);
    /* Another processor is told of it. */
    machine.nmi = false;
    others += linux_nmi();
}

static void an_nmi_on_another_processor(void)
{
    lay_out(2, 10, BY_NMI);
    start(BY_FOUR);
    put(first, 1, CORRECTED, 1);
    go(first);
    others = 0;
    machine_turn = nmi_elsewhere;
    linux_does(NMI, 0);
    machine_turn = nothing;
    linux_does(WORK, 0);
    go(second);
    bool is_left = second->awaits && second->taken == 0;
    linux_does(NMI, 0);
    linux_does(WORK, 0);
    go(second);
    close_as("an-nmi-on-another-processor-is-left-until-the-next-one", others == 0 && is_left && second->given_back == 1);
}

/* The source's own NMI, while it is probed: once Linux has read half of the block. */
static void nmi_within(void)
{
    if (!linux_probes() || first->phase != READS || linux_is_in_nmi() || others++ != 10)
        return;
    linux_nmi();
    go(first);
}

static void an_nmi_within_a_probe(void)
{
    lay_out(1, 10, BY_NMI);
    machine_open();
    put(first, 1, CORRECTED, 1);
    put(first, 1, CORRECTED, 2);
    put(first, 1, CORRECTED, 3);
    machine_first_accesses();
    others = 0;
    machine_takes_others = 0;
    machine_turn = nmi_within;
    machine_start(BY_FOUR);
    machine_turn = nothing;
    for (unsigned i = 0; i < 4; i++) {
        linux_does(WORK, 0);
        go(first);
        linux_does(NMI, 0);
    }
    linux_does(WORK, 0);
    go(first);
    close_as("an-nmi-of-a-source-within-its-probe-mixes-two-blocks", machine_takes_others > 0 && first->given_back == 3);
}

unsigned play_differences(void)
{
    a_bit_offset_of_the_address();
    a_bit_offset_of_the_acknowledgement();
    an_undefined_access();
    an_address_in_ports();
    an_acknowledgement_in_ports();
    the_same_block_twice(POLLED, "the-same-block-40-times", 40);
    the_same_block_twice(BY_NMI, "the-same-block-40-times-by-nmi", 0);
    a_severity_above_three();
    stopped_and_not_told(10, TOOK, "stopped-before-the-clearing", 2, 1);
    stopped_and_not_told(10, CLEARED, "stopped-before-the-acknowledgement", 1, 0);
    stopped_and_not_told(10, ASKED, "stopped-within-the-acknowledgement", 1, 0);
    stopped_and_not_told(9, TOOK, "stopped-before-the-clearing-of-type-9", 2, 1);
    stopped_and_told();
    reset_at_once(false, "reset-behind-the-acknowledgement", 2);
    reset_at_once(true, "reset-behind-the-look-for-it", 1);
    a_status_cleared_by_bytes(9, "a-status-cleared-by-bytes", true);
    a_status_cleared_by_bytes(10, "a-status-cleared-by-bytes-of-type-10", false);
    an_nmi_on_another_processor();
    an_nmi_within_a_probe();
    return wrong;
}
