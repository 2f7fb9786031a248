/*
 * Linux's driver of error sources, as the reader of a hypervisor's sources:
 *
 *     schedules DRIVER [SCHEDULES [FAULT]]
 *
 * runs so many schedules (4,000). In each, 1 to 3 sources of any layout have blocks submitted. Before any access of Linux the accesses are
 * made that the library tells. Linux is told by timer, interrupt, hardware error device or NMI, binds again, panics, and is
 * stopped anywhere. It has to take each block that was submitted whole, once and in order. Then as many blocks are judged by both sides,
 * and the cases are played in which Linux does otherwise. What is wrong is told on standard error; the last line counts.
 */
#include "differences.h"
#include "linux.h"
#include "machine.h"
#ifdef STANDIN
#include "standin.h"
#endif

#include <stdio.h>
#include <stdlib.h>
#include <string.h>

static struct served *any_of(void)
{
    return &machine.served[below(machine.count)];
}

static void nothing(void) {}

/* Whether the hypervisor is told of a stop. */
static bool tells_stops;

/* A block status that is cleared byte by byte may be half clear for a source of type 9, and for a start of which nobody is told. */
static unsigned way_of_copies(void)
{
    return tells_stops && machine_is_of_ten() ? (unsigned)below(3) : BY_FOUR;
}

/* In the middle of what Linux does: the hypervisor's accesses, a block more, or an NMI. */
static void turn(void)
{
    for (uint64_t n = below(8); n > 4; n--)
        machine_serve(any_of());
    if (below(32) == 0)
        machine_submit(any_of());
    if (machine.nmi && !linux_is_in_nmi() && !linux_probes() && below(4) == 0) {
        machine.nmi = false;
        linux_nmi();
    }
}

/* Linux deals with one thing that has happened. */
static bool tell_linux(void)
{
    struct served *served = any_of();
    if (machine.nmi) {
        machine.nmi = false;
        return linux_does(NMI, 0) && (below(8) == 0 || linux_does(WORK, 0));
    }
    if (machine.device && below(2) == 0) {
        machine.device = false;
        return linux_does(DEVICE, 0);
    }
    if (machine.raised[served->source.notification.vector] && served->source.notification.type == 1) {
        machine.raised[served->source.notification.vector] = false;
        return linux_does(INTERRUPT, served->source.notification.vector);
    }
    if (served->source.notification.type == 0)
        return linux_does(TIMER, served->source.id);
    return linux_does(WORK, 0);
}

/* Linux starts again until it comes to the end of a start. The hypervisor is told of it; or not, if Linux was stopped. */
static void start_again(void)
{
    do {
        bool is_told = tells_stops || !machine.is_stopped;
        machine.is_stopped = false;
        counts.restarts++;
        for (unsigned i = 0; i < machine.count; i++) {
            struct served *served = &machine.served[i];
            if (!is_told)
                machine_not_told(served);
            if (is_told && below(2) == 0)
                while (machine_serve(served)) {}
            if (is_told || machine_is_stuck(served)) {
                counts.stuck += !is_told;
                machine_reset(served, is_told && below(2) == 0 ? APEI_FORGET : APEI_TELL_AGAIN);
            }
        }
        if (is_told && below(2) == 0)
            machine_scribble();
        machine_first_accesses();
    } while (!machine_start(way_of_copies()));
}

static void step(void)
{
    bool goes_on = true;
    switch (below(8)) {
    case 0: machine_submit(any_of()); break;
    case 1: case 2: case 3: machine_serve(any_of()); break;
    case 4:
        if (below(40) == 0) {
            counts.bindings++;
            goes_on = linux_does(WORK, 0) && linux_does(BIND_AGAIN, any_of()->source.id);
        }
        break;
    default: goes_on = tell_linux();
    }
    if (!goes_on)
        start_again();
}

/* Linux reads on until it has taken all blocks, and the sources rest. */
static void settle(void)
{
    bool is_left = true;
    machine.stop = 0;
    machine_turn = nothing;
    for (unsigned rounds = 0; is_left && rounds < 2000; rounds++) {
        is_left = false;
        for (unsigned i = 0; i < machine.count; i++) {
            struct served *served = &machine.served[i];
            while (machine_serve(served)) {}
            is_left |= served->taken < served->submitted || served->given_back < served->submitted;
        }
        if (!tell_linux())
            start_again();
        if (!linux_does(WORK, 0))
            start_again();
    }
    expect(!is_left, "Linux has not taken all blocks");
}

static void schedule(uint64_t number)
{
    seed(number);
    environment_start(number);
    machine_turn = nothing;
    tells_stops = below(2) == 0;
    machine_lay_out();
    machine_open();
    machine_first_accesses();
    machine_turn = turn;
    if (!machine_start(way_of_copies()))
        start_again();
    machine.stop_in = below(2) == 0 ? PHASES : (enum phase)below(PHASES);
    machine.stop = below(2) != 0 ? 0 : 1 + below(machine.stop_in == PHASES ? 2000 : 20);
    for (uint64_t steps = 100 + below(100); steps > 0; steps--)
        step();
    settle();
    machine_close();
}

/* ---- Blocks ---- */

#ifndef STANDIN
static unsigned long long both, neither, linux_alone;

/* Whether a block is one, for the library and for Linux: one that was drawn, of which some bytes are others. */
static void judge_block(void)
{
    static uint8_t room[1024];
    struct block block;
    uint32_t parts;
    apei_fault fault;
    bool is_one, is_one_of_linux;
    uint64_t length;
    make_block(&block, WINDOW);
    for (uint64_t n = below(3); n > 0; n--)
        block.bytes[4 + below(below(2) == 0 ? 12 : block.size - 4)] = (uint8_t)below(below(2) == 0 ? 4 : 256);
    memcpy(room, block.bytes, sizeof block.bytes);
    length = block_length(room);
    is_one = apei_check_block(room, block.size, &parts, &fault) == APEI_OK;
    is_one_of_linux = length >= 20 && length <= block.size && linux_takes_block(room);
    expect(is_one_of_linux || !is_one, "Linux does not take a block of the library");
    both += is_one && is_one_of_linux;
    neither += !is_one && !is_one_of_linux;
    linux_alone += !is_one && is_one_of_linux;
}

static void judge_blocks(unsigned long long count)
{
    seed(1);
    for (unsigned long long i = 0; i < count; i++)
        judge_block();
    printf("%llu blocks that both take, %llu that neither takes, %llu that Linux takes alone\n", both, neither, linux_alone);
}
#else
static void judge_blocks(unsigned long long count)
{
    (void)count;
}
#endif

int main(int count, char **words)
{
    unsigned long long schedules = count > 2 ? strtoull(words[2], NULL, 10) : 4000;
    bool has_fault = count > 3;
    if (count < 2)
        return 2;
    linux_load(words[1]);
#ifdef STANDIN
    standin_fault = has_fault ? (enum standin_fault)atoi(words[3]) : NO_FAULT;
#endif
    for (unsigned long long i = 0; i < schedules && !(has_fault && tally.wrong > 0); i++)
        schedule(i);
    if (!has_fault) {
        judge_blocks(schedules);
        tally.wrong += play_differences();
    }
    printf("%llu accesses of the hypervisor, %llu of Linux; %llu panics; stopped at rest %llu times, while it read a block %llu, before the "
           "block status was cleared %llu, before the acknowledge register was read %llu and written %llu; %llu starts anew, %llu bindings\n",
        tally.steps, counts.accesses, counts.panics, counts.stops[RESTS], counts.stops[READS], counts.stops[TOOK],
        counts.stops[CLEARED], counts.stops[ASKED], counts.restarts, counts.bindings);
    printf("%llu schedules, %llu blocks taken; behind stops and panics %llu were told again, %llu were acknowledged in an NMI and never dealt with, "
           "%llu forgotten, %llu sources stuck until a reset; %llu wrong\n",
        schedules, counts.taken, counts.again, counts.lost, counts.forgotten, counts.stuck, tally.wrong);
    return tally.wrong == 0 ? 0 : 1;
}
