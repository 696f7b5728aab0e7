/*
 * Checks how a run to an address ends and when it is refused: runs of a NOP at 4400 and a HLT at 4402, each with what it must answer and
 * leave, worked out by hand.
 *
 *     cc -std=c11 -I include examples/run_ends.c crates/embed/out/libembed.a -o run_ends
 *     ./run_ends
 *
 * The status is 0 where all of them do, and 1 where one does not. Standard error then says which, and what is wrong.
 */
#include <inttypes.h>
#include <stdbool.h>
#include <stdio.h>
#include <string.h>

#include "enclave.h"

_Static_assert(ENCLAVE_END_HALTED == 'H' && ENCLAVE_END_CLOCK == 'T' && ENCLAVE_END_ADDRESS == 'A' && ENCLAVE_END_SPENT == 'S',
               "the letters of the ends");
_Static_assert(ENCLAVE_DISTANCE == 5 && ENCLAVE_LANDMARK == 11 && ENCLAVE_CLOCK == 6, "the numbers of the refusals");

/* The word at FFFE is 4400. */
static const uint8_t image[ENCLAVE_MEMORY_SIZE] = {[0x4400] = 0x03, 0x43, 0x01, 0x00, [0xFFFE] = 0x00, 0x44};
static const struct enclave_layout layout = {.addresses = {0x8000, 0x8008, 0x8100, 0x8104, 0x4500}};
static uint8_t memory[ENCLAVE_MEMORY_SIZE];

/* What stands in end and steps before a call. A refused call leaves it there. */
enum { NO_END = '-', NO_STEPS = 77 };

/* A run and its answer. The machine before it stands at 4400, at this clock. */
struct run {
    const char *what;
    uint64_t clock;
    bool is_halted;
    uint16_t stop;
    uint64_t budget;
    enum enclave_refusal refusal;
    uint8_t end;
    uint64_t steps;
};

#define LAST ENCLAVE_LAST_CLOCK

static const struct run runs[] = {
    {"halted at the address", 0, true, 0x4400, 9, ENCLAVE_TAKEN, ENCLAVE_END_HALTED, 0},
    {"halted at the address, budget 0", 0, true, 0x4400, 0, ENCLAVE_TAKEN, ENCLAVE_END_HALTED, 0},
    {"HLT leads to the address", 0, false, 0x4404, 9, ENCLAVE_TAKEN, ENCLAVE_END_HALTED, 2},
    {"HLT leads to the address, budget spent", 0, false, 0x4404, 2, ENCLAVE_TAKEN, ENCLAVE_END_HALTED, 2},
    {"HLT goes past 2^62 to the address", LAST - 1, false, 0x4404, 9, ENCLAVE_TAKEN, ENCLAVE_END_HALTED, 2},
    {"a step past 2^62 to the address", LAST, false, 0x4402, 9, ENCLAVE_TAKEN, ENCLAVE_END_CLOCK, 1},
    {"a step past 2^62 to the address, budget spent", LAST, false, 0x4402, 1, ENCLAVE_TAKEN, ENCLAVE_END_CLOCK, 1},
    {"a step up to 2^62 to the address", LAST - 1, false, 0x4402, 9, ENCLAVE_TAKEN, ENCLAVE_END_ADDRESS, 1},
    {"at the address", 0, false, 0x4400, 9, ENCLAVE_TAKEN, ENCLAVE_END_ADDRESS, 0},
    {"at the address, budget 0", 0, false, 0x4400, 0, ENCLAVE_TAKEN, ENCLAVE_END_ADDRESS, 0},
    {"at the address, clock 2^62", LAST, false, 0x4400, 9, ENCLAVE_TAKEN, ENCLAVE_END_ADDRESS, 0},
    {"a step to the address", 0, false, 0x4402, 9, ENCLAVE_TAKEN, ENCLAVE_END_ADDRESS, 1},
    {"a step to the address, budget spent", 0, false, 0x4402, 1, ENCLAVE_TAKEN, ENCLAVE_END_ADDRESS, 1},
    {"budget 0 before the address", 0, false, 0x4402, 0, ENCLAVE_TAKEN, ENCLAVE_END_SPENT, 0},
    {"an address that is not met, in code", 0, false, 0x8000, 1, ENCLAVE_TAKEN, ENCLAVE_END_SPENT, 1},
    {"odd address", 0, false, 0x4401, 9, ENCLAVE_LANDMARK, NO_END, NO_STEPS},
    {"odd address, budget 0", 0, false, 0x4401, 0, ENCLAVE_LANDMARK, NO_END, NO_STEPS},
    {"odd address, largest budget", 0, false, 0xFFFF, 1000000, ENCLAVE_LANDMARK, NO_END, NO_STEPS},
    {"odd address, halted", 0, true, 0x4401, 9, ENCLAVE_LANDMARK, NO_END, NO_STEPS},
    {"odd address, clock above 2^62", LAST + 1, false, 0x4401, 9, ENCLAVE_LANDMARK, NO_END, NO_STEPS},
    {"odd address, clock above 2^62, halted", LAST + 1, true, 0x4401, 9, ENCLAVE_LANDMARK, NO_END, NO_STEPS},
    {"odd address, budget too large", 0, false, 0x4401, 1000001, ENCLAVE_DISTANCE, NO_END, NO_STEPS},
    {"odd address, budget too large, halted", 0, true, 0x4401, 1000001, ENCLAVE_DISTANCE, NO_END, NO_STEPS},
    {"even address, clock above 2^62", LAST + 1, false, 0x4400, 9, ENCLAVE_CLOCK, NO_END, NO_STEPS},
};

/* The machine before the run. */
static void set_up(struct enclave_machine *machine, const struct run *run)
{
    memset(machine, 0, sizeof *machine);
    enclave_machine_start(machine, image, sizeof image); /* memory is whole: it is not refused */
    machine->clock = run->clock;
    machine->halted = run->is_halted;
    machine->registers[5] = 0x5555;
}

/* The machine after it. NOP and HLT take one cycle and one word each. */
static void set_up_after(struct enclave_machine *machine, const struct run *run)
{
    set_up(machine, run);
    if (run->refusal != ENCLAVE_TAKEN || run->steps == 0)
        return;
    machine->clock += run->steps;
    machine->registers[0] = (uint16_t)(0x4400 + 2 * run->steps);
    machine->previous = machine->registers[0] - 2;
    machine->halted = run->end == ENCLAVE_END_HALTED;
}

/* Makes the run, and tells what is wrong with it, if something is. */
static bool is_right(const struct run *run)
{
    static const uint64_t no_stamps[1];
    struct enclave_trace trace = enclave_no_trace();
    struct enclave_machine machine, after;
    uint8_t end = NO_END;
    uint64_t steps = NO_STEPS;
    set_up(&machine, run);
    set_up_after(&after, run);
    memcpy(memory, image, sizeof memory);
    enum enclave_refusal refusal = enclave_machine_run_to(&machine, memory, sizeof memory, &layout, no_stamps, 0, &trace,
                                                          run->stop, run->budget, &end, &steps);
    bool is_answer = refusal == run->refusal && end == run->end && steps == run->steps;
    bool is_machine = memcmp(&machine, &after, sizeof machine) == 0;
    bool is_memory = memcmp(memory, image, sizeof memory) == 0;
    if (!is_answer)
        fprintf(stderr, "%s: refusal %d, end %c, steps %" PRIu64 " in the place of refusal %d, end %c, steps %" PRIu64 "\n",
                run->what, refusal, end, steps, run->refusal, run->end, run->steps);
    if (!is_machine)
        fprintf(stderr, "%s: the machine is another: clock %" PRIu64 ", pc %04" PRIX16 " in the place of clock %" PRIu64 ", pc %04" PRIX16 "\n",
                run->what, machine.clock, machine.registers[0], after.clock, after.registers[0]);
    if (!is_memory)
        fprintf(stderr, "%s: memory is changed\n", run->what);
    return is_answer && is_machine && is_memory;
}

int main(void)
{
    size_t wrong = 0, count = sizeof runs / sizeof *runs;
    for (size_t i = 0; i < count; i++)
        wrong += !is_right(&runs[i]);
    if (wrong == 0)
        printf("ends: %zu runs: ok\n", count);
    return wrong != 0;
}
