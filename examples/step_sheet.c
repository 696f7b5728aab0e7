/*
 * Reads a bench sheet from standard input, steps its machine and prints the transcript.
 *
 *     cc -std=c11 -I include examples/step_sheet.c crates/embed/out/libembed.a -o step_sheet
 *     ./step_sheet < sheets/document-01.sheet
 */
#include <inttypes.h>
#include <stdbool.h>
#include <stdio.h>
#include <stdlib.h>

#include "enclave.h"

/* One byte more than a sheet may have, so that a longer one is refused and not cut. */
static uint8_t sheet[ENCLAVE_SHEET_SIZE + 1];
static struct enclave_setup setup;

/* Tells why no further step is made, if none is. */
static bool has_ended(const struct enclave_machine *machine, uint64_t steps, enum enclave_end *end)
{
    if (machine->halted) {
        *end = ENCLAVE_END_HALTED;
        return true;
    }
    if (machine->clock > ENCLAVE_LAST_CLOCK) {
        *end = ENCLAVE_END_CLOCK;
        return true;
    }
    *end = ENCLAVE_END_SPENT;
    return steps == setup.budget;
}

/* Prints the line of one step. */
static void print_step(const struct enclave_machine *machine, uint64_t step, uint8_t kind)
{
    printf("%" PRIu64 "\t%c\t%" PRIu64 "\t%04" PRIX16 "\t%04" PRIX16 "\n", step, kind, machine->clock,
           machine->registers[0], machine->registers[2]);
}

/* Steps the machine of the setup to its end; answers a refusal, which a setup that was read does not meet. */
static enum enclave_refusal step_setup(void)
{
    struct enclave_machine machine;
    struct enclave_trace trace = enclave_setup_trace(&setup);
    enum enclave_end end;
    uint64_t steps = 0;
    uint8_t kind, cause;
    enum enclave_refusal refusal = enclave_machine_start(&machine, setup.memory, sizeof setup.memory);
    if (refusal != ENCLAVE_TAKEN)
        return refusal;
    puts("step\tkind\tclock\tpc\tsr");
    while (!has_ended(&machine, steps, &end)) {
        refusal = enclave_machine_step(&machine, setup.memory, sizeof setup.memory, &setup.layout, setup.stamps,
                                       setup.count, &trace, &kind, &cause);
        if (refusal != ENCLAVE_TAKEN)
            return refusal;
        steps++;
        print_step(&machine, steps, kind);
    }
    printf("%c\t%" PRIu64 "\t%" PRIu64 "\n", (int)end, steps, machine.clock);
    return ENCLAVE_TAKEN;
}

int main(void)
{
    uint64_t line;
    size_t size = fread(sheet, 1, sizeof sheet, stdin);
    if (ferror(stdin)) {
        perror("standard input");
        return EXIT_FAILURE;
    }
    enum enclave_refusal refusal = enclave_setup_read(&setup, sheet, size, &line);
    if (refusal != ENCLAVE_TAKEN) {
        printf("E\t%d\t%" PRIu64 "\n", (int)refusal, line);
    } else if ((refusal = step_setup()) != ENCLAVE_TAKEN) {
        fprintf(stderr, "the machine is refused: %d\n", (int)refusal);
        return EXIT_FAILURE;
    }
    if (fflush(stdout) != 0) {
        perror("standard output");
        return EXIT_FAILURE;
    }
    return EXIT_SUCCESS;
}
