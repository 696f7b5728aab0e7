/*
 * Reads a bench sheet from standard input, runs its image from landmark to landmark and prints where it stands at each.
 *
 *     cc -std=c11 -I include examples/run_landmarks.c crates/embed/out/libembed.a -o run_landmarks
 *     ./run_landmarks 8000 4500 8006 4600 < sheets/document-01.sheet
 *
 * A landmark is an even address, in one to four hexadecimal digits. The image runs until pc is the first landmark before a step, from there
 * to the second, and so on; the same landmark twice in a row means the next time that pc is there. The sheet's budget is that of the
 * whole run. Where the run ends before a landmark is met (halted, clock or spent), the line of that is the last.
 *
 * A line says the landmark, the end (A where it was met), the steps and the clock since the start, and all sixteen registers: pc is r0, sp
 * is r1, sr is r2. On the bench's transcript the line with that number of steps shows the same clock, pc and sr.
 *
 * The status is 0 where every landmark was met, 1 where the run ended before one was, and 2 after bad usage, a refused sheet, or a read or
 * write that failed. Where it is not 0, standard error says why.
 */
#include <ctype.h>
#include <inttypes.h>
#include <stdbool.h>
#include <stdio.h>
#include <stdlib.h>
#include <string.h>

#include "enclave.h"

enum { ALL_MET = 0, NOT_MET = 1, FAILED = 2 };

/* One byte more than a sheet may have, so that a longer one is refused and not cut. */
static uint8_t sheet[ENCLAVE_SHEET_SIZE + 1];
static struct enclave_setup setup;
static struct enclave_machine machine;
static uint64_t steps; /* made so far */

/* What is wrong, and what to do. */
static const char *advice(enum enclave_refusal refusal)
{
    switch (refusal) {
    case ENCLAVE_FENCE:
        return "a rule of the layout is broken: make all five addresses even, each start lower than its end, code and data apart, and the "
               "service address outside of both";
    case ENCLAVE_TIMETABLE:
        return "the stamps are more than 4,096, not rising, or not 1 to 2^62: sort them and drop doubles";
    case ENCLAVE_TRACE:
        return "the trace's stamps are more than 4,096, not rising, or not 1 to 2^62, or its words are not equally many: sort the records, "
               "drop doubles, and give each stamp one word";
    case ENCLAVE_DISTANCE:
        return "the budget is above 1,000,000: run more than once";
    case ENCLAVE_LANDMARK:
        return "the stop address is odd, and pc is always even: give the address of an instruction's first word";
    case ENCLAVE_LINE:
        return "this line cannot be read: L comes first and G last, fields are parted by one tab, each line ends with a newline, addresses "
               "and words are four hexadecimal digits in capitals, an M address is even, decimals have at most 19 digits and no leading "
               "zero";
    case ENCLAVE_SHEET:
        return "the sheet has more than 32,768 bytes: shorten it; memory that no line names is 0";
    default: /* no sheet that was read, with an even stop address, is refused by another number */
        return "the machine is refused: take the library that this header is for";
    }
}

/* The address that an argument says: one to four hexadecimal digits. */
static bool read_address(const char *text, uint16_t *address)
{
    size_t length = strlen(text);
    for (size_t i = 0; i < length; i++)
        if (!isxdigit((unsigned char)text[i]))
            return false;
    *address = (uint16_t)strtoul(text, NULL, 16);
    return length >= 1 && length <= 4;
}

/* Tells what is wrong with the landmarks, if something is. */
static bool are_landmarks(int count, char *const *landmarks)
{
    uint16_t address;
    if (count < 1) {
        fputs("no landmark: give one or more even addresses, as in 8000 4500, and the sheet on standard input\n", stderr);
        return false;
    }
    for (int i = 0; i < count; i++) {
        if (!read_address(landmarks[i], &address)) {
            fprintf(stderr, "landmark %s: it is no address: give one to four hexadecimal digits, as in 8000\n", landmarks[i]);
            return false;
        }
        if (address % 2 != 0) {
            fprintf(stderr, "landmark %s: %s\n", landmarks[i], advice(ENCLAVE_LANDMARK));
            return false;
        }
    }
    return true;
}

/* Reads the sheet and starts its machine; tells why not, if it can't. */
static bool start_sheet(void)
{
    uint64_t line;
    size_t size = fread(sheet, 1, sizeof sheet, stdin);
    if (ferror(stdin)) {
        perror("standard input");
        return false;
    }
    enum enclave_refusal refusal = enclave_setup_read(&setup, sheet, size, &line);
    if (refusal != ENCLAVE_TAKEN) {
        if (line > 0)
            fprintf(stderr, "line %" PRIu64 ": ", line);
        fprintf(stderr, "%s\n", advice(refusal));
        return false;
    }
    refusal = enclave_machine_start(&machine, setup.memory, sizeof setup.memory);
    if (refusal != ENCLAVE_TAKEN)
        fprintf(stderr, "%s\n", advice(refusal));
    return refusal == ENCLAVE_TAKEN;
}

/*
 * Runs on to the landmark, and says why it stopped. A run that begins at its stop address ends there at once: where the last landmark was
 * the same, one step is made first, by a run that has no stop address.
 */
static enum enclave_refusal run_on(uint16_t landmark, bool is_same, uint8_t *end)
{
    struct enclave_trace trace = enclave_setup_trace(&setup);
    enum enclave_refusal refusal;
    uint64_t made = 0;
    if (is_same) {
        uint64_t one = steps < setup.budget ? 1 : 0;
        refusal = enclave_machine_run(&machine, setup.memory, sizeof setup.memory, &setup.layout, setup.stamps, setup.count,
                                      &trace, one, end, &made);
        steps += made;
        if (refusal != ENCLAVE_TAKEN || made == 0 || *end != ENCLAVE_END_SPENT)
            return refusal;
        made = 0;
    }
    refusal = enclave_machine_run_to(&machine, setup.memory, sizeof setup.memory, &setup.layout, setup.stamps, setup.count,
                                     &trace, landmark, setup.budget - steps, end, &made);
    steps += made;
    return refusal;
}

/* Prints where the machine stands. */
static void print_place(uint16_t landmark, uint8_t end)
{
    printf("%04" PRIX16 "\t%c\t%" PRIu64 "\t%" PRIu64, landmark, end, steps, machine.clock);
    for (int i = 0; i < 16; i++)
        printf("\t%04" PRIX16, machine.registers[i]);
    putchar('\n');
}

/* Tells, after what is printed so far, that the run ended before the landmark was met. */
static void tell_unmet(uint16_t landmark, uint8_t end)
{
    const char *why = end == ENCLAVE_END_HALTED  ? "the machine halted before"
                      : end == ENCLAVE_END_CLOCK ? "the clock went above 2^62 before"
                                                 : "the sheet's budget was spent before";
    if (fflush(stdout) == 0)
        fprintf(stderr, "landmark %04" PRIX16 " was not met: %s\n", landmark, why);
}

/* Runs from landmark to landmark, up to the first that is not met. */
static int run_landmarks(int count, char *const *landmarks)
{
    uint16_t landmark = 0, last = 0;
    puts("landmark\tend\tsteps\tclock\tpc\tsp\tsr\tr3\tr4\tr5\tr6\tr7\tr8\tr9\tr10\tr11\tr12\tr13\tr14\tr15");
    for (int i = 0; i < count; i++) {
        uint8_t end;
        read_address(landmarks[i], &landmark); /* are_landmarks has tried it */
        enum enclave_refusal refusal = run_on(landmark, i > 0 && landmark == last, &end);
        if (refusal != ENCLAVE_TAKEN) {
            fprintf(stderr, "%s\n", advice(refusal));
            return FAILED;
        }
        print_place(landmark, end);
        if (end != ENCLAVE_END_ADDRESS) {
            tell_unmet(landmark, end);
            return NOT_MET;
        }
        last = landmark;
    }
    return ALL_MET;
}

int main(int count, char **arguments)
{
    if (!are_landmarks(count - 1, arguments + 1) || !start_sheet())
        return FAILED;
    int status = run_landmarks(count - 1, arguments + 1);
    if (fflush(stdout) != 0 || ferror(stdout)) {
        perror("standard output");
        return FAILED;
    }
    return status;
}
