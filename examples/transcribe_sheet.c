/*
 * Reads a bench sheet from standard input and prints the transcript of its run, which the library writes.
 *
 *     cc -std=c11 -I include examples/transcribe_sheet.c crates/embed/out/libembed.a -o transcribe_sheet
 *     ./transcribe_sheet < sheets/document-01.sheet
 */
#include <inttypes.h>
#include <stdio.h>
#include <stdlib.h>

#include "enclave.h"

/* One byte more than a sheet may have, so that a longer one is refused and not cut. */
static uint8_t sheet[ENCLAVE_SHEET_SIZE + 1];
static uint8_t page[65536];
static struct enclave_setup setup;

/* Prints the transcript page by page; answers a refusal, which a setup that was read does not meet. */
static enum enclave_refusal print_transcript(void)
{
    struct enclave_machine machine;
    struct enclave_trace trace = enclave_setup_trace(&setup);
    struct enclave_transcript transcript = {.budget = setup.budget};
    enum enclave_refusal refusal = enclave_machine_start(&machine, setup.memory, sizeof setup.memory);
    while (refusal == ENCLAVE_TAKEN && transcript.stage != ENCLAVE_COMPLETE) {
        uint64_t written = 0;
        refusal = enclave_machine_transcribe(&machine, setup.memory, sizeof setup.memory, &setup.layout, setup.stamps,
                                             setup.count, &trace, &transcript, page, sizeof page, &written);
        fwrite(page, 1, (size_t)written, stdout);
    }
    return refusal;
}

int main(void)
{
    uint64_t line;
    size_t size = fread(sheet, 1, sizeof sheet, stdin);
    if (ferror(stdin)) {
        perror("standard input");
        return EXIT_FAILURE;
    }
    enum enclave_refusal refusal = enclave_setup_read(&setup, sheet, size, &line);
    if (refusal != ENCLAVE_TAKEN) {
        printf("E\t%d\t%" PRIu64 "\n", (int)refusal, line);
    } else if ((refusal = print_transcript()) != ENCLAVE_TAKEN) {
        fprintf(stderr, "the machine is refused: %d\n", (int)refusal);
        return EXIT_FAILURE;
    }
    if (fflush(stdout) != 0 || ferror(stdout)) {
        perror("standard output");
        return EXIT_FAILURE;
    }
    return EXIT_SUCCESS;
}
