/*
 * The machine for programs in C: a 16-bit controller with one enclave module whose interrupts are padded.
 *
 * Link with crates/embed/out/libembed.a, which is for x86-64. It needs only memcpy and memset, from the C library. There is no global
 * state and no allocation: all that a function works on is lent by the caller, so the functions are thread-safe by construction. Threads
 * may call them at the same time on different machines; two calls on one machine or one memory must not run at the same time.
 *
 * Each function answers 0, or the number of the refusal (enum enclave_refusal), and a refusal leaves everything that was lent as it
 * came, but for the line that the sheet reader tells; enclave_fault alone answers a rule of the layout (enum enclave_rule). Any value of
 * any field is either meant or refused. What a caller owes is what C always asks: a pointer points to as much as its type or the size
 * beside it says, and no two parts that a call is lent overlap, unless it only reads them. Where a size is 0, the pointer must still not
 * be null.
 */
#ifndef ENCLAVE_H
#define ENCLAVE_H

#include <stddef.h>
#include <stdint.h>

/* The version of this header and of the Rust crate beside it; CHANGELOG.md says what each brought. */
#define ENCLAVE_VERSION "0.4.1"
#define ENCLAVE_VERSION_MAJOR 0
#define ENCLAVE_VERSION_MINOR 4
#define ENCLAVE_VERSION_PATCH 1

#ifdef __cplusplus
extern "C" {
#endif

/*
 * Memory has this many bytes; a sheet has at most so many bytes, a timetable so many stamps and a trace so many records, a run so many
 * steps, a line of a transcript so many bytes.
 */
enum {
    ENCLAVE_MEMORY_SIZE = 65536,
    ENCLAVE_SHEET_SIZE = 32768,
    ENCLAVE_STAMPS = 4096,
    ENCLAVE_BUDGET = 1000000,
    ENCLAVE_LINE_SIZE = 64
};

/* The last stamp, and the last clock value at which a machine steps: 2^62. */
#define ENCLAVE_LAST_CLOCK UINT64_C(0x4000000000000000)

/*
 * Why a call is refused. A call tries these in the order in which they stand here, as far as they concern what it takes: that is the order
 * of their numbers, but for ENCLAVE_TRACE, which comes right after ENCLAVE_TIMETABLE, and ENCLAVE_LANDMARK, right after ENCLAVE_DISTANCE.
 * The sheet reader tries ENCLAVE_SHEET first and then goes line by line, on a line ENCLAVE_LINE first.
 */
enum enclave_refusal {
    ENCLAVE_TAKEN = 0,     /* the call is not refused */
    ENCLAVE_MAP = 1,       /* memory isn't 65,536 bytes */
    ENCLAVE_FENCE = 2,     /* a rule of the layout is broken */
    ENCLAVE_TIMETABLE = 3, /* the stamps are too many, out of range or not rising */
    ENCLAVE_TRACE = 10,    /* the trace's stamps are too many, out of range or not rising, or its words are not equally many */
    ENCLAVE_FRAME = 4,     /* the state is one that no machine of this layout can be in */
    ENCLAVE_DISTANCE = 5,  /* the budget is above 1,000,000 */
    ENCLAVE_LANDMARK = 11, /* the stop address is odd */
    ENCLAVE_CLOCK = 6,     /* the clock is above 2^62 */
    ENCLAVE_LINE = 7,      /* a line of the sheet can't be read */
    ENCLAVE_SHEET = 8,     /* the sheet has more than 32,768 bytes */
    ENCLAVE_WORD = 9       /* no such instruction */
};

/* The rules of a layout: what the first one that is broken forbids. */
enum enclave_rule {
    ENCLAVE_UNBROKEN = 0,
    ENCLAVE_ODD = 1,     /* an address is odd */
    ENCLAVE_EMPTY = 2,   /* a start is not below its end */
    ENCLAVE_OVERLAP = 3, /* code and data have a byte in common */
    ENCLAVE_SERVICE = 4  /* the service address is in code or data */
};

/*
 * What a step did: its letter on a bench transcript. A machine that came from its start state by steps and runs with one layout, timetable
 * and trace keeps the twelve cycles: a request that fills the slot during an instruction inside (not a reset) or in the padding after a
 * return, with GIE set, reaches service exactly twelve cycles after its stamp. A state that a caller made up may have an older request
 * pending, whose service may start later.
 */
enum enclave_kind {
    ENCLAVE_RAN = 'R',
    ENCLAVE_PLAIN = 'I',   /* ran, and outside code was interrupted */
    ENCLAVE_PADDED = 'P',  /* the module was interrupted: service starts twelve cycles after the request, as above */
    ENCLAVE_CHAINED = 'C', /* RETI found another request waiting; the module stays held */
    ENCLAVE_BACK = 'B',    /* RETI took the machine back into the module */
    ENCLAVE_RESET = 'X',
    ENCLAVE_HALTED = 'H'
};

/* Why a step was a reset: the first of these that held. */
enum enclave_cause {
    ENCLAVE_NO_RESET = 0,
    ENCLAVE_EXECUTE = 1,     /* pc may not be executed from the previous instruction's address */
    ENCLAVE_REENTRY = 2,     /* pc is inside while a visit is held */
    ENCLAVE_FIRST_WORD = 3,  /* the first word doesn't begin an instruction */
    ENCLAVE_SECOND_SIDE = 4, /* the second word is not on the first word's side */
    ENCLAVE_SECOND_WORD = 5, /* the second word is wrong */
    ENCLAVE_INSIDE = 6,      /* HLT, IN or OUT inside */
    ENCLAVE_READ = 7,        /* a read is barred */
    ENCLAVE_WRITE = 8        /* a write is barred */
};

/*
 * Why a run stopped: the first of these that held before a step, also before the first one, in the order in which they stand here. A bench
 * transcript has their letters, but for ENCLAVE_END_ADDRESS: only enclave_run_to says that.
 */
enum enclave_end {
    ENCLAVE_END_HALTED = 'H',
    ENCLAVE_END_CLOCK = 'T',   /* the clock went above 2^62 */
    ENCLAVE_END_ADDRESS = 'A', /* pc is the stop address */
    ENCLAVE_END_SPENT = 'S'    /* the budget is spent */
};

/* What comes next on a transcript. Any other value is as ENCLAVE_COMPLETE. */
enum enclave_stage {
    ENCLAVE_HEADER_NEXT = 0,
    ENCLAVE_STEPS_NEXT = 1,
    ENCLAVE_COMPLETE = 2 /* nothing: the line of the end is written */
};

/* What an instruction may do to a byte: a sum of these. */
enum enclave_right {
    ENCLAVE_MAY_EXECUTE = 1,
    ENCLAVE_MAY_READ = 2,
    ENCLAVE_MAY_WRITE = 4
};

/* The rows of the table of instruction words. */
enum enclave_row {
    ENCLAVE_HLT = 0,
    ENCLAVE_IN = 1,        /* destination; its word is the trace's, or the clock's (struct enclave_trace) */
    ENCLAVE_OUT = 2,       /* source */
    ENCLAVE_JZ = 3,        /* source */
    ENCLAVE_RETI = 4,
    ENCLAVE_NOP = 5,
    ENCLAVE_JMP = 6,       /* source */
    ENCLAVE_MOV = 7,       /* source, destination */
    ENCLAVE_LOAD = 8,      /* MOV @source destination */
    ENCLAVE_STORE = 9,     /* MOV source 0(destination) */
    ENCLAVE_IMMEDIATE = 10,/* MOV #constant destination */
    ENCLAVE_ADD = 11,      /* source, destination, and so the next three */
    ENCLAVE_SUB = 12,
    ENCLAVE_CMP = 13,
    ENCLAVE_AND = 14,
    ENCLAVE_NOT = 15       /* destination */
};

/*
 * The state of a machine beside its memory. registers[0] is pc, [1] sp, [2] sr; [3] is 0. Where held is 0, the saved registers,
 * held_previous and held_age mean nothing and are not looked at. Where a call that is not refused leaves held at 0, it hands
 * held_previous and held_age back as 0, also if it makes no step, and the saved registers as 0 if it is start or makes a step. A call
 * that makes no step, of a halted machine, with budget 0 or at its stop address, hands everything else back as it came, the saved registers
 * too. The arrays in the unions are for the functions below.
 */
struct enclave_machine {
    uint16_t registers[16];
    uint16_t saved[16]; /* the registers of the held visit */
    union {
        struct {
            uint16_t previous;      /* the previous instruction's address */
            uint16_t halted;        /* 0 or 1; any other value is refused as ENCLAVE_FRAME */
            uint16_t held;          /* 0 or 1, whether a visit is held; any other value is refused as ENCLAVE_FRAME */
            uint16_t held_previous; /* the previous address that returns with the held visit */
            uint16_t held_age;      /* the request's age at the interrupt, which is the padding after return; 0 to 6 */
        };
        uint16_t control[5];
    };
    union {
        struct {
            uint64_t clock; /* cycles from the start */
            uint64_t slot;  /* the stamp of the pending request, not above the clock; 0 for none */
            uint64_t alarm; /* the stamp of the alarm, above the clock; 0 for none */
        };
        uint64_t time[3];
    };
};

/* The five addresses. Ends are exclusive, and code start is the entry. */
struct enclave_layout {
    union {
        struct {
            uint16_t code_start, code_end, data_start, data_end, service;
        };
        uint16_t addresses[5];
    };
};

/*
 * A ride trace: records, each a stamp and its word, in two lists that are equally long. The stamps are at most 4,096, strictly rising, each
 * 1 to 2^62. Where it has records, IN gives the word of the last one whose stamp is at most the clock at the instruction's start, and 0
 * before the first; where it has none, IN gives the clock's low 16 bits. Each record's stamp is a request too, as a stamp of the timetable
 * is; one that stands in both counts once. Lists that are no trace are refused as ENCLAVE_TRACE.
 */
struct enclave_trace {
    const uint64_t *stamps;
    size_t stamp_count;
    const uint16_t *words;
    size_t word_count;
};

/* One instruction. Registers are 0 to 15. Fields that its row does not name are not looked at in writing and 0 in reading. */
struct enclave_instruction {
    union {
        struct {
            uint16_t row, source, destination, constant;
        };
        uint16_t fields[4];
    };
};

/* What a sheet sets up. */
struct enclave_setup {
    struct enclave_layout layout;
    uint64_t budget;
    uint64_t count;                        /* of stamps */
    uint64_t records;                      /* of the trace, which enclave_setup_trace gives */
    uint64_t stamps[ENCLAVE_STAMPS];       /* the first count are the sheet's, the others stay as they were */
    uint64_t trace_stamps[ENCLAVE_STAMPS]; /* the first records are the sheet's, the others stay as they were; so also the words */
    uint16_t trace_words[ENCLAVE_STAMPS];
    uint8_t memory[ENCLAVE_MEMORY_SIZE];
};

/* How far a transcript has come. It begins with the budget of the run and 0 in the other fields. */
struct enclave_transcript {
    uint64_t budget; /* of all the parts together */
    uint64_t steps;  /* made so far */
    uint8_t stage;   /* enum enclave_stage */
};

/* The functions of the library. The inline functions below take the structs apart for them. */
uint8_t enclave_start(uint16_t registers[16], uint16_t saved[16], uint16_t control[5], uint64_t time[3],
                      const uint8_t *memory, size_t size);
uint8_t enclave_step(uint16_t registers[16], uint16_t saved[16], uint16_t control[5], uint64_t time[3],
                     uint8_t *memory, size_t size, const uint16_t layout[5], const uint64_t *stamps, size_t count,
                     const uint64_t *trace_stamps, size_t trace_count, const uint16_t *trace_words, size_t word_count,
                     uint8_t *kind, uint8_t *cause);
uint8_t enclave_run(uint16_t registers[16], uint16_t saved[16], uint16_t control[5], uint64_t time[3],
                    uint8_t *memory, size_t size, const uint16_t layout[5], const uint64_t *stamps, size_t count,
                    const uint64_t *trace_stamps, size_t trace_count, const uint16_t *trace_words, size_t word_count,
                    uint64_t budget, uint8_t *end, uint64_t *steps);
uint8_t enclave_run_to(uint16_t registers[16], uint16_t saved[16], uint16_t control[5], uint64_t time[3],
                       uint8_t *memory, size_t size, const uint16_t layout[5], const uint64_t *stamps, size_t count,
                       const uint64_t *trace_stamps, size_t trace_count, const uint16_t *trace_words, size_t word_count,
                       uint16_t stop, uint64_t budget, uint8_t *end, uint64_t *steps);
uint8_t enclave_transcribe(uint16_t registers[16], uint16_t saved[16], uint16_t control[5], uint64_t time[3],
                           uint8_t *memory, size_t memory_size, const uint16_t layout[5], const uint64_t *stamps,
                           size_t count, const uint64_t *trace_stamps, size_t trace_count,
                           const uint16_t *trace_words, size_t word_count, uint64_t budget, uint8_t *stage,
                           uint64_t *steps, uint8_t *out, size_t out_size, uint64_t *written);
uint8_t enclave_fault(const uint16_t layout[5]);
uint8_t enclave_access(const uint16_t layout[5], uint16_t from, uint16_t address, uint8_t *rights);
uint8_t enclave_read(uint16_t first, uint16_t second, uint16_t fields[4], uint8_t *length);
uint8_t enclave_write(const uint16_t fields[4], uint16_t *first, uint16_t *second, uint8_t *length);
uint8_t enclave_read_sheet(const uint8_t *sheet, size_t size, uint8_t memory[65536], uint64_t stamps[4096],
                           uint64_t trace_stamps[4096], uint16_t trace_words[4096], uint16_t layout[5],
                           uint64_t *count, uint64_t *records, uint64_t *budget, uint64_t *line);

/* The trace without records: IN gives the clock's low 16 bits, and no request comes of it. */
static inline struct enclave_trace enclave_no_trace(void)
{
    static const uint64_t stamps[1] = {0};
    static const uint16_t words[1] = {0};
    struct enclave_trace trace = {stamps, 0, words, 0};
    return trace;
}

/* The start state of a memory. Refusal 1. */
static inline enum enclave_refusal enclave_machine_start(struct enclave_machine *m, const uint8_t *memory, size_t size)
{
    return (enum enclave_refusal)enclave_start(m->registers, m->saved, m->control, m->time, memory, size);
}

/*
 * One step: its kind (enum enclave_kind) and, where that is ENCLAVE_RESET, its cause, else ENCLAVE_NO_RESET. Refusals 1, 2, 3, 10, 4, 6, in
 * this order.
 */
static inline enum enclave_refusal enclave_machine_step(struct enclave_machine *m, uint8_t *memory, size_t size,
                                                        const struct enclave_layout *layout, const uint64_t *stamps,
                                                        size_t count, const struct enclave_trace *trace,
                                                        uint8_t *kind, uint8_t *cause)
{
    return (enum enclave_refusal)enclave_step(m->registers, m->saved, m->control, m->time, memory, size,
                                              layout->addresses, stamps, count, trace->stamps, trace->stamp_count,
                                              trace->words, trace->word_count, kind, cause);
}

/*
 * Steps until the machine is halted, its clock is above 2^62 or the budget is spent: which of these (enum enclave_end), and the number
 * of steps made. It has no stop address: enclave_machine_run_to takes one. Refusals 1, 2, 3, 10, 4, 5, 6, in this order.
 */
static inline enum enclave_refusal enclave_machine_run(struct enclave_machine *m, uint8_t *memory, size_t size,
                                                       const struct enclave_layout *layout, const uint64_t *stamps,
                                                       size_t count, const struct enclave_trace *trace,
                                                       uint64_t budget, uint8_t *end, uint64_t *steps)
{
    return (enum enclave_refusal)enclave_run(m->registers, m->saved, m->control, m->time, memory, size,
                                             layout->addresses, stamps, count, trace->stamps, trace->stamp_count,
                                             trace->words, trace->word_count, budget, end, steps);
}

/*
 * The same with a stop address: steps until the machine is halted, its clock is above 2^62, its pc is the stop address or the budget is
 * spent, tested in this order before each step, also before the first. So a run that begins at its stop address ends there with 0 steps;
 * to get to the next time that pc is there, make one step first. What counts is pc before a step, wherever it came from: also the first
 * instruction of a service, or the one after a reset. The address of an instruction's second word is never met while that instruction
 * is executed, since pc is its first word's. Any even address is taken, also one in code or data. Up to its end the run makes the steps of
 * one without a stop address. Refusals 1, 2, 3, 10, 4, 5, 11, 6, in this order; 11 is an odd stop address, also on a halted machine.
 */
static inline enum enclave_refusal enclave_machine_run_to(struct enclave_machine *m, uint8_t *memory, size_t size,
                                                          const struct enclave_layout *layout, const uint64_t *stamps,
                                                          size_t count, const struct enclave_trace *trace,
                                                          uint16_t stop, uint64_t budget, uint8_t *end, uint64_t *steps)
{
    return (enum enclave_refusal)enclave_run_to(m->registers, m->saved, m->control, m->time, memory, size,
                                                layout->addresses, stamps, count, trace->stamps, trace->stamp_count,
                                                trace->words, trace->word_count, stop, budget, end, steps);
}

/*
 * The next part of a run's transcript: as many whole lines as there is room for, the machine going on with each line of a step. A line is
 * begun only where ENCLAVE_LINE_SIZE bytes are free, so out is lent at least as many; where it is shorter, no line is written and no step
 * made. written is the number of bytes; those behind them stay as they were. The transcript is whole once its stage is ENCLAVE_COMPLETE,
 * and a further call writes no line. Parts of any size give the same bytes. Refusals 1, 2, 3, 10, 4, 5, in this order; a clock above
 * 2^62 is not refused, but ends the transcript by ENCLAVE_END_CLOCK. At ENCLAVE_COMPLETE nothing is tested or refused; a stage above it
 * comes back as ENCLAVE_COMPLETE.
 */
static inline enum enclave_refusal enclave_machine_transcribe(struct enclave_machine *m, uint8_t *memory, size_t size,
                                                              const struct enclave_layout *layout,
                                                              const uint64_t *stamps, size_t count,
                                                              const struct enclave_trace *trace,
                                                              struct enclave_transcript *t, uint8_t *out,
                                                              size_t out_size, uint64_t *written)
{
    return (enum enclave_refusal)enclave_transcribe(m->registers, m->saved, m->control, m->time, memory, size,
                                                    layout->addresses, stamps, count, trace->stamps,
                                                    trace->stamp_count, trace->words, trace->word_count, t->budget,
                                                    &t->stage, &t->steps, out, out_size, written);
}

/* The first rule that a layout breaks, in the order of their numbers, or ENCLAVE_UNBROKEN, where it is accepted. Nothing is refused. */
static inline enum enclave_rule enclave_layout_fault(const struct enclave_layout *layout)
{
    return (enum enclave_rule)enclave_fault(layout->addresses);
}

/* What an instruction at one address may do to the byte at another: a sum of enclave_right. Refusal 2. */
static inline enum enclave_refusal enclave_layout_access(const struct enclave_layout *layout, uint16_t from,
                                                         uint16_t address, uint8_t *rights)
{
    return (enum enclave_refusal)enclave_access(layout->addresses, from, address, rights);
}

/* The instruction that two words begin with and its length in words. Refusal 9. */
static inline enum enclave_refusal enclave_instruction_read(struct enclave_instruction *i, uint16_t first, uint16_t second,
                                                            uint8_t *length)
{
    return (enum enclave_refusal)enclave_read(first, second, i->fields, length);
}

/* Exactly the instruction's words: one or two, by length; second is left alone where length is 1. Refusal 9. */
static inline enum enclave_refusal enclave_instruction_write(const struct enclave_instruction *i, uint16_t *first,
                                                             uint16_t *second, uint8_t *length)
{
    return (enum enclave_refusal)enclave_write(i->fields, first, second, length);
}

/* What a sheet sets up. Refusals 2, 3, 5, 7, 8, 10; line is then the refused line (from 1; 0 for refusal 8) and the only thing written. */
static inline enum enclave_refusal enclave_setup_read(struct enclave_setup *s, const uint8_t *sheet, size_t size,
                                                      uint64_t *line)
{
    return (enum enclave_refusal)enclave_read_sheet(sheet, size, s->memory, s->stamps, s->trace_stamps, s->trace_words,
                                                    s->layout.addresses, &s->count, &s->records, &s->budget, line);
}

/* The trace of a setup that was read: its T lines, without records where there is none. It points into the setup. */
static inline struct enclave_trace enclave_setup_trace(const struct enclave_setup *s)
{
    struct enclave_trace trace = {s->trace_stamps, (size_t)s->records, s->trace_words, (size_t)s->records};
    return trace;
}

#ifdef __cplusplus
}
#endif

#endif
