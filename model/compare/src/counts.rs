//! How often each kind, cause, end, refusal and event occurred. A count of 0 is a failure.

use crate::frames::FAULTS;
use crate::landmarks;
use crate::rides::WAYS;

/// What the comparison must have met beside kinds, causes, ends and refusals.
#[derive(Clone, Copy)]
pub enum Event {
    Entered,
    PaddedAfterReturn,
    Nested,
    Alarm,
    InClock,
    InBefore,
    InBetween,
    InLast,
    InAtRecord,
    InDue,
    RecordPlain,
    RecordPadded,
    RecordReturned,
    RecordChained,
    RecordMerged,
    RecordAtStamp,
    RecordLost,
    FullTrace,
    ThreeBeforeTen,
    TenBeforeFour,
    Merged,
    PendingAtService,
    AgeCapped,
    BarredStack,
    Wrapped,
    HaltedAlready,
    DroppedVisit,
    OwnReset,
    BothEnds,
    Touching,
    ServiceBeside,
    ServiceLast,
    PreviousInData,
    NearLimit,
    EmptyRun,
    LongRun,
    Met,
    MetAtOnce,
    MetWithout,
    MetAsSpent,
    MetInPlain,
    MetInPadded,
    MetAfterReset,
    MetInside,
    MetInData,
    MetAtZero,
    MetAtLimit,
    NeverMet,
    ClockThere,
    HaltedThere,
    StepToHalt,
    OnFromThere,
    OddHalted,
    OddLate,
    SheetTaken,
    SheetRefused,
    FullSheet,
    FullTimetable,
    SheetWithRecords,
    SheetRefusedByTen,
    Transcript,
    TranscriptWithRecords,
    Pair,
    PairWithRecords,
    PairWithVisit,
    PairWithPadded,
    PairWithRecordPadded,
    PairWithStop,
    ListedStop,
    EquallyMany,
    Sighting,
    CyclesLaw,
    TwelveLaw,
    TwelveAfterReturn,
    TwelveRecord,
    WordLaw,
    OnceLaw,
    DurationLaw,
    RunLaw,
    StopLaw,
    NoWord,
    OneWord,
    TwoWords,
    WordExecuted,
    NoWordExecuted,
    Question,
}

const EVENTS: [&str; 86] = [
    "visit entered",
    "padded right after return padding",
    "plain interrupt while a visit is held",
    "alarm request",
    "IN without a trace",
    "IN before the first record",
    "IN between two records",
    "IN from the last record",
    "IN with a record at the clock of its start",
    "IN with a record due in its own cycles",
    "record served plain",
    "record served padded",
    "record of the return padding served padded",
    "record served chained",
    "record merged in the padding",
    "record at a timetable stamp",
    "record lost in a reset",
    "call with 4,096 records",
    "timetable and trace wrong: 3",
    "trace and frame wrong: 10",
    "request merged in the padding",
    "request pending as service starts",
    "age capped at 6",
    "plain interrupt barred (X 8 after the instruction)",
    "plain interrupt with sp wrapping",
    "step on a halted machine",
    "held visit dropped by a reset",
    "reset in code or data, none held",
    "layout: sections at both ends of memory",
    "layout: sections touch",
    "layout: service address beside a section",
    "layout: service address FFFE",
    "previous address in data",
    "clock within 3,000 of 2^62",
    "run with budget 0",
    "run with budget 1,000,000",
    "run ended at its stop address",
    "stop address met before the first step",
    "stop address met with budget 0",
    "stop address met as the budget is spent",
    "stop address met as a plain service starts",
    "stop address met as a padded or chained service starts",
    "stop address met after a reset",
    "stop address met inside",
    "stop address met in data",
    "stop address met at 0",
    "stop address met at the clock 2^62",
    "stop address never met",
    "clock above 2^62 at the stop address: T",
    "halted at the stop address: H",
    "halted by a step to the stop address: H",
    "run or step on from the stop address",
    "odd stop address on a halted machine: 11",
    "odd stop address and clock above 2^62: 11",
    "sheet taken",
    "sheet refused",
    "sheet of 32,768 bytes taken",
    "sheet of 4,096 stamps taken",
    "sheet with T lines taken",
    "sheet refused by 10",
    "transcript of the bench program",
    "transcript of a sheet with T lines",
    "secrecy: pairs",
    "secrecy: pairs that share a trace",
    "secrecy: pairs with an ended visit",
    "secrecy: pairs with an ended visit and a padded interrupt",
    "secrecy: pairs with an ended visit and a padded record",
    "secrecy: pairs with a run that ended at its stop address",
    "secrecy: runs with a stop address in the lists",
    "secrecy: tests of equally many sightings",
    "secrecy: sightings compared",
    "law: 1 to 23 cycles",
    "law: twelve cycles, instruction inside",
    "law: twelve cycles, return padding",
    "law: twelve cycles after a record",
    "law: IN's word from a trace",
    "law: records' stamps in the timetable change nothing",
    "law: duration of an ended visit",
    "law: run of n is n steps",
    "law: run to an address and on is the run without",
    "first words that begin no instruction",
    "first words read as one-word instructions",
    "first words read as two-word instructions",
    "first words executed, in steps and runs",
    "first words executed that begin no instruction",
    "read, write, access",
];

const KINDS: &[u8; 7] = b"RIPCBXH";
const ENDS: &[u8; 4] = b"HTAS";

pub const ROWS: [&str; 16] = [
    "HLT", "IN", "OUT", "JZ", "RETI", "NOP", "JMP", "MOV", "MOV@", "MOV0()", "MOV#", "ADD", "SUB",
    "CMP", "AND", "NOT",
];

#[derive(Clone)]
pub struct Counts {
    pub worlds: u64,
    pub calls: u64,
    pub steps: u64,
    /// The steps of step calls: after each, all was compared.
    pub one_by_one: u64,
    /// Calls without a step that left the saved registers as they came where nothing is held.
    pub noise_kept: u64,
    kinds: [u64; 7],
    causes: [u64; 8],
    ends: [u64; 4],
    refusals: [u64; 11],
    faults: [u64; FAULTS.len()],
    ways: [u64; WAYS.len()],
    before_landmark: [u64; landmarks::BEFORE.len()],
    rows_inside: [u64; 16],
    rows_elsewhere: [u64; 16],
    /// The first words that were read in each row.
    rows_read: [u64; 16],
    events: [u64; EVENTS.len()],
}

impl Counts {
    pub fn new() -> Counts {
        Counts {
            worlds: 0,
            calls: 0,
            steps: 0,
            one_by_one: 0,
            noise_kept: 0,
            kinds: [0; 7],
            causes: [0; 8],
            ends: [0; 4],
            refusals: [0; 11],
            faults: [0; FAULTS.len()],
            ways: [0; WAYS.len()],
            before_landmark: [0; landmarks::BEFORE.len()],
            rows_inside: [0; 16],
            rows_elsewhere: [0; 16],
            rows_read: [0; 16],
            events: [0; EVENTS.len()],
        }
    }

    pub fn kind(&mut self, kind: u8, cause: u8) {
        if let Some(place) = KINDS.iter().position(|&letter| letter == kind) {
            self.kinds[place] += 1;
        }
        if (1..=8).contains(&cause) {
            self.causes[cause as usize - 1] += 1;
        }
    }

    pub fn end(&mut self, end: u8) {
        if let Some(place) = ENDS.iter().position(|&letter| letter == end) {
            self.ends[place] += 1;
        }
    }

    pub fn refusal(&mut self, number: u8) {
        if (1..=11).contains(&number) {
            self.refusals[number as usize - 1] += 1;
        }
    }

    pub fn fault(&mut self, fault: usize) {
        self.faults[fault] += 1;
    }

    pub fn way(&mut self, way: usize) {
        self.ways[way] += 1;
    }

    /// An odd stop address with an earlier refusal, by the place of that.
    pub fn before_landmark(&mut self, place: usize) {
        self.before_landmark[place] += 1;
    }

    /// A row that ran, inside or elsewhere.
    pub fn row(&mut self, row: usize, inside: bool) {
        let rows = if inside {
            &mut self.rows_inside
        } else {
            &mut self.rows_elsewhere
        };
        rows[row] += 1;
    }

    /// The first words of a pass over all of them, by row.
    pub fn first_words(&mut self, rows: &[u64; 16]) {
        for (count, times) in self.rows_read.iter_mut().zip(rows) {
            *count += times;
        }
    }

    pub fn event(&mut self, event: Event) {
        self.events[event as usize] += 1;
    }

    pub fn events(&mut self, event: Event, times: u64) {
        self.events[event as usize] += times;
    }

    /// Every count with its name; the names of a group are short, or each is a line by itself.
    fn groups(&self) -> Vec<Group> {
        let letter = |word: &str, letters: &[u8]| -> Vec<String> {
            let name = |letter: &u8| format!("{word} {}", *letter as char);
            letters.iter().map(name).collect()
        };
        let number = |word: &str, most: usize| -> Vec<String> {
            (1..=most)
                .map(|number| format!("{word} {number}"))
                .collect()
        };
        let named = |word: &str, names: &[&str]| -> Vec<String> {
            names.iter().map(|name| format!("{word}{name}")).collect()
        };
        let earlier = landmarks::BEFORE
            .iter()
            .map(|number| format!("odd stop address refused by {number} before"))
            .collect();
        vec![
            group(true, letter("kind", KINDS), &self.kinds),
            group(true, number("cause", 8), &self.causes),
            group(true, letter("end", ENDS), &self.ends),
            group(true, number("refusal", 11), &self.refusals),
            group(false, named("refusal 4: ", &FAULTS), &self.faults),
            group(false, named("refusal 10: ", &WAYS), &self.ways),
            group(false, earlier, &self.before_landmark),
            // HLT, IN and OUT inside are resets.
            group(true, named("inside ", &ROWS[3..]), &self.rows_inside[3..]),
            group(true, named("elsewhere ", &ROWS), &self.rows_elsewhere),
            group(true, named("read ", &ROWS), &self.rows_read),
            group(false, named("", &EVENTS), &self.events),
        ]
    }

    /// The table: short names four to a line.
    pub fn table(&self) -> String {
        let mut text = String::new();
        for group in self.groups() {
            let columns = if group.short { 4 } else { 1 };
            for line in group.counts.chunks(columns) {
                for (name, count) in line {
                    text += &match group.short {
                        true => format!("{name:<16}{count:>9}   "),
                        false => format!("{name:<58}{count:>10}"),
                    };
                }
                text.truncate(text.trim_end().len());
                text.push('\n');
            }
        }
        text
    }

    /// What never occurred, but for what was left out on purpose.
    pub fn missing(&self, left_out: &[Event]) -> Vec<String> {
        let spared = |name: &str| left_out.iter().any(|&event| EVENTS[event as usize] == name);
        let all = self.groups().into_iter().flat_map(|group| group.counts);
        all.filter(|(name, count)| *count == 0 && !spared(name))
            .map(|(name, _)| name)
            .collect()
    }
}

/// Counts that belong together.
struct Group {
    short: bool,
    counts: Vec<(String, u64)>,
}

fn group(short: bool, names: Vec<String>, counts: &[u64]) -> Group {
    let counts = names.into_iter().zip(counts.iter().copied()).collect();
    Group { short, counts }
}
