//! The programs that are run, and the world around them.

/// All that a machine is started with and lent.
pub struct World {
    pub memory: Vec<u8>,
    pub layout: [u16; 5],
    pub stamps: Vec<u64>,
    pub trace: Trace,
    /// The clock to begin at.
    pub clock: u64,
    /// The stop address of its runs.
    pub stop: Option<u16>,
}

impl World {
    /// A world without a trace and without a stop address.
    pub fn new(words: &[(u16, u16)], stamps: Vec<u64>, clock: u64) -> World {
        World {
            memory: memory(words),
            layout: LAYOUT,
            stamps,
            trace: Trace::default(),
            clock,
            stop: None,
        }
    }

    /// The same world with a trace.
    pub fn traced(self, trace: Trace) -> World {
        World { trace, ..self }
    }

    /// The same world with a stop address that no program here gets to.
    pub fn stopped_elsewhere(self) -> World {
        let stop = Some(ELSEWHERE);
        World { stop, ..self }
    }
}

/// A ride trace: the stamps of its records, and their words.
#[derive(Default)]
pub struct Trace {
    pub stamps: Vec<u64>,
    pub words: Vec<u16>,
}

impl Trace {
    /// A record at each of these stamps, each with a word of its own.
    pub fn at(stamps: Vec<u64>) -> Trace {
        let words = (1..).take(stamps.len()).collect();
        Trace { stamps, words }
    }
}

/// Code, data, service address.
pub const LAYOUT: [u16; 5] = [0x8000, 0x8010, 0x8100, 0x8104, 0x4500];

/// Far from the words of every program here.
const ELSEWHERE: u16 = 0x6000;

/// Where the plain loop begins, and its words: three constants, then ADD, a store, a load, CMP,
/// MOV and a jump back. 11 cycles a turn. A real controller of the family runs it too.
pub const PLAIN_START: u16 = 0x4400;
pub const PLAIN_WORDS: [u16; 13] = [
    0x4035, 0x0003, // MOV #3 r5
    0x4036, 0x440C, // MOV #loop r6
    0x4037, 0x2000, // MOV #2000 r7
    0x5504, // loop: ADD r5 r4
    0x4487, 0x0000, // MOV r4 0(r7)
    0x4728, // MOV @r7 r8
    0x9405, // CMP r4 r5
    0x4409, // MOV r4 r9
    0x4600, // JMP &r6
];

/// The plain loop and the vector that starts it.
pub fn plain() -> Vec<(u16, u16)> {
    let mut words = at(PLAIN_START, &PLAIN_WORDS);
    words.push((0xFFFE, PLAIN_START));
    words
}

/// A loop that jumps into the module and comes back; the module loads, doubles and stores a word
/// of its data. Interrupts are allowed, and service is a RETI.
pub fn through() -> Vec<(u16, u16)> {
    let outside = [
        0x4032, 0x0008, // MOV #GIE sr
        0x4036, 0x4410, // MOV #back r6
        0x4037, 0x8000, // MOV #entry r7
        0x4031, 0x3000, // MOV #3000 sp
        0x4700, // back: JMP &r7
    ];
    let module = [
        0x4303, // NOP
        0x4035, 0x8100, // MOV #data r5
        0x4528, // MOV @r5 r8
        0x5808, // ADD r8 r8
        0x4885, 0x0000, // MOV r8 0(r5)
        0x4600, // JMP &r6
    ];
    let mut words = at(0x4400, &outside);
    words.extend(at(LAYOUT[0], &module));
    words.push((LAYOUT[4], 0x1300));
    words.push((0xFFFE, 0x4400));
    words
}

/// A loop of four INs, an ADD of what the last one gave and a jump back: 6 steps, 11 cycles.
pub fn reading() -> Vec<(u16, u16)> {
    let code = [
        0x4036, 0x4404, // MOV #loop r6
        0x0014, // loop: IN r4
        0x0015, // IN r5
        0x0017, // IN r7
        0x0018, // IN r8
        0x5809, // ADD r8 r9
        0x4600, // JMP &r6
    ];
    let mut words = at(0x4400, &code);
    words.push((0xFFFE, 0x4400));
    words
}

/// A loop of 24 moves, half of them of a constant, with registers in no order, and a jump back: 25 steps, 38 cycles.
pub fn moves() -> Vec<(u16, u16)> {
    let code = [
        0x4036, 0x4404, // MOV #loop r6
        0x4035, 0x1B7E, // loop: MOV #1B7E r5
        0x450C, // MOV r5 r12
        0x4C09, // MOV r12 r9
        0x403E, 0xFFFF, // MOV #FFFF r14
        0x4907, // MOV r9 r7
        0x4034, 0x0003, // MOV #3 r4
        0x403B, 0x8000, // MOV #8000 r11
        0x4E08, // MOV r14 r8
        0x403D, 0x2C40, // MOV #2C40 r13
        0x440F, // MOV r4 r15
        0x4B05, // MOV r11 r5
        0x403A, 0x0000, // MOV #0 r10
        0x4D0C, // MOV r13 r12
        0x4037, 0x7FFF, // MOV #7FFF r7
        0x4039, 0x00A6, // MOV #A6 r9
        0x4F0E, // MOV r15 r14
        0x470B, // MOV r7 r11
        0x4038, 0x5D11, // MOV #5D11 r8
        0x4A04, // MOV r10 r4
        0x403F, 0x4400, // MOV #4400 r15
        0x403C, 0x0101, // MOV #101 r12
        0x480D, // MOV r8 r13
        0x4035, 0xE000, // MOV #E000 r5
        0x450A, // MOV r5 r10
        0x4600, // JMP &r6
    ];
    let mut words = at(0x4400, &code);
    words.push((0xFFFE, 0x4400));
    words
}

/// A loop of every row but HLT, each once and JZ twice, taken and not: 16 steps, 31 cycles. The alarm that OUT sets moves on in each turn.
pub fn every_row() -> Vec<(u16, u16)> {
    let code = [
        0x4035, 0xFFFF, // MOV #FFFF r5
        0x4036, 0x4410, // MOV #loop r6
        0x4037, 0x2000, // MOV #2000 r7
        0x403C, 0x442E, // MOV #equal r12
        0x4031, 0x3000, // loop: MOV #3000 sp
        0x0014, // IN r4
        0x0025, // OUT r5
        0x4303, // NOP
        0x5408, // ADD r4 r8
        0x8809, // SUB r8 r9
        0xE03A, 0xFFFF, // NOT r10
        0x4887, 0x0000, // MOV r8 0(r7)
        0x472B, // MOV @r7 r11
        0x9B08, // CMP r11 r8
        0x003C, // JZ &r12, taken
        0x0000, // begins nothing
        0xF505, // equal: AND r5 r5
        0x003C, // JZ &r12, not taken
        0x4A0D, // MOV r10 r13
        0x1300, // RETI
        0x4600, // back: JMP &r6
    ];
    let stack = [0x0000, 0x4436]; // sr, back
    let mut words = at(0x4400, &code);
    words.extend(at(0x3000, &stack));
    words.push((0xFFFE, 0x4400));
    words
}

/// A vector to a word that begins nothing: each step is a reset, of 4 cycles.
pub fn undecoded() -> Vec<(u16, u16)> {
    vec![(0x4400, 0x0000), (0xFFFE, 0x4400)]
}

/// Words in a row.
fn at(start: u16, words: &[u16]) -> Vec<(u16, u16)> {
    (start..).step_by(2).zip(words.iter().copied()).collect()
}

/// Memory with these words, else 0.
fn memory(words: &[(u16, u16)]) -> Vec<u8> {
    let mut memory = vec![0; 65_536];
    for &(address, word) in words {
        memory[address as usize..][..2].copy_from_slice(&word.to_le_bytes());
    }
    memory
}

/// The bench sheet of a program, a timetable and a trace.
pub fn sheet(words: &[(u16, u16)], stamps: &[u64], trace: &Trace, budget: u64) -> Vec<u8> {
    let layout: Vec<String> = LAYOUT.iter().map(|word| format!("{word:04X}")).collect();
    let mut text = format!("L\t{}\n", layout.join("\t"));
    for (address, word) in words {
        text += &format!("M\t{address:04X}\t{word:04X}\n");
    }
    for stamp in stamps {
        text += &format!("A\t{stamp}\n");
    }
    for (stamp, word) in trace.stamps.iter().zip(&trace.words) {
        text += &format!("T\t{stamp}\t{word:04X}\n");
    }
    text += &format!("G\t{budget}\n");
    assert!(text.len() <= 32_768, "a sheet that is not refused");
    text.into_bytes()
}
