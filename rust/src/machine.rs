//! The machine: start, step, run, run to an address.

use std::num::NonZeroU64;

use crate::memory::zeros;
use crate::raw::{Lists, Numbers, Progress};
use crate::{
    Budget, End, Kind, Layout, MachineFields, Refusal, Register, SavedContext, Status, StopAddress,
    Timetable, Trace, MEMORY_SIZE,
};

/// A machine beside its memory. It keeps the layout that it was started with, so its state is
/// always one that a machine of that layout can be in.
#[derive(Clone, Debug, PartialEq, Eq, Hash)]
pub struct Machine {
    layout: Layout,
    state: Numbers,
}

/// Why a run stopped, and how many steps it made.
#[derive(Clone, Copy, Debug, PartialEq, Eq, Hash)]
pub struct Stop {
    /// Why it stopped.
    pub end: End,
    /// How many steps it made.
    pub steps: u64,
}

impl Machine {
    /// The start state of a memory: clock 0, registers 0 but pc, which is the word at FFFE less its
    /// bit 0.
    ///
    /// # Panics
    ///
    /// Never, where the library is the one that this version is for.
    #[must_use]
    pub fn start(layout: Layout, memory: &[u8; MEMORY_SIZE]) -> Machine {
        let mut state = Numbers::default();
        Refusal::taken(state.start(memory)).expect("memory is 65,536 bytes");
        Machine { layout, state }
    }

    /// One step, and what it did. A trace without records is [`Trace::empty`].
    ///
    /// # Errors
    ///
    /// Refusal *clock* where the clock is above 2^62; machine and memory are then as they were.
    pub fn step(
        &mut self,
        memory: &mut [u8; MEMORY_SIZE],
        timetable: &Timetable<'_>,
        trace: &Trace<'_>,
    ) -> Result<Kind, Refusal> {
        let (addresses, lists) = (&self.layout.addresses, lent(timetable, trace));
        let (mut kind, mut cause) = (0, 0);
        let answer = self
            .state
            .step(memory, addresses, lists, &mut kind, &mut cause);
        Refusal::taken(answer)?;
        Ok(Kind::told(kind, cause))
    }

    /// Steps until the machine is halted, its clock is above 2^62 or the budget is spent.
    ///
    /// # Errors
    ///
    /// Refusal *clock* where the clock is above 2^62 before the first step; machine and memory are
    /// then as they were.
    pub fn run(
        &mut self,
        memory: &mut [u8; MEMORY_SIZE],
        timetable: &Timetable<'_>,
        trace: &Trace<'_>,
        budget: Budget,
    ) -> Result<Stop, Refusal> {
        let (addresses, lists) = (&self.layout.addresses, lent(timetable, trace));
        let (mut end, mut steps) = (0, 0);
        let budget = budget.steps();
        let answer = self
            .state
            .run(memory, addresses, lists, budget, &mut end, &mut steps);
        Refusal::taken(answer)?;
        let end = End::told(end);
        Ok(Stop { end, steps })
    }

    /// The same with a stop address: steps until the machine is halted, its clock is above 2^62, its pc
    /// is the stop address or the budget is spent, tested in this order before each step, also before the
    /// first. Up to its end it makes the steps of [`run`](Machine::run).
    ///
    /// What counts is pc before a step, wherever it came from: also the first instruction of a service,
    /// or the one after a reset. A run that begins at its stop address ends there with 0 steps; to get to
    /// the next time that pc is there, make one step first:
    ///
    /// ```
    /// use enclave::{Budget, End, Layout, Machine, Memory, Stop, StopAddress, Timetable, Trace};
    ///
    /// let layout = Layout::new(0x8000..0x8008, 0x8100..0x8104, 0x4500)?;
    /// let (none, silent) = (Timetable::empty(), Trace::empty());
    /// let mut memory = Memory::zeroed();
    /// memory.set_word(0xFFFE, 0x4400);
    /// memory.set_word(0x4400, 0x4035); // MOV #4404 5
    /// memory.set_word(0x4402, 0x4404);
    /// memory.set_word(0x4404, 0x4303); // NOP
    /// memory.set_word(0x4406, 0x4500); // JMP &5
    /// let mut machine = Machine::start(layout, &memory);
    /// let (landmark, budget) = (StopAddress::new(0x4404)?, Budget::new(1000)?);
    /// let stop = machine.run_to(&mut memory, &none, &silent, landmark, budget)?;
    /// assert_eq!((stop, machine.clock()), (Stop { end: End::Address, steps: 1 }, 2));
    /// let stop = machine.run_to(&mut memory, &none, &silent, landmark, budget)?;
    /// assert_eq!(stop, Stop { end: End::Address, steps: 0 });
    /// machine.step(&mut memory, &none, &silent)?;
    /// let stop = machine.run_to(&mut memory, &none, &silent, landmark, budget)?;
    /// assert_eq!((stop, machine.clock()), (Stop { end: End::Address, steps: 1 }, 5));
    /// # Ok::<(), enclave::Refusal>(())
    /// ```
    ///
    /// # Errors
    ///
    /// Refusal *clock* where the clock is above 2^62 before the first step; machine and memory are
    /// then as they were.
    pub fn run_to(
        &mut self,
        memory: &mut [u8; MEMORY_SIZE],
        timetable: &Timetable<'_>,
        trace: &Trace<'_>,
        stop: StopAddress,
        budget: Budget,
    ) -> Result<Stop, Refusal> {
        let (addresses, lists) = (&self.layout.addresses, lent(timetable, trace));
        let (mut end, mut steps) = (0, 0);
        let (stop, budget) = (stop.address(), budget.steps());
        let answer = self
            .state
            .run_to(memory, addresses, lists, stop, budget, &mut end, &mut steps);
        Refusal::taken(answer)?;
        let end = End::told(end);
        Ok(Stop { end, steps })
    }

    // The next lines of a transcript, and the library's answer.
    pub(crate) fn transcribe(
        &mut self,
        memory: &mut [u8; MEMORY_SIZE],
        timetable: &Timetable<'_>,
        trace: &Trace<'_>,
        progress: &mut Progress,
        out: &mut [u8],
        written: &mut u64,
    ) -> u8 {
        let (addresses, lists) = (&self.layout.addresses, lent(timetable, trace));
        self.state
            .transcribe(memory, addresses, lists, progress, out, written)
    }

    /// The machine of these fields. The library decides, on a memory that is taken from the heap for
    /// the question. A clock above 2^62 is taken, as a run may end there; such a machine's next step
    /// is refused.
    ///
    /// # Errors
    ///
    /// Refusal *frame* where no machine of this layout can be in that state.
    pub fn from_fields(layout: Layout, fields: &MachineFields) -> Result<Machine, Refusal> {
        let state = Numbers::of(fields);
        let mut machine = Machine { layout, state };
        // A run of budget 0 tests the frame, then the clock, and makes no step on this memory.
        let mut memory = zeros();
        let (timetable, trace) = (Timetable::empty(), Trace::empty());
        match machine.run(&mut memory, &timetable, &trace, Budget::NONE) {
            Ok(_) | Err(Refusal::Clock) => Ok(machine),
            Err(refusal) => Err(refusal),
        }
    }

    /// All fields of its state, to be kept.
    #[must_use]
    pub fn fields(&self) -> MachineFields {
        self.state.fields()
    }

    /// The layout that it was started with.
    #[must_use]
    pub fn layout(&self) -> Layout {
        self.layout
    }

    /// r0 to r15.
    #[must_use]
    pub fn registers(&self) -> &[u16; 16] {
        &self.state.registers
    }

    /// One register.
    #[must_use]
    pub fn register(&self, register: Register) -> u16 {
        self.state.registers[usize::from(register.number())]
    }

    /// The program counter, r0.
    #[must_use]
    pub fn pc(&self) -> u16 {
        self.register(Register::PC)
    }

    /// The stack pointer, r1.
    #[must_use]
    pub fn sp(&self) -> u16 {
        self.register(Register::SP)
    }

    /// The status, r2.
    #[must_use]
    pub fn status(&self) -> Status {
        Status::of(self.register(Register::SR))
    }

    /// Cycles from the start.
    #[must_use]
    pub fn clock(&self) -> u64 {
        self.state.clock()
    }

    /// The previous instruction's address.
    #[must_use]
    pub fn previous(&self) -> u16 {
        self.state.previous()
    }

    /// The machine is halted.
    #[must_use]
    pub fn is_halted(&self) -> bool {
        self.state.is_halted()
    }

    /// The stamp of the pending request.
    #[must_use]
    pub fn pending(&self) -> Option<NonZeroU64> {
        self.state.pending()
    }

    /// The stamp of the alarm.
    #[must_use]
    pub fn alarm(&self) -> Option<NonZeroU64> {
        self.state.alarm()
    }

    /// The saved context of the held visit of the enclave module.
    #[must_use]
    pub fn held(&self) -> Option<SavedContext> {
        self.state.held()
    }
}

// The lists that the library is lent.
fn lent<'a>(timetable: &'a Timetable<'_>, trace: &'a Trace<'_>) -> Lists<'a> {
    Lists {
        stamps: timetable.stamps(),
        trace_stamps: trace.stamps(),
        trace_words: trace.words(),
    }
}
