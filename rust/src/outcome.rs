//! What a step did and why a run stopped.

use std::fmt;

/// Why a step was a reset: the first of these that held. As text it is a short sentence.
#[derive(Clone, Copy, Debug, PartialEq, Eq, PartialOrd, Ord, Hash)]
#[repr(u8)]
pub enum Cause {
    /// 1: pc may not be executed from the previous instruction's address.
    Execute = 1,
    /// 2: pc is inside while a visit is held.
    Reentry = 2,
    /// 3: the first word doesn't begin an instruction.
    FirstWord = 3,
    /// 4: the second word is not on the first word's side.
    SecondSide = 4,
    /// 5: the second word is wrong.
    SecondWord = 5,
    /// 6: HLT, IN or OUT inside.
    Inside = 6,
    /// 7: a read is barred.
    Read = 7,
    /// 8: a write is barred.
    Write = 8,
}

impl Cause {
    /// All eight, in the order in which a step tries them.
    pub const ALL: [Cause; 8] = [
        Cause::Execute,
        Cause::Reentry,
        Cause::FirstWord,
        Cause::SecondSide,
        Cause::SecondWord,
        Cause::Inside,
        Cause::Read,
        Cause::Write,
    ];

    /// Its number, 1 to 8.
    #[must_use]
    pub const fn number(self) -> u8 {
        self as u8
    }

    /// The cause of a number.
    #[must_use]
    pub fn from_number(number: u8) -> Option<Cause> {
        Cause::ALL.into_iter().find(|c| c.number() == number)
    }

    // What happened, in document 01's words.
    const fn sentence(self) -> &'static str {
        match self {
            Cause::Execute => "pc may not be executed from the previous instruction's address",
            Cause::Reentry => "pc is inside while a visit is held",
            Cause::FirstWord => "the first word does not begin an instruction",
            Cause::SecondSide => {
                "the second word is not on the first word's side, inside or outside"
            }
            Cause::SecondWord => "the second word is wrong",
            Cause::Inside => "HLT, IN or OUT is barred inside",
            Cause::Read => "a read is barred",
            Cause::Write => "a write is barred",
        }
    }
}

impl fmt::Display for Cause {
    fn fmt(&self, f: &mut fmt::Formatter<'_>) -> fmt::Result {
        f.write_str(self.sentence())
    }
}

/// What a step did.
#[derive(Clone, Copy, Debug, PartialEq, Eq, Hash)]
pub enum Kind {
    /// R: ran.
    Ran,
    /// I: ran, and a plain interrupt broke into outside code.
    Plain,
    /// P: a padded interrupt broke into the enclave module.
    Padded,
    /// C: RETI found another request pending and chained its service; the visit stays held.
    Chained,
    /// B: RETI took the machine back into the enclave module.
    Back,
    /// X: reset, for this cause.
    Reset(Cause),
    /// H: halted.
    Halted,
}

impl Kind {
    /// Its letter on a bench transcript.
    #[must_use]
    pub const fn letter(self) -> char {
        match self {
            Kind::Ran => 'R',
            Kind::Plain => 'I',
            Kind::Padded => 'P',
            Kind::Chained => 'C',
            Kind::Back => 'B',
            Kind::Reset(_) => 'X',
            Kind::Halted => 'H',
        }
    }

    // The kind that the library tells by its letter and the number of its cause.
    pub(crate) fn told(letter: u8, cause: u8) -> Kind {
        match letter {
            b'R' => Kind::Ran,
            b'I' => Kind::Plain,
            b'P' => Kind::Padded,
            b'C' => Kind::Chained,
            b'B' => Kind::Back,
            b'X' => Kind::Reset(Cause::from_number(cause).expect("a cause is 1 to 8")),
            b'H' => Kind::Halted,
            _ => unreachable!("a kind is one of seven letters"),
        }
    }
}

impl fmt::Display for Kind {
    fn fmt(&self, f: &mut fmt::Formatter<'_>) -> fmt::Result {
        self.letter().fmt(f)
    }
}

/// Why a run stopped: the first of these, in this order, that held before a step, also before the first.
#[derive(Clone, Copy, Debug, PartialEq, Eq, Hash)]
pub enum End {
    /// H: the machine is halted.
    Halted,
    /// T: the clock is above 2^62.
    Clock,
    /// A: pc is the stop address. Only [`Machine::run_to`](crate::Machine::run_to) ends so.
    Address,
    /// S: the budget is spent.
    Spent,
}

impl End {
    /// Its letter, which is that on a bench transcript, but for A, which no transcript has.
    #[must_use]
    pub const fn letter(self) -> char {
        match self {
            End::Halted => 'H',
            End::Clock => 'T',
            End::Address => 'A',
            End::Spent => 'S',
        }
    }

    // The end that the library tells by its letter.
    pub(crate) fn told(letter: u8) -> End {
        match letter {
            b'H' => End::Halted,
            b'T' => End::Clock,
            b'A' => End::Address,
            b'S' => End::Spent,
            _ => unreachable!("an end is one of four letters"),
        }
    }
}

impl fmt::Display for End {
    fn fmt(&self, f: &mut fmt::Formatter<'_>) -> fmt::Result {
        self.letter().fmt(f)
    }
}
