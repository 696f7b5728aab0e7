//! The numbered refusals.

use std::error::Error;
use std::fmt;

/// Why a call is refused. A refused call leaves machine and memory as they were. As text it is a
/// sentence that says what is wrong and what to do; [`word`](Refusal::word) is the one word for it.
#[derive(Clone, Copy, Debug, PartialEq, Eq, PartialOrd, Ord, Hash)]
#[repr(u8)]
pub enum Refusal {
    /// 1: memory isn't 65,536 bytes.
    Map = 1,
    /// 2: a rule of the layout is broken.
    Fence = 2,
    /// 3: the stamps are too many, out of range or not rising.
    Timetable = 3,
    /// 4: the state is one that no machine of this layout can be in.
    Frame = 4,
    /// 5: the budget is above 1,000,000.
    Distance = 5,
    /// 6: the clock is above 2^62.
    Clock = 6,
    /// 7: a line of the sheet can't be read.
    Line = 7,
    /// 8: the sheet has more than 32,768 bytes.
    Sheet = 8,
    /// 9: no such instruction.
    Word = 9,
    /// 10: the trace's stamps are too many, out of range or not rising, or its words are not equally
    /// many.
    Trace = 10,
    /// 11: the stop address is odd.
    Landmark = 11,
}

impl Refusal {
    /// All eleven, in the order in which a call tries those that concern it: that of their numbers, but
    /// for *trace*, which comes right after *timetable*, and *landmark*, right after *distance*. Only the
    /// reader of a sheet tries *sheet* first, and *line* before the others of a line.
    pub const ALL: [Refusal; 11] = [
        Refusal::Map,
        Refusal::Fence,
        Refusal::Timetable,
        Refusal::Trace,
        Refusal::Frame,
        Refusal::Distance,
        Refusal::Landmark,
        Refusal::Clock,
        Refusal::Line,
        Refusal::Sheet,
        Refusal::Word,
    ];

    /// Its number, 1 to 11.
    #[must_use]
    pub const fn number(self) -> u8 {
        self as u8
    }

    /// The refusal of a number.
    #[must_use]
    pub fn from_number(number: u8) -> Option<Refusal> {
        Refusal::ALL.into_iter().find(|r| r.number() == number)
    }

    /// Its word in the specification.
    #[must_use]
    pub const fn word(self) -> &'static str {
        match self {
            Refusal::Map => "map",
            Refusal::Fence => "fence",
            Refusal::Timetable => "timetable",
            Refusal::Frame => "frame",
            Refusal::Distance => "distance",
            Refusal::Clock => "clock",
            Refusal::Line => "line",
            Refusal::Sheet => "sheet",
            Refusal::Word => "word",
            Refusal::Trace => "trace",
            Refusal::Landmark => "landmark",
        }
    }

    // What is wrong, and what to do.
    const fn sentence(self) -> &'static str {
        match self {
            Refusal::Map => "memory is not 65,536 bytes: lend the whole memory",
            Refusal::Fence => {
                "a rule of the layout is broken: make all five addresses even, each start lower \
                 than its end, code and data apart, and the service address outside of both"
            }
            Refusal::Timetable => {
                "the stamps are more than 4,096, not rising, or not 1 to 2^62: sort them and drop \
                 doubles"
            }
            Refusal::Frame => {
                "no machine of this layout can be in this state: go on from a state that a call \
                 handed back"
            }
            Refusal::Distance => "the budget is above 1,000,000: run more than once",
            Refusal::Clock => "the clock is above 2^62: start anew",
            Refusal::Line => {
                "this line cannot be read: L comes first and G last, fields are parted by one tab, \
                 each line ends with a newline, addresses and words are four hexadecimal digits in \
                 capitals, an M address is even, decimals have at most 19 digits and no leading zero"
            }
            Refusal::Sheet => {
                "the sheet has more than 32,768 bytes: shorten it; memory that no line names is 0"
            }
            Refusal::Word => {
                "there is no such instruction: take its words or its registers from the table of \
                 instruction words"
            }
            Refusal::Trace => {
                "the trace's stamps are more than 4,096, not rising, or not 1 to 2^62, or its words are \
                 not equally many: sort the records, drop doubles, and give each stamp one word"
            }
            Refusal::Landmark => {
                "the stop address is odd, and pc is always even: give the address of an \
                 instruction's first word"
            }
        }
    }

    // What a function of the library answered: 0, or a refusal's number.
    pub(crate) fn taken(answer: u8) -> Result<(), Refusal> {
        match answer {
            0 => Ok(()),
            number => Err(Refusal::from_number(number).expect("an answer is 0 to 11")),
        }
    }
}

impl fmt::Display for Refusal {
    fn fmt(&self, f: &mut fmt::Formatter<'_>) -> fmt::Result {
        f.write_str(self.sentence())
    }
}

impl Error for Refusal {}
