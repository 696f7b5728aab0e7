//! The rules of a layout.

use std::fmt;
use std::ops::Range;

use crate::{raw, Layout};

/// What a rule of a layout forbids. As text it is a sentence that says what is wrong and what to do.
#[derive(Clone, Copy, Debug, PartialEq, Eq, PartialOrd, Ord, Hash)]
#[repr(u8)]
pub enum Rule {
    /// 1: an address is odd.
    Odd = 1,
    /// 2: a start is not below its end.
    Empty = 2,
    /// 3: code and data have a byte in common.
    Overlap = 3,
    /// 4: the service address is in code or data.
    Service = 4,
}

impl Rule {
    /// All four, in the order in which a layout is tested.
    pub const ALL: [Rule; 4] = [Rule::Odd, Rule::Empty, Rule::Overlap, Rule::Service];

    /// Its number, 1 to 4.
    #[must_use]
    pub const fn number(self) -> u8 {
        self as u8
    }

    /// The rule of a number.
    #[must_use]
    pub fn from_number(number: u8) -> Option<Rule> {
        Rule::ALL.into_iter().find(|r| r.number() == number)
    }

    // What is wrong, and what to do.
    const fn sentence(self) -> &'static str {
        match self {
            Rule::Odd => "an address is odd: make all five even",
            Rule::Empty => "a section is empty: make each start lower than its end",
            Rule::Overlap => "code and data overlap: move one of them",
            Rule::Service => "the service address is in code or data: move it outside of both",
        }
    }
}

impl fmt::Display for Rule {
    fn fmt(&self, f: &mut fmt::Formatter<'_>) -> fmt::Result {
        f.write_str(self.sentence())
    }
}

impl Layout {
    /// The first rule that such a layout would break: why [`Layout::new`] refuses it, if it does. The
    /// library decides.
    #[must_use]
    pub fn fault(code: Range<u16>, data: Range<u16>, service: u16) -> Option<Rule> {
        let addresses = [code.start, code.end, data.start, data.end, service];
        Rule::from_number(raw::fault(&addresses))
    }
}
