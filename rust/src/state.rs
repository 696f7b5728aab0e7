//! The fields of a machine in the numbers that the library is lent, both ways.

use std::num::NonZeroU64;

use crate::raw::Numbers;
use crate::{MachineFields, SavedContext};

impl Numbers {
    // The numbers of these fields; 0 stands for none.
    pub(crate) fn of(fields: &MachineFields) -> Numbers {
        let (saved, held) = match &fields.held {
            None => ([0; 16], [0, 0, 0]),
            Some(context) => (
                context.registers,
                [1, context.previous, u16::from(context.age)],
            ),
        };
        let halted = u16::from(fields.halted);
        Numbers {
            registers: fields.registers,
            saved,
            control: [fields.previous, halted, held[0], held[1], held[2]],
            time: [fields.clock, number(fields.pending), number(fields.alarm)],
        }
    }

    pub(crate) fn fields(&self) -> MachineFields {
        MachineFields {
            registers: self.registers,
            previous: self.previous(),
            clock: self.clock(),
            pending: self.pending(),
            alarm: self.alarm(),
            held: self.held(),
            halted: self.is_halted(),
        }
    }

    pub(crate) fn previous(&self) -> u16 {
        self.control[0]
    }

    pub(crate) fn is_halted(&self) -> bool {
        self.control[1] != 0
    }

    pub(crate) fn held(&self) -> Option<SavedContext> {
        let [_, _, held, previous, age] = self.control;
        (held != 0).then(|| SavedContext {
            registers: self.saved,
            previous,
            age: age.try_into().expect("a held age is at most 6"),
        })
    }

    pub(crate) fn clock(&self) -> u64 {
        self.time[0]
    }

    pub(crate) fn pending(&self) -> Option<NonZeroU64> {
        NonZeroU64::new(self.time[1])
    }

    pub(crate) fn alarm(&self) -> Option<NonZeroU64> {
        NonZeroU64::new(self.time[2])
    }
}

// The number of a stamp, 0 for none.
fn number(stamp: Option<NonZeroU64>) -> u64 {
    stamp.map_or(0, NonZeroU64::get)
}
