//! The reader of a bench sheet.

use std::error::Error;
use std::fmt;

use crate::raw::Places;
use crate::{Budget, Layout, Machine, Memory, Refusal, Timetable, Trace};

/// What a sheet sets up.
#[derive(Clone, Debug, PartialEq, Eq)]
pub struct Setup {
    /// The layout of its L line.
    pub layout: Layout,
    /// The memory of its M lines; other bytes are 0.
    pub memory: Memory,
    /// The timetable of its A lines.
    pub timetable: Timetable<'static>,
    /// The trace of its T lines.
    pub trace: Trace<'static>,
    /// The budget of its G line.
    pub budget: Budget,
}

/// Why a sheet is refused, and for which line. As text it begins with that line: `line 13: ...`.
#[derive(Clone, Copy, Debug, PartialEq, Eq, Hash)]
pub struct SheetRefusal {
    /// The refusal: fence, timetable, trace, distance, line or sheet.
    pub refusal: Refusal,
    /// Its line, from 1; 0 for the whole sheet.
    pub line: u64,
}

impl Setup {
    /// What a sheet sets up.
    ///
    /// # Errors
    ///
    /// The refusal of its first bad line: *line*, or *fence*, *timetable*, *trace* or *distance* where
    /// the line can be read. *sheet*, with line 0, comes before all.
    ///
    /// # Panics
    ///
    /// Never, where the library is the one that this version is for.
    pub fn read(sheet: &[u8]) -> Result<Setup, SheetRefusal> {
        let (mut places, mut line) = (Places::zeroed(), 0);
        Refusal::taken(places.read(sheet, &mut line))
            .map_err(|refusal| SheetRefusal { refusal, line })?;
        let count = usize::try_from(places.count).expect("at most 4,096 stamps");
        let records = usize::try_from(places.records).expect("at most 4,096 records");
        let stamps = places.stamps[..count].to_vec();
        let trace_stamps = places.trace_stamps[..records].to_vec();
        let trace_words = places.trace_words[..records].to_vec();
        Ok(Setup {
            layout: Layout {
                addresses: places.layout,
            },
            memory: places.memory.into(),
            timetable: Timetable::new(stamps).expect("the library took the stamps"),
            trace: Trace::new(trace_stamps, trace_words).expect("the library took the records"),
            budget: Budget::new(places.budget).expect("the library took the budget"),
        })
    }

    /// The machine of this setup at its start.
    #[must_use]
    pub fn start(&self) -> Machine {
        Machine::start(self.layout, &self.memory)
    }
}

impl fmt::Display for SheetRefusal {
    fn fmt(&self, f: &mut fmt::Formatter<'_>) -> fmt::Result {
        match self.line {
            0 => self.refusal.fmt(f),
            line => write!(f, "line {line}: {}", self.refusal),
        }
    }
}

impl Error for SheetRefusal {}
