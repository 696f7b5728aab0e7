//! The exported functions on one block of numbers, so that all that a call is lent can be compared.
#![allow(dead_code)]

use enclave::raw::{self, Lists, Numbers};

/// All that step, run and `run_to` are lent.
#[derive(Clone, PartialEq, Debug)]
pub struct Lent {
    pub machine: Numbers,
    pub memory: Vec<u8>,
    pub layout: [u16; 5],
    pub stamps: Vec<u64>,
    pub trace_stamps: Vec<u64>,
    pub trace_words: Vec<u16>,
    pub stop: u16,
    pub budget: u64,
    pub kind: u8,
    pub cause: u8,
    pub end: u8,
    pub steps: u64,
}

impl Lent {
    /// A machine at the start of document 01's layout, with NOPs from 4400, the first 20 of which its runs
    /// make, far from the stop address; answers are marked.
    pub fn fresh() -> Lent {
        let mut memory = vec![0; 65536];
        memory[0xFFFE..].copy_from_slice(&[0x00, 0x44]);
        for word in memory[0x4400..0x4480].chunks_exact_mut(2) {
            word.copy_from_slice(&[0x03, 0x43]);
        }
        let mut lent = Lent {
            machine: Numbers {
                registers: [0xAAAA; 16],
                saved: [0xAAAA; 16],
                control: [0xAAAA; 5],
                time: [0xAAAA; 3],
            },
            memory,
            layout: [0x8000, 0x8008, 0x8100, 0x8104, 0x4500],
            stamps: vec![600],
            trace_stamps: vec![],
            trace_words: vec![],
            stop: 0x4500,
            budget: 20,
            kind: 0xAA,
            cause: 0xAA,
            end: 0xAA,
            steps: 0xAA,
        };
        assert_eq!(lent.start(), 0);
        lent
    }

    pub fn start(&mut self) -> u8 {
        self.machine.start(&self.memory)
    }

    pub fn step(&mut self) -> u8 {
        let lists = Lists {
            stamps: &self.stamps,
            trace_stamps: &self.trace_stamps,
            trace_words: &self.trace_words,
        };
        let (kind, cause) = (&mut self.kind, &mut self.cause);
        self.machine
            .step(&mut self.memory, &self.layout, lists, kind, cause)
    }

    pub fn run(&mut self) -> u8 {
        let lists = Lists {
            stamps: &self.stamps,
            trace_stamps: &self.trace_stamps,
            trace_words: &self.trace_words,
        };
        self.machine.run(
            &mut self.memory,
            &self.layout,
            lists,
            self.budget,
            &mut self.end,
            &mut self.steps,
        )
    }

    pub fn run_to(&mut self) -> u8 {
        let lists = Lists {
            stamps: &self.stamps,
            trace_stamps: &self.trace_stamps,
            trace_words: &self.trace_words,
        };
        self.machine.run_to(
            &mut self.memory,
            &self.layout,
            lists,
            self.stop,
            self.budget,
            &mut self.end,
            &mut self.steps,
        )
    }

    pub fn access(&mut self, from: u16, address: u16) -> u8 {
        raw::access(&self.layout, from, address, &mut self.kind)
    }

    /// Step, run and `run_to` answer this refusal and alter nothing.
    pub fn refused(&self, number: u8) {
        let mut lent = self.clone();
        assert_eq!((lent.step(), &lent), (number, self), "step");
        assert_eq!((lent.run(), &lent), (number, self), "run");
        self.run_to_refused(number);
    }

    /// The same of `run_to` alone.
    pub fn run_to_refused(&self, number: u8) {
        let mut lent = self.clone();
        assert_eq!((lent.run_to(), &lent), (number, self), "run_to");
    }

    /// Step is taken.
    pub fn steps(&self) {
        assert_eq!(self.clone().step(), 0);
    }
}
