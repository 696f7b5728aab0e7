//! "One step".

use crate::arithmetic::{compute, compute_not, C, GIE, N, V, Z};
use crate::instruction::{begins, cycles, decode, words, Instruction, Operand, Operation};
use crate::memory::{read_word, write_word, Layout, Right};
use crate::state::{Machine, SavedContext, PC, SP, SR, VECTOR};
use crate::time::Lists;

/// The kinds of the bench sheet; a reset with the number of its name.
#[derive(Clone, Copy, Debug, PartialEq, Eq)]
pub enum Outcome {
    Ran,
    Plain,
    Padded,
    Chained,
    Back,
    Reset(u8),
    Halted,
}

impl Outcome {
    /// "R ran, I plain, P padded [...], C chained, B back, X reset, H halted."
    pub fn letter(&self) -> char {
        match self {
            Outcome::Ran => 'R',
            Outcome::Plain => 'I',
            Outcome::Padded => 'P',
            Outcome::Chained => 'C',
            Outcome::Back => 'B',
            Outcome::Reset(_) => 'X',
            Outcome::Halted => 'H',
        }
    }
}

impl Machine {
    /// The definition's step.
    pub(crate) fn one_step(&mut self, memory: &mut [u8], layout: &Layout, lists: Lists) -> Outcome {
        // "A halted machine answers "halted" unchanged."
        if self.halted {
            return Outcome::Halted;
        }
        // "Otherwise these are tried in order; the first that holds causes a
        // reset by that name."
        let instruction = match self.tried(memory, layout) {
            Ok(instruction) => instruction,
            Err(cause) => return self.reset(memory, lists, cause),
        };
        // "RETI while a visit is held, also from a nested service routine."
        if instruction == Instruction::Reti && self.held.is_some() {
            return self.return_to_held(layout, lists);
        }
        // "Otherwise the instruction acts, its cycles pass, and its address
        // becomes the previous one."
        let address = self.registers[PC];
        let before = self.registers;
        self.act(memory, layout, lists, &instruction);
        self.pass(cycles(&instruction) as u64, lists);
        if let Instruction::Out(s) = instruction {
            self.set_alarm(before[s as usize]);
        }
        self.previous = address;
        // "HLT halts after its cycles, with no interrupt."
        if instruction == Instruction::Hlt {
            self.halted = true;
            return Outcome::Halted;
        }
        // "Then, if GIE is set and the slot filled."
        if layout.inside(address) {
            if self.padded_check(layout, lists) {
                Outcome::Padded
            } else {
                Outcome::Ran
            }
        } else {
            self.plain_check(memory, layout, lists)
        }
    }

    /// The eight causes, in order.
    fn tried(&self, memory: &[u8], layout: &Layout) -> Result<Instruction, u8> {
        let pc = self.registers[PC];
        let inside = layout.inside(pc);
        // 1. "pc may not be executed from the previous instruction's address"
        if !layout.may(self.previous, Right::Execute, pc) {
            return Err(1);
        }
        // 2. "pc is inside while a visit is held"
        if inside && self.held.is_some() {
            return Err(2);
        }
        // 3. "the first word doesn't begin an instruction"
        let first = read_word(memory, pc);
        let Some(length) = begins(first) else {
            return Err(3);
        };
        // 4. "the second word's address is not on the first word's side,
        // inside or outside (tested before it is read)" (reading "sides")
        let mut second = 0;
        if length == 2 {
            let second_address = pc.wrapping_add(2);
            let same_side = if inside {
                layout.inside(second_address)
            } else {
                layout.outside(second_address)
            };
            if !same_side {
                return Err(4);
            }
            second = read_word(memory, second_address);
        }
        // 5. "the second word is wrong"
        let Some((instruction, _)) = decode(first, second) else {
            return Err(5);
        };
        // 6. "HLT, IN or OUT inside"
        let barred_inside = matches!(
            instruction,
            Instruction::Hlt | Instruction::In(_) | Instruction::Out(_)
        );
        if inside && barred_inside {
            return Err(6);
        }
        // 7. "a read is barred": MOV @s d, and RETI with no visit held
        // (reading "no stack"). A word access drops address bit 0.
        let may = |right: Right, address: u16| layout.may(pc, right, address & 0xFFFE);
        if let Instruction::Mov(Operand::Pointed(s), _) = instruction {
            if !may(Right::Read, self.registers[s as usize]) {
                return Err(7);
            }
        }
        if instruction == Instruction::Reti && self.held.is_none() {
            let sp = self.registers[SP];
            if !may(Right::Read, sp) || !may(Right::Read, sp.wrapping_add(2)) {
                return Err(7);
            }
        }
        // 8. "a write is barred"
        if let Instruction::Store(_, d) = instruction {
            if !may(Right::Write, self.registers[d as usize]) {
                return Err(8);
            }
        }
        Ok(instruction)
    }

    /// "Reset: 4 cycles pass; then the slot empties, any held visit is
    /// dropped, registers become 0, pc becomes the word at FFFE less its bit
    /// 0, the previous address is FFFE. An alarm not due in those cycles
    /// stays; memory too."
    fn reset(&mut self, memory: &[u8], lists: Lists, cause: u8) -> Outcome {
        self.pass(4, lists);
        self.slot = None;
        self.held = None;
        self.registers = [0; 16];
        self.registers[PC] = read_word(memory, VECTOR) & 0xFFFE;
        self.previous = VECTOR;
        Outcome::Reset(cause)
    }

    /// "The instruction acts": its registers and bytes. OUT acts after its
    /// cycles; RETI here has no visit held.
    fn act(&mut self, memory: &mut [u8], layout: &Layout, lists: Lists, instruction: &Instruction) {
        // "Reading r0 as an operand gives the instruction's own address."
        let before = self.registers;
        let address = before[PC];
        let inside = layout.inside(address);
        // "Next pc is that address plus length, unless r0 is written."
        self.registers[PC] = address.wrapping_add(2 * words(instruction) as u16);
        match *instruction {
            Instruction::Hlt | Instruction::Nop | Instruction::Out(_) => {}
            // IN's cycles have not passed yet.
            Instruction::In(d) => {
                self.write_register(inside, d as usize, self.device_word(lists));
            }
            // "JZ jumps if Z is set."
            Instruction::Jz(s) => {
                if before[SR] & Z != 0 {
                    self.write_register(inside, PC, before[s as usize]);
                }
            }
            Instruction::Jmp(s) => self.write_register(inside, PC, before[s as usize]),
            // "RETI with no visit held reads sr at sp and pc at sp + 2, and
            // adds 4 to sp."
            Instruction::Reti => {
                let sp = before[SP];
                self.write_register(inside, SR, read_word(memory, sp));
                self.write_register(inside, PC, read_word(memory, sp.wrapping_add(2)));
                self.write_register(inside, SP, sp.wrapping_add(4));
            }
            Instruction::Mov(operand, d) => {
                let word = match operand {
                    Operand::Register(s) => before[s as usize],
                    Operand::Pointed(s) => read_word(memory, before[s as usize]),
                    Operand::Constant(w) => w,
                };
                self.write_register(inside, d as usize, word);
            }
            Instruction::Store(s, d) => {
                write_word(memory, before[d as usize], before[s as usize]);
            }
            // "CMP stores nothing." "Set flags from the 16-bit result [...],
            // after storing it."
            Instruction::Compute(operation, s, d) => {
                let (result, flags) = compute(operation, before[s as usize], before[d as usize]);
                if operation != Operation::Cmp {
                    self.write_register(inside, d as usize, result);
                }
                self.set_flags(flags);
            }
            Instruction::Not(d) => {
                let (result, flags) = compute_not(before[d as usize]);
                self.write_register(inside, d as usize, result);
                self.set_flags(flags);
            }
        }
    }

    /// The four flags; the other bits of sr stay (reading "flags").
    fn set_flags(&mut self, flags: u16) {
        self.registers[SR] = (self.registers[SR] & !(C | Z | N | V)) | flags;
    }

    /// "Then, if GIE is set and the slot filled."
    fn interrupt_due(&self) -> bool {
        self.registers[SR] & GIE != 0 && self.slot.is_some()
    }

    /// "Plain, instruction not inside: the slot empties; pc goes to sp - 2, sr
    /// to sp - 4, sp falls by 4, sr becomes 0, pc the service address; 6
    /// cycles pass. If either word is code or data, reset instead (name 8)."
    fn plain_check(&mut self, memory: &mut [u8], layout: &Layout, lists: Lists) -> Outcome {
        if !self.interrupt_due() {
            return Outcome::Ran;
        }
        let pc_place = self.registers[SP].wrapping_sub(2);
        let sr_place = self.registers[SP].wrapping_sub(4);
        if !layout.outside(pc_place) || !layout.outside(sr_place) {
            return self.reset(memory, lists, 8);
        }
        self.slot = None;
        write_word(memory, pc_place, self.registers[PC]);
        write_word(memory, sr_place, self.registers[SR]);
        self.registers[SP] = sr_place;
        self.registers[SR] = 0;
        self.registers[PC] = layout.service;
        self.previous = VECTOR;
        self.pass(6, lists);
        Outcome::Plain
    }

    /// "Padded, instruction inside: age is clock minus stamp, at most 6
    /// counted. 6 - age cycles pass, the slot empties, 6 more pass. Registers,
    /// previous address and age are held. Registers become 0, pc the service
    /// address." The answer: whether a padded service has started.
    fn padded_check(&mut self, layout: &Layout, lists: Lists) -> bool {
        if !self.interrupt_due() {
            return false;
        }
        let Some(stamp) = self.slot else {
            return false;
        };
        let age = (self.clock - stamp).min(6);
        self.pass(6 - age, lists);
        self.slot = None;
        self.pass(6, lists);
        self.held = Some(SavedContext {
            registers: self.registers,
            previous: self.previous,
            age,
        });
        self.start_service(layout);
        true
    }

    /// "Registers become 0, pc the service address." "Once a plain, padded or
    /// chained service starts, the previous address is FFFE."
    fn start_service(&mut self, layout: &Layout) {
        self.registers = [0; 16];
        self.registers[PC] = layout.service;
        self.previous = VECTOR;
    }

    /// "RETI while a visit is held [...] takes 5 cycles. If the slot is now
    /// filled: chained, the slot empties, registers are cleared as in padded,
    /// 6 cycles pass, the visit stays held. Else registers and previous
    /// address return, age cycles pass, and the padded check is made once
    /// more."
    fn return_to_held(&mut self, layout: &Layout, lists: Lists) -> Outcome {
        self.pass(cycles(&Instruction::Reti) as u64, lists);
        if self.slot.is_some() {
            self.slot = None;
            self.start_service(layout);
            self.pass(6, lists);
            return Outcome::Chained;
        }
        if let Some(held) = self.held.take() {
            self.registers = held.registers;
            self.previous = held.previous;
            self.pass(held.age, lists);
        }
        if self.padded_check(layout, lists) {
            Outcome::Padded
        } else {
            Outcome::Back
        }
    }
}
