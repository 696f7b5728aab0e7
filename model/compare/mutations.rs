//! The mutants: small changes of the model's text, each of which the comparison must see.

/// One change: in a file of the model, a text that stands there exactly once, and what takes its
/// place.
pub struct Change {
    pub file: &'static str,
    pub from: &'static str,
    pub to: &'static str,
}

/// A mutant of the model.
pub struct Mutation {
    pub name: &'static str,
    pub changes: &'static [Change],
}

/// A mutant by its name and, for each change, `file: from => to`.
macro_rules! mutation {
    ($name:literal, $($file:literal: $from:literal => $to:literal),+) => {
        Mutation {
            name: $name,
            changes: &[$(Change { file: $file, from: $from, to: $to }),+],
        }
    };
}

pub const MUTATIONS: &[Mutation] = &[
    mutation!("slot_emptied_before_wait", "step.rs":
        "self.pass(6 - age, lists);\n        self.slot = None;" =>
        "self.slot = None;\n        self.pass(6 - age, lists);"),
    mutation!("no_return_padding", "step.rs": "self.pass(held.age, lists);" => ""),
    mutation!("chaining_looks_at_gie", "step.rs":
        "if self.slot.is_some() {" => "if self.interrupt_due() {"),
    mutation!("gie_writable_inside", "state.rs":
        "SR if inside => (word & !GIE) | (self.registers[SR] & GIE)," => ""),
    mutation!("age_not_capped", "step.rs":
        "let age = (self.clock - stamp).min(6);\n        self.pass(6 - age, lists);" =>
        "let age = self.clock - stamp;\n        self.pass(6u64.saturating_sub(age), lists);"),
    mutation!("zero_flag_at_bit_0",
        "arithmetic.rs": "C: u16 = 1 << 0" => "C: u16 = 1 << 1",
        "arithmetic.rs": "Z: u16 = 1 << 1" => "Z: u16 = 1 << 0"),
    mutation!("subtraction_turned_round", "arithmetic.rs":
        "destination.wrapping_sub(source)" => "source.wrapping_sub(destination)"),
    mutation!("alarm_set_before_cycles", "step.rs":
        "self.pass(cycles(&instruction) as u64, lists);\n        if let Instruction::Out(s) = instruction {\n            self.set_alarm(before[s as usize]);\n        }" =>
        "if let Instruction::Out(s) = instruction {\n            self.set_alarm(before[s as usize]);\n        }\n        self.pass(cycles(&instruction) as u64, lists);"),
    mutation!("second_word_read_before_its_side", "step.rs":
        "if !same_side {" =>
        "if decode(first, read_word(memory, second_address)).is_none() {\n                return Err(5);\n            }\n            if !same_side {"),
    mutation!("plain_interrupt_onto_barred_stack", "step.rs":
        "if !layout.outside(pc_place) || !layout.outside(sr_place) {" => "if false {"),
    mutation!("reset_keeps_slot", "step.rs":
        "self.pass(4, lists);\n        self.slot = None;" => "self.pass(4, lists);"),
    mutation!("return_to_held_reads_stack", "step.rs":
        "if instruction == Instruction::Reti && self.held.is_none() {" =>
        "if instruction == Instruction::Reti {"),
    mutation!("alarm_loses_to_later_stamp", "time.rs": "other.min(s)" => "other"),
    mutation!("clock_at_limit_ends_run", "calls.rs":
        "} else if self.clock > CLOCK_LIMIT {" => "} else if self.clock >= CLOCK_LIMIT {"),
    mutation!("timetable_of_4097_taken", "time.rs":
        "stamps.len() <= MOST_STAMPS" => "stamps.len() <= MOST_STAMPS + 1"),
    mutation!("held_previous_anywhere", "state.rs":
        "!layout.inside(held.previous) || odd(held.previous)" => "odd(held.previous)"),
    mutation!("earlier_memory_line_wins", "sheet.rs":
        "write_word(&mut memory, address, word);" =>
        "if super::read_word(&memory, address) == 0 {\n                write_word(&mut memory, address, word);\n            }"),
    mutation!("sheet_of_4097_stamps_taken", "sheet.rs":
        "stamps.len() == MOST_STAMPS" => "stamps.len() > MOST_STAMPS"),
    mutation!("record_at_the_clock_left_out", "time.rs":
        "if stamp <= self.clock {" => "if stamp < self.clock {"),
    mutation!("next_record_read", "time.rs":
        "if stamp <= self.clock {\n                word = recorded;\n            }" =>
        "word = recorded;\n            if stamp > self.clock {\n                break;\n            }"),
    mutation!("clock_read_beside_a_trace", "time.rs":
        "if lists.trace.stamps.is_empty() {" => "if true {"),
    mutation!("words_by_the_timetables_place", "time.rs":
        "lists.trace.stamps.iter().zip(lists.trace.words)" =>
        "lists.timetable.iter().zip(lists.trace.words)"),
    mutation!("records_ring_no_request", "time.rs":
        "lists.trace.stamps.iter().copied().find(happens)" => "None::<u64>"),
    mutation!("record_wins_over_earlier_stamp", "time.rs":
        "earliest.map_or(s, |listed| listed.min(s))" => "s"),
    mutation!("unequal_counts_taken", "time.rs":
        "trace.stamps.len() == trace.words.len() && timetable_valid(trace.stamps)" =>
        "timetable_valid(trace.stamps)"),
    mutation!("trace_tested_after_frame",
        "calls.rs": "if !trace_valid(trace) {\n            return Some(10);\n        }\n" => "",
        "calls.rs": "if budget.is_some_and(" =>
        "if !trace_valid(trace) {\n            return Some(10);\n        }\n        if budget.is_some_and("),
    mutation!("records_rise_with_stamps", "sheet.rs":
        "if !follows(&trace_stamps, stamp) {" =>
        "if !follows(&trace_stamps, stamp) || !follows(&stamps, stamp) {"),
    mutation!("record_stamp_tested_before_its_word", "sheet.rs":
        "let word = hexadecimal(fields[2]).ok_or((7, number))?;\n            // 4,097" =>
        "if !follows(&trace_stamps, stamp) {\n                return Err((10, number));\n            }\n            let word = hexadecimal(fields[2]).ok_or((7, number))?;\n            // 4,097"),
    mutation!("step_made_at_the_address",
        "calls.rs": "stop == Stop::At(self.registers[PC])" => "false",
        "calls.rs": "self.one_step(memory, layout, lists);\n            steps += 1;" =>
        "let there = stop == Stop::At(self.registers[PC]);\n            self.one_step(memory, layout, lists);\n            steps += 1;\n            if there {\n                return Ok((End::Address, steps));\n            }"),
    mutation!("step_at_the_address_not_counted",
        "calls.rs": "stop == Stop::At(self.registers[PC])" => "false",
        "calls.rs": "self.one_step(memory, layout, lists);\n            steps += 1;" =>
        "let there = stop == Stop::At(self.registers[PC]);\n            self.one_step(memory, layout, lists);\n            if there {\n                return Ok((End::Address, steps));\n            }\n            steps += 1;"),
    mutation!("address_counted_as_a_step", "calls.rs":
        "return Ok((end, steps));" => "return Ok((end, steps + (end == End::Address) as u64));"),
    mutation!("spent_before_address", "calls.rs":
        "} else if stop == Stop::At(self.registers[PC]) {\n            Some(End::Address)\n        } else if steps == budget {\n            Some(End::Spent)" =>
        "} else if steps == budget {\n            Some(End::Spent)\n        } else if stop == Stop::At(self.registers[PC]) {\n            Some(End::Address)"),
    mutation!("budget_0_spent_at_the_address", "calls.rs":
        "stop == Stop::At(self.registers[PC])" => "budget > 0 && stop == Stop::At(self.registers[PC])"),
    mutation!("address_before_clock", "calls.rs":
        "} else if self.clock > CLOCK_LIMIT {\n            Some(End::Clock)\n        } else if stop == Stop::At(self.registers[PC]) {\n            Some(End::Address)" =>
        "} else if stop == Stop::At(self.registers[PC]) {\n            Some(End::Address)\n        } else if self.clock > CLOCK_LIMIT {\n            Some(End::Clock)"),
    mutation!("address_before_halted", "calls.rs":
        "if self.halted {\n            Some(End::Halted)" =>
        "if stop == Stop::At(self.registers[PC]) {\n            Some(End::Address)\n        } else if self.halted {\n            Some(End::Halted)"),
    mutation!("address_not_tested_before_the_first_step", "calls.rs":
        "stop == Stop::At(self.registers[PC])" => "steps > 0 && stop == Stop::At(self.registers[PC])"),
    mutation!("address_tested_every_other_step", "calls.rs":
        "stop == Stop::At(self.registers[PC])" => "steps % 2 == 0 && stop == Stop::At(self.registers[PC])"),
    mutation!("previous_address_compared", "calls.rs":
        "stop == Stop::At(self.registers[PC])" => "stop == Stop::At(self.previous)"),
    mutation!("second_words_address_compared", "calls.rs":
        "stop == Stop::At(self.registers[PC])" => "stop == Stop::At(self.registers[PC].wrapping_add(2))"),
    mutation!("second_word_met_too", "calls.rs":
        "self.one_step(memory, layout, lists);\n            steps += 1;" =>
        "let pc = self.registers[PC];\n            let long = crate::instruction::begins(crate::memory::read_word(memory, pc)) == Some(2);\n            if long && stop == Stop::At(pc.wrapping_add(2)) {\n                return Ok((End::Address, steps));\n            }\n            self.one_step(memory, layout, lists);\n            steps += 1;"),
    mutation!("service_and_reset_pass_the_address", "calls.rs":
        "stop == Stop::At(self.registers[PC])" =>
        "(steps == 0 || self.previous != crate::state::VECTOR) && stop == Stop::At(self.registers[PC])"),
    mutation!("address_0_is_none", "calls.rs":
        "stop == Stop::At(self.registers[PC])" => "self.registers[PC] != 0 && stop == Stop::At(self.registers[PC])"),
    mutation!("none_is_address_0", "calls.rs":
        "stop == Stop::At(self.registers[PC])" =>
        "stop == Stop::At(self.registers[PC]) || stop == Stop::Never && self.registers[PC] == 0"),
    mutation!("address_in_a_section_refused", "calls.rs":
        "if address % 2 == 1)" => "if address % 2 == 1 || !layout.outside(address))"),
    mutation!("odd_address_taken", "calls.rs":
        "if address % 2 == 1)" => "if false)"),
    mutation!("odd_address_taken_as_even",
        "calls.rs": "if address % 2 == 1)" => "if false)",
        "calls.rs": "stop == Stop::At(self.registers[PC])" =>
        "matches!(stop, Stop::At(address) if address & 0xFFFE == self.registers[PC])"),
    mutation!("odd_address_taken_halted", "calls.rs":
        "if matches!(stop, Stop::At(address)" => "if !self.halted && matches!(stop, Stop::At(address)"),
    mutation!("landmark_tested_after_clock", "calls.rs":
        "if matches!(stop, Stop::At(address) if address % 2 == 1) {\n            return Some(11);\n        }\n        if self.clock > CLOCK_LIMIT {\n            return Some(6);\n        }" =>
        "if self.clock > CLOCK_LIMIT {\n            return Some(6);\n        }\n        if matches!(stop, Stop::At(address) if address % 2 == 1) {\n            return Some(11);\n        }"),
    mutation!("landmark_tested_before_distance", "calls.rs":
        "if budget.is_some_and(|budget| budget > MOST_STEPS) {\n            return Some(5);\n        }\n        if matches!(stop, Stop::At(address) if address % 2 == 1) {\n            return Some(11);\n        }" =>
        "if matches!(stop, Stop::At(address) if address % 2 == 1) {\n            return Some(11);\n        }\n        if budget.is_some_and(|budget| budget > MOST_STEPS) {\n            return Some(5);\n        }"),
    mutation!("landmark_tested_before_frame",
        "calls.rs": "if matches!(stop, Stop::At(address) if address % 2 == 1) {\n            return Some(11);\n        }\n" => "",
        "calls.rs": "if !self.frame_valid(layout) {" =>
        "if matches!(stop, Stop::At(address) if address % 2 == 1) {\n            return Some(11);\n        }\n        if !self.frame_valid(layout) {"),
    mutation!("nop_read_as_mov",
        "instruction.rs": "if word == 0x4303 {\n        return Some(Nop);\n    }\n" => "",
        "instruction.rs": " && !(s == 3 && d == 3)" => ""),
    mutation!("jmp_read_as_mov",
        "instruction.rs": "if (top, middle, d) == (4, 0, 0) {\n        return Some(Jmp(s));\n    }\n" => "",
        "instruction.rs": "(4, 0) && d != 0 &&" => "(4, 0) &&"),
    mutation!("mov_from_r3_read_as_nop", "instruction.rs":
        "if word == 0x4303 {" => "if (top, s, middle) == (4, 3, 0) && d != 0 {"),
    mutation!("mov_to_r3_read_as_nop", "instruction.rs":
        "if word == 0x4303 {" => "if (top, middle, d) == (4, 0, 3) {"),
    mutation!("mov_with_r3_left_out", "instruction.rs":
        "&& !(s == 3 && d == 3)" => "&& s != 3 && d != 3"),
    mutation!("group_4_with_d_0_only_jumps", "instruction.rs":
        "if (top, middle, d) == (4, 0, 0) {\n        return Some(Jmp(s));" =>
        "if (top, d) == (4, 0) {\n        return (middle == 0).then_some(Jmp(s));"),
    mutation!("pointed_by_r0_taken", "instruction.rs":
        "&& s != 0 && s != 2 && s != 3" => "&& s != 2 && s != 3"),
    mutation!("pointed_by_r2_taken", "instruction.rs":
        "&& s != 0 && s != 2 && s != 3" => "&& s != 0 && s != 3"),
    mutation!("pointed_by_r3_taken", "instruction.rs":
        "&& s != 0 && s != 2 && s != 3" => "&& s != 0 && s != 2"),
    mutation!("store_to_r0_taken", "instruction.rs":
        "&& d != 0 && d != 2 && d != 3" => "&& d != 2 && d != 3"),
    mutation!("store_to_r2_taken", "instruction.rs":
        "&& d != 0 && d != 2 && d != 3" => "&& d != 0 && d != 3"),
    mutation!("store_to_r3_taken", "instruction.rs":
        "&& d != 0 && d != 2 && d != 3" => "&& d != 0 && d != 2"),
    mutation!("pointed_and_store_leave_out_the_other",
        "instruction.rs": "(4, 2) && s != 0 && s != 2 && s != 3" => "(4, 2) && d != 0 && d != 2 && d != 3",
        "instruction.rs": "(4, 8) && d != 0 && d != 2 && d != 3" => "(4, 8) && s != 0 && s != 2 && s != 3"),
    mutation!("constant_with_any_second_digit_taken", "instruction.rs":
        "(top, s, middle) == (4, 0, 3)" => "(top, middle) == (4, 3)"),
    mutation!("group_5_read_as_pointed", "instruction.rs":
        "(top, middle) == (4, 2)" => "(top / 2, middle) == (2, 2)"),
    mutation!("add_with_third_digit_1_taken", "instruction.rs":
        "(top, middle) == (0x5, 0)" => "(top, middle / 2) == (0x5, 0)"),
    mutation!("add_to_r0_left_out", "instruction.rs":
        "(top, middle) == (0x5, 0)" => "(top, middle) == (0x5, 0) && d != 0"),
    mutation!("word_0000_read_as_hlt", "instruction.rs": "word == 0x0001" => "word <= 0x0001"),
    mutation!("rest_of_group_0_read_as_hlt", "instruction.rs":
        "word == 0x0001" => "(top, s) == (0, 0) && !(1..=3).contains(&middle)"),
    mutation!("in_with_any_second_digit_taken", "instruction.rs":
        "(top, s, middle) == (0, 0, 1)" => "(top, middle) == (0, 1)"),
    mutation!("jz_by_r0_left_out", "instruction.rs":
        "(top, s, middle) == (0, 0, 3)" => "(top, s, middle) == (0, 0, 3) && d != 0"),
    mutation!("reti_with_any_last_digit_taken", "instruction.rs":
        "word == 0x1300" => "(top, s, middle) == (1, 3, 0)"),
    mutation!("not_with_any_second_digit_taken", "instruction.rs":
        "(top, s, middle) == (0xE, 0, 3)" => "(top, middle) == (0xE, 3)"),
    mutation!("not_with_any_second_word_taken", "instruction.rs":
        "Not(_) if second != 0xFFFF => return None," => ""),
    mutation!("store_with_any_second_word_taken", "instruction.rs":
        "Store(_, _) if second != 0x0000 => return None," => ""),
    mutation!("wrong_second_word_told_as_a_first", "step.rs": "return Err(5);" => "return Err(3);"),
];
