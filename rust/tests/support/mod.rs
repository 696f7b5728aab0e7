//! What several tests share.
#![allow(dead_code)]

use enclave::{Layout, Machine, MachineFields, Memory, Setup};

pub mod raw;

#[path = "../../examples/document_01.rs"]
mod example;

/// Document 01's sheet with another timetable, by its A lines.
pub fn sheet_with(stamps: &str) -> String {
    let sheet = "L 8000 8008 8100 8104 4500/M FFFE 4400/M 4400 4032/M 4402 0008/M 4404 4030/\
                 M 4406 8000/M 4500 1300/M 4600 0001/M 8000 4303/M 8002 4035/M 8004 4600/\
                 M 8006 4500/STAMPSG 20/";
    sheet
        .replace("STAMPS", stamps)
        .replace(' ', "\t")
        .replace('/', "\n")
}

/// Document 01's sheet as the paper has it.
pub fn paper_sheet() -> String {
    sheet_with("A 6/")
}

/// The setup of document 01's sheet.
pub fn paper_setup() -> Setup {
    Setup::read(paper_sheet().as_bytes()).unwrap()
}

/// Document 01's layout.
pub fn paper_layout() -> Layout {
    Layout::new(0x8000..0x8008, 0x8100..0x8104, 0x4500).unwrap()
}

/// The transcript of a sheet, as the example writes it.
pub fn transcript(sheet: &[u8]) -> String {
    let mut out = Vec::new();
    example::write_transcript(sheet, &mut out).unwrap();
    String::from_utf8(out).unwrap()
}

// A file of the worked sheets.
fn sheets_file(name: &str) -> Vec<u8> {
    let folder = concat!(env!("CARGO_MANIFEST_DIR"), "/../sheets");
    std::fs::read(format!("{folder}/{name}")).unwrap()
}

/// A worked sheet of the repository.
pub fn worked_sheet(name: &str) -> Vec<u8> {
    sheets_file(&format!("{name}.sheet"))
}

/// The names of all worked sheets.
pub fn worked_sheets() -> Vec<String> {
    let folder = concat!(env!("CARGO_MANIFEST_DIR"), "/../sheets");
    let files = std::fs::read_dir(folder).unwrap();
    let names = files.map(|file| file.unwrap().file_name().into_string().unwrap());
    let mut names: Vec<String> = names
        .filter_map(|name| name.strip_suffix(".sheet").map(String::from))
        .collect();
    names.sort();
    names
}

/// The transcript of a worked sheet that the separate model wrote.
pub fn model_transcript(name: &str) -> String {
    String::from_utf8(sheets_file(&format!("{name}.transcript"))).unwrap()
}

/// The fields of a machine at its start, with pc at this address.
pub fn fields_at(pc: u16) -> MachineFields {
    let mut memory = Memory::zeroed();
    memory.set_word(0xFFFE, pc);
    Machine::start(paper_layout(), &memory).fields()
}

/// A machine at NOP with this clock, and its memory.
pub fn machine_at(clock: u64) -> (Machine, Memory) {
    let mut fields = fields_at(0x4400);
    fields.clock = clock;
    let mut memory = Memory::zeroed();
    memory.set_word(0x4400, 0x4303);
    let machine = Machine::from_fields(paper_layout(), &fields).unwrap();
    (machine, memory)
}
