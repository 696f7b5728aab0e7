//! Start, step, run and a transcript allocate nothing, with an array for memory, a borrowed timetable and a borrowed
//! trace; to restore a machine a memory is taken from the heap, once.

use std::alloc::{GlobalAlloc, Layout as Block, System};
use std::cell::Cell;
use std::hint::black_box;

use enclave::{Budget, Layout, Machine, Memory, StopAddress, Timetable, Trace, MEMORY_SIZE};

thread_local! {
    static ALLOCATIONS: Cell<usize> = const { Cell::new(0) };
}

// The system's allocator, counting for each thread.
struct Counting;

// SAFETY: both functions hand their arguments on to the system's allocator as they come.
unsafe impl GlobalAlloc for Counting {
    unsafe fn alloc(&self, block: Block) -> *mut u8 {
        ALLOCATIONS.with(|count| count.set(count.get() + 1));
        unsafe { System.alloc(block) }
    }

    unsafe fn dealloc(&self, pointer: *mut u8, block: Block) {
        unsafe { System.dealloc(pointer, block) }
    }
}

#[global_allocator]
static COUNTING: Counting = Counting;

// How many allocations this makes.
fn allocations<T>(work: impl FnOnce() -> T) -> usize {
    let before = ALLOCATIONS.with(Cell::get);
    black_box(work());
    ALLOCATIONS.with(Cell::get) - before
}

fn layout() -> Layout {
    Layout::new(0x8000..0x8008, 0x8100..0x8104, 0x4500).unwrap()
}

// Starts, steps, runs and transcribes a machine of NOPs.
#[expect(
    clippy::large_stack_arrays,
    reason = "nothing is to come from the heap"
)]
fn work() {
    let mut memory = [0; MEMORY_SIZE];
    for word in memory.chunks_exact_mut(2) {
        word.copy_from_slice(&[0x03, 0x43]);
    }
    let stamps = [6, 20, 40];
    let timetable = Timetable::new(&stamps).unwrap();
    let words = [0x0001, 0x0002, 0x0003];
    let trace = Trace::new(&stamps, &words).unwrap();
    let mut machine = Machine::start(layout(), &memory);
    machine.step(&mut memory, &timetable, &trace).unwrap();
    let budget = Budget::new(1000).unwrap();
    machine
        .run(&mut memory, &timetable, &trace, budget)
        .unwrap();
    let stop = StopAddress::new(machine.pc().wrapping_add(100)).unwrap();
    let stopped = machine.run_to(&mut memory, &timetable, &trace, stop, budget);
    assert_eq!(stopped.map(|s| s.steps), Ok(50));
    let mut lines = machine.transcript(&mut memory, &timetable, &trace, budget);
    assert!(lines.fill(&mut [0; 4096]) > 0);
}

#[test]
fn calls_allocate_nothing() {
    assert_eq!(allocations(work), 0);
    assert_eq!(allocations(|| vec![0u8; 8]), 1, "allocations are counted");
}

#[test]
fn restoring_allocates_a_memory() {
    let fields = Machine::start(layout(), &Memory::zeroed()).fields();
    let restored = || Machine::from_fields(layout(), &fields);
    assert_eq!(allocations(restored), 1);
}
