//! A static library that was made into a shared object and is loaded: the functions that are measured, by their addresses.

use crate::library::{lists, Exports, Lent};
use crate::programs::World;
use crate::words::Pair;
use enclave::raw::Numbers;
use std::ffi::{c_char, c_int, c_void, CStr, CString};
use std::mem::transmute;
use std::os::unix::ffi::OsStrExt;
use std::path::Path;

extern "C" {
    fn dlopen(path: *const c_char, flags: c_int) -> *mut c_void;
    fn dlsym(handle: *mut c_void, name: *const c_char) -> *mut c_void;
    fn dlerror() -> *const c_char;
}

/// RTLD_NOW: all is bound at once. RTLD_LOCAL is 0: no other object sees its names.
const FLAGS: c_int = 2;

/// A function that is lent a machine, memory and its size, a layout, the three lists with their lengths, and what is its own.
macro_rules! lending {
    ($($own:ty),+) => {
        unsafe extern "C" fn(
            *mut [u16; 16], *mut [u16; 16], *mut [u16; 5], *mut [u64; 3], *mut u8, usize, *const [u16; 5],
            *const u64, usize, *const u64, usize, *const u16, usize, $($own),+
        ) -> u8
    };
}

/// A call of such a function.
macro_rules! lend {
    ($function:expr, $lent:expr, $world:expr, $($own:expr),+) => {{
        let (Lent { machine, memory }, lists) = ($lent, lists($world));
        $function(
            &raw mut machine.registers,
            &raw mut machine.saved,
            &raw mut machine.control,
            &raw mut machine.time,
            memory.as_mut_ptr(),
            memory.len(),
            &raw const $world.layout,
            lists.stamps.as_ptr(),
            lists.stamps.len(),
            lists.trace_stamps.as_ptr(),
            lists.trace_stamps.len(),
            lists.trace_words.as_ptr(),
            lists.trace_words.len(),
            $($own),+
        )
    }};
}

type Start = unsafe extern "C" fn(
    *mut [u16; 16],
    *mut [u16; 16],
    *mut [u16; 5],
    *mut [u64; 3],
    *const u8,
    usize,
) -> u8;
type Step = lending!(*mut u8, *mut u8);
type Run = lending!(u64, *mut u8, *mut u64);
type RunTo = lending!(u16, u64, *mut u8, *mut u64);
type Read = unsafe extern "C" fn(u16, u16, *mut [u16; 4], *mut u8) -> u8;

/// It stays loaded to the end.
pub struct Loaded {
    start: Start,
    step: Step,
    run: Run,
    run_to: RunTo,
    read: Read,
}

impl Loaded {
    /// Loads a shared object of such a library.
    pub fn open(object: &Path) -> Result<Loaded, String> {
        let path =
            CString::new(object.as_os_str().as_bytes()).map_err(|error| error.to_string())?;
        // SAFETY: the path ends with a 0; the object has no code that is run by loading it.
        let handle = unsafe { dlopen(path.as_ptr(), FLAGS) };
        if handle.is_null() {
            return Err(complaint());
        }
        // SAFETY: the types are those of the header. A library of before `enclave_run_to`, whose others differ, has no such name.
        unsafe {
            Ok(Loaded {
                start: transmute::<*mut c_void, Start>(address(handle, c"enclave_start")?),
                step: transmute::<*mut c_void, Step>(address(handle, c"enclave_step")?),
                run: transmute::<*mut c_void, Run>(address(handle, c"enclave_run")?),
                run_to: transmute::<*mut c_void, RunTo>(address(handle, c"enclave_run_to")?),
                read: transmute::<*mut c_void, Read>(address(handle, c"enclave_read")?),
            })
        }
    }

    /// Where its code is.
    pub fn place(&self) -> usize {
        self.run as usize
    }
}

/// Where a function is.
fn address(handle: *mut c_void, name: &CStr) -> Result<*mut c_void, String> {
    // SAFETY: the handle is of an object that stays loaded, and the name ends with a 0.
    let found = unsafe { dlsym(handle, name.as_ptr()) };
    if found.is_null() {
        return Err(complaint());
    }
    Ok(found)
}

/// What the call that failed just now has to say.
fn complaint() -> String {
    // SAFETY: after a call that failed there is a text, which ends with a 0.
    let text = unsafe { CStr::from_ptr(dlerror()) };
    text.to_string_lossy().into_owned()
}

// In each function the pointers come from references to what their types say, exclusive ones where the library writes, so what they
// point to is apart; a size beside a pointer is its list's.
impl Exports for Loaded {
    fn start(&self, machine: &mut Numbers, memory: &[u8]) -> u8 {
        // SAFETY: as above.
        unsafe {
            (self.start)(
                &raw mut machine.registers,
                &raw mut machine.saved,
                &raw mut machine.control,
                &raw mut machine.time,
                memory.as_ptr(),
                memory.len(),
            )
        }
    }

    fn step(&self, lent: &mut Lent, world: &World, kind: &mut u8, cause: &mut u8) -> u8 {
        // SAFETY: as above.
        unsafe { lend!((self.step), lent, world, kind, cause) }
    }

    fn run(
        &self,
        lent: &mut Lent,
        world: &World,
        budget: u64,
        end: &mut u8,
        steps: &mut u64,
    ) -> u8 {
        // SAFETY: as above.
        match world.stop {
            None => unsafe { lend!((self.run), lent, world, budget, end, steps) },
            Some(stop) => unsafe { lend!((self.run_to), lent, world, stop, budget, end, steps) },
        }
    }

    fn read(&self, [first, second]: Pair, fields: &mut [u16; 4], length: &mut u8) -> u8 {
        // SAFETY: as above.
        unsafe { (self.read)(first, second, fields, length) }
    }
}
