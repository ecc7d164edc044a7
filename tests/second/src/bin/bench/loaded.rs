//! Two builds of the library in one run, each loaded from its shared library, so
//! that both are called in the same way.

use std::ffi::{c_char, c_int, c_void, CStr, CString};
use std::fs;
use std::mem::transmute_copy;
use std::os::unix::ffi::OsStrExt;
use std::sync::OnceLock;

use kettlefrost::raw::{self, Answer, Operation, Reading, Slot, State, Written};

type Read = unsafe extern "C" fn(*const u8, usize, usize) -> Reading;
type Write = unsafe extern "C" fn(Operation, *const u8, usize, *mut u8, usize) -> Written;
type Layout = unsafe extern "C" fn() -> u64;

/// State, slots, payload and queues; then node and buffer, or an injection.
macro_rules! bus_call {
    ($($last:ty),*) => {
        unsafe extern "C" fn(State, *mut Slot, usize, *mut u8, usize, *mut u8, usize, $($last),*) -> Answer
    };
}

type Submit = bus_call!(u32, *const u8, usize);
type Round = bus_call!(u32, u32, u32);
type Collect = bus_call!(u32, *mut u8, usize);

/// The calls of one build.
pub struct Library {
    read: Read,
    write: Write,
    submit: Submit,
    round: Round,
    collect: Collect,
}

/// Which of the two builds.
pub const AFTER: usize = 0;
pub const BEFORE: usize = 1;

static LOADED: [OnceLock<Library>; 2] = [const { OnceLock::new() }; 2];

extern "C" {
    fn dlopen(name: *const c_char, flags: c_int) -> *mut c_void;
    fn dlsym(library: *mut c_void, name: *const c_char) -> *mut c_void;
    fn dlerror() -> *const c_char;
}

const RTLD_NOW: c_int = 2;

fn last_error() -> String {
    // SAFETY: a string, or null where nothing went wrong.
    let text = unsafe { dlerror() };
    if text.is_null() {
        return "not loaded".to_owned();
    }
    unsafe { CStr::from_ptr(text) }.to_string_lossy().into_owned()
}

/// A function of a library.
///
/// # Safety
/// `F` is the type of the function of that name.
unsafe fn function<F>(library: *mut c_void, name: &CStr) -> Result<F, String> {
    let address = dlsym(library, name.as_ptr());
    if address.is_null() {
        return Err(last_error());
    }
    Ok(transmute_copy(&address))
}

/// Loads a build. Its records have to be those of the Rust crate.
pub fn load(build: usize, path: &str) -> Result<(), String> {
    let whole = fs::canonicalize(path).map_err(|error| format!("{path}: {error}"))?;
    let name = CString::new(whole.as_os_str().as_bytes()).map_err(|error| error.to_string())?;
    // SAFETY: the library runs nothing when it is loaded, and stays loaded. The types are those of the header.
    let library = unsafe {
        let library = dlopen(name.as_ptr(), RTLD_NOW);
        if library.is_null() {
            return Err(last_error());
        }
        let layout: Layout = function(library, c"kf_layout")?;
        if layout() != raw::layout() {
            return Err(format!("{path}: its records have another layout"));
        }
        Library {
            read: function(library, c"kf_read")?,
            write: function(library, c"kf_write")?,
            submit: function(library, c"kf_submit")?,
            round: function(library, c"kf_round")?,
            collect: function(library, c"kf_collect")?,
        }
    };
    LOADED[build].set(library).map_err(|_| format!("{path}: loaded twice"))
}

#[inline]
fn library<const BUILD: usize>() -> &'static Library {
    LOADED[BUILD].get().expect("loaded before it is measured")
}

// SAFETY, of all that follow: each pointer with the length of its slice.

#[inline]
pub fn read<const BUILD: usize>(buffer: &[u8], at: usize) -> Reading {
    unsafe { (library::<BUILD>().read)(buffer.as_ptr(), buffer.len(), at) }
}

#[inline]
pub fn write<const BUILD: usize>(op: Operation, data: &[u8], buffer: &mut [u8]) -> Written {
    let (to, room) = (buffer.as_mut_ptr(), buffer.len());
    unsafe { (library::<BUILD>().write)(op, data.as_ptr(), data.len(), to, room) }
}

/// What is lent to a call of the bus.
pub struct Lent<'a> {
    pub slots: &'a mut [Slot],
    pub payload: &'a mut [u8],
    pub queues: &'a mut [u8],
}

/// Calls a function of the bus with a state, what is lent, and the rest.
macro_rules! call {
    ($function:ident, $state:expr, $lent:expr, $($last:expr),*) => {{
        let Lent { slots, payload, queues } = $lent;
        let (slots, slots_length) = (slots.as_mut_ptr(), slots.len());
        let (payload, payload_length) = (payload.as_mut_ptr(), payload.len());
        let (queues, queues_length) = (queues.as_mut_ptr(), queues.len());
        unsafe {
            (library::<BUILD>().$function)(
                $state, slots, slots_length, payload, payload_length, queues, queues_length, $($last),*
            )
        }
    }};
}

#[inline]
pub fn submit<const BUILD: usize>(state: State, lent: Lent, node: u32, buffer: &[u8]) -> Answer {
    call!(submit, state, lent, node, buffer.as_ptr(), buffer.len())
}

#[inline]
pub fn round<const BUILD: usize>(state: State, lent: Lent) -> Answer {
    call!(round, state, lent, 0, 0, 0)
}

#[inline]
pub fn collect<const BUILD: usize>(
    state: State,
    lent: Lent,
    node: u32,
    buffer: &mut [u8],
) -> Answer {
    call!(collect, state, lent, node, buffer.as_mut_ptr(), buffer.len())
}
