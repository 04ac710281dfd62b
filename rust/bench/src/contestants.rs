//! What is measured, each as two C functions of one form.

use crate::heads::Kind;
use answers::bits::DEFAULT;
use answers::functions::{hr_request, hr_response};
use std::ffi::{c_char, c_int, c_void, CStr, CString};
use std::hint::black_box;
use std::mem::{transmute, MaybeUninit};

/// Room for one header: for Headreader four numbers, for httparse two references.
pub type Slot = MaybeUninit<[u64; 4]>;

/// Reads a head of `length` bytes with room for `count` headers, and answers its end, else 0.
pub type Function = unsafe extern "C" fn(*const u8, usize, *mut Slot, usize) -> usize;

pub struct Contestant {
    pub name: String,
    request: Function,
    response: Function,
}

impl Contestant {
    pub fn headreader_through_c() -> Contestant {
        Contestant {
            name: "Headreader through C".to_string(),
            request: headreader_request,
            response: headreader_response,
        }
    }

    /// A library built of through/lib.rs; it stays loaded.
    pub fn load(name: &str, path: &str) -> Result<Contestant, String> {
        let file = CString::new(path).map_err(|error| format!("{path}: {error}"))?;
        // SAFETY: the library's constructors are those of Rust's standard library.
        let library = unsafe { dlopen(file.as_ptr(), NOW) };
        if library.is_null() {
            return Err(format!("{path} can't be loaded"));
        }
        Ok(Contestant {
            name: name.to_string(),
            request: find(library, c"read_request", path)?,
            response: find(library, c"read_response", path)?,
        })
    }

    pub fn function(&self, kind: Kind) -> Function {
        match kind {
            Kind::Request => self.request,
            Kind::Response => self.response,
        }
    }
}

/// Asks for every symbol of a library when it is loaded, so that no call looks one up.
const NOW: c_int = 2;

extern "C" {
    fn dlopen(file: *const c_char, flags: c_int) -> *mut c_void;
    fn dlsym(library: *mut c_void, name: *const c_char) -> *mut c_void;
}

fn find(library: *mut c_void, name: &CStr, path: &str) -> Result<Function, String> {
    // SAFETY: the library is loaded and the name ends with a zero byte.
    let found = unsafe { dlsym(library, name.as_ptr()) };
    if found.is_null() {
        return Err(format!("{path} has no function {name:?}"));
    }
    // SAFETY: through/lib.rs gives the functions of these names this form.
    Ok(unsafe { transmute::<*mut c_void, Function>(found) })
}

type Call = unsafe extern "C" fn(*const u8, usize, *mut u64, usize, *mut u64, u32) -> u32;

unsafe extern "C" fn headreader_request(
    start: *const u8,
    length: usize,
    slots: *mut Slot,
    count: usize,
) -> usize {
    // SAFETY: the caller's promise.
    unsafe { headreader(hr_request, start, length, slots, count) }
}

unsafe extern "C" fn headreader_response(
    start: *const u8,
    length: usize,
    slots: *mut Slot,
    count: usize,
) -> usize {
    // SAFETY: the caller's promise.
    unsafe { headreader(hr_response, start, length, slots, count) }
}

/// # Safety
///
/// `start` must be a pointer to `length` bytes and `slots` one to `count` slots that may be written.
#[inline(always)]
unsafe fn headreader(
    call: Call,
    start: *const u8,
    length: usize,
    slots: *mut Slot,
    count: usize,
) -> usize {
    let mut out = MaybeUninit::<[u64; 8]>::uninit();
    let (room, told) = (count * 4, out.as_mut_ptr().cast());
    // SAFETY: the caller's promise; a slot is four numbers, and `out` has the eight that every call
    // writes.
    let out = unsafe {
        call(start, length, slots.cast(), room, told, DEFAULT);
        out.assume_init()
    };
    black_box(&out)[0] as usize
}
