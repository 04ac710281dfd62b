//! A crate with httparse's interface, as two C functions of the form that the benchmark calls.
//!
//! Each package beside this folder builds it over the crate that it has under the name httparse.

use httparse::{Header, ParserConfig, Request, Response, Result, Status};
use std::hint::black_box;
use std::mem::{size_of, MaybeUninit};
use std::slice;

/// A slot of the benchmark holds one header.
const _: () = assert!(size_of::<Header>() == 32);

type Slots<'lent, 'bytes> = &'lent mut [MaybeUninit<Header<'bytes>>];

/// Reads a request and answers its end, 0 where it has none.
///
/// # Safety
///
/// `start` must be a pointer to `length` bytes and `slots` one to `count` headers that may be
/// written; they need hold nothing.
#[no_mangle]
pub unsafe extern "C" fn read_request(
    start: *const u8,
    length: usize,
    slots: *mut MaybeUninit<Header<'_>>,
    count: usize,
) -> usize {
    // SAFETY: the caller's promise.
    let (bytes, slots) = unsafe { lent(start, length, slots, count) };
    let mut request = Request::new(&mut []);
    let config = ParserConfig::default();
    let result = config.parse_request_with_uninit_headers(&mut request, bytes, slots);
    black_box(&request);
    end(result)
}

/// Reads a response and answers its end, 0 where it has none.
///
/// # Safety
///
/// The same as for a request.
#[no_mangle]
pub unsafe extern "C" fn read_response(
    start: *const u8,
    length: usize,
    slots: *mut MaybeUninit<Header<'_>>,
    count: usize,
) -> usize {
    // SAFETY: the caller's promise.
    let (bytes, slots) = unsafe { lent(start, length, slots, count) };
    let mut response = Response::new(&mut []);
    let config = ParserConfig::default();
    let result = config.parse_response_with_uninit_headers(&mut response, bytes, slots);
    black_box(&response);
    end(result)
}

/// # Safety
///
/// The same as for a request, for as long as the slices live.
unsafe fn lent<'lent, 'bytes>(
    start: *const u8,
    length: usize,
    slots: *mut MaybeUninit<Header<'bytes>>,
    count: usize,
) -> (&'bytes [u8], Slots<'lent, 'bytes>) {
    // SAFETY: the caller's promise.
    unsafe {
        (
            slice::from_raw_parts(start, length),
            slice::from_raw_parts_mut(slots, count),
        )
    }
}

fn end(result: Result<usize>) -> usize {
    match result {
        Ok(Status::Complete(end)) => end,
        _ => 0,
    }
}
