//! The caller's header memory: lent to the proved code as numbers, and turned into headers in
//! place.

use crate::{piece, Header};
use core::marker::PhantomData;
use core::mem::{align_of, size_of, MaybeUninit};
use core::slice;

/// What the proved code writes of a header: where its name is, the name's length, where its value
/// is, the value's length.
type Numbers = [usize; NUMBERS];

const NUMBERS: usize = 4;

// A header's memory has room for its numbers, and nothing else in it.
const _: () = assert!(size_of::<Header>() == size_of::<Numbers>());
const _: () = assert!(align_of::<Header>() == align_of::<Numbers>());

/// Memory for headers, with or without headers in it; nobody else may touch it for `'lent`.
pub struct Slots<'lent, 'buf> {
    first: *mut Header<'buf>,
    count: usize,
    lent: PhantomData<&'lent mut [Header<'buf>]>,
}

impl<'lent, 'buf> From<&'lent mut [Header<'buf>]> for Slots<'lent, 'buf> {
    fn from(headers: &'lent mut [Header<'buf>]) -> Self {
        Slots {
            first: headers.as_mut_ptr(),
            count: headers.len(),
            lent: PhantomData,
        }
    }
}

impl<'lent, 'buf> From<&'lent mut [MaybeUninit<Header<'buf>>]> for Slots<'lent, 'buf> {
    fn from(headers: &'lent mut [MaybeUninit<Header<'buf>>]) -> Self {
        Slots {
            first: headers.as_mut_ptr().cast(),
            count: headers.len(),
            lent: PhantomData,
        }
    }
}

impl<'lent, 'buf> Slots<'lent, 'buf> {
    /// Where the numbers of the first header are to be.
    pub fn numbers(&self) -> *mut usize {
        self.first.cast()
    }

    /// For how many numbers there is room.
    pub fn room(&self) -> usize {
        self.count * NUMBERS
    }

    /// Turns the numbers of the headers given into these headers, each in its place; the slots
    /// behind them stay as they are.
    ///
    /// # Safety
    ///
    /// The proved code has just been lent these slots with this buffer, and told that it gave so
    /// many headers.
    pub unsafe fn into_headers(
        self,
        given: usize,
        buffer: &'buf [u8],
    ) -> &'lent mut [Header<'buf>] {
        for place in 0..given {
            // SAFETY: by `within` the headers given are at most the slots, so this is a slot that
            // was given.
            unsafe { turn(self.first.add(place), buffer) };
        }
        // SAFETY: by `within` these are slots, of which each now holds a header, and they are lent
        // for as long.
        unsafe { slice::from_raw_parts_mut(self.first, given) }
    }
}

/// Writes a header in place of its numbers.
///
/// # Safety
///
/// The slot is one that the proved code gave for this buffer.
unsafe fn turn<'buf>(slot: *mut Header<'buf>, buffer: &'buf [u8]) {
    // SAFETY: a slot that was given has all four numbers, and a header's size and alignment are
    // theirs.
    let [name, name_length, value, value_length] = unsafe { slot.cast::<Numbers>().read() };
    // SAFETY: by `inside` both places lie in the buffer, and by `fields` the name is a `token`, so it
    // is ASCII.
    unsafe {
        slot.write(Header {
            name: piece::text(buffer, name, name_length),
            value: piece::bytes(buffer, value, value_length),
        });
    }
}
