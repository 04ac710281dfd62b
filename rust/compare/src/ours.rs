//! What Headreader answers, by its C functions.

use crate::numbers::Numbers;
use crate::Case;
use answers::functions::{hr_chunk_size, hr_headers, hr_request, hr_response};
use answers::Call;

#[cfg(test)]
thread_local! {
    /// How often Headreader was called: its answers alone do not tell it from httparse.
    pub static CALLS: std::cell::Cell<u32> = const { std::cell::Cell::new(0) };
}

/// Makes the call; `numbers` must have been lent with the room of the case.
pub fn read(case: &Case, numbers: &mut Numbers) {
    #[cfg(test)]
    CALLS.set(CALLS.get() + 1);
    let (start, length) = (case.input.as_ptr(), case.input.len());
    let (slots, room) = (numbers.slots.pointer(), numbers.slots.numbers().len());
    let out = numbers.out.pointer();
    let settings = case.settings;
    // SAFETY: each pointer is to as many live elements as its length says, eight for `out`, and
    // those to be written overlap nothing.
    numbers.status = unsafe {
        match case.call {
            Call::Request => hr_request(start, length, slots, room, out, settings),
            Call::Response => hr_response(start, length, slots, room, out, settings),
            Call::Headers => hr_headers(start, length, slots, room, out),
            Call::ChunkSize => hr_chunk_size(start, length, out),
        }
    };
}
