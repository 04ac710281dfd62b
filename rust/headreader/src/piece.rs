//! Parts of a buffer by their places.

use core::str;

/// The bytes at a place.
///
/// # Safety
///
/// The place lies in the buffer: `offset + length` is at most the buffer's length.
pub unsafe fn bytes(buffer: &[u8], offset: usize, length: usize) -> &[u8] {
    // SAFETY: the caller promises it.
    unsafe { buffer.get_unchecked(offset..offset + length) }
}

/// The text at a place.
///
/// # Safety
///
/// The place lies in the buffer, as for [`bytes`], and holds UTF-8.
pub unsafe fn text(buffer: &[u8], offset: usize, length: usize) -> &str {
    // SAFETY: the caller promises both.
    unsafe { str::from_utf8_unchecked(bytes(buffer, offset, length)) }
}
