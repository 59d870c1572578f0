//! Calls the entries that read a text and fill a lent buffer.

use crate::cut::GREATEST_ALLOWANCE;

/// A text, a lent buffer and the place of a length; writes into the buffer from its front and stores the
/// length written. Answers 0, or the refusal's number, and then it writes and stores nothing.
pub type WriteText = unsafe extern "C" fn(*const u8, usize, *mut u8, usize, *mut usize) -> u8;

/// The same with an allowance behind the text.
pub type ShareOut = unsafe extern "C" fn(*const u8, usize, u32, *mut u8, usize, *mut usize) -> u8;

/// The refusal's number or 0, and the length written.
#[derive(Debug, PartialEq)]
pub struct Written {
    pub refusal: u8,
    pub length: usize,
}

/// Reads the text and fills the buffer.
///
/// # Safety
/// The entry is as `WriteText` says.
pub unsafe fn write(entry: WriteText, text: &str, buffer: &mut [u8]) -> Written {
    let (from, to) = (text.as_ptr(), buffer.as_mut_ptr());
    // SAFETY: the pointers are those of two slices, with the slices' lengths, and of one length.
    written(|length| unsafe { entry(from, text.len(), to, buffer.len(), length) })
}

/// The same with an allowance that is enough.
///
/// # Safety
/// The entry is as `ShareOut` says.
pub unsafe fn share_out(entry: ShareOut, text: &str, buffer: &mut [u8]) -> Written {
    let (from, to) = (text.as_ptr(), buffer.as_mut_ptr());
    let allowance = GREATEST_ALLOWANCE;
    // SAFETY: the pointers are those of two slices, with the slices' lengths, and of one length.
    written(|length| unsafe { entry(from, text.len(), allowance, to, buffer.len(), length) })
}

fn written(call: impl FnOnce(&mut usize) -> u8) -> Written {
    let mut length = 0;
    let refusal = call(&mut length);
    Written { refusal, length }
}
