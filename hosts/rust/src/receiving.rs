//! Receiving a recipe over a serial line, in parts cut at any byte.
use crate::{loaded, raw, Refusal, VERDICT};

const RECEIPT: usize = 2;

/// A recipe that is being received into a buffer. The buffer is borrowed until the end, so nothing else can change it.
pub struct Receiver<'a> {
    buffer: &'a mut [u8],
    receipt: [u64; RECEIPT],
    came: usize,
}

impl<'a> Receiver<'a> {
    /// Begins; a buffer of fewer than [`crate::TEXT`] bytes is refused (110).
    pub fn begin(buffer: &'a mut [u8]) -> Result<Self, Refusal> {
        let (mut receipt, mut verdict) = ([0; RECEIPT], [0; VERDICT]);
        // SAFETY: the buffer is a slice with its own length; receipt and verdict are as long as the header says.
        unsafe {
            raw::quernhem_begin(
                buffer.as_ptr(),
                buffer.len(),
                receipt.as_mut_ptr(),
                verdict.as_mut_ptr(),
            )
        };
        loaded(verdict).map(|()| Self {
            buffer,
            receipt,
            came: 0,
        })
    }

    /// Takes a part of any length.
    pub fn take(&mut self, part: &[u8]) {
        // SAFETY: buffer and part are slices with their own lengths, and the buffer is borrowed mutably; the receipt is as long as the header says.
        unsafe {
            raw::quernhem_take(
                self.buffer.as_mut_ptr(),
                self.buffer.len(),
                self.receipt.as_mut_ptr(),
                part.as_ptr(),
                part.len(),
            );
        }
        self.came = self.came.saturating_add(part.len());
    }

    /// Ends: the text, or why it is none; then the whole buffer is zeros.
    pub fn finish(self) -> Result<&'a [u8], Refusal> {
        let mut verdict = [0; VERDICT];
        // SAFETY: as in `take`.
        unsafe {
            raw::quernhem_finish(
                self.buffer.as_mut_ptr(),
                self.buffer.len(),
                self.receipt.as_ptr(),
                verdict.as_mut_ptr(),
            );
        }
        loaded(verdict).map(|()| &self.buffer[..self.came])
    }
}
