//! The proved library's capture files through its C interface.

use crate::captures::Record;
use crate::compare_captures::{Answer, CaptureFile};

extern "C" {
    /// Bytes and commands pass as a pointer and a length.
    fn nqabelihu_capture_kind(bytes: *const u8, length: usize, offset: usize) -> u32;
    fn nqabelihu_capture_offset(bytes: *const u8, length: usize, offset: usize) -> usize;
    fn nqabelihu_capture_refusal(bytes: *const u8, length: usize, offset: usize) -> u32;
    fn nqabelihu_capture_read(
        bytes: *const u8,
        length: usize,
        offset: usize,
        commands: *mut u32,
        commands_length: usize,
        kind: *mut u32,
        next: *mut usize,
        channel: *mut u32,
        word: *mut u32,
        stamp: *mut u32,
    ) -> u32;
    fn nqabelihu_capture_write(
        bytes: *mut u8,
        length: usize,
        offset: usize,
        kind: u32,
        channel: u32,
        word: u32,
        stamp: u32,
        commands: *const u32,
        commands_length: usize,
        next: *mut usize,
    ) -> u32;
}

pub struct ProvedCaptures;

// What the library has to overwrite, also where it refuses, starts as other numbers.
const BEFORE: u32 = 0xAAAA_AAAA;

impl CaptureFile for ProvedCaptures {
    fn kind(&mut self, bytes: &[u8], offset: usize) -> u32 {
        // The bytes are a whole slice of this program.
        unsafe { nqabelihu_capture_kind(bytes.as_ptr(), bytes.len(), offset) }
    }

    fn offset(&mut self, bytes: &[u8], offset: usize) -> usize {
        // The bytes are a whole slice of this program.
        unsafe { nqabelihu_capture_offset(bytes.as_ptr(), bytes.len(), offset) }
    }

    fn refusal(&mut self, bytes: &[u8], offset: usize) -> u32 {
        // The bytes are a whole slice of this program.
        unsafe { nqabelihu_capture_refusal(bytes.as_ptr(), bytes.len(), offset) }
    }

    fn read(&mut self, bytes: &[u8], offset: usize, commands: &mut [u32]) -> Answer {
        let (mut kind, mut next) = (BEFORE, BEFORE as usize);
        let (mut channel, mut word, mut stamp) = (BEFORE, BEFORE, BEFORE);
        // Bytes and commands are slices of this program; they and the five numbers do not overlap.
        let number = unsafe {
            nqabelihu_capture_read(
                bytes.as_ptr(),
                bytes.len(),
                offset,
                commands.as_mut_ptr(),
                commands.len(),
                &mut kind,
                &mut next,
                &mut channel,
                &mut word,
                &mut stamp,
            )
        };
        Answer { number, kind, next, channel, word, stamp }
    }

    fn write(&mut self, bytes: &mut [u8], offset: usize, record: &Record) -> (u32, usize) {
        let mut next = BEFORE as usize;
        // Bytes and commands are slices of this program; they and the next offset do not overlap.
        let number = unsafe {
            nqabelihu_capture_write(
                bytes.as_mut_ptr(),
                bytes.len(),
                offset,
                record.kind,
                record.channel,
                record.word,
                record.stamp,
                record.commands.as_ptr(),
                record.commands.len(),
                &mut next,
            )
        };
        (number, next)
    }
}
