//! The proved library's readings through its C interface.

use crate::compare_readings::Console;

extern "C" {
    /// A list passes as a pointer and a count of its numbers.
    fn nqabelihu_read_word(list: *const u32, numbers: usize, word: u32, kind: *mut u32, units: *mut f64) -> u32;
    fn nqabelihu_whole_number(list: *const u32, numbers: usize, word: u32) -> i32;
    fn nqabelihu_encode_word(list: *const u32, numbers: usize, word: u32, value: i32, encoded: *mut u32) -> u32;
}

pub struct ProvedConsole;

// What the library has to overwrite, also where it refuses, starts as other numbers.
impl Console for ProvedConsole {
    fn read(&mut self, list: &[u32], word: u32) -> (u32, u32, u64) {
        let (mut kind, mut units) = (0xAAAA_AAAA, f64::NAN);
        // The list is a whole slice of this program; kind and units are its own and do not overlap.
        let number = unsafe { nqabelihu_read_word(list.as_ptr(), list.len(), word, &mut kind, &mut units) };
        (number, kind, units.to_bits())
    }

    fn whole(&mut self, list: &[u32], word: u32) -> i32 {
        // The list is a whole slice of this program.
        unsafe { nqabelihu_whole_number(list.as_ptr(), list.len(), word) }
    }

    fn encode(&mut self, list: &[u32], word: u32, value: i32) -> (u32, u32) {
        let mut encoded = 0xAAAA_AAAA;
        // The list is a whole slice of this program, and the word encoded is its own.
        let number = unsafe { nqabelihu_encode_word(list.as_ptr(), list.len(), word, value, &mut encoded) };
        (number, encoded)
    }
}
