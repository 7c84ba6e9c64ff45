//! The proved library through its C interface.

use crate::calls::{Call, Item};
use crate::engine::Engine;

extern "C" {
    /// A slice passes as a pointer and a length.
    fn nqabelihu_perform(
        mem: *mut u32,
        words: usize,
        values: *mut u32,
        places: usize,
        op: u32,
        channel: u32,
        a: u32,
        b: u32,
    ) -> u32;
}

/// One call item on lent memory: the answer's number, and its values in the seven words.
#[inline(always)]
pub fn perform(mem: &mut [u32], values: &mut [u32; 7], item: Item) -> u32 {
    let Item { op, channel, a, b } = item;
    // Both parts are whole slices of this program that do not overlap.
    unsafe { nqabelihu_perform(mem.as_mut_ptr(), mem.len(), values.as_mut_ptr(), values.len(), op, channel, a, b) }
}

pub struct Proved;

impl Engine for Proved {
    fn perform(&mut self, mem: &mut [u32], op: u32, channel: u32, a: u32, b: u32) -> Vec<u32> {
        let mut values = [0xAAAA_AAAA; 7];
        let number = perform(mem, &mut values, Item { op, channel, a, b });
        let count = Call::of(Item { op, channel, a, b }).map_or(0, Call::values);
        assert!(values[count..].iter().all(|&value| value == 0), "zeros where there are fewer values");
        let mut answer = vec![number];
        answer.extend_from_slice(&values[..count]);
        answer
    }
}
