//! An implementation of the module that a comparison can run.

use crate::calls::Item;
use crate::model::Model;
use crate::words;

pub trait Engine {
    /// Performs one item on the lent words; gives the answer's number and values.
    fn perform(&mut self, mem: &mut [u32], op: u32, channel: u32, a: u32, b: u32) -> Vec<u32>;

    /// The memory is new, or others have changed it: an engine with a state of its own reads it again.
    fn resume(&mut self, _mem: &[u32]) {}

    /// The engine's model, where it has one.
    fn model(&self) -> Option<&Model> {
        None
    }

    /// The first difference between this engine's state and another engine's memory; none where they agree.
    /// An engine that keeps everything in its lent words is compared word by word.
    fn difference(&self, own: &[u32], other: &[u32]) -> Option<String> {
        if own == other {
            return None;
        }
        let word = (0..own.len().max(other.len())).find(|&w| own.get(w) != other.get(w))?;
        Some(format!("word {word}: {:?} against {:?}", own.get(word), other.get(word)))
    }
}

/// The calls performed on the lent words.
pub struct OnWords;

impl Engine for OnWords {
    fn perform(&mut self, mem: &mut [u32], op: u32, channel: u32, a: u32, b: u32) -> Vec<u32> {
        words::perform(mem, op, channel, a, b)
    }
}

/// The model: of the lent memory it uses the number of words alone.
pub struct AsModel {
    pub model: Model,
}

impl AsModel {
    pub fn new() -> AsModel {
        AsModel { model: Model::read(&[]) }
    }
}

impl Default for AsModel {
    fn default() -> AsModel {
        AsModel::new()
    }
}

impl Engine for AsModel {
    fn perform(&mut self, mem: &mut [u32], op: u32, channel: u32, a: u32, b: u32) -> Vec<u32> {
        self.model.perform(mem.len(), Item { op, channel, a, b })
    }

    fn resume(&mut self, mem: &[u32]) {
        self.model = Model::read(mem);
    }

    fn model(&self) -> Option<&Model> {
        Some(&self.model)
    }

    fn difference(&self, _own: &[u32], other: &[u32]) -> Option<String> {
        self.model.difference(other)
    }
}
