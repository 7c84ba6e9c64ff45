//! A bench for the examples: each call runs on the model and on lent words, and both must agree.
#![allow(dead_code)]

use second::calls::Item;
use second::layout::*;
use second::model::Model;
use second::words;

pub use second::ops::*;

pub struct Bench {
    pub model: Model,
    pub mem: Vec<u32>,
}

impl Bench {
    /// A module of `count` channels after an accepted power-up, in memory of all zeros.
    pub fn new(count: u32) -> Bench {
        let mut bench = Bench::on(vec![0; need(count)]);
        assert_eq!(bench.call(POWER_UP, 0, count, 0), [0]);
        bench
    }

    pub fn on(mem: Vec<u32>) -> Bench {
        Bench { model: Model::read(&mem), mem }
    }

    /// Others write a word.
    pub fn overwrite(&mut self, word: usize, value: u32) {
        self.mem[word] = value;
        self.model = Model::read(&self.mem);
    }

    pub fn call(&mut self, op: u32, channel: u32, a: u32, b: u32) -> Vec<u32> {
        let answer = self.model.perform(self.mem.len(), Item { op, channel, a, b });
        assert_eq!(words::perform(&mut self.mem, op, channel, a, b), answer, "model and words");
        assert_eq!(self.model.difference(&self.mem), None);
        answer
    }

    /// A call on channel 1 that must be done; gives the values.
    pub fn done(&mut self, op: u32, a: u32, b: u32) -> Vec<u32> {
        let answer = self.call(op, 1, a, b);
        assert_eq!(answer[0], 0, "op {op} is refused");
        answer[1..].to_vec()
    }

    /// A call that must be refused: every value 0, no word changed.
    pub fn refused(&mut self, refusal: u32, op: u32, channel: u32, a: u32, b: u32) {
        let before = self.mem.clone();
        let answer = self.call(op, channel, a, b);
        assert_eq!(answer[0], refusal, "op {op}, channel {channel}, a {a}, b {b}");
        assert!(answer[1..].iter().all(|&value| value == 0));
        assert!(self.mem == before, "a refusal changed a word");
    }

    pub fn setting(&mut self, setting: usize, value: u32) {
        self.done(SETTING_WRITE + setting as u32, value, 0);
    }

    pub fn latch(&mut self) -> u32 {
        self.done(STATUS_READ, 0, 0)[0]
    }

    pub fn counts(&mut self) -> Vec<u32> {
        self.done(COUNTS_READ, 0, 0)
    }
}
