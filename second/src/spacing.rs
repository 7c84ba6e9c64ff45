//! The null bit times between the words of a schedule, from the calls and their answers alone, nothing from memory.
//!
//! ARINC 429 asks for at least four between any two words. A call that makes the channel forget the word sent
//! before ends the count: the word behind it has none to keep away from.

use crate::calls::{Call, Item};
use crate::layout::{TRANSMITTER, TRANSMIT_MODE};
use crate::registers::accepted_calls;

/// The least null time between two words.
const LEAST: u32 = 4;

#[derive(Clone, Copy, Default, Debug)]
struct Line {
    transmit_mode: u32,
    /// Null time since the last word; none where no word was sent, or it is forgotten.
    null: Option<u32>,
}

impl Line {
    /// A word behind this much null time more.
    fn word(&mut self, null_before: u32) -> Result<(), String> {
        self.wait(null_before);
        match self.null {
            Some(null) if null < LEAST => Err(format!("two words of the schedule with {null} null between them")),
            _ => {
                self.null = Some(0);
                Ok(())
            }
        }
    }

    fn wait(&mut self, time: u32) {
        self.null = self.null.map(|null| null.saturating_add(time));
    }

    fn step(&mut self, output: &[u32]) -> Result<(), String> {
        match *output {
            [2, ..] => self.word(0),
            [3, time, ..] => {
                self.wait(time);
                Ok(())
            }
            [4, before, _, behind] => {
                self.word(before)?;
                self.wait(behind);
                Ok(())
            }
            // Sent with null before it only where nothing else keeps it away.
            [6, before, _, 0] if self.null == Some(0) && before == LEAST => self.word(before),
            [6, ..] => Err(format!("null and message {output:?} with {:?} null since the last word", self.null)),
            _ => Ok(()),
        }
    }

    fn write(&mut self, setting: usize, value: u32) {
        let change = setting == TRANSMIT_MODE && value != self.transmit_mode;
        if setting == TRANSMIT_MODE {
            self.transmit_mode = value;
        }
        if change || (setting == TRANSMITTER && value == 0) {
            self.null = None;
        }
    }
}

/// The lines of a module's channels since its power-up.
#[derive(Clone, Default, Debug)]
pub struct Spacing {
    lines: Vec<Line>,
}

impl Spacing {
    /// Enters a call with its answer; an error where a step puts a word too close to the last, or farther away than it has to be.
    pub fn enter(&mut self, item: Item, answer: &[u32]) -> Result<(), String> {
        if answer[0] != 0 {
            return Ok(());
        }
        for call in accepted_calls(item, answer) {
            self.enter_call(call, &answer[1..])?;
        }
        Ok(())
    }

    fn enter_call(&mut self, item: Item, values: &[u32]) -> Result<(), String> {
        let Some(call) = Call::of(item) else {
            return Err("an item that is no call is accepted".to_string());
        };
        match call {
            Call::PowerUp { count } => self.lines = vec![Line::default(); count as usize],
            Call::ModuleReset => self.lines.fill(Line::default()),
            _ if call.is_module_wide() => {}
            _ => {
                let line = self.lines.get_mut((item.channel as usize).wrapping_sub(1)).ok_or("no such channel")?;
                match call {
                    Call::Step => line.step(values)?,
                    Call::WriteSetting { setting, value } => line.write(setting as usize, value),
                    Call::InitiatedTest { .. } => line.null = None,
                    _ => {}
                }
            }
        }
        Ok(())
    }
}
