//! Why a word was not there: one reason for an arrival in a list of calls since power-up.
//!
//! The calls run through the model. Beside each receive FIFO of it stands a queue of places: of each entry held, the place of the
//! arrival that made it. An entry that leaves takes the place of the call with it that took it out.

use std::collections::VecDeque;

use crate::calls::{Call, Item};
use crate::layout::{need, CHANNELS};
use crate::model::Model;
use crate::ops::*;

/// Refusals of the question, in the order in which they are tested.
pub const SHORT: u32 = 1;
pub const COUNT: u32 = 4;
pub const TOO_LONG: u32 = 41;
pub const NO_CALL: u32 = 42;
pub const NO_ARRIVAL: u32 = 40;

/// The most calls of a list.
pub const MOST_CALLS: usize = 4096;
/// Bytes of an item.
pub const ITEM_BYTES: usize = 16;

/// Places are those of the list, from 1.
#[derive(Clone, Copy, PartialEq, Eq, Debug)]
pub enum Reason {
    Refused { number: u32 },
    ReceiverOff,
    Filtered,
    Dropped,
    AlreadyListed,
    Held,
    Read { at: u32 },
    Cleared { at: u32 },
    Overwritten { at: u32 },
}

/// What the first line says of each reason, in the order of the request.
pub const NAMES: [&str; 9] =
    ["refused", "receiver-off", "filtered", "dropped", "already-listed", "held", "read", "cleared", "overwritten"];

impl Reason {
    /// Its place among the names.
    pub fn kind(self) -> usize {
        match self {
            Reason::Refused { .. } => 0,
            Reason::ReceiverOff => 1,
            Reason::Filtered => 2,
            Reason::Dropped => 3,
            Reason::AlreadyListed => 4,
            Reason::Held => 5,
            Reason::Read { .. } => 6,
            Reason::Cleared { .. } => 7,
            Reason::Overwritten { .. } => 8,
        }
    }

    pub fn name(self) -> &'static str {
        NAMES[self.kind()]
    }

    /// What stands beside it: the refusal's number, or the place of the call that did it.
    pub fn value(self) -> u32 {
        match self {
            Reason::Refused { number } => number,
            Reason::Read { at } | Reason::Cleared { at } | Reason::Overwritten { at } => at,
            _ => 0,
        }
    }
}

/// The first line of the program: number, reason and what stands beside it.
pub fn line(answer: Result<Reason, u32>) -> String {
    match answer {
        Ok(reason) => format!("0 {} {}", reason.name(), reason.value()),
        Err(number) => format!("{number} none 0"),
    }
}

/// The reason for the arrival at a place; `lent` is the number of words of the working memory.
pub fn explain(count: u32, bytes: &[u8], place: u32, lent: usize) -> Result<Reason, u32> {
    let possible = (1..=CHANNELS).contains(&count);
    if possible && lent < need(count) {
        return Err(SHORT);
    }
    if !possible {
        return Err(COUNT);
    }
    // A cut last item counts, and is no call.
    let items = bytes.chunks(ITEM_BYTES);
    if items.len() > MOST_CALLS {
        return Err(TOO_LONG);
    }
    let call_of = |bytes| Item::of_bytes(bytes).filter(|&item| Call::of(item).is_some());
    let items: Vec<Item> = items.map(call_of).collect::<Option<_>>().ok_or(NO_CALL)?;
    let asked = place.checked_sub(1).ok_or(NO_ARRIVAL)? as usize;
    reasons(count, &items).get(asked).copied().flatten().ok_or(NO_ARRIVAL)
}

/// The reason for each arrival of a list, whatever its channel; none for other calls.
/// The list follows an accepted power-up of the count, on exactly the words which that needs.
pub fn reasons(count: u32, items: &[Item]) -> Vec<Option<Reason>> {
    let lent = need(count);
    let mut module = Model::read(&[]);
    module.perform(lent, Item { op: POWER_UP, channel: 0, a: count, b: 0 });
    let mut given = vec![None; items.len()];
    let mut queues: Vec<VecDeque<usize>> = vec![VecDeque::new(); count as usize];
    for (place, &item) in items.iter().enumerate() {
        let answer = module.perform(lent, item);
        let accepted = answer[0] == 0;
        let at = place as u32 + 1;
        let channel = (item.channel as usize).wrapping_sub(1);
        match item.op {
            ARRIVAL if !accepted => given[place] = Some(Reason::Refused { number: answer[0] }),
            ARRIVAL => {
                given[place] = Some(match answer[1] {
                    0 => Reason::ReceiverOff,
                    1 => Reason::Filtered,
                    3 => Reason::Dropped,
                    5 => Reason::AlreadyListed,
                    outcome => {
                        // Full and circular: the oldest makes room.
                        if outcome == 4 {
                            leave(&mut given, queues[channel].pop_front(), Reason::Overwritten { at });
                        }
                        queues[channel].push_back(place);
                        Reason::Held
                    }
                });
            }
            FIFO_READ if accepted => leave(&mut given, queues[channel].pop_front(), Reason::Read { at }),
            // A new module: what the old one held is gone.
            POWER_UP if accepted => {
                leave(&mut given, queues.drain(..).flatten(), Reason::Cleared { at });
                queues.resize(module.channels.len(), VecDeque::new());
            }
            // Any other call takes entries out by clearing a FIFO.
            _ => {
                for (queue, channel) in queues.iter_mut().zip(module.channels.iter().flatten()) {
                    if channel.receive.is_empty() {
                        leave(&mut given, queue.drain(..), Reason::Cleared { at });
                    }
                }
            }
        }
        let held = module.channels.iter().flatten().map(|channel| channel.receive.len());
        debug_assert!(held.eq(queues.iter().map(VecDeque::len)), "the queues are as long as the model's");
    }
    given
}

/// Entries leave their queue for a reason.
fn leave(given: &mut [Option<Reason>], entries: impl IntoIterator<Item = usize>, reason: Reason) {
    for entry in entries {
        given[entry] = Some(reason);
    }
}
