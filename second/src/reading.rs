//! The model read from lent words (docs/MEMORY.md), and compared with them.

use crate::layout::*;
use crate::model::{marks_of, on_or_off, Channel, Counts, Entry, Model, Part, Settings, Transmitter};

fn entry(words: &[u32]) -> Entry {
    Entry { status: words[0], word: words[1], stamp: words[2] }
}

/// A channel from its block; none where a stored number is outside its range.
fn channel(block: &[u32]) -> Option<Channel> {
    let mut settings = Settings::factory();
    for setting in 0..SETTINGS {
        settings.set(setting as u32, block[setting])?;
    }
    let (rx_level, rx_position) = (block[RECEIVE_LEVEL] as usize, block[RECEIVE_POSITION] as usize);
    let (tx_level, tx_position) = (block[TRANSMIT_LEVEL] as usize, block[TRANSMIT_POSITION] as usize);
    if rx_level > settings.size as usize || tx_level > SLOTS || rx_position >= SLOTS || tx_position >= SLOTS {
        return None;
    }
    let state = match block[STATE] {
        0 => Transmitter::Idle,
        1 => Transmitter::Running,
        2 => Transmitter::Paused,
        _ => return None,
    };
    let waiting = match block[ASYNC_MARK] {
        0 => None,
        1 => Some(block[ASYNC_WORD]),
        _ => return None,
    };
    if block[COMMAND] as usize >= COMMANDS {
        return None;
    }
    Some(Channel {
        settings,
        receive: (0..rx_level).map(|k| entry(&block[RECEIVE_RING + 3 * ((rx_position + k) % SLOTS)..])).collect(),
        transmit: (0..tx_level).map(|k| block[TRANSMIT_RING + (tx_position + k) % SLOTS]).collect(),
        state,
        command: block[COMMAND],
        waiting,
        after_word: on_or_off(block[WORD_MARK])?,
        latches: marks_of(block[LATCH])?,
        enables: marks_of(block[ENABLE])?,
        levels: marks_of(block[LEVEL_MASK])?,
        counts: Counts {
            received: block[RECEIVE_ACCEPTED],
            read: block[RECEIVE_READ],
            receive_cleared: block[RECEIVE_CLEARED],
            overwritten: block[RECEIVE_OVERWRITTEN],
            written: block[TRANSMIT_ACCEPTED],
            sent: block[TRANSMIT_SENT],
            transmit_cleared: block[TRANSMIT_CLEARED],
        },
        mailboxes: block[MAILBOXES..MATCH_SET].chunks(3).map(entry).collect(),
        match_set: block[MATCH_SET..MESSAGE_RAM]
            .iter()
            .flat_map(|word| (0..32).map(move |bit| word >> bit & 1 == 1))
            .collect(),
        message: block[MESSAGE_RAM..SCHEDULE_RAM].to_vec(),
        schedule: block[SCHEDULE_RAM..BLOCK_WORDS].to_vec(),
    })
}

fn part(mem: &[u32]) -> Option<Part> {
    let part = Part {
        stamp: mem[STAMP],
        resolution: mem[RESOLUTION],
        threshold: mem[THRESHOLD],
        counters: std::array::from_fn(|place| mem[COUNTERS + place]),
    };
    let sound = (1..=CHANNELS).contains(&mem[COUNT])
        && mem[LAYOUT] == LAYOUT_NUMBER
        && part.resolution <= 3
        && (1..=65_535).contains(&part.threshold)
        && part.counters.iter().all(|&counter| counter <= 65_536);
    sound.then_some(part)
}

impl Model {
    /// The model of any memory.
    pub fn read(mem: &[u32]) -> Model {
        if mem.len() < MODULE_WORDS {
            return Model { stored_count: 0, part: None, channels: vec![] };
        }
        let count = mem[COUNT];
        let held = if (1..=CHANNELS).contains(&count) && need(count) <= mem.len() { count } else { 0 };
        Model {
            stored_count: count,
            part: part(mem),
            channels: (1..=held).map(|c| channel(&mem[block(c)..block(c) + BLOCK_WORDS])).collect(),
        }
    }

    /// What first differs between this model and the words; none where they agree.
    pub fn difference(&self, mem: &[u32]) -> Option<String> {
        let seen = Model::read(mem);
        if *self == seen {
            return None;
        }
        if self.stored_count != seen.stored_count || self.part != seen.part {
            return Some(format!(
                "module part: model {} {:?}, words {} {:?}",
                self.stored_count, self.part, seen.stored_count, seen.part
            ));
        }
        for (place, (mine, theirs)) in self.channels.iter().zip(&seen.channels).enumerate() {
            if mine == theirs {
                continue;
            }
            let (Some(mine), Some(theirs)) = (mine, theirs) else {
                return Some(format!(
                    "channel {}: sound {} in the model, {} in the words",
                    place + 1,
                    mine.is_some(),
                    theirs.is_some()
                ));
            };
            return Some(format!("channel {}: {}", place + 1, channel_difference(mine, theirs)));
        }
        Some(format!("channels: {} in the model, {} in the words", self.channels.len(), seen.channels.len()))
    }
}

fn channel_difference(mine: &Channel, theirs: &Channel) -> String {
    macro_rules! tell {
        ($($field:ident),*) => {
            $(if mine.$field != theirs.$field {
                return format!("{}: model {:?}, words {:?}", stringify!($field), mine.$field, theirs.$field);
            })*
        };
    }
    tell!(settings, receive, transmit, state, command, waiting, after_word, latches, enables, levels, counts);
    for index in 0..INDEXES {
        if mine.mailboxes[index] != theirs.mailboxes[index] {
            return format!("mailbox {index}: model {:?}, words {:?}", mine.mailboxes[index], theirs.mailboxes[index]);
        }
        if mine.match_set[index] != theirs.match_set[index] {
            return format!("match set at index {index}");
        }
    }
    "message or schedule RAM".to_string()
}
