//! Where each number stands in the lent words (docs/MEMORY.md).

/// Words of the module part.
pub const MODULE_WORDS: usize = LAYOUT + 1;
/// Words of a channel's block.
pub const BLOCK_WORDS: usize = SCHEDULE_RAM + COMMANDS;
/// The most channels a module has.
pub const CHANNELS: u32 = 12;
/// Slots of each FIFO ring.
pub const SLOTS: usize = 255;
/// SDI/Label indexes: mailboxes, and bits of the match set.
pub const INDEXES: usize = 1024;
/// Words of the message RAM.
pub const MESSAGES: usize = 256;
/// Words of the schedule RAM.
pub const COMMANDS: usize = 512;
/// The greatest command address.
pub const LAST_COMMAND: u32 = COMMANDS as u32 - 1;
/// The layout number that power-up writes; any other value is unsound.
pub const LAYOUT_NUMBER: u32 = 2;
/// Settings of a channel, from the block's first word.
pub const SETTINGS: usize = RATE + 1;
/// Words of a block with a range, from its first.
pub const RANGED: usize = WORD_MARK + 1;

// The module part.
pub const COUNT: usize = 0;
pub const STAMP: usize = COUNT + 1;
pub const RESOLUTION: usize = STAMP + 1;
pub const THRESHOLD: usize = RESOLUTION + 1;
pub const COUNTERS: usize = THRESHOLD + 1;
pub const LAYOUT: usize = COUNTERS + CHANNELS as usize;

// A channel's block; its first words are the settings, by number.
pub const RECEIVER: usize = 0;
pub const TRANSMITTER: usize = RECEIVER + 1;
pub const PARITY: usize = TRANSMITTER + 1;
pub const MATCH: usize = PARITY + 1;
pub const STAMPS: usize = MATCH + 1;
pub const RECEIVE_MODE: usize = STAMPS + 1;
pub const FIFO_KIND: usize = RECEIVE_MODE + 1;
pub const TRANSMIT_MODE: usize = FIFO_KIND + 1;
pub const SIZE: usize = TRANSMIT_MODE + 1;
pub const ALMOST_FULL: usize = SIZE + 1;
pub const ALMOST_EMPTY: usize = ALMOST_FULL + 1;
pub const RATE: usize = ALMOST_EMPTY + 1;
pub const RECEIVE_LEVEL: usize = RATE + 1;
pub const RECEIVE_POSITION: usize = RECEIVE_LEVEL + 1;
pub const TRANSMIT_LEVEL: usize = RECEIVE_POSITION + 1;
pub const TRANSMIT_POSITION: usize = TRANSMIT_LEVEL + 1;
pub const STATE: usize = TRANSMIT_POSITION + 1;
pub const COMMAND: usize = STATE + 1;
pub const ASYNC_MARK: usize = COMMAND + 1;
pub const LATCH: usize = ASYNC_MARK + 1;
pub const ENABLE: usize = LATCH + 1;
pub const LEVEL_MASK: usize = ENABLE + 1;
/// 1 where the last thing that the schedule sent was a message word.
pub const WORD_MARK: usize = LEVEL_MASK + 1;
pub const ASYNC_WORD: usize = WORD_MARK + 1;
pub const RECEIVE_ACCEPTED: usize = ASYNC_WORD + 1;
pub const RECEIVE_READ: usize = RECEIVE_ACCEPTED + 1;
pub const RECEIVE_CLEARED: usize = RECEIVE_READ + 1;
pub const RECEIVE_OVERWRITTEN: usize = RECEIVE_CLEARED + 1;
pub const TRANSMIT_ACCEPTED: usize = RECEIVE_OVERWRITTEN + 1;
pub const TRANSMIT_SENT: usize = TRANSMIT_ACCEPTED + 1;
pub const TRANSMIT_CLEARED: usize = TRANSMIT_SENT + 1;
pub const RECEIVE_RING: usize = TRANSMIT_CLEARED + 1;
pub const TRANSMIT_RING: usize = RECEIVE_RING + 3 * SLOTS;
pub const MAILBOXES: usize = TRANSMIT_RING + SLOTS;
pub const MATCH_SET: usize = MAILBOXES + 3 * INDEXES;
pub const MESSAGE_RAM: usize = MATCH_SET + INDEXES / 32;
pub const SCHEDULE_RAM: usize = MESSAGE_RAM + MESSAGES;

/// Words that a module of `count` channels needs.
pub fn need(count: u32) -> usize {
    MODULE_WORDS + count as usize * BLOCK_WORDS
}

/// First word of a channel's block; channels count from 1.
pub fn block(channel: u32) -> usize {
    MODULE_WORDS + (channel as usize - 1) * BLOCK_WORDS
}

/// Least and greatest value of the block's first words.
pub const RANGES: [(u32, u32); RANGED] = [
    (0, 1),            // receiver
    (0, 1),            // transmitter
    (0, 1),            // parity
    (0, 1),            // match
    (0, 1),            // stamps
    (0, 1),            // receive mode
    (0, 1),            // FIFO kind
    (0, 2),            // transmit mode
    (1, 255),          // receive FIFO size
    (0, 255),          // almost full threshold
    (0, 255),          // almost empty threshold
    (4, 1_048_575),    // transmit rate
    (0, 255),          // receive level, and at most the size
    (0, 254),          // receive position
    (0, 255),          // transmit level
    (0, 254),          // transmit position
    (0, 2),            // transmitter state
    (0, LAST_COMMAND), // command address
    (0, 1),            // async mark
    (0, 127),          // latch mask
    (0, 127),          // enable mask
    (0, 127),          // level mask
    (0, 1),            // word mark
];
