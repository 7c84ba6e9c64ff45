//! The ops of the call items, by name (docs/CALLS.md, "Call items").

pub const POWER_UP: u32 = 1;
pub const MODULE_RESET: u32 = 2;
pub const STAMP_ADVANCE: u32 = 3;
pub const STAMP_ZERO: u32 = 4;
pub const STAMP_READ: u32 = 5;
pub const RESOLUTION_WRITE: u32 = 6;
pub const RESOLUTION_READ: u32 = 7;
pub const THRESHOLD_WRITE: u32 = 8;
pub const THRESHOLD_READ: u32 = 9;

/// A write of setting s is this and s, a read likewise.
pub const SETTING_WRITE: u32 = 32;
pub const SETTING_READ: u32 = 64;

pub const WRITE_RECEIVER: u32 = 32;
pub const WRITE_TRANSMITTER: u32 = 33;
pub const WRITE_PARITY: u32 = 34;
pub const WRITE_MATCH: u32 = 35;
pub const WRITE_STAMPS: u32 = 36;
pub const WRITE_RECEIVE_MODE: u32 = 37;
pub const WRITE_FIFO_KIND: u32 = 38;
pub const WRITE_TRANSMIT_MODE: u32 = 39;
pub const WRITE_RECEIVE_SIZE: u32 = 40;
pub const WRITE_ALMOST_FULL: u32 = 41;
pub const WRITE_ALMOST_EMPTY: u32 = 42;
pub const WRITE_RATE: u32 = 43;

pub const READ_RECEIVER: u32 = 64;
pub const READ_RATE: u32 = 75;

pub const ARRIVAL: u32 = 128;
pub const FIFO_READ: u32 = 129;
pub const MAILBOX_READ: u32 = 130;
pub const MATCH_WRITE: u32 = 131;
pub const MATCH_READ: u32 = 132;
pub const FIFO_WRITE: u32 = 133;
pub const ASYNC_WRITE: u32 = 134;
pub const TRIGGER: u32 = 135;
pub const PAUSE: u32 = 136;
pub const STOP: u32 = 137;
pub const STEP: u32 = 138;
pub const SCHEDULE_WRITE: u32 = 139;
pub const SCHEDULE_READ: u32 = 140;
pub const MESSAGE_WRITE: u32 = 141;
pub const MESSAGE_READ: u32 = 142;
pub const SAMPLE: u32 = 143;
pub const TEST_RESET: u32 = 144;
pub const INITIATED_TEST: u32 = 145;
pub const STATUS_READ: u32 = 146;
pub const LATCH_CLEAR: u32 = 147;
pub const ENABLE_WRITE: u32 = 148;
pub const ENABLE_READ: u32 = 149;
pub const LEVEL_WRITE: u32 = 150;
pub const LEVEL_READ: u32 = 151;
pub const PENDING_READ: u32 = 152;
pub const COUNTS_READ: u32 = 153;
pub const RECEIVE_LEVEL_READ: u32 = 154;
pub const TRANSMIT_LEVEL_READ: u32 = 155;
pub const ASYNC_READ: u32 = 156;

pub const REGISTER_READ: u32 = 160;
pub const REGISTER_WRITE: u32 = 161;
