//! The calls by name, as the items `op channel a b` give them; the two accesses to registers among them.

use crate::layout::SETTINGS;
use crate::ops::*;

/// Number written for an item that is no call.
pub const NO_CALL: u32 = 42;

/// One item of a call list: four 32-bit words.
#[derive(Clone, Copy, PartialEq, Eq, Debug)]
pub struct Item {
    pub op: u32,
    pub channel: u32,
    pub a: u32,
    pub b: u32,
}

impl Item {
    /// The item of 16 bytes; none where they are fewer.
    pub fn of_bytes(bytes: &[u8]) -> Option<Item> {
        let word = |k: usize| Some(u32::from_le_bytes(bytes.get(k..k + 4)?.try_into().ok()?));
        Some(Item { op: word(0)?, channel: word(4)?, a: word(8)?, b: word(12)? })
    }
}

#[derive(Clone, Copy, PartialEq, Eq, Debug)]
pub enum Call {
    PowerUp { count: u32 },
    ModuleReset,
    AdvanceStamp { ticks: u32 },
    ZeroStamp,
    ReadStamp,
    WriteResolution { value: u32 },
    ReadResolution,
    WriteThreshold { value: u32 },
    ReadThreshold,
    WriteSetting { setting: u32, value: u32 },
    ReadSetting { setting: u32 },
    Arrival { word: u32 },
    ReadFifo,
    ReadMailbox { index: u32 },
    WriteMatch { index: u32, mark: u32 },
    ReadMatch { index: u32 },
    WriteTransmitFifo { word: u32 },
    WriteAsync { word: u32 },
    Trigger,
    Pause,
    Stop,
    Step,
    WriteSchedule { address: u32, command: u32 },
    ReadSchedule { address: u32 },
    WriteMessage { address: u32, word: u32 },
    ReadMessage { address: u32 },
    Sample { result: u32 },
    ResetTest,
    InitiatedTest { result: u32 },
    ReadStatus,
    ClearLatch { mask: u32 },
    WriteEnable { mask: u32 },
    ReadEnable,
    WriteLevelMask { mask: u32 },
    ReadLevelMask,
    ReadPending,
    ReadCounts,
    ReadReceiveLevel,
    ReadTransmitLevel,
    ReadAsync,
    ReadRegister { address: u32 },
    WriteRegister { address: u32, value: u32 },
}

pub const SETTING_NAMES: [&str; SETTINGS] = [
    "receiver",
    "transmitter",
    "parity",
    "match",
    "stamps",
    "receive mode",
    "FIFO kind",
    "transmit mode",
    "receive FIFO size",
    "almost full threshold",
    "almost empty threshold",
    "transmit rate",
];

impl Call {
    /// The call of an item; none where the op is not in the table.
    pub fn of(item: Item) -> Option<Call> {
        let Item { op, a, b, .. } = item;
        Some(match op {
            POWER_UP => Call::PowerUp { count: a },
            MODULE_RESET => Call::ModuleReset,
            STAMP_ADVANCE => Call::AdvanceStamp { ticks: a },
            STAMP_ZERO => Call::ZeroStamp,
            STAMP_READ => Call::ReadStamp,
            RESOLUTION_WRITE => Call::WriteResolution { value: a },
            RESOLUTION_READ => Call::ReadResolution,
            THRESHOLD_WRITE => Call::WriteThreshold { value: a },
            THRESHOLD_READ => Call::ReadThreshold,
            WRITE_RECEIVER..=WRITE_RATE => Call::WriteSetting { setting: op - SETTING_WRITE, value: a },
            READ_RECEIVER..=READ_RATE => Call::ReadSetting { setting: op - SETTING_READ },
            ARRIVAL => Call::Arrival { word: a },
            FIFO_READ => Call::ReadFifo,
            MAILBOX_READ => Call::ReadMailbox { index: a },
            MATCH_WRITE => Call::WriteMatch { index: a, mark: b },
            MATCH_READ => Call::ReadMatch { index: a },
            FIFO_WRITE => Call::WriteTransmitFifo { word: a },
            ASYNC_WRITE => Call::WriteAsync { word: a },
            TRIGGER => Call::Trigger,
            PAUSE => Call::Pause,
            STOP => Call::Stop,
            STEP => Call::Step,
            SCHEDULE_WRITE => Call::WriteSchedule { address: a, command: b },
            SCHEDULE_READ => Call::ReadSchedule { address: a },
            MESSAGE_WRITE => Call::WriteMessage { address: a, word: b },
            MESSAGE_READ => Call::ReadMessage { address: a },
            SAMPLE => Call::Sample { result: a },
            TEST_RESET => Call::ResetTest,
            INITIATED_TEST => Call::InitiatedTest { result: a },
            STATUS_READ => Call::ReadStatus,
            LATCH_CLEAR => Call::ClearLatch { mask: a },
            ENABLE_WRITE => Call::WriteEnable { mask: a },
            ENABLE_READ => Call::ReadEnable,
            LEVEL_WRITE => Call::WriteLevelMask { mask: a },
            LEVEL_READ => Call::ReadLevelMask,
            PENDING_READ => Call::ReadPending,
            COUNTS_READ => Call::ReadCounts,
            RECEIVE_LEVEL_READ => Call::ReadReceiveLevel,
            TRANSMIT_LEVEL_READ => Call::ReadTransmitLevel,
            ASYNC_READ => Call::ReadAsync,
            REGISTER_READ => Call::ReadRegister { address: a },
            REGISTER_WRITE => Call::WriteRegister { address: a, value: b },
            _ => return None,
        })
    }

    /// How many values stand after the answer's number.
    pub fn values(self) -> usize {
        match self {
            Call::ReadStamp
            | Call::ReadResolution
            | Call::ReadThreshold
            | Call::ReadSetting { .. }
            | Call::Arrival { .. }
            | Call::ReadMatch { .. }
            | Call::ReadSchedule { .. }
            | Call::ReadMessage { .. }
            | Call::ReadStatus
            | Call::ReadEnable
            | Call::ReadLevelMask
            | Call::ReadPending
            | Call::ReadReceiveLevel
            | Call::ReadTransmitLevel
            | Call::ReadRegister { .. }
            | Call::WriteRegister { .. } => 1,
            Call::ReadAsync => 2,
            Call::ReadFifo | Call::ReadMailbox { .. } => 3,
            Call::Step => 4,
            Call::ReadCounts => 7,
            _ => 0,
        }
    }

    /// Module-wide calls name no channel.
    pub fn is_module_wide(self) -> bool {
        matches!(
            self,
            Call::PowerUp { .. }
                | Call::ModuleReset
                | Call::AdvanceStamp { .. }
                | Call::ZeroStamp
                | Call::ReadStamp
                | Call::WriteResolution { .. }
                | Call::ReadResolution
                | Call::WriteThreshold { .. }
                | Call::ReadThreshold
        )
    }
}

/// What an op is called, for reports.
pub fn kind(op: u32) -> String {
    let name = match op {
        POWER_UP => "power-up",
        MODULE_RESET => "module reset",
        STAMP_ADVANCE => "stamp advance",
        STAMP_ZERO => "stamp zero",
        STAMP_READ => "stamp read",
        RESOLUTION_WRITE => "resolution write",
        RESOLUTION_READ => "resolution read",
        THRESHOLD_WRITE => "fault threshold write",
        THRESHOLD_READ => "fault threshold read",
        WRITE_RECEIVER..=WRITE_RATE => return format!("write {}", SETTING_NAMES[(op - SETTING_WRITE) as usize]),
        READ_RECEIVER..=READ_RATE => return format!("read {}", SETTING_NAMES[(op - SETTING_READ) as usize]),
        ARRIVAL => "arrival",
        FIFO_READ => "receive FIFO read",
        MAILBOX_READ => "mailbox read",
        MATCH_WRITE => "match write",
        MATCH_READ => "match read",
        FIFO_WRITE => "transmit FIFO write",
        ASYNC_WRITE => "async write",
        TRIGGER => "trigger",
        PAUSE => "pause",
        STOP => "stop",
        STEP => "step",
        SCHEDULE_WRITE => "schedule RAM write",
        SCHEDULE_READ => "schedule RAM read",
        MESSAGE_WRITE => "message RAM write",
        MESSAGE_READ => "message RAM read",
        SAMPLE => "background sample",
        TEST_RESET => "test reset",
        INITIATED_TEST => "initiated test",
        STATUS_READ => "status read",
        LATCH_CLEAR => "latch clear",
        ENABLE_WRITE => "interrupt enable write",
        ENABLE_READ => "interrupt enable read",
        LEVEL_WRITE => "level mask write",
        LEVEL_READ => "level mask read",
        PENDING_READ => "pending read",
        COUNTS_READ => "fate counts read",
        RECEIVE_LEVEL_READ => "receive level read",
        TRANSMIT_LEVEL_READ => "transmit level read",
        ASYNC_READ => "async read",
        REGISTER_READ => "register read",
        REGISTER_WRITE => "register write",
        _ => "no call",
    };
    name.to_string()
}

impl std::fmt::Display for Item {
    fn fmt(&self, f: &mut std::fmt::Formatter<'_>) -> std::fmt::Result {
        write!(f, "{} (op {}, channel {}, a {:#x}, b {:#x})", kind(self.op), self.op, self.channel, self.a, self.b)
    }
}
