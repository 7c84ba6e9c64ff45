//! Which words a call may write: the table of docs/MEMORY.md, tested on the words before and after a call.

use crate::calls::Item;
use crate::layout::*;
use crate::registers::accepted_calls;

/// The first word that the call changed and must not; none where all is well. An access may write what its accepted calls may.
pub fn stray_write(before: &[u32], after: &[u32], item: Item, answer: &[u32]) -> Option<String> {
    let refused = answer[0] != 0;
    let calls = if refused { vec![] } else { accepted_calls(item, answer) };
    let mut place = 0;
    // Whole runs first: most words never change.
    for (old, new) in before.chunks(512).zip(after.chunks(512)) {
        if old != new {
            for k in 0..old.len() {
                if old[k] != new[k] && !calls.iter().any(|&call| may_write(before, place + k, call)) {
                    return Some(format!(
                        "word {} changed from {:#x} to {:#x}{}",
                        place + k,
                        old[k],
                        new[k],
                        if refused { " by a refused item" } else { "" }
                    ));
                }
            }
        }
        place += old.len();
    }
    None
}

fn may_write(before: &[u32], word: usize, item: Item) -> bool {
    let Item { op, channel, a, .. } = item;
    if op == 1 {
        return word < need(a);
    }
    if word < MODULE_WORDS {
        return match op {
            2 => word != COUNT && word != LAYOUT,
            3 | 4 => word == STAMP,
            6 => word == RESOLUTION,
            8 => word == THRESHOLD,
            143 | 144 => word == COUNTERS + channel as usize - 1,
            _ => false,
        };
    }
    // Words beyond the need are never touched.
    if word >= need(before[COUNT]) {
        return false;
    }
    let of_channel = ((word - MODULE_WORDS) / BLOCK_WORDS) as u32 + 1;
    let offset = (word - MODULE_WORDS) % BLOCK_WORDS;
    let ch = &before[block(of_channel)..][..BLOCK_WORDS];
    if op >= 32 && of_channel != channel {
        return false;
    }
    match op {
        2 => {
            offset <= RECEIVE_LEVEL
                || [RECEIVE_CLEARED, TRANSMIT_LEVEL, TRANSMIT_CLEARED].contains(&offset)
                || (STATE..=WORD_MARK).contains(&offset)
                || of_listed(ch, offset)
        }
        _ if offset == LATCH => ![5, 7, 9].contains(&op),
        32..=43 => {
            offset == op as usize - 32
                || (op == 37 && ([RECEIVE_LEVEL, RECEIVE_CLEARED].contains(&offset) || of_listed(ch, offset)))
                || ([33, 39].contains(&op) && [STATE, COMMAND, ASYNC_MARK, WORD_MARK].contains(&offset))
        }
        128 => {
            let slot = (ch[RECEIVE_POSITION] + ch[RECEIVE_LEVEL]) as usize % SLOTS;
            let mailbox = MAILBOXES + 3 * (a as usize % INDEXES);
            let full = ch[RECEIVE_LEVEL] == ch[SIZE];
            (RECEIVE_RING + 3 * slot..RECEIVE_RING + 3 * slot + 3).contains(&offset)
                || [RECEIVE_LEVEL, RECEIVE_POSITION, RECEIVE_ACCEPTED, RECEIVE_OVERWRITTEN].contains(&offset)
                || (ch[RECEIVE_MODE] == 1 && (mailbox..mailbox + 3).contains(&offset))
                || (ch[RECEIVE_MODE] == 1 && full && offset == status_of_entry(ch, 0))
        }
        129 => [RECEIVE_LEVEL, RECEIVE_POSITION, RECEIVE_READ].contains(&offset),
        130 => offset == MAILBOXES + 3 * a as usize,
        131 => offset == MATCH_SET + a as usize / 32,
        133 => {
            let slot = (ch[TRANSMIT_POSITION] + ch[TRANSMIT_LEVEL]) as usize % SLOTS;
            [TRANSMIT_RING + slot, TRANSMIT_LEVEL, TRANSMIT_ACCEPTED].contains(&offset)
        }
        134 => [ASYNC_MARK, ASYNC_WORD].contains(&offset),
        135 | 136 => offset == STATE,
        137 => [STATE, COMMAND].contains(&offset),
        138 => match ch[TRANSMIT_MODE] {
            2 => [STATE, COMMAND, ASYNC_MARK, WORD_MARK].contains(&offset),
            1 => [TRANSMIT_LEVEL, TRANSMIT_POSITION, TRANSMIT_SENT, STATE].contains(&offset),
            _ => [TRANSMIT_LEVEL, TRANSMIT_POSITION, TRANSMIT_SENT].contains(&offset),
        },
        139 => offset == SCHEDULE_RAM + a as usize,
        141 => offset == MESSAGE_RAM + a as usize,
        145 => {
            let cleared = [RECEIVE_LEVEL, RECEIVE_CLEARED, TRANSMIT_LEVEL, TRANSMIT_CLEARED];
            cleared.contains(&offset) || [STATE, COMMAND, WORD_MARK].contains(&offset) || of_listed(ch, offset)
        }
        148 => offset == ENABLE,
        150 => offset == LEVEL_MASK,
        _ => false,
    }
}

/// The status word of the mailbox that entry k of the receive FIFO names.
fn status_of_entry(ch: &[u32], k: usize) -> usize {
    let slot = (ch[RECEIVE_POSITION] as usize + k) % SLOTS;
    MAILBOXES + 3 * (ch[RECEIVE_RING + 3 * slot + 1] as usize % INDEXES)
}

/// The status word of a mailbox whose index is held in mailbox mode.
fn of_listed(ch: &[u32], offset: usize) -> bool {
    ch[RECEIVE_MODE] == 1 && (0..ch[RECEIVE_LEVEL] as usize).any(|k| offset == status_of_entry(ch, k))
}
