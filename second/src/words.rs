//! The calls performed on lent words, on any memory.
//!
//! First the refusal is found, in number order, with no word changed; then the call is done, and the
//! status rule follows. Words stand where docs/MEMORY.md lays them out.

use crate::layout::*;
use crate::ops::*;
use crate::register_words::access;

/// Factory values of the settings.
const FACTORY: [u32; SETTINGS] = [0, 0, 1, 0, 0, 0, 0, 0, 255, 128, 32, 4];
const FACTORY_THRESHOLD: u32 = 5;

const IDLE: u32 = 0;
const RUNNING: u32 = 1;
const PAUSED: u32 = 2;

const IMMEDIATE: u32 = 0;
const TRIGGERED: u32 = 1;
const SCHEDULED: u32 = 2;

/// Condition 4, a parity error, and condition 5, a schedule interrupt, as bits of a mask.
const PARITY_ERROR: u32 = 1 << 4;
const INTERRUPT: u32 = 1 << 5;
/// Condition 6, the fault counter above its threshold.
const FAULT: u32 = 1 << 6;

/// Values after the number, by op; none for an op that is no call.
fn values_of(op: u32) -> Option<usize> {
    match op {
        POWER_UP..=STAMP_ZERO | RESOLUTION_WRITE | THRESHOLD_WRITE => Some(0),
        STAMP_READ | RESOLUTION_READ | THRESHOLD_READ => Some(1),
        WRITE_RECEIVER..=WRITE_RATE => Some(0),
        READ_RECEIVER..=READ_RATE => Some(1),
        ARRIVAL | MATCH_READ | SCHEDULE_READ | MESSAGE_READ | STATUS_READ | ENABLE_READ | LEVEL_READ | PENDING_READ
        | RECEIVE_LEVEL_READ | TRANSMIT_LEVEL_READ => Some(1),
        FIFO_READ | MAILBOX_READ => Some(3),
        STEP => Some(4),
        COUNTS_READ => Some(7),
        ASYNC_READ => Some(2),
        REGISTER_READ | REGISTER_WRITE => Some(1),
        MATCH_WRITE
        | FIFO_WRITE..=STOP
        | SCHEDULE_WRITE
        | MESSAGE_WRITE
        | SAMPLE..=INITIATED_TEST
        | LATCH_CLEAR
        | ENABLE_WRITE
        | LEVEL_WRITE => Some(0),
        _ => None,
    }
}

/// Performs one item on the lent words; gives the answer's number and values.
pub fn perform(mem: &mut [u32], op: u32, channel: u32, a: u32, b: u32) -> Vec<u32> {
    let Some(values) = values_of(op) else {
        return vec![42];
    };
    // The channel word is ignored.
    if op == REGISTER_READ || op == REGISTER_WRITE {
        return access(mem, op, a, b);
    }
    let refusal = refusal(mem, op, channel, a, b);
    if refusal != 0 {
        let mut answer = vec![0; 1 + values];
        answer[0] = refusal;
        return answer;
    }
    let mut answer = vec![0];
    match op {
        POWER_UP => power_up(mem, a),
        MODULE_RESET => module_reset(mem),
        STAMP_READ => answer.push(mem[STAMP]),
        RESOLUTION_READ => answer.push(mem[RESOLUTION]),
        THRESHOLD_READ => answer.push(mem[THRESHOLD]),
        STAMP_ADVANCE | STAMP_ZERO | RESOLUTION_WRITE | THRESHOLD_WRITE => write_module(mem, op, a),
        _ => on_channel(mem, op, channel, a, b, &mut answer),
    }
    answer
}

// Refusals, tested in number order.

fn refusal(mem: &[u32], op: u32, channel: u32, a: u32, b: u32) -> u32 {
    if op == 1 {
        return if !(1..=CHANNELS).contains(&a) {
            4
        } else if mem.len() < need(a) {
            1
        } else {
            0
        };
    }
    let refusal = part_refusal(mem);
    if refusal != 0 {
        return refusal;
    }
    let count = mem[COUNT];
    if op < 32 {
        // Module-wide: any channel counts for 2.
        if (1..=count).any(|c| !block_is_sound(&mem[block(c)..][..BLOCK_WORDS])) {
            return 2;
        }
        let outside = (op == 6 && a > 3) || (op == 8 && (a < 1 || a > 65_535));
        return if outside { 4 } else { 0 };
    }
    if channel < 1 || channel > count {
        return 3;
    }
    let of_channel = &mem[block(channel)..][..BLOCK_WORDS];
    if !block_is_sound(of_channel) {
        return 2;
    }
    if outside_range(op, a, b) {
        return 4;
    }
    refusal_by_setting(of_channel, op, a)
}

/// 1 or 2 for the memory and the module part alone, or 0.
pub(crate) fn part_refusal(mem: &[u32]) -> u32 {
    if mem.len() < MODULE_WORDS {
        return 1;
    }
    let count = mem[COUNT];
    if count < 1 || count > CHANNELS {
        return 2;
    }
    if mem.len() < need(count) {
        return 1;
    }
    if part_is_sound(mem) {
        0
    } else {
        2
    }
}

fn part_is_sound(mem: &[u32]) -> bool {
    mem[RESOLUTION] <= 3
        && mem[THRESHOLD] >= 1
        && mem[THRESHOLD] <= 65_535
        && mem[COUNTERS..LAYOUT].iter().all(|&counter| counter <= 65_536)
        && mem[LAYOUT] == LAYOUT_NUMBER
}

fn block_is_sound(ch: &[u32]) -> bool {
    RANGES.iter().zip(ch).all(|(&(least, greatest), &word)| least <= word && word <= greatest)
        && ch[RECEIVE_LEVEL] <= ch[SIZE]
}

/// Row 4 for the calls on a channel.
fn outside_range(op: u32, a: u32, b: u32) -> bool {
    match op {
        WRITE_RECEIVER..=WRITE_RATE => {
            let (least, greatest) = RANGES[(op - 32) as usize];
            a < least || a > greatest
        }
        MAILBOX_READ | MATCH_READ => a as usize >= INDEXES,
        MATCH_WRITE => a as usize >= INDEXES || b > 1,
        SCHEDULE_WRITE | SCHEDULE_READ => a as usize >= COMMANDS,
        MESSAGE_WRITE | MESSAGE_READ => a as usize >= MESSAGES,
        SAMPLE | INITIATED_TEST => a > 1,
        LATCH_CLEAR | ENABLE_WRITE | LEVEL_WRITE => a > 127,
        _ => false,
    }
}

/// Rows 5 to 7, on a sound block.
fn refusal_by_setting(ch: &[u32], op: u32, a: u32) -> u32 {
    match op {
        WRITE_RECEIVE_SIZE if a < ch[RECEIVE_LEVEL] => 5,
        ASYNC_WRITE if ch[TRANSMIT_MODE] != SCHEDULED => 5,
        TRIGGER if ch[TRANSMITTER] == 0 => 5,
        FIFO_WRITE if ch[TRANSMIT_LEVEL] as usize == SLOTS => 6,
        ASYNC_WRITE if ch[ASYNC_MARK] == 1 => 6,
        FIFO_READ if ch[RECEIVE_LEVEL] == 0 => 7,
        _ => 0,
    }
}

// Module-wide calls.

fn power_up(mem: &mut [u32], count: u32) {
    mem[..need(count)].fill(0);
    mem[COUNT] = count;
    mem[THRESHOLD] = FACTORY_THRESHOLD;
    mem[LAYOUT] = LAYOUT_NUMBER;
    for c in 1..=count {
        mem[block(c)..block(c) + SETTINGS].copy_from_slice(&FACTORY);
    }
}

/// The rule is not run; the layout number, match sets, mailboxes but for the marks of listed ones, both RAMs, counts and the rings' slots stay.
fn module_reset(mem: &mut [u32]) {
    mem[STAMP] = 0;
    mem[RESOLUTION] = 0;
    mem[THRESHOLD] = FACTORY_THRESHOLD;
    mem[COUNTERS..LAYOUT].fill(0);
    for c in 1..=mem[COUNT] {
        let ch = &mut mem[block(c)..][..BLOCK_WORDS];
        clear_receive(ch);
        clear(ch, TRANSMIT_LEVEL, TRANSMIT_CLEARED);
        ch[..SETTINGS].copy_from_slice(&FACTORY);
        for word in [STATE, COMMAND, ASYNC_MARK, LATCH, ENABLE, LEVEL_MASK, WORD_MARK] {
            ch[word] = 0;
        }
    }
}

/// The stamp's and the threshold's writes; the rule follows on every channel.
fn write_module(mem: &mut [u32], op: u32, a: u32) {
    let count = mem[COUNT];
    let before: Vec<u32> = (1..=count).map(|c| conditions(mem, c)).collect();
    match op {
        STAMP_ADVANCE => mem[STAMP] = mem[STAMP].wrapping_add(a),
        STAMP_ZERO => mem[STAMP] = 0,
        RESOLUTION_WRITE => mem[RESOLUTION] = a,
        _ => mem[THRESHOLD] = a,
    }
    for c in 1..=count {
        rule(mem, c, before[c as usize - 1], 0);
    }
}

// The status rule.

/// Conditions 0 to 3 and 6 as a mask; 4 and 5 hold only during the call that signals them.
fn conditions(mem: &[u32], channel: u32) -> u32 {
    let ch = &mem[block(channel)..];
    let mut mask = 0;
    if ch[RECEIVE_LEVEL] >= ch[ALMOST_FULL] {
        mask |= 1;
    }
    if ch[RECEIVE_LEVEL] == ch[SIZE] {
        mask |= 2;
    }
    if ch[TRANSMIT_LEVEL] <= ch[ALMOST_EMPTY] {
        mask |= 4;
    }
    if ch[TRANSMIT_LEVEL] == 0 {
        mask |= 8;
    }
    if mem[COUNTERS + channel as usize - 1] > mem[THRESHOLD] {
        mask |= FAULT;
    }
    mask
}

fn rule(mem: &mut [u32], channel: u32, before: u32, signals: u32) {
    let holds = conditions(mem, channel) | signals;
    let ch = &mut mem[block(channel)..];
    ch[LATCH] |= holds & (ch[LEVEL_MASK] | !before);
}

// Calls on a channel.

fn on_channel(mem: &mut [u32], op: u32, channel: u32, a: u32, b: u32, answer: &mut Vec<u32>) {
    let before = conditions(mem, channel);
    let signals = match op {
        SAMPLE | TEST_RESET => {
            let counter = &mut mem[COUNTERS + channel as usize - 1];
            // A failing sample adds 2 and stops at 65,536; a good one takes 1 away, not below 0.
            if op == 144 {
                *counter = 0;
            } else if a == 1 {
                *counter = u32::min(*counter + 2, 65_536);
            } else if *counter > 0 {
                *counter -= 1;
            }
            0
        }
        _ => {
            let stamp = mem[STAMP];
            on_block(&mut mem[block(channel)..][..BLOCK_WORDS], stamp, op, a, b, answer)
        }
    };
    rule(mem, channel, before, signals);
    // A status or pending read shows what the rule left.
    let ch = &mem[block(channel)..];
    match op {
        STATUS_READ => answer.push(ch[LATCH]),
        PENDING_READ => answer.push(u32::from(ch[LATCH] & ch[ENABLE] != 0)),
        _ => {}
    }
}

/// The call on a channel's block; gives the signalled conditions.
fn on_block(ch: &mut [u32], stamp: u32, op: u32, a: u32, b: u32, answer: &mut Vec<u32>) -> u32 {
    let at = a as usize;
    match op {
        WRITE_RECEIVER..=WRITE_RATE => write_setting(ch, (op - SETTING_WRITE) as usize, a),
        READ_RECEIVER..=READ_RATE => answer.push(ch[(op - SETTING_READ) as usize]),
        ARRIVAL => return arrival(ch, stamp, a, answer),
        FIFO_READ => read_fifo(ch, answer),
        MAILBOX_READ => {
            let status = MAILBOXES + 3 * at;
            answer.extend([ch[status] % 4, ch[status + 1], ch[status + 2]]);
            take_mark(ch, a);
        }
        MATCH_WRITE => {
            let bit = 1 << (a % 32);
            let word = &mut ch[MATCH_SET + at / 32];
            *word = if b == 1 { *word | bit } else { *word & !bit };
        }
        MATCH_READ => answer.push(ch[MATCH_SET + at / 32] >> (a % 32) & 1),
        FIFO_WRITE => {
            let slot = (ch[TRANSMIT_POSITION] + ch[TRANSMIT_LEVEL]) as usize % SLOTS;
            ch[TRANSMIT_RING + slot] = a;
            ch[TRANSMIT_LEVEL] += 1;
            add(ch, TRANSMIT_ACCEPTED, 1);
        }
        ASYNC_WRITE => {
            ch[ASYNC_MARK] = 1;
            ch[ASYNC_WORD] = a;
        }
        TRIGGER => ch[STATE] = RUNNING,
        PAUSE => {
            if ch[STATE] == RUNNING || (ch[STATE] == IDLE && ch[TRANSMIT_MODE] == IMMEDIATE) {
                ch[STATE] = PAUSED;
            }
        }
        STOP => idle(ch),
        STEP => return step(ch, answer),
        SCHEDULE_WRITE => ch[SCHEDULE_RAM + at] = b,
        SCHEDULE_READ => answer.push(ch[SCHEDULE_RAM + at]),
        MESSAGE_WRITE => ch[MESSAGE_RAM + at] = b,
        MESSAGE_READ => answer.push(ch[MESSAGE_RAM + at]),
        INITIATED_TEST => {
            clear_receive(ch);
            clear(ch, TRANSMIT_LEVEL, TRANSMIT_CLEARED);
            idle(ch);
            ch[WORD_MARK] = 0;
            if a == 1 {
                ch[LATCH] |= FAULT;
            }
        }
        LATCH_CLEAR => ch[LATCH] &= !a,
        ENABLE_WRITE => ch[ENABLE] = a,
        ENABLE_READ => answer.push(ch[ENABLE]),
        LEVEL_WRITE => ch[LEVEL_MASK] = a,
        LEVEL_READ => answer.push(ch[LEVEL_MASK]),
        COUNTS_READ => answer.extend_from_slice(&ch[RECEIVE_ACCEPTED..=TRANSMIT_CLEARED]),
        RECEIVE_LEVEL_READ => answer.push(ch[RECEIVE_LEVEL]),
        TRANSMIT_LEVEL_READ => answer.push(ch[TRANSMIT_LEVEL]),
        ASYNC_READ => answer.extend([ch[ASYNC_MARK], ch[ASYNC_MARK] * ch[ASYNC_WORD]]),
        _ => {}
    }
    0
}

/// A fate count rolls over.
fn add(ch: &mut [u32], count: usize, number: u32) {
    ch[count] = ch[count].wrapping_add(number);
}

/// Clearing adds the level it found; position and slots stay.
fn clear(ch: &mut [u32], level: usize, cleared: usize) {
    add(ch, cleared, ch[level]);
    ch[level] = 0;
}

fn idle(ch: &mut [u32]) {
    ch[STATE] = IDLE;
    ch[COMMAND] = 0;
}

fn write_setting(ch: &mut [u32], setting: usize, value: u32) {
    let change = ch[setting] != value;
    if setting == RECEIVE_MODE && change {
        // By the mode before the call.
        clear_receive(ch);
    }
    ch[setting] = value;
    match setting {
        TRANSMIT_MODE if change => start_anew(ch),
        // Also when it is off.
        TRANSMITTER if value == 0 => start_anew(ch),
        _ => {}
    }
}

/// Idle at command 0, no async word waits, and the word sent before is forgotten.
fn start_anew(ch: &mut [u32]) {
    idle(ch);
    ch[ASYNC_MARK] = 0;
    ch[WORD_MARK] = 0;
}

// Receive.

fn arrival(ch: &mut [u32], stamp: u32, word: u32, answer: &mut Vec<u32>) -> u32 {
    let index = word % INDEXES as u32;
    if ch[RECEIVER] == 0 {
        answer.push(0);
        return 0;
    }
    if ch[MATCH] == 1 && (ch[MATCH_SET + index as usize / 32] >> (index % 32)) % 2 == 0 {
        answer.push(1);
        return 0;
    }
    let error = ch[PARITY] * u32::from(even(word));
    let stamp = ch[STAMPS] * stamp;
    // Signalled only for a word that entered a FIFO or a mailbox, which every word does in mailbox mode.
    let (outcome, entered) = if ch[RECEIVE_MODE] == 1 {
        (to_mailbox(ch, index, [error, word, stamp]), true)
    } else {
        let outcome = append(ch, [error, word, stamp]);
        (outcome, outcome != 3)
    };
    answer.push(outcome);
    if error == 1 && entered {
        PARITY_ERROR
    } else {
        0
    }
}

/// The word goes into the mailbox of its index, and the index into the list unless the mailbox still has the new mark.
fn to_mailbox(ch: &mut [u32], index: u32, [error, word, stamp]: [u32; 3]) -> u32 {
    let mailbox = MAILBOXES + 3 * index as usize;
    let listed = ch[mailbox] / 2 % 2 == 1;
    let full = ch[RECEIVE_LEVEL] == ch[SIZE];
    // An index that is lost leaves its mark clear.
    let lost = !listed && full && ch[FIFO_KIND] == 0;
    if !listed && full && !lost {
        let oldest = RECEIVE_RING + 3 * ch[RECEIVE_POSITION] as usize;
        take_mark(ch, ch[oldest + 1]);
    }
    let mark = if lost { 0 } else { 2 };
    ch[mailbox..mailbox + 3].copy_from_slice(&[mark + error, word, stamp]);
    if listed {
        5
    } else {
        append(ch, [0, index, 0])
    }
}

/// The mailbox at a word modulo 1024 loses its new mark: of the stored status only D0 stays.
fn take_mark(ch: &mut [u32], word: u32) {
    ch[MAILBOXES + 3 * (word as usize % INDEXES)] %= 2;
}

/// The receive FIFO is cleared; in mailbox mode each entry first takes the mark from its mailbox.
fn clear_receive(ch: &mut [u32]) {
    if ch[RECEIVE_MODE] == 1 {
        for k in 0..ch[RECEIVE_LEVEL] {
            let slot = (ch[RECEIVE_POSITION] + k) as usize % SLOTS;
            take_mark(ch, ch[RECEIVE_RING + 3 * slot + 1]);
        }
    }
    clear(ch, RECEIVE_LEVEL, RECEIVE_CLEARED);
}

/// Held at size: bounded drops the arrival, circular overwrites the oldest.
fn append(ch: &mut [u32], entry: [u32; 3]) -> u32 {
    let (position, level) = (ch[RECEIVE_POSITION] as usize, ch[RECEIVE_LEVEL] as usize);
    let full = ch[RECEIVE_LEVEL] == ch[SIZE];
    if full && ch[FIFO_KIND] == 0 {
        return 3;
    }
    let slot = RECEIVE_RING + 3 * ((position + level) % SLOTS);
    ch[slot..slot + 3].copy_from_slice(&entry);
    add(ch, RECEIVE_ACCEPTED, 1);
    if full {
        ch[RECEIVE_POSITION] = next(ch[RECEIVE_POSITION]);
        add(ch, RECEIVE_OVERWRITTEN, 1);
        4
    } else {
        ch[RECEIVE_LEVEL] += 1;
        2
    }
}

fn read_fifo(ch: &mut [u32], answer: &mut Vec<u32>) {
    let slot = RECEIVE_RING + 3 * ch[RECEIVE_POSITION] as usize;
    answer.extend([ch[slot] % 4, ch[slot + 1], ch[slot + 2]]);
    ch[RECEIVE_POSITION] = next(ch[RECEIVE_POSITION]);
    ch[RECEIVE_LEVEL] -= 1;
    add(ch, RECEIVE_READ, 1);
}

fn next(position: u32) -> u32 {
    (position + 1) % SLOTS as u32
}

// Transmit.

fn even(word: u32) -> bool {
    let mut ones = 0;
    for bit in 0..32 {
        ones += word >> bit & 1;
    }
    ones & 1 == 0
}

/// Parity on: D31 set or cleared so that the count is odd. Parity off: the word as it is.
fn as_sent(ch: &[u32], word: u32) -> u32 {
    if ch[PARITY] == 1 && even(word) {
        word ^ 1 << 31
    } else {
        word
    }
}

/// The gap after the clamp.
fn gap(value: u32) -> u32 {
    if value < 4 {
        4
    } else if value > 1_048_575 {
        1_048_575
    } else {
        value
    }
}

fn step(ch: &mut [u32], answer: &mut Vec<u32>) -> u32 {
    let (mode, state) = (ch[TRANSMIT_MODE], ch[STATE]);
    let quiet =
        ch[TRANSMITTER] == 0 || (mode == IMMEDIATE && state == PAUSED) || (mode != IMMEDIATE && state != RUNNING);
    if quiet {
        answer.extend([0; 4]);
        return 0;
    }
    if mode == SCHEDULED {
        return command(ch, answer);
    }
    if ch[TRANSMIT_LEVEL] > 0 {
        let word = ch[TRANSMIT_RING + ch[TRANSMIT_POSITION] as usize];
        ch[TRANSMIT_POSITION] = next(ch[TRANSMIT_POSITION]);
        ch[TRANSMIT_LEVEL] -= 1;
        add(ch, TRANSMIT_SENT, 1);
        answer.extend([1, as_sent(ch, word), ch[RATE], 0]);
    } else {
        if mode == TRIGGERED {
            ch[STATE] = IDLE;
        }
        answer.extend([0; 4]);
    }
    0
}

/// One command of the schedule RAM: code in bits 15 to 12.
fn command(ch: &mut [u32], answer: &mut Vec<u32>) -> u32 {
    let address = ch[COMMAND];
    let command = ch[SCHEDULE_RAM + address as usize];
    let stored = ch[MESSAGE_RAM + (command & 0xFF) as usize];
    // A jump has nine address bits, a message or gap eight.
    let target = command & 0x1FF;
    let code = command >> 12 & 0xF;
    let mut signals = 0;
    let reserved = code > 6;
    let output = match code {
        // Behind a word: 4 null first.
        1 if ch[WORD_MARK] == 1 => [6, 4, as_sent(ch, stored), 0],
        1 => [2, as_sent(ch, stored), 0, 0],
        2 if ch[ASYNC_MARK] == 1 && gap(stored) >= 40 => {
            ch[ASYNC_MARK] = 0;
            [4, 4, as_sent(ch, ch[ASYNC_WORD]), gap(stored) - 36]
        }
        2 | 3 => [3, gap(stored), 0, 0],
        5 => {
            signals = INTERRUPT;
            [0; 4]
        }
        _ if reserved => [5, address, 0, 0],
        _ => [0; 4],
    };
    // What was sent last; a command that sends nothing leaves it.
    match code {
        1 => ch[WORD_MARK] = 1,
        2 | 3 => ch[WORD_MARK] = 0,
        _ => {}
    }
    // Where it stands afterwards.
    if code == 0 || reserved {
        idle(ch);
    } else if code == 6 {
        ch[COMMAND] = target;
    } else if address == LAST_COMMAND {
        idle(ch);
    } else {
        ch[COMMAND] = address + 1;
        if code == 4 {
            ch[STATE] = PAUSED;
        }
    }
    answer.extend(output);
    signals
}
