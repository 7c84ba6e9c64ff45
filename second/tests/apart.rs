//! "Two calls on different channels of one memory, neither module-wide, give the same answers and the same memory in either order,
//! refusals included. Memory need not come from power-up."
//!
//! Pairs of accesses that name different channels are performed in both orders on copies of one memory.
//! `cargo test --release --test apart -- --nocapture` prints how often each case is reached.

use std::collections::BTreeMap;

use second::calls::{self, Call, Item};
use second::compare::LIST_CALLS;
use second::engine::{Engine, OnWords};
use second::layout::*;
use second::lists::{lists, Dice, Event, List};
use second::ops::*;
use second::registers::Register;
use second::words;

/// Pairs of accesses, each in both orders.
const PAIRS: u64 = 80_000;
/// Pairs on one memory.
const PAIRS_OF_CASE: usize = 5;
const SEED: u64 = 12;

// What an access names.

#[derive(Clone, Copy, PartialEq, Eq)]
enum Named {
    Channel(u32),
    /// An access to no register, or a read of one that takes a mask: refused with 30 to 32 on any memory.
    Nothing,
    /// "Document 01's module-wide calls, masked writes of (vi) and the mask read of (ix) are excepted by name."
    Excepted,
}

fn is_access_to_register(item: Item) -> bool {
    [REGISTER_READ, REGISTER_WRITE].contains(&item.op)
}

fn named(item: Item) -> Named {
    match Call::of(item) {
        // An item that is no call is no access.
        None => Named::Excepted,
        Some(call) if call.is_module_wide() => Named::Excepted,
        Some(_) if is_access_to_register(item) => match Register::at(item.a).map(Register::channel) {
            Err(_) => Named::Nothing,
            Ok(Some(channel)) => Named::Channel(channel),
            Ok(None) if item.op == REGISTER_READ => Named::Nothing,
            Ok(None) => Named::Excepted,
        },
        Some(_) => Named::Channel(item.channel),
    }
}

/// Two accesses, neither excepted, that do not name the same channel.
fn are_apart(pair: [Item; 2]) -> bool {
    let [first, second] = pair.map(named);
    first != Named::Excepted && second != Named::Excepted && (first != second || first == Named::Nothing)
}

/// What an access is called: the kind of the call; of an access to a register the way and the register.
fn kind(item: Item) -> String {
    if is_access_to_register(item) {
        format!("{}, {}", calls::kind(item.op), Register::at(item.a).map_or("none", Register::name))
    } else {
        calls::kind(item.op)
    }
}

// Pairs of accesses.

/// The accesses of a list that are not excepted, by kind.
fn accesses(list: &List) -> Vec<Vec<Item>> {
    let mut by_kind: BTreeMap<String, Vec<Item>> = BTreeMap::new();
    for event in &list.events {
        match *event {
            Event::Call(item) if named(item) != Named::Excepted => by_kind.entry(kind(item)).or_default().push(item),
            _ => {}
        }
    }
    by_kind.into_values().collect()
}

fn any_of<'a, T>(dice: &mut Dice, values: &'a [T]) -> &'a T {
    &values[dice.below(values.len() as u32) as usize]
}

/// What looks at the module part or writes there: the stamp, the fault counters and the threshold.
fn meets_the_part(of_kind: &[Item]) -> bool {
    [ARRIVAL, SAMPLE, TEST_RESET, STATUS_READ, PENDING_READ].contains(&of_kind[0].op)
}

/// Accesses to two channels: of any kinds, of one kind, or such as meet the module part.
fn pair(dice: &mut Dice, accesses: &[Vec<Item>], channels: [u32; 2]) -> [Item; 2] {
    let mut kinds = [any_of(dice, accesses), any_of(dice, accesses)];
    match dice.below(5) {
        0 => kinds[1] = kinds[0],
        1 => {
            let meeting: Vec<&Vec<Item>> = accesses.iter().filter(|of_kind| meets_the_part(of_kind)).collect();
            if !meeting.is_empty() {
                kinds = kinds.map(|_| *any_of(dice, &meeting));
            }
        }
        _ => {}
    }
    [0, 1].map(|side| to_channel(*any_of(dice, kinds[side]), channels[side]))
}

/// The same access to this channel. A channel that is none of twelve has no register; an access that names none stays.
fn to_channel(item: Item, channel: u32) -> Item {
    if named(item) == Named::Nothing {
        return item;
    }
    if !is_access_to_register(item) {
        return Item { channel, ..item };
    }
    let channel = if (1..=CHANNELS).contains(&channel) { channel } else { CHANNELS + 1 };
    let register = match Register::at(item.a).expect("it names a channel") {
        Register::Rate { .. } => Register::Rate { channel },
        Register::Async { .. } => Register::Async { channel },
        Register::Command { address, .. } => Register::Command { channel, address },
        Register::Message { address, .. } => Register::Message { channel, address },
        Register::Status { .. } => Register::Status { channel },
        masked => masked,
    };
    Item { a: register.address(), ..item }
}

/// A channel of the count; in some cases 0, one above it, the thirteenth, or one far above.
fn any_channel(dice: &mut Dice, count: u32) -> u32 {
    if dice.chance(88) {
        1 + dice.below(count)
    } else {
        let any = dice.word();
        dice.one_of(&[0, count + 1, CHANNELS, CHANNELS + 1, any, u32::MAX])
    }
}

/// Two different numbers of one draw.
fn two_of(dice: &mut Dice, draw: impl Fn(&mut Dice) -> u32) -> [u32; 2] {
    let first = draw(dice);
    loop {
        let second = draw(dice);
        if second != first {
            return [first, second];
        }
    }
}

// Memories.

/// How a memory is drawn.
#[derive(Clone, Copy, PartialEq, Eq, PartialOrd, Ord, Debug)]
enum Drawn {
    FromCalls,
    Short,
    DamagedPart,
    OtherLayout,
    OneUnsound,
    BothUnsound,
    OtherUnsound,
    AnyWords,
    ThreeSound,
    OnlyTheTwoSound,
}

/// A memory of which the first words are lent, and pairs of accesses to two channels of it.
struct Case {
    mem: Vec<u32>,
    lent: usize,
    drawn: Drawn,
    pairs: [[Item; 2]; PAIRS_OF_CASE],
}

/// The stored count, where it is one of a module's.
fn stored_count(mem: &[u32]) -> Option<u32> {
    mem.get(COUNT).copied().filter(|count| (1..=CHANNELS).contains(count))
}

fn is_sound(ch: &[u32]) -> bool {
    RANGES.iter().zip(ch).all(|((least, greatest), word)| (least..=greatest).contains(&word))
        && ch[RECEIVE_LEVEL] <= ch[SIZE]
}

fn overwrite(mem: &mut [u32], word: usize, value: u32) {
    if let Some(place) = mem.get_mut(word) {
        *place = value;
    }
}

/// A stored number of the channel goes outside its range.
fn unsound(dice: &mut Dice, mem: &mut [u32], channel: u32) {
    if !(1..=CHANNELS).contains(&channel) {
        return;
    }
    let word = dice.below(RANGED as u32) as usize;
    let (least, greatest) = RANGES[word];
    let value = if least > 0 && dice.chance(50) { least - 1 } else { greatest + 1 };
    overwrite(mem, block(channel) + word, value);
    if dice.chance(10) {
        // Each within its own range, and the level above the size.
        overwrite(mem, block(channel) + SIZE, 1);
        overwrite(mem, block(channel) + RECEIVE_LEVEL, 2);
    }
}

/// A number of a range, often an end of it.
fn within(dice: &mut Dice, (least, greatest): (u32, u32)) -> u32 {
    match dice.below(4) {
        0 => least,
        1 => greatest,
        _ => least + dice.below(greatest - least + 1),
    }
}

/// Any words in every channel, and only in some of them a sound block; the module part is sound.
fn only_sound(dice: &mut Dice, mem: &mut Vec<u32>, count: u32, channels: &[u32]) {
    mem.resize(need(count) + dice.below(2) as usize, 0);
    words::perform(mem, POWER_UP, 0, count, 0);
    mem[MODULE_WORDS..].fill_with(|| dice.word());
    mem[STAMP] = dice.word();
    mem[RESOLUTION] = dice.below(4);
    mem[THRESHOLD] = 1 + dice.below(5);
    mem[COUNTERS..][..CHANNELS as usize].fill_with(|| dice.below(8));
    for &channel in channels {
        let ch = &mut mem[block(channel)..][..BLOCK_WORDS];
        for (word, range) in RANGES.into_iter().enumerate() {
            ch[word] = within(dice, range);
        }
        ch[RECEIVE_LEVEL] = within(dice, (0, ch[SIZE]));
    }
}

impl Case {
    /// The memory as a list left it, or another made from it, and accesses of the list.
    fn draw(&mut self, dice: &mut Dice, accesses: &[Vec<Item>], left: &[u32], lent: usize) {
        self.drawn = match dice.below(20) {
            0..=8 => Drawn::FromCalls,
            9 => Drawn::Short,
            10 => Drawn::DamagedPart,
            11 => Drawn::OtherLayout,
            12 => Drawn::OneUnsound,
            13 => Drawn::BothUnsound,
            14 => Drawn::OtherUnsound,
            15 => Drawn::AnyWords,
            16 => Drawn::ThreeSound,
            _ => Drawn::OnlyTheTwoSound,
        };
        let count = match self.drawn {
            Drawn::ThreeSound => dice.one_of(&[4, 4, 4, 5, CHANNELS]),
            Drawn::OnlyTheTwoSound => dice.one_of(&[3, 3, 3, 4, 5, CHANNELS]),
            _ => stored_count(left).unwrap_or(CHANNELS),
        };
        let channels = match self.drawn {
            Drawn::ThreeSound | Drawn::OnlyTheTwoSound => two_of(dice, |dice| 1 + dice.below(count)),
            _ => two_of(dice, |dice| any_channel(dice, count)),
        };
        self.pairs = [(); PAIRS_OF_CASE].map(|_| pair(dice, accesses, channels));
        self.lent = lent;
        let mem = &mut self.mem;
        mem.clear();
        mem.extend_from_slice(left);
        match self.drawn {
            Drawn::FromCalls => {}
            Drawn::Short => {
                let any = dice.below(need(count) as u32);
                let lengths = [0, 1, MODULE_WORDS as u32 - 1, MODULE_WORDS as u32, need(count) as u32 - 1, any];
                self.lent = lent.min(dice.one_of(&lengths) as usize);
            }
            Drawn::DamagedPart => {
                let counter = COUNTERS as u32 + dice.below(CHANNELS);
                let word = dice.one_of(&[COUNT as u32, RESOLUTION as u32, THRESHOLD as u32, counter, counter]);
                // Above every range of the module part.
                overwrite(mem, word as usize, 1 << 17 | dice.word());
            }
            Drawn::OtherLayout => {
                let any = dice.word();
                overwrite(mem, LAYOUT, dice.one_of(&[0, LAYOUT_NUMBER - 1, LAYOUT_NUMBER + 1, any]));
            }
            Drawn::OneUnsound => {
                let channel = dice.one_of(&channels);
                unsound(dice, mem, channel);
            }
            Drawn::BothUnsound => channels.into_iter().for_each(|channel| unsound(dice, mem, channel)),
            Drawn::OtherUnsound => (1..=count)
                .filter(|channel| !channels.contains(channel))
                .for_each(|channel| unsound(dice, mem, channel)),
            Drawn::AnyWords => mem.fill_with(|| dice.word()),
            Drawn::ThreeSound | Drawn::OnlyTheTwoSound => {
                let third = (1..=count).find(|channel| self.drawn == Drawn::ThreeSound && !channels.contains(channel));
                let sound: Vec<u32> = channels.into_iter().chain(third).collect();
                only_sound(dice, mem, count, &sound);
                self.lent = mem.len();
            }
        }
    }
}

/// Cases with the memory that the events of a list leave, and with memory made from it.
fn for_each_case(
    list: List,
    case: &mut Case,
    mut see: impl FnMut(&mut Case) -> Result<(), String>,
) -> Result<(), String> {
    let mut dice = Dice::new(!list.seed);
    let accesses = accesses(&list);
    let (mut mem, mut lent) = (list.memory.clone(), list.memory.len());
    for event in list.events {
        match event {
            Event::Lend { words } => lent = words,
            Event::Overwrite { word, value } => mem[word] = value,
            Event::Call(Item { op, channel, a, b }) => {
                words::perform(&mut mem[..lent], op, channel, a, b);
            }
        }
        // A module of one channel has only refusals beside its own calls.
        let percent = if stored_count(&mem) == Some(1) { 3 } else { 20 };
        if dice.chance(percent) {
            case.draw(&mut dice, &accesses, &mem, lent);
            see(case)?;
        }
    }
    Ok(())
}

// Both orders.

/// Copies of a memory, one for each order.
#[derive(Default)]
struct Orders([Vec<u32>; 2]);

/// The answers in the order of the pair, and which of the two, performed first, changed a word of the module part or of its channel.
struct Outcome {
    answers: [Vec<u32>; 2],
    writes_part: [bool; 2],
    writes_block: [bool; 2],
}

impl Orders {
    /// Both orders of a pair on copies of the memory; an error tells what came out otherwise.
    fn perform(&mut self, engine: &mut dyn Engine, case: &Case, pair: [Item; 2]) -> Result<Outcome, String> {
        let mut answers = [(); 2].map(|_| [vec![], vec![]]);
        let mut outcome = Outcome { answers: Default::default(), writes_part: [false; 2], writes_block: [false; 2] };
        for (order, mem) in self.0.iter_mut().enumerate() {
            mem.clear();
            mem.extend_from_slice(&case.mem);
            engine.resume(mem);
            for side in [order, 1 - order] {
                let Item { op, channel, a, b } = pair[side];
                answers[order][side] = engine.perform(&mut mem[..case.lent], op, channel, a, b);
                if let (true, 0, Named::Channel(channel)) = (side == order, answers[order][side][0], named(pair[side]))
                {
                    let own = block(channel)..block(channel) + BLOCK_WORDS;
                    outcome.writes_part[side] = mem[..MODULE_WORDS] != case.mem[..MODULE_WORDS];
                    outcome.writes_block[side] = mem[own.clone()] != case.mem[own];
                }
            }
        }
        let [one, other] = &self.0;
        let [said, otherwise] = answers;
        if said != otherwise {
            let answers = format!("answers {said:?} in this order, {otherwise:?} in the other");
            return Err(format!("{} and {}, memory {:?}: {answers}", pair[0], pair[1], case.drawn));
        }
        if one != other {
            let word = (0..one.len()).find(|&word| one[word] != other[word]).expect("they are of one length");
            let words = format!("word {word} is {:#x} in this order, {:#x} in the other", one[word], other[word]);
            return Err(format!("{} and {}, memory {:?}: {words}", pair[0], pair[1], case.drawn));
        }
        outcome.answers = said;
        Ok(outcome)
    }
}

// What the pairs reach.

/// How a memory meets two accesses.
fn state(case: &mut Case, pair: [Item; 2]) -> &'static str {
    let mem = &mut case.mem[..case.lent];
    // A call on channel 0 is refused, by the memory and its module part or with 3, and changes no word.
    match words::perform(mem, STATUS_READ, 0, 0, 0)[0] {
        1 => return "short",
        2 if mem[LAYOUT] != LAYOUT_NUMBER => return "another layout number",
        2 => return "module part unsound",
        _ => {}
    }
    let sound: Vec<bool> = (1..=mem[COUNT]).map(|channel| is_sound(&mem[block(channel)..][..BLOCK_WORDS])).collect();
    let there = |item: Item| match named(item) {
        Named::Channel(channel) => sound.get((channel as usize).wrapping_sub(1)).copied(),
        _ => None,
    };
    match pair.map(there) {
        [Some(false), Some(false)] => "both channels unsound",
        [Some(true), Some(true)] if sound.len() > 2 && sound.iter().filter(|&&sound| sound).count() == 2 => {
            "unsound throughout but for the two channels"
        }
        [Some(true), Some(true)] if !sound.contains(&false) => "sound throughout",
        [Some(true), Some(true)] => "some other channel unsound",
        [Some(false), _] | [_, Some(false)] => "one channel unsound",
        _ => "a channel that is not there, or none named",
    }
}

/// An access of each kind that can be done: the calls on a channel, and its registers the ways they go.
fn wanted_accesses() -> Vec<Item> {
    let channel = 1;
    let calls = (0..REGISTER_READ).map(|op| Item { op, channel, a: 0, b: 0 });
    let mut accesses: Vec<Item> = calls.filter(|&item| named(item) != Named::Excepted).collect();
    for (register, ways) in [
        (Register::Rate { channel }, &[REGISTER_READ, REGISTER_WRITE][..]),
        (Register::Async { channel }, &[REGISTER_READ, REGISTER_WRITE]),
        (Register::Command { channel, address: 0 }, &[REGISTER_READ, REGISTER_WRITE]),
        (Register::Message { channel, address: 0 }, &[REGISTER_READ, REGISTER_WRITE]),
        (Register::Status { channel }, &[REGISTER_READ]),
    ] {
        accesses.extend(ways.iter().map(|&op| Item { op, channel, a: register.address(), b: 0 }));
    }
    accesses
}

/// Both refused, one refused and one done, both done.
type Done = [u64; 3];

#[derive(Default)]
struct Reached {
    done: Done,
    memories: BTreeMap<Drawn, Done>,
    states: BTreeMap<&'static str, Done>,
    /// Beside another refusal, and beside an access that is done: by the refusal's number.
    refusals: BTreeMap<u32, [u64; 2]>,
    /// Done as the first and as the second of two that are both done, by kind.
    kinds: BTreeMap<String, [u64; 2]>,
    others: BTreeMap<&'static str, u64>,
}

impl Reached {
    fn enter(&mut self, case: &mut Case, pair: [Item; 2], outcome: &Outcome) {
        let numbers = [outcome.answers[0][0], outcome.answers[1][0]];
        let done = numbers.iter().filter(|&&number| number == 0).count();
        self.done[done] += 1;
        self.memories.entry(case.drawn).or_default()[done] += 1;
        self.states.entry(state(case, pair)).or_default()[done] += 1;
        for number in numbers.into_iter().filter(|&number| number != 0) {
            self.refusals.entry(number).or_default()[done] += 1;
        }
        let mut meet = |name, met| *self.others.entry(name).or_default() += u64::from(met);
        let count = stored_count(&case.mem).unwrap_or(CHANNELS);
        let names = |channel: &dyn Fn(u32) -> bool| {
            pair.iter().any(|&item| matches!(named(item), Named::Channel(named) if channel(named)))
        };
        meet("channel 0", names(&|channel| channel == 0));
        meet("a channel above the count, of twelve", names(&|channel| count < channel && channel <= CHANNELS));
        meet("channel 13", names(&|channel| channel == CHANNELS + 1));
        meet("a channel far above", names(&|channel| channel > 1 << 16));
        let both = |of: fn(Item) -> bool| pair.into_iter().all(of);
        meet("both accesses to registers", both(is_access_to_register));
        meet("a register beside a call", !both(is_access_to_register) && !both(|item| !is_access_to_register(item)));
        meet("no channel named", pair.into_iter().any(|item| named(item) == Named::Nothing));
        if done < 2 {
            return;
        }
        for (side, item) in pair.into_iter().enumerate() {
            self.kinds.entry(kind(item)).or_default()[side] += 1;
        }
        if let [Named::Channel(first), Named::Channel(second)] = pair.map(named) {
            meet("both done, the next channel second", second == first + 1);
            meet("both done, the next channel first", first == second + 1);
        }
        meet("both done, each changes its block", outcome.writes_block == [true; 2]);
        meet("both done, each changes the module part", outcome.writes_part == [true; 2]);
        meet("both done, both of one kind", pair[0].op == pair[1].op);
        let stamped = |item: Item| item.op == ARRIVAL && case.mem[block(item.channel) + STAMPS] == 1;
        meet("both done, two arrivals with stamps on", pair.into_iter().all(stamped));
    }

    fn print(&self) {
        println!("{:>7} {:>7} {:>7} both refused, one refused, both done", self.done[0], self.done[1], self.done[2]);
        for (drawn, [none, one, both]) in &self.memories {
            println!("{none:>7} {one:>7} {both:>7} memory drawn as {drawn:?}");
        }
        for (state, [none, one, both]) in &self.states {
            println!("{none:>7} {one:>7} {both:>7} memory {state}");
        }
        for (number, [none, one]) in &self.refusals {
            println!("{none:>7} {one:>7}         refused with {number}");
        }
        for (kind, [first, second]) in &self.kinds {
            println!("{first:>7} {second:>7}         both done, first and second: {kind}");
        }
        for (name, count) in &self.others {
            println!("{count:>7} {name}");
        }
    }

    /// Every case that is not reached.
    fn missing(&self) -> Vec<String> {
        let mut missing = vec![];
        let mut want = |name: String, count: u64| {
            if count == 0 {
                missing.push(name);
            }
        };
        let [none, one, both] = self.done;
        want("both refused".into(), none);
        want("one refused and one done".into(), one);
        want("both done".into(), both);
        for number in (1..=7).chain(30..=32) {
            let [beside_refused, beside_done] = self.refusals.get(&number).copied().unwrap_or_default();
            want(format!("both refused, one with {number}"), beside_refused);
            // Short memory lets no access be done.
            if number != 1 {
                want(format!("one refused with {number}, one done"), beside_done);
            }
        }
        for item in wanted_accesses() {
            let [first, second] = self.kinds.get(&kind(item)).copied().unwrap_or_default();
            want(format!("both done, first {}", kind(item)), first);
            want(format!("both done, second {}", kind(item)), second);
        }
        // Of each memory: both refused, one refused, both done.
        let states = [
            ("short", [true, false, false]),
            ("another layout number", [true, false, false]),
            ("module part unsound", [true, false, false]),
            ("both channels unsound", [true, false, false]),
            ("one channel unsound", [true, true, false]),
            ("a channel that is not there, or none named", [true, true, false]),
            ("some other channel unsound", [true, true, true]),
            ("unsound throughout but for the two channels", [true, true, true]),
            ("sound throughout", [true, true, true]),
        ];
        for (state, reaches) in states {
            let counts = self.states.get(state).copied().unwrap_or_default();
            for done in 0..reaches.len() {
                assert!(reaches[done] || counts[done] == 0, "memory {state}: {done} done");
                if reaches[done] {
                    want(format!("memory {state}, {done} done"), counts[done]);
                }
            }
        }
        want("memory of any words".into(), self.memories.get(&Drawn::AnyWords).map_or(0, |done| done.iter().sum()));
        for (name, &count) in &self.others {
            want(name.to_string(), count);
        }
        missing
    }
}

/// Performs pairs until one comes out otherwise in the other order.
fn run(engine: &mut dyn Engine) -> Result<Reached, String> {
    let mut reached = Reached::default();
    let mut orders = Orders::default();
    let none = Item { op: 0, channel: 0, a: 0, b: 0 };
    let mut case = Case { mem: vec![], lent: 0, drawn: Drawn::FromCalls, pairs: [[none; 2]; PAIRS_OF_CASE] };
    for list in lists(SEED, LIST_CALLS) {
        if reached.done.iter().sum::<u64>() >= PAIRS {
            break;
        }
        for_each_case(list, &mut case, |case| {
            for pair in case.pairs {
                assert!(are_apart(pair), "{} and {}", pair[0], pair[1]);
                let outcome = orders.perform(engine, case, pair)?;
                reached.enter(case, pair, &outcome);
            }
            Ok(())
        })?;
    }
    Ok(reached)
}

fn channels_are_apart(engine: &mut dyn Engine) {
    let reached = run(engine).unwrap_or_else(|what| panic!("{what}"));
    reached.print();
    let missing = reached.missing();
    assert!(missing.is_empty(), "never reached: {missing:#?}");
}

#[test]
fn channels_are_apart_on_words() {
    channels_are_apart(&mut OnWords);
}

#[cfg(feature = "proved")]
#[test]
fn channels_are_apart_in_the_proved_library() {
    channels_are_apart(&mut second::proved::Proved);
}

#[test]
fn what_is_excepted_and_what_names_a_channel() {
    let item = |op, channel, a| Item { op, channel, a, b: 1 };
    let register = |op, register: Register| item(op, 7, register.address());
    for op in POWER_UP..=THRESHOLD_READ {
        assert!(named(item(op, 1, 1)) == Named::Excepted);
    }
    for masked in [Register::Trigger, Register::Pause, Register::Stop] {
        assert!(named(register(REGISTER_WRITE, masked)) == Named::Excepted);
        assert!(named(register(REGISTER_READ, masked)) == Named::Nothing);
    }
    let status = register(REGISTER_WRITE, Register::Status { channel: 2 });
    assert!(named(status) == Named::Channel(2), "not the channel word of the item");
    assert!(are_apart([status, item(STATUS_READ, 1, 0)]) && !are_apart([status, item(STATUS_READ, 2, 0)]));
    assert!(!are_apart([item(STATUS_READ, 0, 0), item(STEP, 0, 0)]));
    let nowhere = item(REGISTER_READ, 1, 1);
    assert!(are_apart([nowhere, nowhere]) && !are_apart([nowhere, item(MODULE_RESET, 1, 0)]));
}

// Engines in which a channel leans on another.

/// Performs an access and then does something wrong.
struct Slip {
    wrong: fn(&mut [u32], &[u32], Item, &mut Vec<u32>),
    before: Vec<u32>,
}

impl Engine for Slip {
    fn perform(&mut self, mem: &mut [u32], op: u32, channel: u32, a: u32, b: u32) -> Vec<u32> {
        self.before.clear();
        self.before.extend_from_slice(mem);
        let mut answer = words::perform(mem, op, channel, a, b);
        (self.wrong)(mem, &self.before, Item { op, channel, a, b }, &mut answer);
        answer
    }
}

fn found(name: &str, wrong: fn(&mut [u32], &[u32], Item, &mut Vec<u32>)) {
    match run(&mut Slip { wrong, before: vec![] }) {
        Ok(_) => panic!("{name}: not found"),
        Err(what) => println!("{name}: {what}"),
    }
}

/// The block of the channel behind one that is there.
fn next_block(mem: &[u32], channel: u32) -> Option<usize> {
    (channel < mem[COUNT]).then(|| block(channel + 1))
}

#[test]
fn a_write_to_what_channels_share_is_found() {
    found("a step moves the stamp", |mem, _, item, answer| {
        if item.op == STEP && answer[0] == 0 {
            mem[STAMP] = mem[STAMP].wrapping_add(1);
        }
    });
    found("a refused call zeroes the stamp", |mem, _, _, answer| {
        if (3..=7).contains(&answer[0]) {
            mem[STAMP] = 0;
        }
    });
    found("a refused channel number is taken for the fault threshold", |mem, _, item, answer| {
        if answer[0] == 3 && !is_access_to_register(item) {
            mem[THRESHOLD] = item.channel.clamp(1, 65_535);
        }
    });
}

#[test]
fn a_write_to_the_next_channel_is_found() {
    found("a test reset zeroes the next fault counter too", |mem, _, item, answer| {
        if item.op == TEST_RESET && answer[0] == 0 && item.channel < CHANNELS {
            mem[COUNTERS + item.channel as usize] = 0;
        }
    });
    found("a trigger clears the next latch", |mem, _, item, answer| {
        if item.op == TRIGGER && answer[0] == 0 {
            if let Some(next) = next_block(mem, item.channel) {
                mem[next + LATCH] = 0;
            }
        }
    });
    found("a rate register is written for the next channel too", |mem, _, item, answer| {
        if let (REGISTER_WRITE, 0, Ok(Register::Rate { channel })) = (item.op, answer[0], Register::at(item.a)) {
            if let Some(next) = next_block(mem, channel) {
                mem[next + RATE] = item.b;
            }
        }
    });
}

#[test]
fn an_answer_by_the_next_channel_is_found() {
    found("a pending read asks the next channel too", |mem, _, item, answer| {
        if item.op == PENDING_READ && answer[0] == 0 {
            if let Some(next) = next_block(mem, item.channel) {
                answer[1] |= u32::from(mem[next + LATCH] & mem[next + ENABLE] != 0);
            }
        }
    });
    found("an async word is refused while one of the next channel waits", |mem, before, item, answer| {
        if item.op == ASYNC_WRITE && answer[0] == 0 {
            if next_block(mem, item.channel).is_some_and(|next| mem[next + ASYNC_MARK] == 1) {
                mem.copy_from_slice(before);
                answer[0] = 6;
            }
        }
    });
}
