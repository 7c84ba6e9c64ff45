//! The history of the description's "Fates": from the calls and their answers alone, nothing from memory.
//!
//! Entries of each FIFO stand in the order in which they were accepted; each has exactly one fate, with the places of the two calls.

use crate::calls::{Call, Item};
use crate::layout::*;
use crate::model::Model;
use crate::registers::accepted_calls;

#[derive(Clone, Copy, PartialEq, Eq, Debug)]
pub enum Fate {
    Held,
    /// Read from the receive FIFO, or sent from the transmit FIFO.
    Taken,
    Cleared,
    Overwritten,
}

/// An accepted entry: the place in the list, from 1, of the call that accepted it, its fate, and the place of the call that gave it (0 while held).
#[derive(Clone, Copy, PartialEq, Eq, Debug)]
pub struct Accepted<T> {
    pub entry: T,
    pub accepted_at: u64,
    pub fate: Fate,
    pub fate_at: u64,
}

/// One FIFO's history. Counts are whole numbers.
#[derive(Clone, Debug)]
pub struct Register<T> {
    /// By number, from 0.
    pub entries: Vec<Accepted<T>>,
    /// Number of the oldest entry held; as many as there are entries where none is held.
    oldest: usize,
    pub taken: u64,
    pub cleared: u64,
    pub overwritten: u64,
}

impl<T: Copy + PartialEq + std::fmt::Debug> Register<T> {
    fn new() -> Register<T> {
        Register { entries: vec![], oldest: 0, taken: 0, cleared: 0, overwritten: 0 }
    }

    pub fn accepted(&self) -> u64 {
        self.entries.len() as u64
    }

    pub fn held(&self) -> impl Iterator<Item = T> + '_ {
        self.entries[self.oldest..].iter().map(|accepted| accepted.entry)
    }

    fn accept(&mut self, at: u64, entry: T) {
        self.entries.push(Accepted { entry, accepted_at: at, fate: Fate::Held, fate_at: 0 });
    }

    /// Takes the oldest out. It is never asked for with none held.
    fn remove(&mut self, at: u64, fate: Fate) -> Result<T, String> {
        let Some(oldest) = self.entries.get_mut(self.oldest) else {
            return Err("the oldest is asked for with none held".to_string());
        };
        (oldest.fate, oldest.fate_at) = (fate, at);
        let entry = oldest.entry;
        self.oldest += 1;
        match fate {
            Fate::Taken => self.taken += 1,
            Fate::Overwritten => self.overwritten += 1,
            _ => self.cleared += 1,
        }
        Ok(entry)
    }

    fn clear(&mut self, at: u64) {
        while self.remove(at, Fate::Cleared).is_ok() {}
    }

    /// Every accepted entry has one fate, given by a later call; fates are given in number order; the counts are those of the fates, and those
    /// held are the last.
    pub fn check(&self) -> Result<(), String> {
        let of = |fate| self.entries.iter().filter(|e| e.fate == fate).count() as u64;
        let gone = &self.entries[..self.oldest];
        let held = (self.entries.len() - self.oldest) as u64;
        let right = of(Fate::Held) == held
            && of(Fate::Taken) == self.taken
            && of(Fate::Cleared) == self.cleared
            && of(Fate::Overwritten) == self.overwritten
            && self.accepted() == self.taken + self.cleared + self.overwritten + held
            && self.entries[self.oldest..].iter().all(|e| e.fate == Fate::Held)
            && gone.iter().all(|e| e.accepted_at < e.fate_at)
            && self.entries.windows(2).all(|pair| pair[0].accepted_at < pair[1].accepted_at)
            && gone.windows(2).all(|pair| pair[0].fate_at <= pair[1].fate_at);
        right.then_some(()).ok_or_else(|| "fates and counts disagree".to_string())
    }
}

#[derive(Clone, Debug)]
pub struct Book {
    pub settings: [u32; SETTINGS],
    pub receive: Register<[u32; 3]>,
    pub transmit: Register<u32>,
}

const FACTORY: [u32; SETTINGS] = [0, 0, 1, 0, 0, 0, 0, 0, 255, 128, 32, 4];

#[derive(Clone, Debug, Default)]
pub struct Ledger {
    /// How many calls were entered, power-ups and refused ones too: the place of the last.
    pub place: u64,
    pub stamp: u32,
    pub resolution: u32,
    pub threshold: u32,
    pub channels: Vec<Book>,
}

impl Ledger {
    /// Enters a call with its answer; an error where the answer cannot follow from the history.
    pub fn enter(&mut self, item: Item, answer: &[u32]) -> Result<(), String> {
        self.place += 1;
        // Any refused call, and an item that is no call: nothing.
        if answer[0] != 0 {
            return Ok(());
        }
        // Of what accesses to registers are, no call's values matter to a fate.
        for call in accepted_calls(item, answer) {
            self.enter_call(call, if call == item { &answer[1..] } else { &[] })?;
        }
        Ok(())
    }

    fn enter_call(&mut self, item: Item, values: &[u32]) -> Result<(), String> {
        let place = self.place;
        let Some(call) = Call::of(item) else {
            return Err("an item that is no call is accepted".to_string());
        };
        match call {
            Call::PowerUp { count } => {
                let book = Book { settings: FACTORY, receive: Register::new(), transmit: Register::new() };
                *self = Ledger { place, stamp: 0, resolution: 0, threshold: 5, channels: vec![book; count as usize] };
            }
            Call::ModuleReset => {
                (self.stamp, self.resolution, self.threshold) = (0, 0, 5);
                for book in &mut self.channels {
                    book.receive.clear(place);
                    book.transmit.clear(place);
                    book.settings = FACTORY;
                }
            }
            Call::AdvanceStamp { ticks } => self.stamp = self.stamp.wrapping_add(ticks),
            Call::ZeroStamp => self.stamp = 0,
            Call::WriteResolution { value } => self.resolution = value,
            Call::WriteThreshold { value } => self.threshold = value,
            _ if call.is_module_wide() => {}
            _ => {
                let stamp = self.stamp;
                let book = (self.channels)
                    .get_mut((item.channel as usize).wrapping_sub(1))
                    .ok_or("an accepted call on a channel that is not there")?;
                book.enter(place, call, stamp, values)?;
            }
        }
        Ok(())
    }

    /// The history against the model: settings, stamp, held entries, counts modulo 2^32.
    pub fn check_model(&self, model: &Model) -> Result<(), String> {
        let part = model.part.as_ref().ok_or("the model's module part is unsound")?;
        same("stamp", self.stamp, part.stamp)?;
        same("resolution", self.resolution, part.resolution)?;
        same("threshold", self.threshold, part.threshold)?;
        same("channel count", self.channels.len(), model.channels.len())?;
        for (book, channel) in self.channels.iter().zip(&model.channels) {
            let channel = channel.as_ref().ok_or("a channel of the model is unsound")?;
            let settings = std::array::from_fn(|setting| channel.settings.get(setting as u32));
            same("settings", book.settings, settings)?;
            let received = channel.receive.iter().map(|e| [e.status, e.word, e.stamp]);
            if !book.receive.held().eq(received) {
                return Err("entries held by the receive FIFO".to_string());
            }
            if !book.transmit.held().eq(channel.transmit.iter().copied()) {
                return Err("words held by the transmit FIFO".to_string());
            }
            let c = &channel.counts;
            let counts = [c.received, c.read, c.receive_cleared, c.overwritten, c.written, c.sent, c.transmit_cleared];
            same("counts", book.counts(), counts)?;
        }
        Ok(())
    }

    /// The history against the lent words.
    pub fn check_words(&self, mem: &[u32]) -> Result<(), String> {
        same("channel count", self.channels.len() as u32, mem[COUNT])?;
        same("stamp", self.stamp, mem[STAMP])?;
        same("resolution", self.resolution, mem[RESOLUTION])?;
        same("threshold", self.threshold, mem[THRESHOLD])?;
        for (place, book) in self.channels.iter().enumerate() {
            let ch = &mem[block(place as u32 + 1)..][..BLOCK_WORDS];
            same("settings", &book.settings[..], &ch[..SETTINGS])?;
            same("counts", &book.counts()[..], &ch[RECEIVE_ACCEPTED..=TRANSMIT_CLEARED])?;
            same("receive level", book.receive.held().count(), ch[RECEIVE_LEVEL] as usize)?;
            same("transmit level", book.transmit.held().count(), ch[TRANSMIT_LEVEL] as usize)?;
            for (k, entry) in book.receive.held().enumerate() {
                let slot = RECEIVE_RING + 3 * ((ch[RECEIVE_POSITION] as usize + k) % SLOTS);
                same("receive FIFO entry", &entry[..], &ch[slot..slot + 3])?;
            }
            for (k, word) in book.transmit.held().enumerate() {
                same("transmit FIFO word", word, ch[TRANSMIT_RING + (ch[TRANSMIT_POSITION] as usize + k) % SLOTS])?;
            }
        }
        Ok(())
    }

    /// Each entry has one fate.
    pub fn check_fates(&self) -> Result<(), String> {
        for book in &self.channels {
            book.receive.check()?;
            book.transmit.check()?;
        }
        Ok(())
    }
}

fn same<T: PartialEq + std::fmt::Debug>(what: &str, history: T, seen: T) -> Result<(), String> {
    if history == seen {
        Ok(())
    } else {
        Err(format!("{what}: history {history:?}, seen {seen:?}"))
    }
}

impl Book {
    pub fn counts(&self) -> [u32; 7] {
        let (r, t) = (&self.receive, &self.transmit);
        [r.accepted(), r.taken, r.cleared, r.overwritten, t.accepted(), t.taken, t.cleared].map(|n| n as u32)
    }

    fn enter(&mut self, at: u64, call: Call, stamp: u32, values: &[u32]) -> Result<(), String> {
        match call {
            Call::WriteSetting { setting, value } => {
                let place = &mut self.settings[setting as usize];
                let change = *place != value;
                *place = value;
                if setting as usize == RECEIVE_MODE && change {
                    self.receive.clear(at);
                }
            }
            Call::InitiatedTest { .. } => {
                self.receive.clear(at);
                self.transmit.clear(at);
            }
            Call::Arrival { word } => match values[0] {
                2 => self.receive.accept(at, self.entry(word, stamp)),
                4 => {
                    self.receive.remove(at, Fate::Overwritten)?;
                    self.receive.accept(at, self.entry(word, stamp));
                }
                // Ignored, filtered, dropped: not accepted.
                0 | 1 | 3 => {}
                // Already listed: an index not appended is not accepted.
                5 if self.settings[RECEIVE_MODE] == 1 => {}
                outcome => return Err(format!("an arrival with outcome {outcome}")),
            },
            Call::ReadFifo => {
                let entry = self.receive.remove(at, Fate::Taken)?;
                same("receive FIFO read", &entry[..], values)?;
            }
            Call::WriteTransmitFifo { word } => self.transmit.accept(at, word),
            Call::Step if values[0] == 1 => {
                // The word as sent has the parity of its own: D31 aside.
                let word = self.transmit.remove(at, Fate::Taken)?;
                same("word sent, D31 aside", word << 1, values[1] << 1)?;
            }
            _ => {}
        }
        Ok(())
    }

    /// The entry of Receive, by the settings and the stamp of the history.
    fn entry(&self, word: u32, stamp: u32) -> [u32; 3] {
        if self.settings[RECEIVE_MODE] == 1 {
            return [0, word % INDEXES as u32, 0];
        }
        let error = self.settings[PARITY] == 1 && word.count_ones() & 1 == 0;
        [error.into(), word, if self.settings[STAMPS] == 1 { stamp } else { 0 }]
    }
}
