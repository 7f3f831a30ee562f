//! Events to be written as messages: those that runs tell, rows made
//! directly, and damaged ones.
use super::damage::{ADDRESS_CLAUSES, ROUTE_CLAUSES};
use super::drafts::any_bytes;
use super::pools::{self, FOREVER};
use super::runs::Run;
use super::states;
use crate::event::{Given, MESSAGE_BYTES, event};
use crate::port::bytes;
use crate::recording::{IP_DISABLED, LINK_DOWN};
use crate::rng::Rng;
use crate::words::{self, ADDRESS_WORDS};

/// An event with all that is lent to its writer.
#[derive(Clone, Debug)]
pub struct EventCase {
    /// Its bytes, as many as are lent.
    pub event: Vec<u8>,
    /// What the lent message holds before.
    pub message: Vec<u8>,
    pub given: Given,
    /// What was done to it.
    pub damage: Vec<&'static str>,
}

impl EventCase {
    /// An event with a message just long enough, at the clock 0.
    pub fn new(event: &[u32]) -> Self {
        Self {
            event: bytes(event),
            message: vec![0xe1; MESSAGE_BYTES],
            given: Given::default(),
            damage: Vec::new(),
        }
    }
}

/// Tables on both sides of a byte's end, with 252 as their low byte and
/// without.
pub const TABLES: [u32; 12] = [
    0, 1, 252, 253, 254, 255, 256, 257, 508, 65_534, 65_788, FOREVER,
];
const FLAGS: [u32; 9] = [0, 0, 0x100, 0x400, 0x600, 0x800, 0xff, 0x8000, 65_535];

/// The damage beside that of rows, with the number that it is met by alone.
type Damage = fn(&mut Rng, &mut EventCase);
pub const DAMAGES: [(&str, u32, Damage); 6] = [
    ("kind", 201, |rng, case| {
        let kind = rng.pick(&[0, 5, 6, 20, 24, 255, 256, 257, 259, 0x0100_0001, FOREVER]);
        set(case, 0, kind);
    }),
    ("flags", 201, |rng, case| {
        let flags = rng.pick(&[65_536, 65_537, 0x0001_0100, 0x8000_0000, FOREVER]);
        set(case, 1, flags);
    }),
    ("short event", 201, |rng, case| {
        let length = rng.pick(&[0, 1, 2, 22, 32, 33]);
        case.event.truncate(4 * length);
    }),
    ("long event", 201, |rng, case| {
        let more = rng.pick(&[1, 1, 2, 34]);
        case.event.extend(bytes(&vec![0; more]));
    }),
    ("part of a word", 201, |rng, case| {
        if rng.one_in(2) {
            case.event.extend(any_bytes(rng, 4));
        }
        let cut = 1 + rng.below(3);
        case.event.truncate(case.event.len().saturating_sub(cut));
    }),
    ("short message", 200, |rng, case| {
        let any = rng.below(MESSAGE_BYTES);
        // the least that some message takes, and room enough for this one
        let length = rng.pick(&[0, 36, 214, 215, 215, any]);
        case.message.truncate(length);
    }),
];

/// What events 5 and 6 of a run are called, which are told like all others.
const NO_MESSAGE: &str = "an event without a message";

/// The names of all damage.
pub fn damages() -> impl Iterator<Item = (&'static str, u32)> {
    let rows = ADDRESS_CLAUSES.iter().map(|(name, _)| (*name, 201));
    let rows = rows.chain(ROUTE_CLAUSES.iter().map(|(name, _)| (*name, 201)));
    let rows = rows.chain([(NO_MESSAGE, 201)]);
    rows.chain(DAMAGES.iter().map(|(name, number, _)| (*name, *number)))
}

fn set(case: &mut EventCase, at: usize, word: u32) {
    if let Some(four) = case.event.as_chunks_mut().0.get_mut(at) {
        *four = word.to_le_bytes();
    }
}

/// An endless stream of events.
pub struct Events {
    rng: Rng,
    run: Run,
    /// What the run told and wasn't drawn yet.
    told: Vec<Vec<u32>>,
    /// Damage comes in turn, so that all comes up.
    turn: usize,
}

impl Events {
    pub fn new(seed: u64) -> Self {
        Self {
            rng: Rng::new(seed),
            run: Run::default(),
            told: Vec::new(),
            turn: 0,
        }
    }

    pub fn next_case(&mut self) -> EventCase {
        let (row, mut damage) = match self.rng.below(8) {
            0..3 => {
                let told = self.of_run();
                let mark = matches!(told[0], LINK_DOWN | IP_DISABLED);
                (told, if mark { vec![NO_MESSAGE] } else { Vec::new() })
            }
            3..6 => (direct(&mut self.rng), Vec::new()),
            _ => self.damaged_row(),
        };
        let now = self.clock(&row);
        let rng = &mut self.rng;
        let length = match rng.below(6) {
            0 => MESSAGE_BYTES + 1 + rng.below(80),
            1 => MESSAGE_BYTES + 1,
            _ => MESSAGE_BYTES,
        };
        let given = Given {
            sequence: word(rng),
            port: word(rng),
            now,
        };
        let mut case = EventCase {
            event: bytes(&row),
            message: any_bytes(rng, length),
            given,
            damage: Vec::new(),
        };
        while rng.one_in(6) {
            self.turn += 1;
            let (name, _, by) = DAMAGES[self.turn % DAMAGES.len()];
            by(rng, &mut case);
            damage.push(name);
        }
        case.damage = damage;
        case
    }

    /// An event that a call of a run tells.
    fn of_run(&mut self) -> Vec<u32> {
        loop {
            if let Some(event) = self.told.pop() {
                return event;
            }
            self.run.step(&mut self.rng);
            let code = self.rng.pick(&[1, 2, 3, 3, 3, 4, 5, 6, 6, 6, 6, 7]);
            let call = self.run.draw(&mut self.rng, code);
            self.told = self.run.make(&call);
        }
    }

    /// A row with one clause broken, and the clause's name.
    fn damaged_row(&mut self) -> (Vec<u32>, Vec<&'static str>) {
        self.turn += 1;
        let rng = &mut self.rng;
        let at = self.turn % (ADDRESS_CLAUSES.len() + ROUTE_CLAUSES.len());
        let (kind, flags) = (rng.below(2) as u32, rng.pick(&FLAGS));
        match ADDRESS_CLAUSES.get(at) {
            Some((name, by)) => {
                let mut row = states::address(rng);
                by(rng, &mut row);
                (event(1 + kind, flags, &row), vec![name])
            }
            None => {
                let (name, by) = ROUTE_CLAUSES[at - ADDRESS_CLAUSES.len()];
                let mut row = states::route(rng);
                by(rng, &mut row);
                (event(3 + kind, flags, &row), vec![name])
            }
        }
    }

    /// The run's clock, one by which a lifetime is about to end, or any.
    fn clock(&mut self, event: &[u32]) -> u64 {
        let changed = u64::from(event[20]) | u64::from(event[21]) << 32;
        let rng = &mut self.rng;
        match rng.below(6) {
            0 => rng.draw(),
            1 => rng.pick(&[0, u64::MAX, changed]),
            2 => pools::near_end(rng, changed, event[16], reference::FUZZ),
            3 => pools::near_end(rng, changed, event[17], reference::FUZZ),
            _ => self.run.host.now,
        }
    }
}

fn word(rng: &mut Rng) -> u32 {
    match rng.below(6) {
        0 => rng.pick(&[0, 1, FOREVER]),
        _ => rng.word(),
    }
}

/// An event made directly.
fn direct(rng: &mut Rng) -> Vec<u32> {
    let kind = 1 + rng.below(4) as u32;
    let any = rng.word() & 0xffff;
    let mut flags = rng.pick(&FLAGS);
    if rng.one_in(4) {
        flags = any;
    }
    let mut event = if kind <= 2 {
        event(kind, flags, &address(rng))
    } else {
        event(kind, flags, &route(rng))
    };
    // what is behind an address is not looked at
    if kind <= 2 && rng.one_in(4) {
        event[2 + ADDRESS_WORDS..].fill_with(|| rng.word());
    }
    event
}

fn address(rng: &mut Rng) -> [u32; ADDRESS_WORDS] {
    let mut row = states::address(rng);
    if rng.one_in(2) {
        let length = rng.below(16);
        let mut text = [0; 15];
        // zeros among them, at the end too
        text.fill_with(|| rng.pick(b"lo:1a\0\xff"));
        row[8..13].copy_from_slice(&words::label(&text[..length]));
    }
    let (flags, priority, proto) = (rng.word(), rng.word(), rng.below(256) as u32);
    row[6] = rng.pick(&[row[6], row[6], 0x80, 0x100, 0x8000, 0xff00, flags]);
    row[7] = rng.pick(&[row[7], 0, 1, proto]);
    row[13] = rng.pick(&[0, row[13], 1, 256, 1 << 24, priority]);
    row
}

fn route(rng: &mut Rng) -> [u32; 32] {
    let mut row = states::route(rng);
    let any = rng.word();
    row[0] = match rng.below(8) {
        0 => any,
        _ => rng.pick(&TABLES),
    };
    if rng.one_in(8) {
        row[1..3].fill(0);
    }
    row[4] = rng.pick(&[0, row[4], 1, 256, 1 << 24, any]);
    match rng.below(5) {
        0 => row[15..].fill(0),
        1 => row[15..].fill_with(|| 1 + rng.word() / 2),
        2 => {
            row[15..].fill(0);
            row[15 + rng.below(17)] = rng.pick(&[1, 255, 256, 1 << 24, any]);
        }
        3 => row[15..].fill_with(|| any * rng.below(2) as u32),
        _ => {}
    }
    row
}
