//! Recordings of events: those of runs from empty, those made event by event,
//! damaged ones, and second ones to hold beside them.
use super::damage::{ADDRESS_CLAUSES, ROUTE_CLAUSES};
use super::pools::{self, FOREVER};
use super::runs::Run;
use super::states;
use crate::event::event;
use crate::port::bytes;
use crate::recording::{
    APPENDS, Beside, IP_DISABLED, LINK_DOWN, REPLACES, RecordingCase, UNFIT_EVENT, mark, place,
    rebuild, step,
};
use crate::rng::Rng;
use crate::words::{ADDRESS_WORDS, EVENT_WORDS, LISTING_BUFFER, ROUTE_LIMIT, decode};
use reference::{EventRow, RouteRow};

/// What is done to a recording, with the number that it is met by alone. It
/// says whether it could be done.
type Damage = fn(&mut Rng, &mut Made) -> bool;
const DAMAGES: [(&str, u32, Damage); 19] = [
    ("part of an event", 200, |rng, made| {
        made.tail = rng.pick(&[1, 2, 22, 32, 33]);
        true
    }),
    ("part of a word", 200, |rng, made| {
        made.spare = 1 + rng.below(3);
        true
    }),
    ("unknown kind", 208, |rng, made| {
        let kind = rng.pick(&[0, 7, 8, 9, 255, 256, 257, 261, 0x0100_0003, FOREVER]);
        made.change(
            rng,
            |_| true,
            |rng, event| {
                event[0] = kind;
                // 208 comes before 209
                if rng.one_in(3) {
                    event[1] = rng.pick(&[1, 65_536, FOREVER]);
                }
            },
        )
    }),
    (UNFIT_ROWS[0], 209, |rng, made| {
        let (clause, by) = rng.pick(&ADDRESS_CLAUSES);
        made.clause = Some(clause);
        made.change(rng, is_address, |rng, event| {
            let (row, _) = event[2..].split_first_chunk_mut().expect("it is shorter");
            by(rng, row);
        })
    }),
    (UNFIT_ROWS[1], 209, |rng, made| {
        let (clause, by) = rng.pick(&ROUTE_CLAUSES);
        made.clause = Some(clause);
        made.change(rng, is_route, |rng, event| {
            let (row, _) = event[2..].split_first_chunk_mut().expect("it is as long");
            by(rng, row);
        })
    }),
    ("flags over 65,535", 209, |rng, made| {
        let flags = rng.pick(&[65_536, 65_537, 0x0001_0100, 0x8000_0000, FOREVER]);
        made.change(rng, |e| e[0] == 3, |_, event| event[1] |= flags)
    }),
    ("flags of an address", 209, |rng, made| {
        let flags = rng.pick(&FLAGS);
        made.change(rng, is_address, |_, event| event[1] = flags)
    }),
    ("flags of a deletion", 209, |rng, made| {
        let flags = rng.pick(&FLAGS);
        made.change(rng, |e| e[0] == 4, |_, event| event[1] = flags)
    }),
    ("flags of event 5 or 6", 209, |rng, made| {
        let flags = rng.pick(&FLAGS);
        made.change(rng, is_mark, |_, event| event[1] = flags)
    }),
    ("a word behind an address", 209, |rng, made| {
        made.change(rng, is_address, |rng, event| {
            let behind = 2 + ADDRESS_WORDS;
            let at = rng.pick(&[behind, EVENT_WORDS - 1, behind + 5]);
            event[at] = rng.pick(&[1, FOREVER]);
        })
    }),
    ("a word behind event 5 or 6", 209, |rng, made| {
        made.change(rng, is_mark, |rng, event| {
            let any = 2 + rng.below(EVENT_WORDS - 2);
            event[rng.pick(&[2, EVENT_WORDS - 1, any])] = rng.pick(&[1, FOREVER]);
        })
    }),
    ("a deletion of a row not there", 209, |rng, made| {
        let at = rng.below(made.events.len() + 1);
        let rows = made.rows_at(at);
        // none at all, or one that differs behind the order's fields
        let mut row = match rows.len() {
            0 => states::route(rng),
            n => rows[rng.below(n)],
        };
        row[31] ^= 1;
        let there = rows.contains(&row);
        made.put(at, event(4, 0, &row), !there)
    }),
    ("a row deleted twice", 209, |rng, made| {
        let Some(at) = made.one(rng, |e| e[0] == 4) else {
            return false;
        };
        let again = made.events[at];
        made.put(at + 1, again.to_vec(), true)
    }),
    ("a replacement with no alike row", 209, |rng, made| {
        let at = rng.below(made.events.len() + 1);
        let rows = made.rows_at(at);
        let mut row = states::route(rng);
        if let Some(one) = rows.first() {
            // alike but for one field
            row[..5].copy_from_slice(&one[..5]);
            match rng.below(5) {
                0 => row[0] ^= 1,
                1 => row[3] ^= 1,
                2 => row[4] ^= 1,
                3 => row[1..3].copy_from_slice(&[one[1], 32]),
                _ => row[1..3].copy_from_slice(&[0x0909_0909, 32]),
            }
        }
        let alike = rows.iter().any(|other| place(other) == place(&row));
        let flags = REPLACES | rng.pick(&[0, APPENDS, 0x400]);
        made.put(at, event(3, flags, &row), !alike)
    }),
    ("an addition of a row there", 209, |rng, made| {
        let flags = rng.pick(&[0, 0x400, 0x600, APPENDS, 0xc00]);
        made.again(rng, flags)
    }),
    ("a replacement by a row there", 209, |rng, made| {
        let flags = REPLACES | rng.pick(&[0, 0, APPENDS]);
        made.again(rng, flags)
    }),
    ("a 257th row", 209, |rng, made| {
        let rows = made.rows_at(made.events.len()).len();
        made.fill(rng, ROUTE_LIMIT + 1 - rows);
        true
    }),
    ("short rows", 200, |rng, made| {
        let rows = made.rows_at(made.events.len()).len();
        // room for those that there are
        made.room = rng
            .pick(&[0, 32 * rows, LISTING_BUFFER - 1])
            .min(LISTING_BUFFER - 1);
        true
    }),
    ("rows but for a byte", 200, |_, made| {
        made.cut = 1;
        true
    }),
];
/// Those that go by the name of the clause that is broken.
const UNFIT_ROWS: [&str; 2] = ["unfit address", "unfit route"];

/// The names of all damage, with the number of each alone.
pub fn damages() -> impl Iterator<Item = (&'static str, u32)> {
    let rows = ADDRESS_CLAUSES.iter().map(|(name, _)| *name);
    let rows = rows.chain(ROUTE_CLAUSES.iter().map(|(name, _)| *name));
    let others = DAMAGES.iter().map(|(name, number, _)| (*name, *number));
    let others = others.filter(|(name, _)| !UNFIT_ROWS.contains(name));
    rows.map(|name| (name, UNFIT_EVENT)).chain(others)
}

/// Those of what is lent beside a recording.
const OF_ROWS: usize = 2;
const FLAGS: [u32; 6] = [1, 0x100, 0x400, 0x800, 65_535, 65_536];

fn is_address(event: &EventRow) -> bool {
    matches!(event[0], 1 | 2)
}
fn is_route(event: &EventRow) -> bool {
    matches!(event[0], 3 | 4)
}
fn is_mark(event: &EventRow) -> bool {
    matches!(event[0], LINK_DOWN | IP_DISABLED)
}

/// A recording in the making, and the words lent for its rows.
#[derive(Clone)]
pub struct Made {
    pub events: Vec<EventRow>,
    /// Words behind the last event, and bytes behind the last word.
    tail: usize,
    spare: usize,
    /// The words lent for rows, and the bytes cut off them.
    room: usize,
    cut: usize,
    /// The clause that a row was made to break.
    clause: Option<&'static str>,
    damage: Vec<&'static str>,
}

impl Made {
    fn new(events: Vec<EventRow>) -> Self {
        Self {
            events,
            tail: 0,
            spare: 0,
            room: LISTING_BUFFER,
            cut: 0,
            clause: None,
            damage: Vec::new(),
        }
    }

    fn bytes(&self, rng: &mut Rng) -> Vec<u8> {
        let mut all = bytes(self.events.as_flattened());
        let behind = 4 * self.tail + self.spare;
        all.extend((0..behind).map(|_| rng.word() as u8 & 7));
        all
    }

    /// The rows before the event at `at`; none behind one that is refused.
    fn rows_at(&self, at: usize) -> Vec<RouteRow> {
        rebuild(&self.events[..at]).unwrap_or_default()
    }

    /// The place of some such event.
    fn one(&self, rng: &mut Rng, of: fn(&EventRow) -> bool) -> Option<usize> {
        let all: Vec<usize> = (0..self.events.len())
            .filter(|&i| of(&self.events[i]))
            .collect();
        (!all.is_empty()).then(|| rng.pick(&all))
    }

    fn change(
        &mut self,
        rng: &mut Rng,
        of: fn(&EventRow) -> bool,
        by: impl Fn(&mut Rng, &mut EventRow),
    ) -> bool {
        let found = self.one(rng, of);
        if let Some(at) = found {
            by(rng, &mut self.events[at]);
        }
        found.is_some()
    }

    /// Puts an event in, if `fits`.
    fn put(&mut self, at: usize, event: Vec<u32>, fits: bool) -> bool {
        if fits {
            self.events
                .insert(at, event.try_into().expect("a whole event"));
        }
        fits
    }

    /// A row that is there, once more.
    fn again(&mut self, rng: &mut Rng, flags: u32) -> bool {
        let at = rng.below(self.events.len() + 1);
        let rows = self.rows_at(at);
        if rows.is_empty() {
            return false;
        }
        let row = rows[rng.below(rows.len())];
        self.put(at, event(3, flags, &row), true)
    }

    /// So many more rows, which are all new.
    fn fill(&mut self, rng: &mut Rng, count: usize) {
        let flags = rng.pick(&[0x400, 0xc00]);
        let alike = rng.one_in(3);
        for i in 0..count as u32 {
            let mut row: RouteRow = [0; 32];
            row[..3].copy_from_slice(&[100, 0x0d00_0000, 32]);
            row[1] += if alike { 0 } else { i };
            row[5] = 6;
            row[31] = i;
            let row = event(3, flags, &row).try_into().expect("a whole event");
            self.events.push(row);
        }
    }
}

/// An endless stream of recordings.
pub struct Recordings {
    rng: Rng,
    run: Run,
    /// Damage comes in turn, so that all comes up.
    turn: usize,
}

impl Recordings {
    pub fn new(seed: u64) -> Self {
        Self {
            rng: Rng::new(seed ^ 0x9),
            run: Run::default(),
            turn: 0,
        }
    }

    /// What the calls of a run from empty told, and the route rows that the
    /// state then has.
    pub fn run(&mut self, most: usize) -> (Vec<EventRow>, Vec<RouteRow>) {
        let rng = &mut self.rng;
        self.run = Run::default();
        let mut events = Vec::new();
        for _ in 0..1 + rng.below(most) {
            let code = rng.pick(&[1, 1, 2, 3, 3, 3, 4, 4, 5, 6, 6, 6, 6, 6, 7, 7]);
            let call = self.run.draw(rng, code);
            let told = self.run.make(&call).into_iter();
            events.extend(told.map(|row| EventRow::try_from(row).expect("a whole event")));
        }
        (events, decode(&self.run.state).routes)
    }

    pub fn next_case(&mut self) -> RecordingCase {
        let mut made = Made::new(self.recording());
        let all = self.rng.one_in(2);
        self.damage(&mut made, !all);
        if all {
            self.beside(made)
        } else {
            self.lent(made)
        }
    }

    /// A recording that isn't damaged.
    fn recording(&mut self) -> Vec<EventRow> {
        match self.rng.below(8) {
            0 => Vec::new(),
            1..4 => self.run(20).0,
            4 if self.rng.one_in(8) => {
                let mut made = Made::new(Vec::new());
                let rows = ROUTE_LIMIT - self.rng.below(2);
                made.fill(&mut self.rng, rows);
                made.events.extend(more(&mut self.rng, &made.events, 3));
                made.events
            }
            _ => {
                let count = 1 + self.rng.below(12);
                more(&mut self.rng, &[], count)
            }
        }
    }

    /// Damages it once, at times more often.
    fn damage(&mut self, made: &mut Made, rows: bool) {
        if self.rng.one_in(2) {
            return;
        }
        let ways = DAMAGES.len() - if rows { 0 } else { OF_ROWS };
        self.turn += 1;
        let mut way = self.turn % ways;
        loop {
            let (name, _, by) = DAMAGES[way];
            let done = by(&mut self.rng, made);
            let name = made.clause.take().unwrap_or(name);
            if done {
                made.damage.push(name);
            }
            if !self.rng.one_in(4) {
                break;
            }
            way = self.rng.below(ways);
        }
    }

    fn lent(&mut self, made: Made) -> RecordingCase {
        let first = made.bytes(&mut self.rng);
        let more = match self.rng.below(8) {
            0 if made.room == LISTING_BUFFER && made.cut == 0 => 1 + self.rng.below(300),
            _ => 0,
        };
        let mut rows = bytes(&crate::compare::filled(made.room));
        rows.truncate(rows.len().saturating_sub(made.cut));
        rows.resize(rows.len() + more, 0xe1);
        RecordingCase {
            first,
            beside: Beside::Rows(rows),
            damage: [made.damage, Vec::new()],
        }
    }

    /// With a second one: another way to the same rows, or nearly so, or any.
    fn beside(&mut self, made: Made) -> RecordingCase {
        let rows = made.rows_at(made.events.len());
        let rng = &mut self.rng;
        let mut second = match rng.below(10) {
            // one that is refused too, at times by another number
            0..6 if !made.damage.is_empty() => Made::new(self.recording()),
            0 => Made::new(made.events.clone()),
            1..5 => Made::new(directly(rng, &rows)),
            5 => {
                let rows = swapped(rng, rows);
                Made::new(directly(rng, &rows))
            }
            6 | 7 => {
                let rows = near(rng, rows);
                Made::new(directly(rng, &rows))
            }
            8 => {
                // what an event behind it changes, or not
                let mut events = made.events.clone();
                events.push(mark(rng.pick(&[LINK_DOWN, IP_DISABLED])));
                Made::new(events)
            }
            _ => Made::new(self.recording()),
        };
        if !made.damage.is_empty() || self.rng.one_in(4) {
            self.damage(&mut second, false);
        }
        let (mut one, mut other) = (made, second);
        if self.rng.one_in(2) {
            std::mem::swap(&mut one, &mut other);
        }
        RecordingCase {
            first: one.bytes(&mut self.rng),
            beside: Beside::Second(other.bytes(&mut self.rng)),
            damage: [one.damage, other.damage],
        }
    }
}

/// Events that may follow, each of them fit.
fn more(rng: &mut Rng, so_far: &[EventRow], count: usize) -> Vec<EventRow> {
    let mut rows = rebuild(so_far).expect("they are fit");
    let mut events = Vec::new();
    for _ in 0..8 * count {
        let event: EventRow = any(rng, &rows).try_into().expect("a whole event");
        if step(&mut rows, &event).is_ok() {
            events.push(event);
        }
        if events.len() == count {
            break;
        }
    }
    events
}

/// An event, mostly one that fits the rows so far.
fn any(rng: &mut Rng, rows: &[RouteRow]) -> Vec<u32> {
    let some = (!rows.is_empty()).then(|| rows[rng.below(rows.len())]);
    match rng.below(24) {
        0 | 1 => event(1 + rng.below(2) as u32, 0, &states::address(rng)),
        2 => mark(LINK_DOWN).to_vec(),
        3 if rng.one_in(2) => mark(IP_DISABLED).to_vec(),
        3..7 => match some {
            Some(row) => event(4, 0, &row),
            None => event(3, 0x400, &states::route(rng)),
        },
        7..11 => {
            let mut row = beside(rng, some);
            row[14] ^= 1;
            event(3, REPLACES | rng.pick(&[0, 0, APPENDS]), &row)
        }
        11..18 => {
            let flags = rng.pick(&[0, 0x400, 0x600, APPENDS, 0xc00, 0x8000]);
            event(3, flags, &beside(rng, some))
        }
        _ => event(3, rng.pick(&[0x400, 0xc00, 0x600]), &states::route(rng)),
    }
}

/// A row alike to one that is there, or nearly so.
fn beside(rng: &mut Rng, some: Option<RouteRow>) -> RouteRow {
    let mut row = states::route(rng);
    let Some(other) = some else {
        return row;
    };
    row[..5].copy_from_slice(&other[..5]);
    match rng.below(12) {
        0 => row[0] = rng.pick(&pools::TABLES),
        1 => row[3] = rng.pick(&pools::TOS),
        2 => row[4] = rng.pick(&pools::PRIORITIES),
        3 => row[2] = 32,
        _ => {}
    }
    row
}

/// The rows put in one by one, from the first or from the last on.
fn directly(rng: &mut Rng, rows: &[RouteRow]) -> Vec<EventRow> {
    let forward = rng.one_in(2);
    let one = |row: &RouteRow| {
        let flags = if forward { 0xc00 } else { 0x400 };
        EventRow::try_from(event(3, flags, row)).expect("a whole event")
    };
    if forward {
        rows.iter().map(one).collect()
    } else {
        rows.iter().rev().map(one).collect()
    }
}

/// Two rows that are alike in each other's places, if there are such.
fn swapped(rng: &mut Rng, mut rows: Vec<RouteRow>) -> Vec<RouteRow> {
    let alike = |i: &usize| place(&rows[*i]) == place(&rows[i + 1]);
    let pairs: Vec<usize> = (0..rows.len().saturating_sub(1)).filter(alike).collect();
    if !pairs.is_empty() {
        let at = rng.pick(&pairs);
        rows.swap(at, at + 1);
    }
    rows
}

/// One row fewer, or with another word behind the order's fields.
fn near(rng: &mut Rng, mut rows: Vec<RouteRow>) -> Vec<RouteRow> {
    if rows.is_empty() {
        return rows;
    }
    let at = rng.below(rows.len());
    if rng.one_in(2) {
        rows.remove(at);
        return rows;
    }
    let mut other = rows[at];
    let word = rng.pick(&[12, 13, 14, 15, 20, 31]);
    other[word] ^= 1;
    if !rows.contains(&other) {
        rows[at] = other;
    }
    rows
}
