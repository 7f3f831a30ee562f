//! Faults in the parts of a listing.
use super::row_counts::recounted;
use crate::call::Reply;
use crate::part::{Ask, Lister, MARK, MOST, Model, Take, dump4, refusal};
use crate::words::{ROUTE_WORDS, change_count, halves, whole};

/// A part as it is asked for.
pub struct Asked<'a> {
    take: Take,
    state: &'a [u32],
    listing: &'a mut [u32],
    cursor: &'a mut [u32],
    rows: u32,
}

impl Asked<'_> {
    fn ask(&self) -> Ask {
        let (take, rows) = (self.take, self.rows);
        Ask { take, rows }
    }
    fn model(&mut self) -> Reply {
        Model.part(self.ask(), self.state, self.listing, self.cursor)
    }
    fn refusal(&self) -> Option<u32> {
        refusal(self.state, self.listing.len(), self.cursor.len(), self.rows).err()
    }
    /// The start's count, of a part that isn't refused.
    fn start(&self) -> u64 {
        match self.take {
            Take::Begin => change_count(self.state),
            Take::Next => whole(self.cursor[1], self.cursor[2]),
        }
    }
    /// The model's part, with a mark if `marked` says so of the start's count
    /// and the count.
    fn marked(&mut self, marked: fn(u64, u64) -> bool) -> Reply {
        if self.refusal().is_some() {
            return self.model();
        }
        let marked = marked(self.start(), change_count(self.state));
        Reply {
            present: if marked { MARK } else { 0 },
            ..self.model()
        }
    }
}

/// One that does `run` in place of the model.
#[derive(Clone, Copy)]
pub struct PartFault {
    pub name: &'static str,
    run: fn(&mut Asked) -> Reply,
    /// Whether a run by itself shows it, by the paper's sentences.
    pub breaks_sentence: bool,
}

impl PartFault {
    const fn new(name: &'static str, run: fn(&mut Asked) -> Reply) -> Self {
        Self {
            name,
            run,
            breaks_sentence: false,
        }
    }
    const fn breaking(name: &'static str, run: fn(&mut Asked) -> Reply) -> Self {
        Self {
            breaks_sentence: true,
            ..Self::new(name, run)
        }
    }
}

impl Lister<u32> for PartFault {
    fn name(&self) -> String {
        self.name.to_string()
    }
    fn part(&mut self, ask: Ask, state: &[u32], listing: &mut [u32], cursor: &mut [u32]) -> Reply {
        let Ask { take, rows } = ask;
        (self.run)(&mut Asked {
            take,
            state,
            listing,
            cursor,
            rows,
        })
    }
}

pub const FAULTS: &[PartFault] = &[
    PartFault::breaking("no mark at the largest count", |a| {
        a.marked(|start, count| start != count)
    }),
    PartFault::breaking("a mark at the largest count alone", |a| {
        a.marked(|_, count| count == u64::MAX)
    }),
    PartFault::breaking("a mark whenever a low word is at its largest", |a| {
        a.marked(|start, count| start != count || count as u32 == u32::MAX)
    }),
    PartFault::new("the mark by the low word alone", |a| {
        a.marked(|start, count| start as u32 != count as u32 || count == u64::MAX)
    }),
    PartFault::new("the mark by the high word alone", |a| {
        a.marked(|start, count| start >> 32 != count >> 32 || count == u64::MAX)
    }),
    PartFault::new("a start after the count without a mark", |a| {
        a.marked(|start, count| start < count || count == u64::MAX)
    }),
    PartFault::breaking("no mark on the last part", |a| {
        let reply = a.model();
        Reply {
            present: reply.present * (1 - reply.second),
            ..reply
        }
    }),
    PartFault::breaking("the mark is 1", |a| {
        let reply = a.model();
        Reply {
            present: reply.present / MARK,
            ..reply
        }
    }),
    PartFault::breaking("each part keeps the count that it finds", renewed),
    PartFault::new("the next place by the rows asked for", |a| {
        let before = a.cursor.first().copied().unwrap_or_default();
        let reply = a.model();
        if reply.number == 0 {
            let place = if a.take == Take::Next { before } else { 0 };
            a.cursor[0] = place.wrapping_add(a.rows);
        }
        reply
    }),
    PartFault::breaking("the end one part too late when the last is full", |a| {
        let reply = a.model();
        Reply {
            second: if reply.value == a.rows {
                0
            } else {
                reply.second
            },
            ..reply
        }
    }),
    PartFault::breaking("the end a row too early", |a| {
        let reply = a.model();
        if reply.number != 0 || a.cursor[0] as usize + 1 != dump4(a.state).len() / ROUTE_WORDS {
            return reply;
        }
        Reply { second: 1, ..reply }
    }),
    PartFault::breaking("a begin that goes on from the cursor", |a| {
        if a.take == Take::Begin && a.refusal().is_none() {
            a.cursor[1..].copy_from_slice(&halves(change_count(a.state)));
            a.take = Take::Next;
        }
        a.model()
    }),
    PartFault::breaking("a begin that keeps the cursor's count", |a| {
        let before = a.cursor.to_vec();
        let reply = a.model();
        if a.take == Take::Begin && reply.number == 0 {
            a.cursor[1..].copy_from_slice(&before[1..]);
        }
        reply
    }),
    PartFault::new("a begin that refuses a place past the end", |a| {
        let placed = a.take == Take::Begin && a.refusal().is_none();
        if placed && a.cursor[0] as usize > dump4(a.state).len() / ROUTE_WORDS {
            return Reply::refused(202);
        }
        a.model()
    }),
    PartFault::new("a place past the end refused", |a| {
        let placed = a.take == Take::Next && a.refusal().is_none();
        if placed && a.cursor[0] as usize > dump4(a.state).len() / ROUTE_WORDS {
            return Reply::refused(202);
        }
        a.model()
    }),
    PartFault::new("a place past the end begins anew", |a| {
        let placed = a.take == Take::Next && a.refusal().is_none();
        if placed && a.cursor[0] as usize > dump4(a.state).len() / ROUTE_WORDS {
            a.cursor[0] = 0;
        }
        a.model()
    }),
    PartFault::new("a refusal writes the cursor", |a| {
        let reply = a.model();
        if reply.number != 0 {
            a.cursor.fill(0);
        }
        reply
    }),
    PartFault::new("a refusal writes the listing", |a| {
        let reply = a.model();
        if let Some(word) = a.listing.first_mut().filter(|_| reply.number != 0) {
            *word = 0;
        }
        reply
    }),
    PartFault::new("a word past the rows written", |a| {
        let reply = a.model();
        let end = ROUTE_WORDS * reply.value as usize;
        if let Some(word) = a.listing.get_mut(end).filter(|_| reply.number == 0) {
            *word = 0;
        }
        reply
    }),
    PartFault::breaking("rows in the state's order", |a| {
        let reply = a.model();
        let rows = ROUTE_WORDS * reply.value as usize;
        if reply.number == 0 {
            let (words, _) = a.listing[..rows].as_chunks_mut::<ROUTE_WORDS>();
            words.sort_by_key(|r| (r[1], 32 - r[2], !r[0]));
        }
        reply
    }),
    PartFault::new("at most 255 rows in a part", |a| {
        a.rows = match a.rows {
            MOST => MOST - 1,
            rows => rows,
        };
        a.model()
    }),
    PartFault::new("no rows taken for one", |a| {
        a.rows = a.rows.max(1);
        a.model()
    }),
    PartFault::new("over 256 rows taken for 256", |a| {
        a.rows = a.rows.min(MOST);
        a.model()
    }),
    PartFault::new("202 before 201", |a| match a.refusal() {
        Some(201) if !(1..=MOST).contains(&a.rows) => Reply::refused(202),
        _ => a.model(),
    }),
    PartFault::new("202 before 200", |a| match a.refusal() {
        Some(200) if !(1..=MOST).contains(&a.rows) => Reply::refused(202),
        _ => a.model(),
    }),
    PartFault::new("a listing of 256 rows asked for", |a| match a.refusal() {
        None if a.listing.len() < ROUTE_WORDS * MOST as usize => Reply::refused(200),
        _ => a.model(),
    }),
    PartFault::new("room for more than 256 rows asked for", |a| {
        match a.refusal() {
            Some(202) if a.listing.len() / ROUTE_WORDS < a.rows as usize => Reply::refused(200),
            _ => a.model(),
        }
    }),
    PartFault::new("room for the rows given suffices", |a| {
        let mut longer = a.listing.to_vec();
        longer.resize(longer.len().max(ROUTE_WORDS * MOST as usize), 0);
        let mut cursor = a.cursor.to_vec();
        let reply = Model.part(a.ask(), a.state, &mut longer, &mut cursor);
        if ROUTE_WORDS * reply.value as usize > a.listing.len() {
            return a.model();
        }
        let length = a.listing.len();
        a.listing.copy_from_slice(&longer[..length]);
        a.cursor.copy_from_slice(&cursor);
        reply
    }),
    PartFault::new("a wrong row count taken", |a| match recounted(a.state) {
        Some(right) => Model.part(a.ask(), &right, a.listing, a.cursor),
        None => a.model(),
    }),
    PartFault::new("a longer cursor taken", |a| {
        if a.cursor.len() < 3 {
            return a.model();
        }
        Model.part(a.ask(), a.state, a.listing, &mut a.cursor[..3])
    }),
];

/// So that only the first part after a change has the mark.
fn renewed(a: &mut Asked) -> Reply {
    let reply = a.model();
    if reply.number == 0 {
        a.cursor[1..].copy_from_slice(&halves(change_count(a.state)));
    }
    reply
}
