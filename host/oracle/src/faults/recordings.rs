//! Faults in what recordings rebuild (document 02, Paper 9).
use crate::call::Reply;
use crate::recording::{
    APPENDS, IP_DISABLED, LINK_DOWN, Model, REPLACES, Rebuilder, Rebuilt, Step, UNFIT_EVENT,
    UNKNOWN_EVENT, alike, compared, events, lent, place, rebuild, rebuild_by, step,
};
use crate::words::{ADDRESS_WORDS, EVENT_WORDS, LISTING_BUFFER, ROUTE_LIMIT, ROUTE_WORDS};
use reference::{EventRow, RouteRow};

/// What goes wrong.
#[derive(Clone, Copy)]
enum Wrong {
    /// One event.
    Event(Step),
    /// The order in which events are judged.
    All(fn(&[EventRow]) -> Rebuilt),
    /// What is lent for rows.
    Lent(fn(&[u32], &mut [u32]) -> Reply),
    /// How two are held together.
    Same(fn(&[u32], &[u32]) -> Reply),
}

#[derive(Clone, Copy)]
pub struct RecordingFault {
    pub name: &'static str,
    wrong: Wrong,
    /// Whether a run by itself shows it, by the paper's sentence.
    pub breaks_sentence: bool,
}

impl RecordingFault {
    const fn event(name: &'static str, step: Step) -> Self {
        Self {
            name,
            wrong: Wrong::Event(step),
            breaks_sentence: false,
        }
    }
    const fn breaking(name: &'static str, step: Step) -> Self {
        Self {
            breaks_sentence: true,
            ..Self::event(name, step)
        }
    }
    const fn new(name: &'static str, wrong: Wrong) -> Self {
        Self {
            name,
            wrong,
            breaks_sentence: false,
        }
    }
    /// How it goes wrong in one event.
    pub fn step(self) -> Option<Step> {
        match self.wrong {
            Wrong::Event(step) => Some(step),
            _ => None,
        }
    }
    pub fn rebuild(self, events: &[EventRow]) -> Rebuilt {
        match self.wrong {
            Wrong::Event(step) => rebuild_by(step, events),
            Wrong::All(all) => all(events),
            _ => rebuild(events),
        }
    }
}

impl Rebuilder<u32> for RecordingFault {
    fn name(&self) -> String {
        self.name.to_string()
    }
    fn rebuild(&mut self, recording: &[u32], rows: &mut [u32]) -> Reply {
        match self.wrong {
            Wrong::Lent(run) => run(recording, rows),
            _ => {
                // more have no room
                let most = |mut rows: Vec<RouteRow>| {
                    rows.truncate(ROUTE_LIMIT);
                    rows
                };
                lent(|events| (*self).rebuild(events).map(most), recording, rows)
            }
        }
    }
    fn same(&mut self, first: &[u32], second: &[u32]) -> Reply {
        match self.wrong {
            Wrong::Same(run) => run(first, second),
            _ => compared(|events| (*self).rebuild(events), first, second),
        }
    }
}

use RecordingFault as Fault;

pub const FAULTS: &[Fault] = &[
    Fault::breaking("0x800 before the alike rows", |rows, e| {
        step(rows, &flagged(e, |flags| flags & !APPENDS))
    }),
    Fault::breaking("every addition behind the alike rows", |rows, e| {
        step(rows, &flagged(e, |flags| flags | APPENDS))
    }),
    Fault::event("0x800 looked at before 0x100", |rows, e| {
        step(
            rows,
            &flagged(e, |flags| match flags & APPENDS {
                0 => flags,
                _ => flags & !REPLACES,
            }),
        )
    }),
    Fault::breaking("0x100 not looked at", |rows, e| {
        step(rows, &flagged(e, |flags| flags & !REPLACES))
    }),
    Fault::event("0x100 replaces the last alike row", |rows, e| {
        replaced(rows, e, |rows, row| {
            let last = rows.iter().rposition(|other| alike(other, row));
            rows[last.expect("one is alike")] = *row;
        })
    }),
    Fault::event("a replacing row goes behind the alike rows", |rows, e| {
        replaced(rows, e, |rows, row| {
            let first = rows.iter().position(|other| alike(other, row));
            rows.remove(first.expect("one is alike"));
            let behind = rows.iter().take_while(|other| place(other) <= place(row));
            let at = behind.count();
            rows.insert(at, *row);
        })
    }),
    Fault::event("0x100 replaces all alike rows", |rows, e| {
        replaced(rows, e, |rows, row| {
            let first = rows.iter().position(|other| alike(other, row));
            rows.retain(|other| !alike(other, row));
            rows.insert(first.expect("one is alike"), *row);
        })
    }),
    Fault::event("alike without the priority", |rows, e| {
        replaced_by(rows, e, |a, b| a[..4] == b[..4])
    }),
    Fault::event("alike without the tos", |rows, e| {
        replaced_by(rows, e, |a, b| a[..3] == b[..3] && a[4] == b[4])
    }),
    Fault::event("alike without the table", |rows, e| {
        replaced_by(rows, e, |a, b| a[1..5] == b[1..5])
    }),
    Fault::event("alike by the kind too", |rows, e| {
        replaced_by(rows, e, |a, b| a[..6] == b[..6])
    }),
    Fault::event("a replacement with no alike row adds it", |rows, e| {
        let refused = step(rows, e);
        match refused {
            Err(_) if e[0] == 3 && e[1] & REPLACES != 0 && !rows.contains(&row_of(e)) => {
                step(rows, &flagged(e, |flags| flags & !REPLACES))
            }
            _ => refused,
        }
    }),
    Fault::event("a replacement by a row there does nothing", |rows, e| {
        let there = e[0] == 3 && e[1] & !0xffff == 0 && rows.contains(&row_of(e));
        if there && e[1] & REPLACES != 0 {
            return Ok(());
        }
        step(rows, e)
    }),
    Fault::event("an addition of a row there does nothing", |rows, e| {
        let there = e[0] == 3 && e[1] & !0xffff == 0 && rows.contains(&row_of(e));
        if there && e[1] & REPLACES == 0 {
            return Ok(());
        }
        step(rows, e)
    }),
    Fault::event(
        "a row there is looked for among the last alike",
        |rows, e| {
            let row = row_of(e);
            let last = rows.iter().rfind(|other| alike(other, &row));
            if e[0] == 3 && e[1] <= 65_535 && rows.contains(&row) && last != Some(&row) {
                return Ok(());
            }
            step(rows, e)
        },
    ),
    Fault::breaking("rows put in at the list's end", |rows, e| {
        let before = rows.clone();
        step(rows, e)?;
        if rows.len() > before.len() {
            *rows = before;
            rows.push(row_of(e));
        }
        Ok(())
    }),
    Fault::breaking("a deletion takes the first alike row", |rows, e| {
        let before = rows.clone();
        step(rows, e)?;
        if e[0] == 4 {
            *rows = before;
            let row = row_of(e);
            let first = rows.iter().position(|other| alike(other, &row));
            rows.remove(first.expect("the row itself is alike"));
        }
        Ok(())
    }),
    Fault::event("a deletion of a row not there does nothing", |rows, e| {
        let unfit = step(&mut vec![row_of(e)], e).is_err();
        if e[0] == 4 && !unfit && !rows.contains(&row_of(e)) {
            return Ok(());
        }
        step(rows, e)
    }),
    Fault::breaking("a deletion leaves its row", |rows, e| {
        let before = rows.clone();
        step(rows, e)?;
        if e[0] == 4 {
            *rows = before;
        }
        Ok(())
    }),
    Fault::breaking("event 5 takes rows of scope 254", |rows, e| {
        marked(rows, e, LINK_DOWN, |row| row[12] == 1)
    }),
    Fault::event("event 5 takes rows without a device", |rows, e| {
        marked(rows, e, LINK_DOWN, |row| row[7] != 254)
    }),
    Fault::event("event 5 takes rows of link scope alone", |rows, e| {
        marked(rows, e, LINK_DOWN, |row| row[12] == 1 && row[7] == 253)
    }),
    Fault::breaking("event 5 takes nothing", |rows, e| {
        marked(rows, e, LINK_DOWN, |_| false)
    }),
    Fault::breaking("event 6 leaves rows of scope 254", |rows, e| {
        marked(rows, e, IP_DISABLED, |row| row[12] == 1 && row[7] != 254)
    }),
    Fault::breaking("event 6 takes rows without a device", |rows, e| {
        marked(rows, e, IP_DISABLED, |_| true)
    }),
    Fault::breaking("event 6 takes nothing", |rows, e| {
        marked(rows, e, IP_DISABLED, |_| false)
    }),
    Fault::event("a 257th row taken", |rows, e| {
        let row = row_of(e);
        let adds = e[0] == 3 && e[1] & REPLACES == 0 && rows.len() == ROUTE_LIMIT;
        if adds && !rows.contains(&row) {
            let last = rows.pop().expect("they are many");
            let taken = step(rows, e);
            rows.push(last);
            return taken;
        }
        step(rows, e)
    }),
    Fault::event("a 256th row refused", |rows, e| {
        step(rows, e)?;
        if rows.len() == ROUTE_LIMIT && e[0] == 3 && e[1] & REPLACES == 0 {
            return Err(UNFIT_EVENT);
        }
        Ok(())
    }),
    Fault::event("a replacement at 256 rows refused", |rows, e| {
        if rows.len() == ROUTE_LIMIT && e[0] == 3 {
            return Err(UNFIT_EVENT);
        }
        step(rows, e)
    }),
    Fault::event("flags over 65,535 taken", |rows, e| {
        step(rows, &flagged(e, |flags| flags & 0xffff))
    }),
    Fault::event("flags of an address not looked at", |rows, e| {
        unflagged(rows, e, |kind| kind <= 2)
    }),
    Fault::event("flags of a deletion not looked at", |rows, e| {
        unflagged(rows, e, |kind| kind == 4)
    }),
    Fault::event("flags of events 5 and 6 not looked at", |rows, e| {
        unflagged(rows, e, |kind| kind > 4)
    }),
    Fault::event("flags up to 65,535 taken of all", |rows, e| {
        match e[1] <= 65_535 {
            true => unflagged(rows, e, |kind| kind != 3),
            false => step(rows, e),
        }
    }),
    Fault::event("words behind an address not looked at", |rows, e| {
        let mut fit = *e;
        if matches!(e[0], 1 | 2) {
            fit[2 + ADDRESS_WORDS..].fill(0);
        }
        step(rows, &fit)
    }),
    Fault::event(
        "the last word behind an address not looked at",
        |rows, e| {
            let mut fit = *e;
            if matches!(e[0], 1 | 2) {
                fit[EVENT_WORDS - 1] = 0;
            }
            step(rows, &fit)
        },
    ),
    Fault::event("words behind events 5 and 6 not looked at", |rows, e| {
        let mut fit = *e;
        if matches!(e[0], LINK_DOWN | IP_DISABLED) {
            fit[2..].fill(0);
        }
        step(rows, &fit)
    }),
    Fault::event("unfit addresses taken", |rows, e| {
        let mut fit = *e;
        if matches!(e[0], 1 | 2) {
            fit[2..][..ADDRESS_WORDS].fill(0);
        }
        step(rows, &fit)
    }),
    Fault::event("addresses of event 2 not looked at", |rows, e| match e[0] {
        2 => Ok(()),
        _ => step(rows, e),
    }),
    Fault::event("unfit routes taken", |rows, e| {
        let mut fit = *e;
        if e[0] == 3 && step(&mut Vec::new(), &flagged(e, |_| 0)).is_err() {
            // one that is fit, and nowhere else
            fit[2..].fill(0);
            fit[7] = 1;
            fit[33] = 0x7777_7777;
        }
        step(rows, &fit)
    }),
    Fault::event("event 0 taken for nothing", |rows, e| match e[0] {
        0 => Ok(()),
        _ => step(rows, e),
    }),
    Fault::event("event 7 taken for nothing", |rows, e| match e[0] {
        7 => Ok(()),
        _ => step(rows, e),
    }),
    Fault::event("a kind by its low byte", |rows, e| {
        let mut low = *e;
        low[0] &= 255;
        step(rows, &low)
    }),
    Fault::event("an unknown kind is 209", |rows, e| {
        step(rows, e).map_err(|_| UNFIT_EVENT)
    }),
    Fault::event("flags before the kind", |rows, e| {
        if e[1] > 65_535 {
            return Err(UNFIT_EVENT);
        }
        step(rows, e)
    }),
    Fault::event("events 5 and 6 unknown", |rows, e| match e[0] {
        LINK_DOWN | IP_DISABLED => Err(UNKNOWN_EVENT),
        _ => step(rows, e),
    }),
    Fault::new(
        "208 of a later event before 209 of an earlier one",
        Wrong::All(|events| {
            let unknown = |e: &&EventRow| !(1..=6).contains(&e[0]);
            match events.iter().find(unknown) {
                Some(_) => Err(UNKNOWN_EVENT),
                None => rebuild(events),
            }
        }),
    ),
    Fault::new(
        "209 of a later event before 208 of an earlier one",
        Wrong::All(|events| {
            let known = |e: &&EventRow| (1..=6).contains(&e[0]);
            let known: Vec<EventRow> = events.iter().filter(known).copied().collect();
            rebuild(&known)?;
            rebuild(events)
        }),
    ),
    Fault::new(
        "unfit rows looked for in all events first",
        Wrong::All(|events| {
            let stands = |e: &EventRow| {
                let mut there = vec![row_of(e)];
                match e[0] {
                    3 => step(&mut Vec::new(), &flagged(e, |flags| flags & !REPLACES)),
                    _ => step(&mut there, e),
                }
            };
            let unfit = |e: &EventRow| stands(e) == Err(UNFIT_EVENT);
            match events.iter().any(unfit) {
                true => Err(UNFIT_EVENT),
                false => rebuild(events),
            }
        }),
    ),
    Fault::new(
        "the last event not looked at",
        Wrong::All(|events| rebuild(&events[..events.len().saturating_sub(1)])),
    ),
    Fault::new(
        "a part of an event overlooked",
        Wrong::Lent(|recording, rows| {
            let whole = recording.len() / EVENT_WORDS * EVENT_WORDS;
            Model.rebuild(&recording[..whole], rows)
        }),
    ),
    Fault::new(
        "whole rows of 32 words suffice",
        Wrong::Lent(|recording, rows| match recording.len() % ROUTE_WORDS {
            0 => {
                let whole = recording.len() / EVENT_WORDS * EVENT_WORDS;
                Model.rebuild(&recording[..whole], rows)
            }
            _ => Model.rebuild(recording, rows),
        }),
    ),
    Fault::new(
        "room for the rows suffices",
        Wrong::Lent(|recording, rows| {
            let mut room = vec![0; LISTING_BUFFER.max(rows.len())];
            let reply = Model.rebuild(recording, &mut room);
            let words = ROUTE_WORDS * reply.value as usize;
            if words > rows.len() {
                return Model.rebuild(recording, rows);
            }
            rows[..words].copy_from_slice(&room[..words]);
            reply
        }),
    ),
    Fault::new(
        "short rows looked at behind the events",
        Wrong::Lent(|recording, rows| {
            let reply = Model.rebuild(recording, &mut vec![0; LISTING_BUFFER]);
            match reply.number {
                208 | 209 => reply,
                _ => Model.rebuild(recording, rows),
            }
        }),
    ),
    Fault::new(
        "a refusal leaves the rows before it",
        Wrong::Lent(|recording, rows| {
            let reply = Model.rebuild(recording, rows);
            let refused = matches!(reply.number, 208 | 209);
            if let Ok(events) = events(recording)
                && refused
            {
                let fit = |n: &usize| rebuild(&events[..*n]).is_ok();
                let most = (0..events.len()).rev().find(fit).unwrap_or(0);
                let before = rebuild(&events[..most]).unwrap_or_default();
                rows[..ROUTE_WORDS * before.len()].copy_from_slice(before.as_flattened());
            }
            reply
        }),
    ),
    Fault::new(
        "the rows cleared behind",
        Wrong::Lent(|recording, rows| {
            let reply = Model.rebuild(recording, rows);
            if reply.number == 0 {
                rows[ROUTE_WORDS * reply.value as usize..].fill(0);
            }
            reply
        }),
    ),
    Fault::new(
        "the same in another order",
        Wrong::Same(|first, second| {
            let sorted = |events: &[EventRow]| {
                let mut rows = rebuild(events)?;
                rows.sort_unstable();
                Ok(rows)
            };
            compared(sorted, first, second)
        }),
    ),
    Fault::new(
        "the same by the order's fields",
        Wrong::Same(|first, second| {
            let keys = |events: &[EventRow]| {
                let mut rows = rebuild(events)?;
                rows.iter_mut().for_each(|row| row[5..].fill(0));
                Ok(rows)
            };
            compared(keys, first, second)
        }),
    ),
    Fault::new(
        "the same without the last metric",
        Wrong::Same(|first, second| {
            let shorter = |events: &[EventRow]| {
                let mut rows = rebuild(events)?;
                rows.iter_mut().for_each(|row| row[31] = 0);
                Ok(rows)
            };
            compared(shorter, first, second)
        }),
    ),
    Fault::new(
        "the same by the number of rows",
        Wrong::Same(|first, second| {
            let count = |events: &[EventRow]| Ok(vec![[0; 32]; rebuild(events)?.len()]);
            compared(count, first, second)
        }),
    ),
    Fault::new(
        "the same as far as the second goes",
        Wrong::Same(|first, second| {
            let both = [first, second].map(|words| events(words).and_then(rebuild));
            match both {
                [Ok(first), Ok(second)] => Reply::value(first.starts_with(&second).into()),
                _ => Model.same(first, second),
            }
        }),
    ),
    Fault::new(
        "the same if the recordings are",
        Wrong::Same(|first, second| {
            let reply = Model.same(first, second);
            match reply.number {
                0 => Reply::value((first == second).into()),
                _ => reply,
            }
        }),
    ),
    Fault::new(
        "the second recording decides",
        Wrong::Same(|first, second| Model.same(second, first)),
    ),
    Fault::new(
        "208 of the second before 209 of the first",
        Wrong::Same(|first, second| {
            let reply = Model.same(first, second);
            match Model.same(second, first).number {
                UNKNOWN_EVENT if reply.number == UNFIT_EVENT => Reply::refused(UNKNOWN_EVENT),
                _ => reply,
            }
        }),
    ),
    Fault::new(
        "200 of the second behind the first",
        Wrong::Same(|first, second| {
            let alone = Model.same(first, first);
            match alone.number {
                0 => Model.same(first, second),
                _ => alone,
            }
        }),
    ),
];

fn row_of(event: &EventRow) -> RouteRow {
    let (row, _) = event[2..].split_first_chunk().expect("a route is as long");
    *row
}

/// The event with other flags, if it is a new route.
fn flagged(event: &EventRow, by: fn(u32) -> u32) -> EventRow {
    let mut other = *event;
    if event[0] == 3 {
        other[1] = by(event[1]);
    }
    other
}

fn unflagged(rows: &mut Vec<RouteRow>, event: &EventRow, of: fn(u32) -> bool) -> Result<(), u32> {
    let mut other = *event;
    if of(event[0]) {
        other[1] = 0;
    }
    step(rows, &other)
}

/// A replacement done in another way.
fn replaced(
    rows: &mut Vec<RouteRow>,
    event: &EventRow,
    by: fn(&mut Vec<RouteRow>, &RouteRow),
) -> Result<(), u32> {
    let mut before = rows.clone();
    step(rows, event)?;
    if event[0] == 3 && event[1] & REPLACES != 0 {
        by(&mut before, &row_of(event));
        *rows = before;
    }
    Ok(())
}

/// The first row that is alike by another rule replaced.
fn replaced_by(
    rows: &mut Vec<RouteRow>,
    event: &EventRow,
    alike: fn(&RouteRow, &RouteRow) -> bool,
) -> Result<(), u32> {
    let row = row_of(event);
    let refused = step(
        &mut rows.clone(),
        &flagged(event, |flags| flags & !REPLACES),
    );
    if event[0] != 3 || event[1] & REPLACES == 0 || refused.is_err() {
        return step(rows, event);
    }
    let first = rows.iter().position(|other| alike(other, &row));
    rows[first.ok_or(UNFIT_EVENT)?] = row;
    Ok(())
}

/// A mark after which other rows are gone.
fn marked(
    rows: &mut Vec<RouteRow>,
    event: &EventRow,
    kind: u32,
    goes: fn(&RouteRow) -> bool,
) -> Result<(), u32> {
    let mut before = rows.clone();
    step(rows, event)?;
    if event[0] == kind {
        before.retain(|row| !goes(row));
        *rows = before;
    }
    Ok(())
}
