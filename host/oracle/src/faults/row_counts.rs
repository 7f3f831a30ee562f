//! Faults in the row counts kept with the tables (document 02, Paper 8).
use super::Fault;
use crate::call::{Buffer, Call, Reply};
use crate::model::{NO_SPACE, UNFIT_BUFFER, UNFIT_REQUEST, UNFIT_STATE, model, outcome};
use crate::script::written;
use crate::well_formed;
use crate::words::{
    self, EVENT_WORDS, LIMITS, ROW_COUNTS_AT, STATE_WORDS, TABLE_LIMIT, decode, row_counts,
};
use reference::{Lists, RouteRow};

pub const FAULTS: &[Fault] = &[
    Fault::new("a replaced row counted twice", |c, s, b| {
        counted(c, s, b, |made| {
            let replaced = |e: &&[u32; EVENT_WORDS]| e[0] == 3 && e[1] == 0x100;
            made.more(made.events.iter().filter(replaced).map(|e| e[2]))
        })
    }),
    Fault::new("a row put beside alike ones not counted", |c, s, b| {
        counted(c, s, b, |made| {
            let beside = |e: &&[u32; EVENT_WORDS]| e[0] == 3 && e[1] & 0x800 != 0;
            made.fewer(made.events.iter().filter(beside).map(|e| e[2]))
        })
    }),
    Fault::new("down leaves the counts", |c, s, b| {
        counted(c, s, b, |made| {
            made.as_before(matches!(made.call, Call::Down))
        })
    }),
    Fault::new(
        "rows that go with the last address still counted",
        |c, s, b| {
            counted(c, s, b, |made| {
                let last = !made.before.addresses.is_empty() && made.after.addresses.is_empty();
                made.more(made.silent().filter(|_| last))
            })
        },
    ),
    Fault::new(
        "a row that falls by its prefsrc still counted",
        |c, s, b| {
            counted(c, s, b, |made| {
                let fell = |e: &&[u32; EVENT_WORDS]| e[0] == 4 && e[2] == 254;
                let rows = made.events.iter().filter(fell).map(|e| e[2]);
                let removes = matches!(made.call, Call::DelV4 { .. } | Call::Expire { .. });
                made.more(rows.filter(|_| removes))
            })
        },
    ),
    Fault::new("an expire leaves the counts", |c, s, b| {
        counted(c, s, b, |made| {
            made.as_before(matches!(made.call, Call::Expire { .. }))
        })
    }),
    Fault::new("a deleted route still counted", |c, s, b| {
        counted(c, s, b, |made| {
            made.as_before(matches!(made.call, Call::DelRoute4 { .. }))
        })
    }),
    Fault::new("the routes of an address not counted", |c, s, b| {
        counted(c, s, b, |made| {
            let brings = matches!(made.call, Call::AddV4 { .. } | Call::Up { .. });
            let local = |e: &&[u32; EVENT_WORDS]| brings && e[0] == 3;
            made.fewer(made.events.iter().filter(local).map(|e| e[2]))
        })
    }),
    Fault::new("a table listed beside its rows starts at 0", |c, s, b| {
        counted(c, s, b, |made| made.fewer(made.found()))
    }),
    Fault::new(
        "a table that a refused request lists starts at 0",
        |c, s, b| {
            counted(c, s, b, |made| {
                let refused = made.reply.number != 0;
                made.fewer(made.found().filter(|_| refused))
            })
        },
    ),
    Fault::new("rows counted by their table's low byte", |c, s, b| {
        counted(c, s, b, |made| {
            made.by(|table, row| row[0] & 255 == table & 255)
        })
    }),
    Fault::new("table 0 has the rows of 254", |c, s, b| {
        counted(c, s, b, |made| {
            made.by(|table, row| row[0] == table || table == 0 && row[0] == 254)
        })
    }),
    Fault::new("254 has the rows of 255 too", |c, s, b| {
        counted(c, s, b, |made| {
            made.by(|table, row| row[0] == table || table == 254 && row[0] == 255)
        })
    }),
    Fault::new("only rows with a device counted", |c, s, b| {
        counted(c, s, b, |made| {
            made.by(|table, row| row[0] == table && row[12] == 1)
        })
    }),
    Fault::new("the newest table's count first", |c, s, b| {
        counted(c, s, b, |made| {
            let mut counts = made.right();
            counts[..made.after.tables.len()].reverse();
            counts
        })
    }),
    Fault::new("counts by rising table", |c, s, b| {
        counted(c, s, b, |made| {
            let mut sorted = made.after.clone();
            sorted.tables.sort_unstable();
            row_counts(&sorted)
        })
    }),
    Fault::new(
        "rows of unlisted tables at the first unused place",
        |c, s, b| {
            counted(c, s, b, |made| {
                let mut counts = made.right();
                let counted: u32 = counts.iter().sum();
                if let Some(unused) = counts.get_mut(made.after.tables.len()) {
                    *unused = made.after.routes.len() as u32 - counted;
                }
                counts
            })
        },
    ),
    Fault::new("all rows counted at the last place", |c, s, b| {
        counted(c, s, b, |made| {
            let mut counts = made.right();
            if made.after.tables.len() < TABLE_LIMIT {
                counts[TABLE_LIMIT - 1] = made.after.routes.len() as u32;
            }
            counts
        })
    }),
    Fault::new(
        "a call refused for want of space leaves its counts",
        overfull,
    ),
    Fault::new("a wrong row count taken", |c, s, b| {
        taken(c, s, b, |_, _| true)
    }),
    Fault::new("a row count that is too small taken", |c, s, b| {
        taken(c, s, b, |found, right| {
            found.iter().zip(right).all(|(f, r)| f <= r)
        })
    }),
    Fault::new("a row count that is too great taken", |c, s, b| {
        taken(c, s, b, |found, right| {
            found.iter().zip(right).all(|(f, r)| f >= r)
        })
    }),
    Fault::new("row counts looked at by their sum", |c, s, b| {
        taken(c, s, b, |found, right| {
            let sum = |counts: &[u32]| counts.iter().fold(0_u32, |all, n| all.wrapping_add(*n));
            sum(found) == sum(right)
        })
    }),
    Fault::new("a row count's low byte looked at", |c, s, b| {
        taken(c, s, b, |found, right| {
            found.iter().zip(right).all(|(f, r)| f & 255 == r & 255)
        })
    }),
    Fault::new("row counts at unused places not looked at", unused_taken),
    Fault::new(
        "a wrong row count taken by calls that read",
        |c, s, b| match c.buffer() {
            Buffer::Events => model(c, s, b),
            _ => taken(c, s, b, |_, _| true),
        },
    ),
    Fault::new("202 before the 201 of a wrong row count", late),
    Fault::new("a wrong row count met by 200", |c, s, b| {
        let reply = model(c, s, b);
        match miscounted(c, s) {
            Some(_) if reply.number == UNFIT_STATE => Reply::refused(UNFIT_BUFFER),
            _ => reply,
        }
    }),
    Fault::new("a state without row counts taken", |c, s, b| {
        shorter(ROW_COUNTS_AT, c, s, b)
    }),
];

type Counts = [u32; TABLE_LIMIT];

/// What a changing call was and did.
struct Made<'a> {
    call: &'a Call,
    reply: Reply,
    before: Lists,
    after: Lists,
    events: &'a [[u32; EVENT_WORDS]],
}

impl Made<'_> {
    fn right(&self) -> Counts {
        row_counts(&self.after)
    }
    /// The counts before the call, if `kept`.
    fn as_before(&self, kept: bool) -> Counts {
        row_counts(if kept { &self.before } else { &self.after })
    }
    /// By another rule for whether a row is a table's.
    fn by(&self, has: fn(u32, &RouteRow) -> bool) -> Counts {
        let mut counts = [0; TABLE_LIMIT];
        for (count, table) in counts.iter_mut().zip(&self.after.tables) {
            *count = self.after.routes.iter().filter(|r| has(*table, r)).count() as u32;
        }
        counts
    }
    /// The right counts, and one more for each of these rows' tables.
    fn more(&self, tables: impl Iterator<Item = u32>) -> Counts {
        self.off(tables, 1)
    }
    fn fewer(&self, tables: impl Iterator<Item = u32>) -> Counts {
        self.off(tables, u32::MAX)
    }
    fn off(&self, tables: impl Iterator<Item = u32>, by: u32) -> Counts {
        let mut counts = self.right();
        for table in tables {
            if let Some(at) = self.after.tables.iter().position(|t| *t == table) {
                counts[at] = counts[at].wrapping_add(by);
            }
        }
        counts
    }
    /// The tables of rows that went and weren't told of.
    fn silent(&self) -> impl Iterator<Item = u32> {
        let told = |row: &RouteRow| self.events.iter().any(|e| e[0] == 4 && e[2..] == *row);
        let gone = self
            .before
            .routes
            .iter()
            .filter(move |row| !self.after.routes.contains(row) && !told(row));
        gone.map(|row| row[0])
    }
    /// The tables, once for each row, of rows that were there before the call
    /// listed them.
    fn found(&self) -> impl Iterator<Item = u32> {
        let new = |table: &u32| !self.before.tables.contains(table);
        let was = self
            .before
            .routes
            .iter()
            .filter(|r| self.after.routes.contains(r));
        was.map(|row| row[0]).filter(new)
    }
}

/// The model with the row counts that `counts` says.
fn counted(
    call: &Call,
    state: &mut [u32],
    buffer: &mut [u32],
    counts: fn(&Made) -> Counts,
) -> Reply {
    let before = state.to_vec();
    let reply = model(call, state, buffer);
    let unfit = matches!(
        reply.number,
        UNFIT_BUFFER | UNFIT_STATE | UNFIT_REQUEST | NO_SPACE
    );
    if call.buffer() == Buffer::Events && !unfit {
        let (events, _) = buffer[..written(call, &reply)].as_chunks();
        let made = Made {
            call,
            reply,
            before: decode(&before),
            after: decode(state),
            events,
        };
        state[ROW_COUNTS_AT..].copy_from_slice(&counts(&made));
    }
    reply
}

fn overfull(call: &Call, state: &mut [u32], buffer: &mut [u32]) -> Reply {
    let reply = model(call, state, buffer);
    if reply.number == NO_SPACE
        && let Ok(outcome) = outcome(call, state, buffer.len())
    {
        state[ROW_COUNTS_AT..].copy_from_slice(&row_counts(&outcome.lists));
    }
    reply
}

/// The state with right row counts, where it has others and nothing else is
/// amiss.
pub fn recounted(state: &[u32]) -> Option<Vec<u32>> {
    let within = || (0..3).all(|i| state[i] as usize <= LIMITS[i]);
    if state.len() != STATE_WORDS || !within() {
        return None;
    }
    let mut right = state.to_vec();
    words::recount(&mut right);
    (right != *state && well_formed::state(&right)).then_some(right)
}

/// The right row counts of such a state that the call is lent.
fn miscounted(call: &Call, state: &[u32]) -> Option<Counts> {
    if matches!(call, Call::Left { .. }) {
        return None;
    }
    recounted(state).map(|right| row_counts(&decode(&right)))
}

/// The model on right row counts, where `passes` lets others pass.
fn taken(
    call: &Call,
    state: &mut [u32],
    buffer: &mut [u32],
    passes: fn(&[u32], &Counts) -> bool,
) -> Reply {
    match miscounted(call, state) {
        Some(right) if passes(&state[ROW_COUNTS_AT..], &right) => {
            righted(call, state, buffer, &right)
        }
        _ => model(call, state, buffer),
    }
}

fn righted(call: &Call, state: &mut [u32], buffer: &mut [u32], right: &Counts) -> Reply {
    let before = state.to_vec();
    state[ROW_COUNTS_AT..].copy_from_slice(right);
    let reply = model(call, state, buffer);
    if call.buffer() != Buffer::Events || reply.number != 0 {
        state.copy_from_slice(&before);
    }
    reply
}

fn unused_taken(call: &Call, state: &mut [u32], buffer: &mut [u32]) -> Reply {
    match miscounted(call, state) {
        Some(right) => {
            let used = state[2] as usize;
            if state[ROW_COUNTS_AT..][..used] == right[..used] {
                righted(call, state, buffer, &right)
            } else {
                model(call, state, buffer)
            }
        }
        None => model(call, state, buffer),
    }
}

/// The counts are looked at behind the request.
fn late(call: &Call, state: &mut [u32], buffer: &mut [u32]) -> Reply {
    let reply = model(call, state, buffer);
    match miscounted(call, state) {
        Some(right) if reply.number == UNFIT_STATE => {
            let mut behind = state.to_vec();
            behind[ROW_COUNTS_AT..].copy_from_slice(&right);
            match model(call, &mut behind, &mut buffer.to_vec()).number {
                UNFIT_REQUEST => Reply::refused(UNFIT_REQUEST),
                _ => reply,
            }
        }
        _ => reply,
    }
}

/// The model on a state of `length` words, with what is missing put behind.
pub fn shorter(length: usize, call: &Call, state: &mut [u32], buffer: &mut [u32]) -> Reply {
    if state.len() != length || (0..3).any(|i| state[i] as usize > LIMITS[i]) {
        return model(call, state, buffer);
    }
    let mut whole = state.to_vec();
    whole.resize(STATE_WORDS, 0);
    words::recount(&mut whole);
    let reply = model(call, &mut whole, buffer);
    state.copy_from_slice(&whole[..length]);
    reply
}
