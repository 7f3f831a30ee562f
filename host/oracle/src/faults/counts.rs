//! Faults in the change count (document 02, Paper 6).
use super::Fault;
use super::row_counts::shorter;
use crate::call::{Buffer, Call, Reply};
use crate::model::{UNFIT_STATE, model};
use crate::words::{BASE_WORDS, STATE_WORDS, change_count, halves, set_change_count, whole};

pub const FAULTS: &[Fault] = &[
    Fault::new(
        "not counted: a refused add_route4 that listed its table",
        |c, s, b| recount(c, s, b, |made| made.unless(made.refused())),
    ),
    Fault::new("not counted: a down", |c, s, b| {
        recount(c, s, b, |made| made.unless(matches!(made.call, Call::Down)))
    }),
    Fault::new("not counted: an expire that only marks", |c, s, b| {
        recount(c, s, b, |made| {
            made.unless(matches!(made.call, Call::Expire { .. }) && made.same_lengths())
        })
    }),
    Fault::new("not counted: an address that only changes", |c, s, b| {
        recount(c, s, b, |made| {
            made.unless(matches!(made.call, Call::AddV4 { .. }) && made.same_lengths())
        })
    }),
    Fault::new("not counted: tables alone", |c, s, b| {
        recount(c, s, b, |made| {
            made.unless(made.before[..2] == made.after[..2] && made.before[2] != made.after[2])
        })
    }),
    Fault::new("counted: an idle up", |c, s, b| {
        recount(c, s, b, |made| {
            made.also(matches!(made.call, Call::Up { .. }) && !made.refused())
        })
    }),
    Fault::new("counted: an idle down", |c, s, b| {
        recount(c, s, b, |made| made.also(matches!(made.call, Call::Down)))
    }),
    Fault::new("counted: an expire with nothing due", |c, s, b| {
        recount(c, s, b, |made| {
            made.also(matches!(made.call, Call::Expire { .. }) && !made.refused())
        })
    }),
    Fault::new(
        "counted: an address replaced by itself at the same clock",
        |c, s, b| {
            recount(c, s, b, |made| {
                made.also(matches!(made.call, Call::AddV4 { .. }) && !made.refused())
            })
        },
    ),
    Fault::new("counted: a route replaced by itself", |c, s, b| {
        recount(c, s, b, |made| {
            made.also(matches!(made.call, Call::AddRoute4 { .. }) && !made.refused())
        })
    }),
    Fault::new("counted: a refusal that changed nothing", |c, s, b| {
        recount(c, s, b, |made| made.also(made.refused()))
    }),
    Fault::new("counted once for each event", |c, s, b| {
        recount(c, s, b, |made| {
            let events = u64::from(made.reply.value).max(1);
            if made.changed() {
                made.count().saturating_add(events)
            } else {
                made.count()
            }
        })
    }),
    Fault::new("the count wraps at 2^64", |c, s, b| {
        recount(c, s, b, |made| {
            made.count().wrapping_add(u64::from(made.changed()))
        })
    }),
    Fault::new("the count stops one before its largest value", |c, s, b| {
        recount(c, s, b, |made| match made.right() {
            u64::MAX if made.changed() => made.count(),
            right => right,
        })
    }),
    Fault::new("the low word's carry lost", |c, s, b| {
        recount(c, s, b, |made| {
            let [low, high] = halves(made.count());
            let stops = made.count() == u64::MAX || !made.changed();
            whole(if stops { low } else { low.wrapping_add(1) }, high)
        })
    }),
    Fault::new("the count stops at the low word's largest", |c, s, b| {
        recount(c, s, b, |made| {
            let [low, high] = halves(made.count());
            whole(low.saturating_add(u32::from(made.changed())), high)
        })
    }),
    Fault::new("a count at its largest isn't well-formed", largest_refused),
    Fault::new("a state of its lists alone taken", |c, s, b| {
        shorter(BASE_WORDS, c, s, b)
    }),
];

/// What a changing call was and did; the count in `after` is the right one.
struct Made<'a> {
    call: &'a Call,
    reply: Reply,
    before: &'a [u32],
    after: &'a [u32],
}

impl Made<'_> {
    fn refused(&self) -> bool {
        self.reply.number != 0
    }
    fn changed(&self) -> bool {
        self.before[..BASE_WORDS] != self.after[..BASE_WORDS]
    }
    fn same_lengths(&self) -> bool {
        self.before[..3] == self.after[..3]
    }
    /// The count before the call.
    fn count(&self) -> u64 {
        change_count(self.before)
    }
    fn right(&self) -> u64 {
        change_count(self.after)
    }
    /// The right count, unless `overlooked`.
    fn unless(&self, overlooked: bool) -> u64 {
        if overlooked {
            self.count()
        } else {
            self.right()
        }
    }
    /// The right count, but one up where `counted`.
    fn also(&self, counted: bool) -> u64 {
        if counted {
            self.count().saturating_add(1)
        } else {
            self.right()
        }
    }
}

/// The model with the count that `count` says, where a call may change one.
fn recount(call: &Call, state: &mut [u32], buffer: &mut [u32], count: fn(&Made) -> u64) -> Reply {
    let before = state.to_vec();
    let reply = model(call, state, buffer);
    if call.buffer() == Buffer::Events && state.len() == STATE_WORDS && reply.number != UNFIT_STATE
    {
        let made = Made {
            call,
            reply,
            before: &before,
            after: state,
        };
        let count = count(&made);
        set_change_count(state, count);
    }
    reply
}

fn largest_refused(call: &Call, state: &mut [u32], buffer: &mut [u32]) -> Reply {
    let stateless = matches!(call, Call::Left { .. });
    if !stateless && state.len() == STATE_WORDS && change_count(state) == u64::MAX {
        return match model(call, &mut state.to_vec(), &mut buffer.to_vec()).number {
            200 => Reply::refused(200),
            _ => Reply::refused(UNFIT_STATE),
        };
    }
    model(call, state, buffer)
}
