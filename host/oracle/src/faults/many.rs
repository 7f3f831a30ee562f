//! Faults in destinations looked up together (document 02, Paper 10).
use crate::call::Reply;
use crate::many::{
    ANSWER_WORDS, FIRST, Looker, MOST, Model, NOT_RISING, Rust, SECOND, TOO_MANY, UNREACHABLE,
    refusal, ruling, up_to, weighed,
};
use crate::model::{UNFIT_BUFFER, UNFIT_STATE};
use crate::well_formed;
use crate::words::{STATE_WORDS, decode};
use reference::{Lists, RouteRow, mask};

/// The call as it is made.
pub struct Asked<'a> {
    state: &'a [u32],
    destinations: &'a [u32],
    answers: &'a mut [u32],
}

impl Asked<'_> {
    fn model(&mut self) -> Reply {
        Model.many(self.state, self.destinations, self.answers)
    }
    fn refusal(&self) -> Option<u32> {
        refusal(self.state, self.destinations, self.answers.len()).err()
    }

    /// The model's answers, with another count.
    fn counting(&mut self, count: fn(&Lists, &[u32]) -> u32) -> Reply {
        let reply = self.model();
        if reply.number != 0 {
            return reply;
        }
        Reply {
            value: count(&decode(self.state), self.destinations),
            ..reply
        }
    }

    /// The model's count, with the answers on other lists.
    fn answering(&mut self, change: fn(&mut Lists)) -> Reply {
        let reply = self.model();
        if reply.number == 0 {
            let mut lists = decode(self.state);
            change(&mut lists);
            let mut rust = Rust::on(&lists);
            for (answer, &ip) in self.answers.chunks_mut(ANSWER_WORDS).zip(self.destinations) {
                answer.copy_from_slice(&rust.lookup4(ip));
            }
        }
        reply
    }

    /// The model's count, with each answer by the rows that `sees` lets it
    /// see: of it and of the destination before it.
    fn seeing(&mut self, sees: fn(&RouteRow, u32, Option<u32>) -> bool) -> Reply {
        let reply = self.model();
        if reply.number == 0 {
            let all = decode(self.state);
            let mut before = None;
            for (answer, &ip) in self.answers.chunks_mut(ANSWER_WORDS).zip(self.destinations) {
                let mut lists = all.clone();
                lists.routes.retain(|row| sees(row, ip, before));
                answer.copy_from_slice(&Rust::on(&lists).lookup4(ip));
                before = Some(ip);
            }
        }
        reply
    }

    /// The model's, with each answer changed afterwards.
    fn each(&mut self, change: fn(&Lists, u32, &mut [u32])) -> Reply {
        let reply = self.model();
        if reply.number == 0 {
            let lists = decode(self.state);
            for (answer, &ip) in self.answers.chunks_mut(ANSWER_WORDS).zip(self.destinations) {
                change(&lists, ip, answer);
            }
        }
        reply
    }

    /// The model's, if `refuses` finds nothing.
    fn refusing(&mut self, refuses: fn(&Self) -> Option<u32>) -> Reply {
        match refuses(self) {
            Some(number) => Reply::refused(number),
            None => self.model(),
        }
    }
    fn lengths(&self) -> bool {
        let room = ANSWER_WORDS * self.destinations.len();
        self.state.len() == STATE_WORDS && self.answers.len() >= room
    }
    fn formed(&self) -> bool {
        self.state.len() == STATE_WORDS && well_formed::state(self.state)
    }
}

/// Of the rows of 254 and 255 without a tos that are passed for `ip`, those
/// kept of each length, the longest first.
fn kept(lists: &Lists, ip: u32, keep: fn(&[&RouteRow]) -> usize) -> Vec<RouteRow> {
    let lengths = (0..=32).rev();
    lengths
        .filter_map(|len| {
            let rows = lists.routes.iter();
            let passed = |row: &&RouteRow| {
                FIRST.contains(&row[0]) && row[1] <= ip && row[2] == len && row[3] == 0
            };
            let rows: Vec<&RouteRow> = rows.filter(passed).collect();
            (!rows.is_empty()).then(|| *rows[keep(&rows)])
        })
        .collect()
}

/// The number of a kind's row, and the row, which a throw and what isn't
/// there leave.
fn put(answer: &mut [u32], row: Option<&RouteRow>) {
    let number = match row.map(|row| row[5]) {
        None | Some(9) => return,
        Some(6) => 22,
        Some(7) => 113,
        Some(8) => 13,
        Some(_) => 0,
    };
    answer.fill(0);
    answer[0] = number;
    if let (Some(row), 0) = (row, number) {
        answer[1..].copy_from_slice(row);
    }
}

fn put_none(answer: &mut [u32]) {
    answer.fill(0);
    answer[0] = UNREACHABLE;
}

fn second(lists: &Lists, last: Option<&u32>) -> u32 {
    if lists.tables.contains(&SECOND) {
        up_to(lists, &[SECOND], last)
    } else {
        0
    }
}

/// The last destination that `open` says leads on, by the Rust on the first
/// set.
fn last_open<'a>(
    lists: &Lists,
    all: &'a [u32],
    open: fn(&Lists, u32, u32) -> bool,
) -> Option<&'a u32> {
    let mut first = Rust::first_set(lists);
    all.iter()
        .rev()
        .find(|&&ip| open(lists, ip, first.lookup4(ip)[0]))
}

/// One that does `run` in place of the model.
#[derive(Clone, Copy)]
pub struct ManyFault {
    pub name: &'static str,
    run: fn(&mut Asked) -> Reply,
}

impl Looker<u32> for ManyFault {
    fn name(&self) -> String {
        self.name.to_string()
    }
    fn many(&mut self, state: &[u32], destinations: &[u32], answers: &mut [u32]) -> Reply {
        (self.run)(&mut Asked {
            state,
            destinations,
            answers,
        })
    }
}

const fn fault(name: &'static str, run: fn(&mut Asked) -> Reply) -> ManyFault {
    ManyFault { name, run }
}

pub const FAULTS: &[ManyFault] = &[
    // the count
    fault("the last destination's own row isn't weighed", |a| {
        a.counting(|lists, to| {
            let below = to.last().and_then(|&last| last.checked_sub(1));
            let open = last_open(lists, to, |_, _, number| number == UNREACHABLE);
            let below_open = open.and_then(|&last| last.checked_sub(1));
            up_to(lists, &FIRST, below.as_ref()) + second(lists, below_open.as_ref())
        })
    }),
    fault(
        "253's own row of the last that leads on isn't weighed",
        |a| {
            a.counting(|lists, to| {
                let open = last_open(lists, to, |_, _, number| number == UNREACHABLE);
                let below = open.and_then(|&last| last.checked_sub(1));
                up_to(lists, &FIRST, to.last()) + second(lists, below.as_ref())
            })
        },
    ),
    fault("all rows are weighed", |a| {
        a.counting(|lists, _| lists.routes.len() as u32)
    }),
    fault("rows up to the last destination, of every table", |a| {
        a.counting(|lists, to| {
            let Some(last) = to.last() else { return 0 };
            lists.routes.iter().filter(|row| row[1] <= *last).count() as u32
        })
    }),
    fault("all rows of 254 and 255 are weighed", |a| {
        a.counting(|lists, to| {
            let all = up_to(lists, &FIRST, Some(&u32::MAX));
            weighed(lists, to) - up_to(lists, &FIRST, to.last()) + all
        })
    }),
    fault("rows up to the first destination", |a| {
        a.counting(|lists, to| {
            weighed(lists, to) - up_to(lists, &FIRST, to.last()) + up_to(lists, &FIRST, to.first())
        })
    }),
    fault("253 is weighed for every destination", |a| {
        a.counting(|lists, to| up_to(lists, &FIRST, to.last()) + second(lists, to.last()))
    }),
    fault("253 is weighed up to the last, if any leads on", |a| {
        a.counting(|lists, to| {
            let open = last_open(lists, to, |_, _, number| number == UNREACHABLE);
            let last = open.and(to.last());
            up_to(lists, &FIRST, to.last()) + second(lists, last)
        })
    }),
    fault("253 is weighed up to the first that leads on", |a| {
        a.counting(|lists, to| {
            let mut first = Rust::first_set(lists);
            let open = to.iter().find(|&&ip| first.lookup4(ip)[0] == UNREACHABLE);
            up_to(lists, &FIRST, to.last()) + second(lists, open)
        })
    }),
    fault("253 isn't weighed", |a| {
        a.counting(|lists, to| up_to(lists, &FIRST, to.last()))
    }),
    fault("253 is weighed while it isn't listed", |a| {
        a.counting(|lists, to| {
            let open = last_open(lists, to, |_, _, number| number == UNREACHABLE);
            up_to(lists, &FIRST, to.last()) + up_to(lists, &[SECOND], open)
        })
    }),
    fault("a throw doesn't open 253 to the count", |a| {
        a.counting(|lists, to| {
            let open = last_open(lists, to, |lists, ip, _| {
                ruling(lists, &FIRST, ip).is_none()
            });
            up_to(lists, &FIRST, to.last()) + second(lists, open)
        })
    }),
    fault("a throw alone opens 253 to the count", |a| {
        a.counting(|lists, to| {
            let open = last_open(lists, to, |lists, ip, _| {
                ruling(lists, &FIRST, ip).is_some_and(|row| row[5] == 9)
            });
            up_to(lists, &FIRST, to.last()) + second(lists, open)
        })
    }),
    fault("every refusal opens 253 to the count", |a| {
        a.counting(|lists, to| {
            let open = last_open(lists, to, |_, _, number| number != 0);
            up_to(lists, &FIRST, to.last()) + second(lists, open)
        })
    }),
    fault("the count of 253 by what 253 answers", |a| {
        a.counting(|lists, to| {
            let mut rust = Rust::on(lists);
            let mut first = Rust::first_set(lists);
            let mut open = to.iter().rev();
            let open =
                open.find(|&&ip| first.lookup4(ip)[0] == UNREACHABLE && rust.lookup4(ip)[0] == 0);
            up_to(lists, &FIRST, to.last()) + second(lists, open)
        })
    }),
    fault("rows of 254 and 255 count only while listed", |a| {
        a.counting(|lists, to| {
            let listed: Vec<u32> = FIRST
                .into_iter()
                .filter(|t| lists.tables.contains(t))
                .collect();
            weighed(lists, to) - up_to(lists, &FIRST, to.last()) + up_to(lists, &listed, to.last())
        })
    }),
    fault("rows of 255 aren't weighed", |a| {
        a.counting(|lists, to| weighed(lists, to) - up_to(lists, &[255], to.last()))
    }),
    fault("rows with a tos aren't weighed", |a| {
        a.counting(|lists, to| {
            let mut plain = lists.clone();
            plain.routes.retain(|row| row[3] == 0);
            weighed(&plain, to)
        })
    }),
    fault("the count of a private table's rows too", |a| {
        a.counting(|lists, to| weighed(lists, to) + up_to(lists, &[100], to.last()))
    }),
    fault("each destination weighs its rows anew", |a| {
        a.counting(|lists, to| {
            let anew = |ip: &u32| up_to(lists, &FIRST, Some(ip));
            weighed(lists, to) - up_to(lists, &FIRST, to.last()) + to.iter().map(anew).sum::<u32>()
        })
    }),
    fault("the count for no destinations is 1", |a| {
        a.counting(|lists, to| weighed(lists, to).max(u32::from(to.is_empty())))
    }),
    fault("the reply carries the destinations' number", |a| {
        a.counting(|_, to| to.len() as u32)
    }),
    fault("the count in the reply's second number", |a| {
        let reply = a.model();
        Reply {
            value: 0,
            second: reply.value,
            ..reply
        }
    }),
    // the answers
    fault(
        "rows that an earlier destination passed are forgotten",
        |a| a.seeing(|row, ip, before| before.is_none_or(|before| before == ip || row[1] > before)),
    ),
    fault("a destination's own row doesn't answer", |a| {
        a.seeing(|row, ip, _| row[1] != ip)
    }),
    fault("254 and 255 answer only while they are listed", |a| {
        a.answering(|lists| {
            let tables = &lists.tables;
            let listed = |row: &RouteRow| !FIRST.contains(&row[0]) || tables.contains(&row[0]);
            lists.routes.retain(listed);
        })
    }),
    fault(
        "a row that was passed answers though it doesn't cover",
        |a| {
            a.each(|lists, ip, answer| {
                let first_of_last = |rows: &[&RouteRow]| {
                    let last = rows.last().map(|row| row[1]);
                    rows.iter()
                        .position(|row| Some(row[1]) == last)
                        .unwrap_or(0)
                };
                put(answer, kept(lists, ip, first_of_last).first());
            })
        },
    ),
    fault("the first dst of a length is kept for good", |a| {
        a.each(|lists, ip, answer| {
            let rows = kept(lists, ip, |_| 0);
            let covers = |row: &&RouteRow| row[1] == ip & mask(row[2] as u8);
            match rows.iter().find(covers) {
                None if FIRST.contains(&answer[1]) => put_none(answer),
                row => put(answer, row),
            }
        })
    }),
    fault(
        "the last of the rows with its dst and length answers",
        |a| {
            a.each(|lists, ip, answer| {
                let rows = kept(lists, ip, |rows| rows.len() - 1);
                let covers = |row: &&RouteRow| row[1] == ip & mask(row[2] as u8);
                put(answer, rows.iter().find(covers));
            })
        },
    ),
    fault("a throw doesn't lead on", |a| {
        a.each(|lists, ip, answer| {
            if ruling(lists, &FIRST, ip).is_some_and(|row| row[5] == 9) {
                answer.fill(0);
                answer[0] = 11;
            }
        })
    }),
    fault("a throw is 101, whatever 253 has", |a| {
        a.each(|lists, ip, answer| {
            if ruling(lists, &FIRST, ip).is_some_and(|row| row[5] == 9) {
                put_none(answer);
            }
        })
    }),
    fault("253 answers throws alone", |a| {
        a.each(|lists, ip, answer| {
            if ruling(lists, &FIRST, ip).is_none() {
                put_none(answer);
            }
        })
    }),
    fault("a throw is answered with its row", |a| {
        a.each(|lists, ip, answer| {
            if let Some(row) = ruling(lists, &FIRST, ip).filter(|row| row[5] == 9) {
                answer[0] = 0;
                answer[1..].copy_from_slice(row);
            }
        })
    }),
    fault("every refusal leads on to 253", |a| {
        a.answering(|lists| {
            let refuses = |row: &RouteRow| FIRST.contains(&row[0]) && [6, 7, 8].contains(&row[5]);
            for row in &mut lists.routes {
                if refuses(row) {
                    row[5] = 9;
                }
            }
        })
    }),
    fault("253 is read while it isn't listed", |a| {
        a.answering(|lists| lists.tables.push(SECOND))
    }),
    fault("253 isn't read", |a| {
        a.answering(|lists| lists.tables.retain(|&t| t != SECOND))
    }),
    fault("253 is read together with 254 and 255", |a| {
        a.answering(|lists| {
            for row in &mut lists.routes {
                if row[0] == SECOND {
                    row[0] = 254;
                }
            }
        })
    }),
    fault("a row with a tos answers", |a| {
        a.answering(|lists| {
            for row in &mut lists.routes {
                row[3] = 0;
            }
        })
    }),
    fault("255 is read before 254, whatever the length", |a| {
        a.each(|lists, ip, answer| {
            let covers =
                |row: &&RouteRow| row[0] == 255 && row[3] == 0 && row[1] == ip & mask(row[2] as u8);
            let local = lists.routes.iter().rev().filter(covers);
            if let Some(row) = local.max_by_key(|row| row[2]).filter(|row| row[5] <= 3) {
                answer[0] = 0;
                answer[1..].copy_from_slice(row);
            }
        })
    }),
    fault("a refusal's answer keeps its words", |a| {
        let before = a.answers.to_vec();
        let reply = a.model();
        let answers = a.answers.chunks_mut(ANSWER_WORDS);
        for (answer, before) in answers.zip(before.chunks(ANSWER_WORDS)) {
            if reply.number == 0 && answer[0] != 0 && answer.len() == ANSWER_WORDS {
                answer[1..].copy_from_slice(&before[1..]);
            }
        }
        reply
    }),
    fault("the row of a kind that refuses is given", |a| {
        a.each(|lists, ip, answer| {
            if let Some(row) =
                ruling(lists, &FIRST, ip).filter(|_| [13, 22, 113].contains(&answer[0]))
            {
                answer[1..].copy_from_slice(row);
            }
        })
    }),
    fault("equal destinations are answered once", |a| {
        let before = a.answers.to_vec();
        let reply = a.model();
        if reply.number == 0 {
            for (i, pair) in a.destinations.windows(2).enumerate() {
                if pair[0] == pair[1] {
                    let at = ANSWER_WORDS * (i + 1);
                    a.answers[at..at + ANSWER_WORDS]
                        .copy_from_slice(&before[at..at + ANSWER_WORDS]);
                }
            }
        }
        reply
    }),
    fault("a refusal of the last is the call's own", |a| {
        let reply = a.model();
        let last = ANSWER_WORDS * a.destinations.len().saturating_sub(1);
        match a.answers.get(last) {
            Some(&number) if reply.number == 0 && !a.destinations.is_empty() => {
                Reply { number, ..reply }
            }
            _ => reply,
        }
    }),
    fault("the words behind the answers are cleared", |a| {
        let reply = a.model();
        if reply.number == 0 {
            a.answers[ANSWER_WORDS * a.destinations.len()..].fill(0);
        }
        reply
    }),
    fault("a refusal clears the answers", |a| {
        let reply = a.model();
        if reply.number != 0 {
            a.answers.fill(0);
        }
        reply
    }),
    fault("211 leaves the answers before the fall", |a| {
        let reply = a.model();
        if reply.number == NOT_RISING {
            let mut rust = Rust::on(&decode(a.state));
            let rising = a
                .destinations
                .windows(2)
                .take_while(|pair| pair[0] <= pair[1]);
            let rising = &a.destinations[..=rising.count()];
            for (answer, &ip) in a.answers.chunks_mut(ANSWER_WORDS).zip(rising) {
                answer.copy_from_slice(&rust.lookup4(ip));
            }
        }
        reply
    }),
    fault("answers of 32 words", |a| {
        let reply = a.model();
        let count = a.destinations.len();
        if reply.number == 0 {
            for i in 1..count {
                a.answers.copy_within(
                    ANSWER_WORDS * i..ANSWER_WORDS * (i + 1),
                    (ANSWER_WORDS - 1) * i,
                );
            }
        }
        reply
    }),
    // the refusals
    fault("257 destinations are taken", |a| {
        if a.refusal() == Some(TOO_MANY) && a.destinations.len() == MOST + 1 {
            a.destinations = &a.destinations[..MOST];
        }
        a.model()
    }),
    fault("256 destinations are too many", |a| {
        a.refusing(|a| {
            (a.lengths() && a.formed() && a.destinations.len() >= MOST).then_some(TOO_MANY)
        })
    }),
    fault("equal destinations don't rise", |a| {
        a.refusing(|a| {
            let equal = a.destinations.windows(2).any(|pair| pair[0] == pair[1]);
            (a.refusal().is_none() && equal).then_some(NOT_RISING)
        })
    }),
    fault("a fall at the end isn't seen", |a| {
        let count = a.destinations.len();
        if a.refusal() == Some(NOT_RISING) && a.destinations[..count - 1].is_sorted() {
            return Reply::default();
        }
        a.model()
    }),
    fault("a fall at the start isn't seen", |a| {
        if a.refusal() == Some(NOT_RISING) && a.destinations[1..].is_sorted() {
            return Reply::default();
        }
        a.model()
    }),
    fault("only what is below the first doesn't rise", |a| {
        let first = a.destinations.first().copied().unwrap_or_default();
        if a.refusal() == Some(NOT_RISING) && a.destinations.iter().all(|&ip| ip >= first) {
            return Reply::default();
        }
        a.model()
    }),
    fault("211 before 210", |a| {
        a.refusing(|a| {
            (a.refusal() == Some(TOO_MANY) && !a.destinations.is_sorted()).then_some(NOT_RISING)
        })
    }),
    fault("210 before 201", |a| {
        a.refusing(|a| (a.lengths() && a.destinations.len() > MOST).then_some(TOO_MANY))
    }),
    fault("211 before 201", |a| {
        a.refusing(|a| {
            (a.refusal() == Some(UNFIT_STATE) && !a.destinations.is_sorted()).then_some(NOT_RISING)
        })
    }),
    fault("201 before 200", |a| {
        a.refusing(|a| {
            (a.state.len() == STATE_WORDS && !well_formed::state(a.state)).then_some(UNFIT_STATE)
        })
    }),
    fault("210 before 200, where 256 would have room", |a| {
        a.refusing(|a| {
            (a.formed() && a.destinations.len() > MOST && a.answers.len() >= ANSWER_WORDS * MOST)
                .then_some(TOO_MANY)
        })
    }),
    fault("answers a word too short are taken", |a| {
        if a.refusal() == Some(UNFIT_BUFFER)
            && a.answers.len() + 1 == ANSWER_WORDS * a.destinations.len()
        {
            return Reply::default();
        }
        a.model()
    }),
    fault("longer answers are refused", |a| {
        a.refusing(|a| {
            let longer = a.answers.len() > ANSWER_WORDS * a.destinations.len();
            (a.refusal().is_none() && longer).then_some(UNFIT_BUFFER)
        })
    }),
    fault("no destinations are refused", |a| {
        a.refusing(|a| (a.refusal().is_none() && a.destinations.is_empty()).then_some(UNFIT_BUFFER))
    }),
    fault(
        "a state that isn't well-formed is taken for no destinations",
        |a| {
            if a.refusal() == Some(UNFIT_STATE) && a.destinations.is_empty() {
                return Reply::default();
            }
            a.model()
        },
    ),
];
