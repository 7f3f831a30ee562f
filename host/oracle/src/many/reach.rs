//! What generated destinations reach.
use super::{
    ANSWER_WORDS, FIRST, MOST, ManyCase, NUMBERS, Rust, SECOND, UNREACHABLE, expected, ruling,
    up_to,
};
use crate::generate::many::Manies;
use crate::port::words as words_of;
use crate::words::decode;
use reference::{Lists, RouteRow};
use std::collections::BTreeMap;

/// The kind of a throw.
const THROW: u32 = 9;

/// A call that isn't refused.
struct Shown<'a> {
    lists: Lists,
    to: &'a [u32],
    /// Each destination's number and row.
    answers: &'a [[u32; ANSWER_WORDS]],
    /// Whether the first set has none or a throw for each.
    open: Vec<bool>,
    listed: bool,
    spare: bool,
}

impl<'a> Shown<'a> {
    fn new(case: &'a ManyCase, answers: &'a [u32]) -> Self {
        let (lists, to) = (decode(&case.state), &case.destinations[..]);
        let mut first = Rust::first_set(&lists);
        let (answers, _) = answers.as_chunks();
        Self {
            open: to
                .iter()
                .map(|&ip| first.lookup4(ip)[0] == UNREACHABLE)
                .collect(),
            listed: lists.tables.contains(&SECOND),
            spare: case.answers.len() > ANSWER_WORDS * to.len(),
            answers: &answers[..to.len()],
            lists,
            to,
        }
    }

    fn gives(&self, number: u32) -> bool {
        self.answers.iter().any(|answer| answer[0] == number)
    }
    /// Some destination that this holds of, with its answer.
    fn any(&self, holds: impl Fn(u32, &[u32; ANSWER_WORDS]) -> bool) -> bool {
        let mut all = self.to.iter().zip(self.answers);
        all.any(|(&ip, answer)| holds(ip, answer))
    }
    fn thrown(&self, ip: u32) -> bool {
        ruling(&self.lists, &FIRST, ip).is_some_and(|row| row[5] == THROW)
    }
    fn throw_leads(&self, found: bool) -> bool {
        self.listed && self.any(|ip, answer| self.thrown(ip) && (answer[0] == 0) == found)
    }
    fn last(&self) -> Option<&u32> {
        self.to.last()
    }
    fn last_open(&self) -> Option<&u32> {
        let mut all = self.to.iter().zip(&self.open).rev();
        all.find_map(|(ip, open)| open.then_some(ip))
    }
    /// Whether a row of these tables stands at `last` itself.
    fn own(&self, tables: &[u32], last: Option<&u32>) -> bool {
        let at = |row: &RouteRow| tables.contains(&row[0]) && last == Some(&row[1]);
        self.lists.routes.iter().any(at)
    }
    fn above(&self, tables: &[u32], last: Option<&u32>) -> bool {
        self.up_to(tables, last) < self.up_to(tables, Some(&u32::MAX))
    }
    fn up_to(&self, tables: &[u32], last: Option<&u32>) -> u32 {
        up_to(&self.lists, tables, last)
    }
    /// Rows of this table are weighed though it isn't listed.
    fn unlisted(&self, table: u32) -> bool {
        !self.lists.tables.contains(&table) && self.up_to(&[table], self.last()) > 0
    }
    /// A row of this set answers, to which this applies.
    fn row_of(&self, tables: &[u32], holds: impl Fn(u32, &[u32]) -> bool) -> bool {
        self.any(|ip, answer| {
            answer[0] == 0 && tables.contains(&answer[1]) && holds(ip, &answer[1..])
        })
    }
    /// Some other row of this set for which this holds beside the answer.
    fn beside(&self, tables: &[u32], holds: impl Fn(&RouteRow, u32, &[u32]) -> bool) -> bool {
        let all = self.lists.routes.iter();
        let all: Vec<&RouteRow> = all.filter(|row| tables.contains(&row[0])).collect();
        self.row_of(tables, |ip, row| {
            all.iter()
                .any(|other| other[..] != *row && holds(other, ip, row))
        })
    }
    /// The row that answers was passed for an earlier destination.
    fn kept(&self, tables: &[u32]) -> bool {
        let (first, row) = (self.to.first(), |row: &[u32]| row[1]);
        self.row_of(tables, |ip, given| {
            first.is_some_and(|&first| row(given) <= first && first < ip)
        })
    }
}

fn of_length(other: &RouteRow, row: &[u32]) -> bool {
    other[2] == row[2]
}

type Holds = fn(&Shown) -> bool;
const KINDS: [(&str, Holds); 34] = [
    ("no destinations", |s| s.to.is_empty()),
    ("one destination", |s| s.to.len() == 1),
    ("255 destinations", |s| s.to.len() == MOST - 1),
    ("256 destinations", |s| s.to.len() == MOST),
    ("equal destinations", |s| {
        s.to.windows(2).any(|pair| pair[0] == pair[1])
    }),
    ("0.0.0.0", |s| s.to.contains(&0)),
    ("255.255.255.255", |s| s.to.contains(&u32::MAX)),
    ("a row", |s| s.gives(0)),
    ("101 among the answers", |s| s.gives(UNREACHABLE)),
    ("113 among the answers", |s| s.gives(113)),
    ("13 among the answers", |s| s.gives(13)),
    ("22 among the answers", |s| s.gives(22)),
    ("113, 13 or 22 of 253", |s| {
        let mut all = s.answers.iter().zip(&s.open);
        all.any(|(answer, open)| *open && [113, 13, 22].contains(&answer[0]))
    }),
    ("a throw that leads to a row of 253", |s| {
        s.throw_leads(true)
    }),
    ("a throw that leads to a refusal", |s| s.throw_leads(false)),
    ("a throw while 253 isn't listed", |s| {
        !s.listed && s.to.iter().any(|&ip| s.thrown(ip))
    }),
    ("a throw of 253 too", |s| {
        let throws = |ip| ruling(&s.lists, &[SECOND], ip).is_some_and(|row| row[5] == THROW);
        s.listed && s.to.iter().any(|&ip| s.thrown(ip) && throws(ip))
    }),
    ("253 answers where the first set has nothing", |s| {
        s.any(|ip, answer| answer[..2] == [0, SECOND] && ruling(&s.lists, &FIRST, ip).is_none())
    }),
    ("a row that an earlier destination passed", |s| {
        s.kept(&FIRST)
    }),
    ("a row of 253 that an earlier destination passed", |s| {
        s.kept(&[SECOND])
    }),
    (
        "a shorter row behind a longer one that doesn't cover",
        |s| {
            s.beside(&FIRST, |other, ip, row| {
                let covers = other[1] == ip & reference::mask(other[2] as u8);
                (row[1]..=ip).contains(&other[1]) && other[2] > row[2] && !covers
            })
        },
    ),
    ("a dst of its length passed before", |s| {
        s.beside(&FIRST, |other, _, row| {
            of_length(other, row) && other[1] < row[1]
        })
    }),
    ("the first of several of its dst and length", |s| {
        s.beside(&FIRST, |other, _, row| {
            of_length(other, row) && other[1] == row[1] && other[3] == 0
        })
    }),
    ("255 before 254", |s| {
        s.beside(&FIRST, |other, _, row| {
            of_length(other, row) && other[1] == row[1] && row[0] == 255 && other[0] == 254
        })
    }),
    ("a row with a tos beside the one that answers", |s| {
        s.beside(&FIRST, |other, _, row| {
            of_length(other, row) && other[1] == row[1] && other[3] != 0
        })
    }),
    ("the last destination's own row is weighed", |s| {
        s.own(&FIRST, s.last())
    }),
    ("rows of 254 and 255 above the last destination", |s| {
        s.above(&FIRST, s.last()) && !s.to.is_empty()
    }),
    ("253's own row of the last that leads on", |s| {
        s.listed && s.own(&[SECOND], s.last_open())
    }),
    ("253 weighed up to a destination before the last", |s| {
        let open = s.last_open();
        let more = s.up_to(&[SECOND], open) < s.up_to(&[SECOND], s.last());
        s.listed && open.is_some() && more
    }),
    ("253 listed, and no destination leads on", |s| {
        s.listed && s.last_open().is_none() && s.up_to(&[SECOND], s.last()) > 0
    }),
    ("rows of 253 while it isn't listed", |s| {
        !s.listed && s.up_to(&[SECOND], s.last_open()) > 0
    }),
    ("rows of 254 while it isn't listed", |s| s.unlisted(254)),
    ("rows of 255 while it isn't listed", |s| s.unlisted(255)),
    ("answers with room to spare", |s| s.spare),
];

/// Of what there is to see, what a call that isn't refused shows.
pub fn kinds(case: &ManyCase, answers: &[u32]) -> Vec<&'static str> {
    let shown = Shown::new(case, answers);
    let all = KINDS.into_iter().filter(|(_, holds)| holds(&shown));
    all.map(|(kind, _)| kind).collect()
}

/// What comes up in `count` generated cases.
pub fn run(count: usize, seed: u64) -> bool {
    let mut cases = Manies::new(seed);
    let mut numbers: BTreeMap<u32, usize> = BTreeMap::new();
    let mut seen: BTreeMap<&str, usize> = BTreeMap::new();
    for _ in 0..count {
        let case = cases.next_case();
        let effect = expected(&case);
        *numbers.entry(effect.reply.number).or_default() += 1;
        if effect.reply.number == 0 {
            for kind in kinds(&case, &words_of(&effect.answers)) {
                *seen.entry(kind).or_default() += 1;
            }
        }
    }
    for (name, _) in KINDS {
        println!("{name:52} {:6}", seen.get(name).copied().unwrap_or(0));
    }
    let unseen = KINDS.len() - seen.len();
    let given = NUMBERS.iter().filter(|n| numbers.contains_key(n)).count();
    println!(
        "many: {count} generated, answers {numbers:?}, {} not given; {} kinds, {unseen} not seen",
        NUMBERS.len() - given,
        KINDS.len()
    );
    unseen == 0 && given == NUMBERS.len() && numbers.len() == given
}
