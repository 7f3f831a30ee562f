//! Recordings of events on every boundary, against the model of recordings;
//! and what runs on the library told, rebuilt by it.
use crate::comparison::{Comparison, Tally};
use crate::guarded::Guard;
use crate::guarded::Lent::{Read, Write};
use crate::library::{BYTE, OnWords as Library, WORD, named, reply};
use crate::records::{event, event_words, route_words};
use naskrefim::{Event, bytes, rebuild, same, words};
use oracle::call::Reply;
use oracle::compare::filled;
use oracle::generate::recordings::Recordings;
use oracle::generate::runs::Run;
use oracle::json;
use oracle::port::{self, Bytes, WordPort};
use oracle::recording::{Beside, NUMBERS, Rebuilder, against};
use oracle::rng::Rng;
use oracle::script::written;
use oracle::words::{EVENT_WORDS, LISTING_BUFFER, ROUTES_AT, STATE_WORDS};

/// Of how many recordings one is of a run on the library.
const PER_RUN: usize = 20;
/// The most calls of a run.
const LONG: [usize; 3] = [10, 60, 400];

pub struct Recorded {
    rebuilders: Vec<Box<dyn Rebuilder<u8>>>,
    library: Library,
    recordings: Recordings,
    rng: Rng,
    tally: Tally,
    /// Recordings compared, and of two those of the same rows.
    compared: usize,
    alike: usize,
    /// Runs whose events rebuilt their routes, the calls of these, the
    /// events, and the most routes.
    runs: usize,
    calls: usize,
    events: usize,
    most: u32,
}

impl Recorded {
    pub fn new(rebuilders: Vec<Box<dyn Rebuilder<u8>>>, seed: u64) -> Self {
        Self {
            rebuilders,
            library: Library::default(),
            recordings: Recordings::new(seed),
            rng: Rng::new(seed ^ 0x90),
            tally: Tally::default(),
            compared: 0,
            alike: 0,
            runs: 0,
            calls: 0,
            events: 0,
            most: 0,
        }
    }

    /// "For every run from empty the rebuilt rows equal the table's, in
    /// order", all of it by the library. The model only draws calls that fit
    /// the state.
    fn run(&mut self) -> Result<(), String> {
        let (mut run, mut told) = (Run::default(), Vec::new());
        let mut state = vec![0; STATE_WORDS];
        let most = self.rng.pick(&LONG);
        for _ in 0..=self.rng.below(most) {
            // any call, mostly one that changes the state
            let code = match self.rng.one_in(4) {
                true => 1 + self.rng.below(15) as u32,
                false => self.rng.pick(&[1, 3, 3, 3, 4, 5, 6, 6, 6, 6, 6, 6, 7]),
            };
            let call = run.draw(&mut self.rng, code);
            run.make(&call);
            let mut buffer = filled(call.buffer().least());
            let reply = self.library.call(&call, &mut state, &mut buffer);
            if code <= 7 {
                told.extend(&buffer[..written(&call, &reply)]);
            }
            self.tally.calls += 1;
            self.calls += 1;
        }
        let rows = &state[ROUTES_AT..][..32 * state[1] as usize];
        let mut expected = filled(LISTING_BUFFER);
        expected[..rows.len()].copy_from_slice(rows);
        let (recording, expected) = (port::bytes(&told), port::bytes(&expected));
        for rebuilder in &mut self.rebuilders {
            let mut found = port::bytes(&filled(LISTING_BUFFER));
            let reply = rebuilder.rebuild(&recording, &mut found);
            self.tally.calls += 1;
            if reply != Reply::value(state[1]) || found != expected {
                return Err(format!(
                    "{}: rebuild: {reply:?} in place of {} rows, or others than the state's, of a run's \
                     {} events",
                    rebuilder.name(),
                    state[1],
                    told.len() / EVENT_WORDS
                ));
            }
        }
        self.runs += 1;
        self.most = self.most.max(state[1]);
        self.events += told.len() / EVENT_WORDS;
        Ok(())
    }
}

impl Comparison for Recorded {
    fn next(&mut self) -> Result<(), String> {
        let case = self.recordings.next_case();
        for rebuilder in &mut self.rebuilders {
            let reply = against(&mut **rebuilder, &case)
                .map_err(|what| format!("{what}\n{}", json::recording_line(&case)))?;
            self.tally.called(reply.number);
            let second = matches!(case.beside, Beside::Second(_));
            self.alike += usize::from(second && reply.value == 1);
        }
        self.compared += 1;
        if self.compared.is_multiple_of(PER_RUN) {
            self.run()?;
        }
        Ok(())
    }
    fn reached(&self) -> Result<(), String> {
        self.tally.reached("recording", &NUMBERS)
    }
    fn said(&self) -> String {
        let Tally { numbers, calls } = &self.tally;
        format!(
            "recordings {numbers:?}, {} of the same rows, and {} runs of {} calls with {} events, of up to {} \
             routes, rebuilt; {calls} calls of the library",
            self.alike, self.runs, self.calls, self.events, self.most
        )
    }
}

/// The library on bytes, on words and by `rebuild` and `same`.
pub fn rebuilders() -> [Box<dyn Rebuilder<u8>>; 3] {
    [
        Box::new(OnBytes::default()),
        Box::new(Bytes(OnWords::default())),
        Box::new(Bytes(Typed::default())),
    ]
}

#[derive(Default)]
struct OnBytes(Guard);

impl Rebuilder<u8> for OnBytes {
    fn name(&self) -> String {
        named("the library on bytes", self.0.amiss)
    }
    fn rebuild(&mut self, recording: &[u8], rows: &mut [u8]) -> Reply {
        let lent = [Read(recording), Write(rows)];
        reply(self.0.lend(BYTE, lent, |[r, o]| bytes::rebuild(r, o)))
    }
    fn same(&mut self, first: &[u8], second: &[u8]) -> Reply {
        let lent = [Read(first), Read(second)];
        reply(self.0.lend(BYTE, lent, |[f, s]| bytes::same(f, s)))
    }
}

#[derive(Default)]
struct OnWords(Guard);

impl Rebuilder<u32> for OnWords {
    fn name(&self) -> String {
        named("the library on words", self.0.amiss)
    }
    fn rebuild(&mut self, recording: &[u32], rows: &mut [u32]) -> Reply {
        let lent = [Read(recording), Write(rows)];
        reply(self.0.lend(WORD, lent, |[r, o]| words::rebuild(r, o)))
    }
    fn same(&mut self, first: &[u32], second: &[u32]) -> Reply {
        let lent = [Read(first), Read(second)];
        reply(self.0.lend(WORD, lent, |[f, s]| words::same(f, s)))
    }
}

/// What records can't say goes by the words.
#[derive(Default)]
struct Typed(OnWords);

/// The events of a recording, if records can say all of them.
fn said(recording: &[u32]) -> Option<Vec<Event>> {
    let (rows, []) = recording.as_chunks::<EVENT_WORDS>() else {
        return None;
    };
    let one = |row: &[u32; EVENT_WORDS]| event(row).filter(|said| event_words(said) == *row);
    rows.iter().map(one).collect()
}

impl Rebuilder<u32> for Typed {
    fn name(&self) -> String {
        "the library by rebuild and same".to_string()
    }
    fn rebuild(&mut self, recording: &[u32], rows: &mut [u32]) -> Reply {
        let (Some(events), true) = (said(recording), rows.len() >= LISTING_BUFFER) else {
            return self.0.rebuild(recording, rows);
        };
        match rebuild(&events) {
            Err(refused) => Reply::refused(refused.number()),
            Ok(routes) => {
                let words: Vec<u32> = routes.iter().flat_map(route_words).collect();
                rows[..words.len()].copy_from_slice(&words);
                Reply::value(routes.len() as u32)
            }
        }
    }
    fn same(&mut self, first: &[u32], second: &[u32]) -> Reply {
        let (Some(one), Some(other)) = (said(first), said(second)) else {
            return self.0.same(first, second);
        };
        match same(&one, &other) {
            Err(refused) => Reply::refused(refused.number()),
            Ok(alike) => Reply::value(alike.into()),
        }
    }
}
