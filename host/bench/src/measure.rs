//! One call measured in several ways, in turn, many times over.
use crate::same_job::call as job;
use crate::states::Measured;
use naskrefim::{Addresses, bytes, words};
use oracle::call::{Buffer, Call, Reply};
use oracle::compare::filled;
use oracle::port::bytes as bytes_of;
use oracle::recording::{IP_DISABLED, LINK_DOWN};
use oracle::words::{ADDRESSES_AT, EVENT_WORDS, ROUTES_AT, TABLES_AT};
use oracle::{fit, model};
use port::typed;
use reference::{Arguments, Native};
use std::hint::black_box;
use std::time::Instant;

/// Nanoseconds for a call, each way: medians, 0 for a way that wasn't
/// measured.
pub struct Times([f64; Way::ALL.len()]);

impl Times {
    pub fn of(&self, way: Way) -> f64 {
        self.0[way as usize]
    }
}

/// What a timed part of many calls shall take, in nanoseconds.
const SECTION: f64 = 20_000.0;
const MOST_CALLS: f64 = 2_000.0;

/// The time of `calls` calls of `run`, for one of them.
pub fn section(calls: usize, mut run: impl FnMut()) -> f64 {
    let begin = Instant::now();
    for _ in 0..calls {
        run();
    }
    begin.elapsed().as_nanos() as f64 / calls as f64
}

pub fn median(mut times: Vec<f64>) -> f64 {
    times.sort_by(f64::total_cmp);
    times[times.len() / 2]
}

/// What the clock itself takes.
fn clock() -> f64 {
    median((0..1001).map(|_| section(1, || {})).collect())
}

/// How many calls a timed part has, so that the clock doesn't count.
pub fn enough(mut run: impl FnMut()) -> usize {
    let first = (0..5)
        .map(|_| section(1, &mut run))
        .fold(f64::MAX, f64::min);
    (SECTION / first.max(1.0)).clamp(1.0, MOST_CALLS) as usize
}

/// Medians of several ways to run something, all in turn.
pub fn in_turn<const N: usize>(rounds: usize, mut run: impl FnMut(usize)) -> [f64; N] {
    let calls: [usize; N] = core::array::from_fn(|way| enough(|| run(way)));
    let mut times: [Vec<f64>; N] = core::array::from_fn(|_| Vec::new());
    for round in 0..rounds {
        for k in 0..N {
            let way = (round + k) % N;
            times[way].push(section(calls[way], || run(way)));
        }
    }
    times.map(median)
}

/// The things that the ways work on.
struct Stage<'a> {
    measured: &'a Measured,
    arguments: Arguments,
    template: Native,
    native: Native,
    records: typed::Arguments,
    first_addresses: Addresses,
    addresses: Addresses,
    state: Vec<u32>,
    buffer: Vec<u32>,
    request: Vec<u8>,
    first_bytes: Vec<u8>,
    state_bytes: Vec<u8>,
    buffer_bytes: Vec<u8>,
}

/// How a call is made.
#[derive(Clone, Copy, PartialEq, Eq)]
pub enum Way {
    /// The unchanged Rust on its own lists.
    Own,
    /// The Rust on lent words, plainly and tuned.
    Plain,
    Tuned,
    /// The Rust on lent bytes, plainly.
    PlainBytes,
    /// The library.
    Words,
    Bytes,
    /// The library through `naskrefim::Addresses`.
    Addresses,
    /// Not the call, but the check of its state alone.
    Check,
}

impl Way {
    pub const ALL: [Self; 8] = [
        Self::Own,
        Self::Plain,
        Self::Tuned,
        Self::PlainBytes,
        Self::Words,
        Self::Bytes,
        Self::Addresses,
        Self::Check,
    ];
}

impl<'a> Stage<'a> {
    fn new(measured: &'a Measured) -> Self {
        let (state, call) = (&measured.state, &measured.call);
        let request = fit::request(call).expect("what is measured is fit");
        let native = || {
            let [a, r, t] = [0, 1, 2].map(|i| state[i] as usize);
            Native::of(
                &state[ADDRESSES_AT..].as_chunks().0[..a],
                &state[ROUTES_AT..].as_chunks().0[..r],
                &state[TABLES_AT..][..t],
            )
        };
        let buffer = filled(call.buffer().least());
        Self {
            measured,
            arguments: Arguments::of(&request),
            template: native(),
            native: native(),
            records: typed::Arguments::of(call),
            first_addresses: Addresses::from_words(state).expect("what is measured is fit"),
            addresses: Addresses::new(),
            state: state.clone(),
            request: bytes_of(call.lent().unwrap_or(&[])),
            first_bytes: bytes_of(state),
            state_bytes: bytes_of(state),
            buffer_bytes: bytes_of(&buffer),
            buffer,
        }
    }

    /// The state as it was before the call.
    fn restore(&mut self, way: Way) {
        match way {
            Way::Own => self.native.copy_from(&self.template),
            Way::Plain | Way::Tuned | Way::Words => {
                self.state.copy_from_slice(&self.measured.state)
            }
            Way::PlainBytes | Way::Bytes => self.state_bytes.copy_from_slice(&self.first_bytes),
            Way::Addresses => self.addresses.clone_from(&self.first_addresses),
            Way::Check => {}
        }
    }

    fn run(&mut self, way: Way) {
        let call = black_box(&self.measured.call);
        match way {
            Way::Own => drop(black_box(self.native.call(black_box(&self.arguments)))),
            Way::Plain => {
                black_box(plain(call, &mut self.state, &mut self.buffer));
            }
            Way::Tuned => {
                black_box(tuned(call, &mut self.state, &mut self.buffer));
            }
            Way::PlainBytes => {
                let (state, buffer) = (&mut self.state_bytes, &mut self.buffer_bytes);
                black_box(plain_bytes(call, state, &self.request, buffer));
            }
            Way::Words => {
                black_box(on_words(call, &mut self.state, &mut self.buffer));
            }
            Way::Bytes => {
                let (state, buffer) = (&mut self.state_bytes, &mut self.buffer_bytes);
                black_box(on_bytes(call, state, &self.request, buffer));
            }
            Way::Addresses => {
                drop(black_box(
                    black_box(&self.records).call(&mut self.addresses),
                ));
            }
            Way::Check => {
                black_box(words::check(black_box(&self.measured.state)));
            }
        }
    }

    /// Each way must do what the model does.
    fn check(&mut self) {
        let call = &self.measured.call;
        let (mut state, mut buffer) = (self.measured.state.clone(), self.buffer.clone());
        let reply = model::model(call, &mut state, &mut buffer);
        let name = &self.measured.name;
        let mut own = self.buffer.clone();
        let told = self.native.call(&self.arguments).write(&mut own);
        assert_eq!(told[0], reply.number, "{name}: the Rust on its own lists");
        // which tells nothing of events 5 and 6
        if call.buffer() == Buffer::Events && reply.value > 0 {
            let last = EVENT_WORDS * (reply.value as usize - 1);
            if [LINK_DOWN, IP_DISABLED].contains(&buffer[last]) {
                own[last..][..EVENT_WORDS].copy_from_slice(&buffer[last..][..EVENT_WORDS]);
            }
        }
        assert!(
            own == buffer,
            "{name}: the Rust on its own lists, the buffer"
        );
        for way in [plain, tuned, on_words] {
            let (mut s, mut b) = (self.measured.state.clone(), self.buffer.clone());
            let found = way(call, &mut s, &mut b);
            assert!((found, &s) == (reply, &state), "{name}: on words");
            assert!(b == buffer, "{name}: on words, the buffer");
        }
        for way in [plain_bytes, on_bytes] {
            let (mut s, mut b) = (self.first_bytes.clone(), self.buffer_bytes.clone());
            let found = way(call, &mut s, &self.request, &mut b);
            assert!((found, s) == (reply, bytes_of(&state)), "{name}: on bytes");
            assert!(b == bytes_of(&buffer), "{name}: on bytes, the buffer");
        }
        let (mut lo, mut b) = (self.first_addresses.clone(), self.buffer.clone());
        let found = self.records.call(&mut lo).write(&mut b);
        assert!(
            (found, &lo.words()[..]) == (reply, &state[..]),
            "{name}: Addresses"
        );
        assert!(b == buffer, "{name}: Addresses, what it gave");
    }
}

/// Measures the call these ways, in `rounds` rounds. Where a call may change
/// its state, each is timed alone, with the state put back before, outside
/// the timed part; others are timed many at once.
pub fn measure(measured: &Measured, rounds: usize, ways: &[Way]) -> Times {
    let mut stage = Stage::new(measured);
    stage.check();
    let changing = measured.call.buffer() == Buffer::Events;
    let clock = clock();
    let calls: Vec<usize> = ways
        .iter()
        .map(|&way| {
            stage.restore(way);
            if changing {
                1
            } else {
                enough(|| stage.run(way))
            }
        })
        .collect();
    let mut times = vec![Vec::with_capacity(rounds); ways.len()];
    for round in 0..rounds {
        for k in 0..ways.len() {
            let i = (round + k) % ways.len();
            let way = ways[i];
            stage.restore(way);
            let time = section(calls[i], || stage.run(way));
            times[i].push((time - clock / calls[i] as f64).max(0.0));
        }
    }
    let mut medians = [0.0; Way::ALL.len()];
    for (way, times) in ways.iter().zip(times) {
        medians[*way as usize] = median(times);
    }
    Times(medians)
}

fn plain(call: &Call, state: &mut [u32], buffer: &mut [u32]) -> Reply {
    job::<false>(call, state, buffer)
}

fn tuned(call: &Call, state: &mut [u32], buffer: &mut [u32]) -> Reply {
    job::<true>(call, state, buffer)
}

/// The plain job on lent bytes: words made of them, and bytes of what the
/// job wrote.
fn plain_bytes(call: &Call, state: &mut [u8], _: &[u8], buffer: &mut [u8]) -> Reply {
    let word = |bytes: &[u8; 4]| u32::from_le_bytes(*bytes);
    let mut words: Vec<u32> = state.as_chunks().0.iter().map(word).collect();
    let mut rows = vec![0; call.buffer().least()];
    let reply = plain(call, &mut words, &mut rows);
    let written = match call.buffer() {
        Buffer::Events => 34 * reply.value as usize,
        Buffer::Listing => 32 * reply.value as usize,
        _ => rows.len() * usize::from(reply.number == 0),
    };
    if call.buffer() == Buffer::Events {
        encode(&words, state);
    }
    encode(&rows[..written], buffer);
    reply
}

fn encode(words: &[u32], bytes: &mut [u8]) {
    for (four, word) in bytes.as_chunks_mut().0.iter_mut().zip(words) {
        *four = word.to_le_bytes();
    }
}

fn reply(r: naskrefim::Reply) -> Reply {
    Reply {
        number: r.number,
        present: r.present,
        value: r.value,
        second: r.second,
    }
}

macro_rules! dispatch {
    ($module:ident, $call:ident, $state:ident, $request:expr, $buffer:ident) => {
        reply(match *$call {
            Call::Up { now } => $module::up($state, $buffer, now),
            Call::Down => $module::down($state, $buffer),
            Call::AddV4 { now, .. } => $module::add_v4($state, $request, $buffer, now),
            Call::DelV4 { .. } => $module::del_v4($state, $request, $buffer),
            Call::Expire { now, allowance } => $module::expire($state, $buffer, now, allowance),
            Call::AddRoute4 { .. } => $module::add_route4($state, $request, $buffer),
            Call::DelRoute4 { .. } => $module::del_route4($state, $request, $buffer),
            Call::Dump4 => $module::dump4($state, $buffer),
            Call::Lookup4 { ip } => $module::lookup4($state, $buffer, ip),
            Call::Lookup4Flow { ip, tos, oif } => {
                $module::lookup4_flow($state, $buffer, ip, tos, oif)
            }
            Call::Local4 { ip } => $module::local4($state, ip),
            Call::Source4 { ip, .. } => $module::source4($state, $request, ip),
            Call::Source { ip } => $module::source($state, ip),
            Call::Select4 {
                present,
                dst,
                scope,
            } => $module::select4($state, present, dst, scope),
            Call::Left { now, .. } => $module::left($request, now),
        })
    };
}

fn on_words(call: &Call, state: &mut [u32], buffer: &mut [u32]) -> Reply {
    dispatch!(words, call, state, call.lent().unwrap_or(&[]), buffer)
}

fn on_bytes(call: &Call, state: &mut [u8], request: &[u8], buffer: &mut [u8]) -> Reply {
    dispatch!(bytes, call, state, request, buffer)
}
