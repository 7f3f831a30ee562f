//! Document 01's claim about two runs, tried on pairs of call lists: where
//! the lists agree once the requests that name a chosen table are struck,
//! whatever isn't struck comes out alike.
use crate::call::{Buffer, Call, Reply};
use crate::compare::filled;
use crate::generate::calls::{self, Host};
use crate::generate::{damage, pools, requests};
use crate::model::{NO_SPACE, model};
use crate::port::WordPort;
use crate::rng::Rng;
use crate::script::written;
use crate::words;
use reference::{AddressRow, Lists, RouteRow};

/// A set of tables without 0, 253, 254 and 255.
#[derive(Clone, Debug)]
pub struct Chosen {
    tables: Vec<u32>,
    /// All but `tables`.
    inverted: bool,
}

impl Chosen {
    pub fn contains(&self, table: u32) -> bool {
        !matches!(table, 0 | 253 | 254 | 255) && self.tables.contains(&table) != self.inverted
    }
    fn strikes(&self, call: &Call) -> bool {
        match call {
            Call::AddRoute4 { request } | Call::DelRoute4 { request } => {
                request.first().is_some_and(|&table| self.contains(table))
            }
            _ => false,
        }
    }
}

/// A call and the length of its buffer.
#[derive(Clone, Debug)]
pub struct Step {
    pub call: Call,
    pub buffer: usize,
}

/// Two lists that agree once struck calls are removed.
#[derive(Clone, Debug)]
pub struct Pair {
    pub chosen: Chosen,
    pub lists: [Vec<Step>; 2],
}

/// What of a run is compared.
#[derive(Debug, Default, PartialEq, Eq)]
struct Seen {
    /// For each call not struck, its reply and the words it wrote.
    calls: Vec<(Reply, Vec<u32>)>,
    addresses: Vec<AddressRow>,
    routes: Vec<RouteRow>,
}

/// How a pair came out.
#[derive(Clone, Debug, PartialEq, Eq)]
pub enum Result {
    Alike {
        compared: usize,
        accepted: usize,
    },
    /// A call of either run was refused for want of space.
    NoSpace,
    /// Where they part.
    Apart(String),
}

/// Makes a pair. The second list has the first one's calls that aren't
/// struck, and struck ones of its own.
pub fn pair(rng: &mut Rng) -> Pair {
    let mut tables: Vec<u32> = (0..rng.below(4))
        .map(|_| rng.pick(&pools::PRIVATE))
        .collect();
    tables.push(rng.pick(&pools::PRIVATE));
    let chosen = Chosen {
        tables,
        inverted: rng.one_in(4),
    };
    let busy = rng.pick(&[0, 1, 2, 2, 6, 12]);
    let mut run = Run::new(rng, &chosen);
    for _ in 0..8 + run.rng.below(50) {
        run.struck(busy);
        run.any();
    }
    let first = run.steps;
    let busy = rng.pick(&[0, 1, 2, 6]);
    let mut run = Run::new(rng, &chosen);
    for step in first.iter().filter(|s| !chosen.strikes(&s.call)) {
        run.struck(busy);
        run.step(step.clone());
    }
    run.struck(busy);
    let second = run.steps;
    Pair {
        chosen,
        lists: [first, second],
    }
}

/// A list in the making, with the state that it leads to.
struct Run<'a> {
    rng: Rng,
    chosen: &'a Chosen,
    state: Vec<u32>,
    host: Host,
    steps: Vec<Step>,
}

impl<'a> Run<'a> {
    fn new(rng: &mut Rng, chosen: &'a Chosen) -> Self {
        Self {
            rng: rng.split(),
            chosen,
            state: words::empty(),
            host: Host::default(),
            steps: Vec::new(),
        }
    }
    fn lists(&self) -> Lists {
        words::decode(&self.state)
    }
    fn step(&mut self, step: Step) {
        let mut buffer = filled(step.buffer);
        model(&step.call, &mut self.state, &mut buffer);
        match step.call {
            Call::Up { .. } => self.host.up = true,
            Call::Down => self.host.up = false,
            _ => {}
        }
        self.steps.push(step);
    }
    /// A call of any kind, at times an unfit one.
    fn any(&mut self) {
        let lists = self.lists();
        let mut call = calls::any(&mut self.rng, &lists, &mut self.host);
        while matches!(call, Call::Left { .. }) {
            call = calls::any(&mut self.rng, &lists, &mut self.host);
        }
        if self.rng.one_in(40) {
            damage::request(&mut self.rng, &mut call);
        }
        let mut buffer = call.buffer().least();
        if buffer > 0 && self.rng.one_in(60) {
            buffer -= 1;
        }
        self.step(Step { call, buffer });
    }
    /// Up to `most` calls that are struck.
    fn struck(&mut self, most: usize) {
        for _ in 0..self.rng.below(most + 1) {
            let lists = self.lists();
            let mut call = if self.rng.below(3) > 0 {
                requests::add_route4(&mut self.rng, &lists, &self.host)
            } else {
                requests::del_route4(&mut self.rng, &lists)
            };
            if let Some(request) = call.lent_mut() {
                while !self.chosen.contains(request[0]) {
                    request[0] = self.rng.pick(&[100, 101, 356, 511, 4_294_967_295, 7, 8]);
                }
            }
            let buffer = call.buffer().least();
            self.step(Step { call, buffer });
        }
    }
}

/// Runs both lists on `port` and compares what document 01 says.
pub fn try_pair(port: &mut dyn WordPort, pair: &Pair) -> Result {
    let [Some(first), Some(second)] = pair.lists.each_ref().map(|l| seen(port, &pair.chosen, l))
    else {
        return Result::NoSpace;
    };
    let part = first
        .calls
        .iter()
        .zip(&second.calls)
        .position(|(a, b)| a != b);
    if let Some(i) = part {
        let mut kept = pair.lists[0]
            .iter()
            .filter(|s| !pair.chosen.strikes(&s.call));
        let call = kept.nth(i).map_or(String::new(), |s| s.call.to_string());
        return Result::Apart(format!(
            "call {i} that isn't struck, {call}: {:?} and {:?}",
            first.calls[i], second.calls[i]
        ));
    }
    if first.calls.len() != second.calls.len() {
        return Result::Apart("the lists do not agree".to_string());
    }
    if first.addresses != second.addresses {
        return Result::Apart("the address rows afterwards".to_string());
    }
    if first.routes != second.routes {
        return Result::Apart("the route rows afterwards".to_string());
    }
    let accepted = first.calls.iter().filter(|(r, _)| r.number == 0);
    Result::Alike {
        compared: first.calls.len(),
        accepted: accepted.count(),
    }
}

/// `None` if a call is refused for want of space.
fn seen(port: &mut dyn WordPort, chosen: &Chosen, steps: &[Step]) -> Option<Seen> {
    let mut state = words::empty();
    let mut seen = Seen::default();
    for Step { call, buffer } in steps {
        let mut buffer = filled(*buffer);
        let mut reply = port.call(call, &mut state, &mut buffer);
        if reply.number == NO_SPACE {
            return None;
        }
        if chosen.strikes(call) {
            continue;
        }
        buffer.truncate(written(call, &reply));
        if reply.number == 0 && call.buffer() == Buffer::Listing {
            buffer = buffer
                .chunks_exact(words::ROUTE_WORDS)
                .filter(|row| !chosen.contains(row[0]))
                .flatten()
                .copied()
                .collect();
            reply = Reply::value((buffer.len() / words::ROUTE_WORDS) as u32);
        }
        seen.calls.push((reply, buffer));
    }
    let lists = words::decode(&state);
    seen.addresses = lists.addresses;
    seen.routes = lists.routes;
    seen.routes.retain(|row| !chosen.contains(row[0]));
    Some(seen)
}

/// Tries `count` pairs on the Rust. Stops at the first that parts.
pub fn run(count: usize, seed: u64) -> bool {
    let mut rng = Rng::new(seed);
    let (mut alike, mut no_space, mut calls, mut taken, mut struck) = (0, 0, 0, 0, 0);
    for i in 0..count {
        let pair = pair(&mut rng);
        match try_pair(&mut crate::port::Model, &pair) {
            Result::Alike { compared, accepted } => {
                alike += 1;
                calls += compared;
                taken += accepted;
                struck += pair.lists[0].len() + pair.lists[1].len() - 2 * compared;
            }
            Result::NoSpace => no_space += 1,
            Result::Apart(what) => {
                println!("pair {i} of seed {seed} parts: {what}");
                print(&pair);
                return false;
            }
        }
    }
    println!(
        "pairs: {count} tried, {alike} alike ({calls} calls compared, {taken} of them not \
         refused; {struck} struck), \
         {no_space} left out for want of space"
    );
    alike > 0
}

fn print(pair: &Pair) {
    println!("chosen: {:?}", pair.chosen);
    for (list, name) in pair.lists.iter().zip(["first", "second"]) {
        println!("{name} list:");
        for step in list {
            let mark = if pair.chosen.strikes(&step.call) {
                "struck "
            } else {
                ""
            };
            println!("  {mark}{} (buffer {})", step.call, step.buffer);
        }
    }
}
