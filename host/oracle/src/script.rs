//! Short sequences written by hand: requests with usual values, a state
//! that goes along, and events as text.
use crate::call::{Call, Reply};
use crate::compare::{Case, filled};
use crate::model::model;
use crate::words::{self, EVENT_WORDS, ROUTE_WORDS};
use std::cell::RefCell;
use std::net::Ipv4Addr;

pub const FOREVER: u32 = u32::MAX;
pub const CREATE: u32 = 0x400;

/// `10.1.0.5` as a number.
pub fn ip(text: &str) -> u32 {
    let address: Ipv4Addr = text.parse().expect("an address written by hand");
    u32::from(address)
}

/// `10.1.0.0/24` as two numbers.
pub fn net(text: &str) -> (u32, u32) {
    let (address, len) = text.split_once('/').expect("a prefix written by hand");
    (ip(address), len.parse().expect("a length written by hand"))
}

fn optional(value: Option<u32>) -> [u32; 2] {
    [u32::from(value.is_some()), value.unwrap_or(0)]
}

/// A request to add an address.
#[derive(Clone, Copy, Debug)]
pub struct NewAddress {
    pub local: u32,
    pub address: u32,
    pub prefix: u32,
    pub broadcast: Option<u32>,
    pub scope: u32,
    pub flags: u32,
    pub proto: u32,
    pub label: &'static str,
    pub priority: u32,
    pub valid: u32,
    pub preferred: u32,
    pub replace: bool,
    pub up: bool,
}

/// `10.1.0.5/24`: no broadcast, label `lo`, lasting, the device down.
pub fn address(text: &str) -> NewAddress {
    let (local, prefix) = net(text);
    NewAddress {
        local,
        address: local,
        prefix,
        broadcast: None,
        scope: 0,
        flags: 0,
        proto: 0,
        label: "lo",
        priority: 0,
        valid: FOREVER,
        preferred: FOREVER,
        replace: false,
        up: false,
    }
}

impl NewAddress {
    pub fn up(self) -> Self {
        Self { up: true, ..self }
    }
    pub fn words(&self) -> Vec<u32> {
        let mut w = vec![self.local, self.address, self.prefix];
        w.extend(optional(self.broadcast));
        w.extend([self.scope, self.flags, self.proto]);
        w.extend(words::label(self.label.as_bytes()));
        w.extend([self.priority, self.valid, self.preferred]);
        w.extend([u32::from(self.replace), u32::from(self.up)]);
        w
    }
}

/// A request to add or delete a route.
#[derive(Clone, Copy, Debug)]
pub struct Route {
    pub table: u32,
    pub dst: u32,
    pub len: u32,
    pub tos: u32,
    pub priority: u32,
    pub kind: u32,
    pub scope: u32,
    pub prefsrc: Option<u32>,
    pub gateway: Option<u32>,
    pub oif: u32,
    pub flags: u32,
    pub request: u32,
    pub error: u32,
    pub up: bool,
}

/// `10.2.0.0/24`: unicast through the device, in the main table, of link
/// scope, to be made anew, the device down.
pub fn route(text: &str) -> Route {
    let (dst, len) = net(text);
    Route {
        table: 254,
        dst,
        len,
        tos: 0,
        priority: 0,
        kind: 1,
        scope: 253,
        prefsrc: None,
        gateway: None,
        oif: 1,
        flags: 0,
        request: CREATE,
        error: 0,
        up: false,
    }
}

/// A route to delete, by its destination and tos alone.
pub fn any(text: &str) -> Route {
    Route {
        kind: 0,
        scope: 255,
        oif: 0,
        ..route(text)
    }
}

impl Route {
    pub fn up(self) -> Self {
        Self { up: true, ..self }
    }
    /// A kind that rejects has no device.
    pub fn rejecting(self, kind: u32) -> Self {
        Self {
            kind,
            oif: 0,
            ..self
        }
    }
    fn first(&self) -> Vec<u32> {
        let mut w = vec![self.table, self.dst, self.len, self.tos, self.priority];
        w.extend([self.kind, 3, self.scope]);
        w.extend(optional(self.prefsrc));
        w.extend(optional(self.gateway));
        w
    }
    pub fn adding(&self) -> Vec<u32> {
        let mut w = self.first();
        w.extend([self.oif, self.flags, self.request, self.error]);
        w.extend([0; 17]);
        w.push(u32::from(self.up));
        w
    }
    /// Of any proto.
    pub fn deleting(&self) -> Vec<u32> {
        let mut w = self.first();
        w[6] = 0;
        w.extend([self.oif, 1, 0]);
        w.extend([0; 34]);
        w
    }
}

/// What a call told.
#[derive(Clone, Debug)]
pub struct Told {
    pub reply: Reply,
    /// The words it wrote into its buffer.
    pub written: Vec<u32>,
    /// Its events, listed rows or row, as text.
    pub text: Vec<String>,
}

/// A state that goes from call to call.
#[derive(Clone, Debug)]
pub struct Script {
    pub state: Vec<u32>,
}

impl Default for Script {
    fn default() -> Self {
        Self {
            state: words::empty(),
        }
    }
}

/// The state after the first `up`.
pub fn started() -> Script {
    let mut script = Script::default();
    script.up(0);
    script
}

thread_local! {
    /// The cases that scripts make, while somebody collects them.
    static MADE: RefCell<Option<Vec<Case>>> = const { RefCell::new(None) };
}

/// The cases of all calls that scripts make during `run`.
pub fn collect(run: impl FnOnce()) -> Vec<Case> {
    MADE.replace(Some(Vec::new()));
    run();
    MADE.take().unwrap_or_default()
}

impl Script {
    pub fn call(&mut self, call: Call) -> Told {
        MADE.with_borrow_mut(|made| {
            if let Some(made) = made {
                made.push(Case::new(call.clone(), self.state.clone()));
            }
        });
        let mut buffer = filled(call.buffer().least());
        let reply = model(&call, &mut self.state, &mut buffer);
        let written = written(&call, &reply);
        buffer.truncate(written);
        let text = if written == ROUTE_WORDS || matches!(call, Call::Dump4) {
            buffer.chunks_exact(ROUTE_WORDS).map(route_text).collect()
        } else {
            buffer.chunks_exact(EVENT_WORDS).map(event_text).collect()
        };
        Told {
            reply,
            written: buffer,
            text,
        }
    }
    pub fn up(&mut self, now: u64) -> Told {
        self.call(Call::Up { now })
    }
    pub fn add(&mut self, new: NewAddress) -> Told {
        self.add_at(new, 0)
    }
    pub fn add_at(&mut self, new: NewAddress, now: u64) -> Told {
        let request = new.words();
        self.call(Call::AddV4 { request, now })
    }
    /// Deletes by local address alone.
    pub fn del(&mut self, local: &str) -> Told {
        let mut request = vec![0; 11];
        request[..2].copy_from_slice(&[1, ip(local)]);
        self.call(Call::DelV4 { request })
    }
    /// With the Rust's own allowance.
    pub fn expire(&mut self, now: u64) -> Told {
        self.expire_by(now, reference::FUZZ)
    }
    pub fn expire_by(&mut self, now: u64, allowance: u64) -> Told {
        self.call(Call::Expire { now, allowance })
    }
    pub fn add_route(&mut self, new: Route) -> Told {
        let request = new.adding();
        self.call(Call::AddRoute4 { request })
    }
    pub fn del_route(&mut self, old: Route) -> Told {
        let request = old.deleting();
        self.call(Call::DelRoute4 { request })
    }
    pub fn lookup(&mut self, text: &str) -> Told {
        self.call(Call::Lookup4 { ip: ip(text) })
    }
    /// The lookup of a flow with `tos`, through any device.
    pub fn flow(&mut self, text: &str, tos: u32) -> Told {
        let (ip, oif) = (ip(text), 0);
        self.call(Call::Lookup4Flow { ip, tos, oif })
    }
    pub fn tables(&self) -> Vec<u32> {
        words::decode(&self.state).tables
    }
    pub fn addresses(&self) -> usize {
        self.state[0] as usize
    }
    /// The routes in state order, as text.
    pub fn routes(&self) -> Vec<String> {
        let lists = words::decode(&self.state);
        lists.routes.iter().map(|r| route_text(r)).collect()
    }
}

/// How many words of its buffer a call has written.
pub fn written(call: &Call, reply: &Reply) -> usize {
    use crate::call::Buffer;
    if reply.number != 0 {
        return 0;
    }
    match call.buffer() {
        Buffer::None => 0,
        Buffer::Events => reply.value as usize * EVENT_WORDS,
        Buffer::Listing => reply.value as usize * ROUTE_WORDS,
        Buffer::Row => ROUTE_WORDS,
    }
}

/// `255 127.0.0.0/8 kind 2`, with what isn't usual after it.
pub fn route_text(row: &[u32]) -> String {
    let mut text = format!(
        "{} {}/{} kind {}",
        row[0],
        Ipv4Addr::from(row[1]),
        row[2],
        row[5]
    );
    if row[3] != 0 {
        text += &format!(" tos {}", row[3]);
    }
    if row[4] != 0 {
        text += &format!(" priority {}", row[4]);
    }
    if row[8] == 1 {
        text += &format!(" from {}", Ipv4Addr::from(row[9]));
    }
    if row[10] == 1 {
        text += &format!(" via {}", Ipv4Addr::from(row[11]));
    }
    text
}

/// `NewAddr4 10.1.0.5/24` or `NewRoute4 0x600 255 10.1.0.5/32 kind 2 ..`.
pub fn event_text(row: &[u32]) -> String {
    let of = |name: &str| {
        let secondary = if row[8] & 1 == 1 { " secondary" } else { "" };
        format!("{name} {}/{}{secondary}", Ipv4Addr::from(row[2]), row[4])
    };
    match row[0] {
        1 => of("NewAddr4"),
        2 => of("DelAddr4"),
        3 => format!("NewRoute4 {:#x} {}", row[1], route_text(&row[2..])),
        4 => format!("DelRoute4 {}", route_text(&row[2..])),
        5 => "the device down".to_string(),
        6 => "the last address gone".to_string(),
        other => format!("unknown event {other}"),
    }
}
