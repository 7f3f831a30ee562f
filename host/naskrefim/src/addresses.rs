//! The addresses and routes of one loopback.
use crate::layout::{self, ADDRESSES_AT, COUNT_AT, ROUTES_AT, TABLES_AT};
use crate::records::{Ask4, Event, Lifetimes, Route4, Select4, V4};
use crate::rows::{AddressIter, RouteIter};
use crate::{EVENT_BUFFER_WORDS, EVENT_WORDS, LISTING_BUFFER_WORDS, ROUTE_WORDS};
use crate::{Refused, Reply, Request, STATE_WORDS, words};
use alloc::boxed::Box;
use alloc::vec;
use alloc::vec::Vec;
use core::fmt;
use core::net::Ipv4Addr;

/// The IPv4 addresses of a guest's loopback and its routing tables: at most
/// 64 addresses, 256 routes and 32 tables.
///
/// It owns the port's words, which are well-formed at all times: it begins
/// with none set, every call keeps them so, and [`Self::from_words`] refuses
/// others. So no call of it gives 200, and 201 is given only for a row that
/// is handed in.
///
/// The clock is the caller's, in nanoseconds, and need not be the system's.
/// Whether the device is up is the caller's to know: [`Self::up`] and
/// [`Self::down`] say what a change does, and requests carry it.
///
/// It has 38,164 bytes for the state, and 52,360 for events from its first
/// change on. The latter are scratch: a clone has none, and two are equal
/// if their addresses, routes and tables are, whatever [`Self::changes`]
/// led to them.
pub struct Addresses {
    state: Box<[u32; STATE_WORDS]>,
    /// Where the library writes its events: empty before the first change.
    events: Box<[u32]>,
}

impl Addresses {
    /// No address, no route, no table.
    #[must_use]
    pub fn new() -> Self {
        Self {
            state: boxed(vec![0; STATE_WORDS]),
            events: Box::default(),
        }
    }

    /// The state that [`Self::words`] gave. [`Self::from_older_words`] takes
    /// one that an older library left, which has fewer words.
    ///
    /// # Errors
    /// [`Refused::UNFIT_BUFFER`] for another length,
    /// [`Refused::UNFIT_STATE`] for words that are not well-formed.
    pub fn from_words(state: &[u32]) -> Result<Self, Refused> {
        words::check(state).accepted()?;
        Ok(Self {
            state: boxed(state.to_vec()),
            events: Box::default(),
        })
    }

    /// All words of the state, to be kept and given to
    /// [`Self::from_words`].
    #[must_use]
    pub fn words(&self) -> &[u32; STATE_WORDS] {
        &self.state
    }

    /// [`Self::from_words`] of little-endian bytes. Those that an older
    /// library left, 38,028 or 38,036, are taken as words by
    /// [`Self::from_older_words`].
    ///
    /// # Errors
    /// As there.
    ///
    /// ```
    /// use naskrefim::{Addresses, Refused};
    /// let mut lo = Addresses::new();
    /// lo.up(0)?;
    /// assert_eq!(Addresses::from_bytes(&lo.to_bytes()), Ok(lo));
    /// assert_eq!(Addresses::from_bytes(b"short"), Err(Refused::UNFIT_BUFFER));
    /// # Ok::<(), Refused>(())
    /// ```
    pub fn from_bytes(state: &[u8]) -> Result<Self, Refused> {
        if state.len() != 4 * STATE_WORDS {
            return Err(Refused::UNFIT_BUFFER);
        }
        let mut all = Self::new();
        for (word, four) in all.state.iter_mut().zip(state.as_chunks().0) {
            *word = u32::from_le_bytes(*four);
        }
        words::check(&all.state[..]).accepted()?;
        Ok(all)
    }

    /// [`Self::words`] as little-endian bytes.
    #[must_use]
    pub fn to_bytes(&self) -> Vec<u8> {
        let mut bytes = vec![0; 4 * STATE_WORDS];
        for (four, word) in bytes.as_chunks_mut().0.iter_mut().zip(&self.state[..]) {
            *four = word.to_le_bytes();
        }
        bytes
    }

    /// The loopback comes up at `now`: 127.0.0.1/8 if it isn't there, and
    /// the routes of every address.
    ///
    /// # Errors
    /// [`Refused::NO_SPACE`].
    pub fn up(&mut self, now: u64) -> Result<Vec<Event>, Refused> {
        let (state, events) = self.lent();
        let reply = words::up(state, events, now);
        self.told(reply)
    }

    /// The loopback goes down: routes through it go, except those of host
    /// scope. [`Event::LinkDown`] alone is told, whether there were any or
    /// not.
    ///
    /// ```
    /// use naskrefim::{Addresses, Event};
    /// assert_eq!(Addresses::new().down(), [Event::LinkDown]);
    /// ```
    pub fn down(&mut self) -> Vec<Event> {
        let (state, events) = self.lent();
        let reply = words::down(state, events);
        self.told(reply).unwrap_or_else(impossible)
    }

    /// Adds an address with `lifetimes` at `now`, or changes the one that is
    /// there if `replace`. `new.life` isn't looked at.
    ///
    /// # Errors
    /// [`Refused::UNFIT_REQUEST`] for a prefix over 32 or a label over 15;
    /// [`Refused::INVALID`] for lifetimes that Linux turns down, valid 0 or
    /// preferred above valid, whether the address is there or not;
    /// [`Refused::NO_SPACE`]; [`Refused::THERE_ALREADY`].
    ///
    /// ```
    /// use core::net::Ipv4Addr;
    /// use naskrefim::{Addresses, Lifetimes, Refused, SCOPE_UNIVERSE, V4};
    /// let mut lo = Addresses::new();
    /// let own = Ipv4Addr::new(10, 1, 0, 5);
    /// let new = V4::new(own, own, 24, SCOPE_UNIVERSE);
    /// let lifetimes = Lifetimes { valid: 10, preferred: 20 };
    /// let told = lo.add_v4(new.clone(), lifetimes, false, false, 0);
    /// assert_eq!(told, Err(Refused::INVALID));
    /// let lifetimes = Lifetimes { valid: 10, preferred: 10 };
    /// assert!(lo.add_v4(new, lifetimes, false, false, 0).is_ok());
    /// ```
    pub fn add_v4(
        &mut self,
        new: V4,
        lifetimes: Lifetimes,
        replace: bool,
        up: bool,
        now: u64,
    ) -> Result<Vec<Event>, Refused> {
        let request = layout::add_v4(&new, lifetimes, replace, up);
        let (state, events) = self.lent();
        let reply = words::add_v4(state, &request, events, now);
        self.told(reply)
    }

    /// Removes the first address with `local`, with `label`, and with
    /// `address` in its subnet of `prefix`, each as far as it is given. With
    /// the last address all routes through the loopback go, and
    /// [`Event::IpDisabled`] is told last.
    ///
    /// # Errors
    /// [`Refused::NO_SUCH_ADDRESS`]; [`Refused::UNFIT_REQUEST`] for a prefix
    /// over 32 or a label over 15.
    pub fn del_v4(
        &mut self,
        local: Option<Ipv4Addr>,
        address: Option<Ipv4Addr>,
        prefix: u8,
        label: Option<&[u8]>,
    ) -> Result<Vec<Event>, Refused> {
        let request = layout::del_v4(local, address, prefix, label);
        let (state, events) = self.lent();
        let reply = words::del_v4(state, &request, events);
        self.told(reply)
    }

    /// [`Self::add_v4`] with a netmask in place of `new.prefix`, which isn't
    /// looked at.
    ///
    /// # Errors
    /// [`Refused::BAD_MASK`] for a mask that isn't good, before what
    /// [`Self::add_v4`] gives.
    ///
    /// ```
    /// use core::net::Ipv4Addr;
    /// use naskrefim::{Addresses, Lifetimes, Refused, SCOPE_UNIVERSE, V4};
    /// let mut lo = Addresses::new();
    /// let own = Ipv4Addr::new(10, 1, 0, 5);
    /// let new = V4::new(own, own, 0, SCOPE_UNIVERSE);
    /// let gap = Ipv4Addr::new(255, 0, 255, 0);
    /// let told = lo.add_v4_mask(new.clone(), gap, Lifetimes::FOREVER, false, false, 0);
    /// assert_eq!(told, Err(Refused::BAD_MASK));
    /// let mask = Ipv4Addr::new(255, 255, 255, 0);
    /// lo.add_v4_mask(new, mask, Lifetimes::FOREVER, false, false, 0)?;
    /// assert_eq!(lo.v4()[0].prefix, 24);
    /// # Ok::<(), Refused>(())
    /// ```
    pub fn add_v4_mask(
        &mut self,
        new: V4,
        mask: Ipv4Addr,
        lifetimes: Lifetimes,
        replace: bool,
        up: bool,
        now: u64,
    ) -> Result<Vec<Event>, Refused> {
        let mut request = layout::add_v4(&new, lifetimes, replace, up);
        request[layout::ADD_V4_PREFIX] = mask.into();
        let (state, events) = self.lent();
        let reply = words::add_v4_mask(state, &request, events, now);
        self.told(reply)
    }

    /// [`Self::del_v4`] with a netmask in place of the prefix.
    ///
    /// # Errors
    /// [`Refused::BAD_MASK`] for a mask that isn't good, before what
    /// [`Self::del_v4`] gives.
    pub fn del_v4_mask(
        &mut self,
        local: Option<Ipv4Addr>,
        address: Option<Ipv4Addr>,
        mask: Ipv4Addr,
        label: Option<&[u8]>,
    ) -> Result<Vec<Event>, Refused> {
        let mut request = layout::del_v4(local, address, 0, label);
        request[layout::DEL_V4_PREFIX] = mask.into();
        let (state, events) = self.lent();
        let reply = words::del_v4_mask(state, &request, events);
        self.told(reply)
    }

    /// Removes addresses whose valid lifetime has ended at `now`, and marks
    /// those whose preferred one has. A lifetime that ends within the next
    /// `allowance` nanoseconds counts as ended: a host that calls this at
    /// its timer's ticks allows for the tick. [`FUZZ`](crate::FUZZ), 20 ms,
    /// is what the Rust and Linux allow for. The last address goes as in
    /// [`Self::del_v4`].
    ///
    /// ```
    /// use core::net::Ipv4Addr;
    /// use naskrefim::{Addresses, FUZZ, Lifetimes, Refused, SCOPE_UNIVERSE, V4};
    ///
    /// # fn main() -> Result<(), Refused> {
    /// let mut lo = Addresses::new();
    /// let own = Ipv4Addr::new(10, 1, 0, 5);
    /// let ten_seconds = Lifetimes { valid: 10, preferred: 10 };
    /// lo.add_v4(V4::new(own, own, 24, SCOPE_UNIVERSE), ten_seconds, false, false, 0)?;
    /// let near_its_end = 9_980_000_000;
    /// assert!(lo.clone().expire(near_its_end, FUZZ)?.len() > 0);
    /// assert_eq!(lo.expire(near_its_end, 4_000_000)?, []);
    /// assert_eq!(lo.expire(0, 1_000_000_001), Err(Refused::UNFIT_REQUEST));
    /// # Ok(())
    /// # }
    /// ```
    ///
    /// # Errors
    /// [`Refused::UNFIT_REQUEST`] for an allowance over
    /// [`ALLOWANCE_LIMIT`](crate::ALLOWANCE_LIMIT), a second, and for a
    /// clock with which it passes `u64::MAX`.
    pub fn expire(&mut self, now: u64, allowance: u64) -> Result<Vec<Event>, Refused> {
        let (state, events) = self.lent();
        let reply = words::expire(state, events, now, allowance);
        self.told(reply)
    }

    /// Adds a route. Its table is listed whatever comes of it, unless the
    /// refusal is 202 or 203.
    ///
    /// # Errors
    /// [`Refused::INVALID`] for a bad request, [`Refused::NOT_SUPPORTED`]
    /// for its kind, the error that its metrics carry,
    /// [`Refused::WRONG_DEVICE`], [`Refused::DOWN`], what the lookup of a
    /// gateway gives ([`Self::lookup4`]), [`Refused::THERE_ALREADY`] and
    /// [`Refused::NO_CREATE_FLAG`]; [`Refused::UNFIT_REQUEST`] for a
    /// metrics error over 133; [`Refused::NO_SPACE`].
    pub fn add_route4(&mut self, ask: &Ask4, up: bool) -> Result<Vec<Event>, Refused> {
        let request = layout::add_route4(ask, up);
        let (state, events) = self.lent();
        let reply = words::add_route4(state, &request, events);
        self.told(reply)
    }

    /// Deletes a route.
    ///
    /// # Errors
    /// [`Refused::NO_SUCH_ROUTE`]; [`Refused::INVALID`] for a length over 32
    /// or bits of `dst` outside it; [`Refused::UNFIT_REQUEST`] for over 17
    /// metrics or an index over 16.
    pub fn del_route4(&mut self, select: &Select4) -> Result<Vec<Event>, Refused> {
        let request = layout::del_route4(select);
        let (state, events) = self.lent();
        let reply = words::del_route4(state, &request, events);
        self.told(reply)
    }

    /// Reads one rtnetlink message and does what it asks for at `now`: see
    /// [`Request::read`], which also says what a host looks at itself.
    /// A message isn't acknowledged, nor are its events told to anybody:
    /// that is the host's.
    ///
    /// # Errors
    /// [`Refused::BAD_LENGTH`], [`Refused::NOT_IPV4`] or
    /// [`Refused::BAD_ATTRIBUTE`] for a message that can't be read; else
    /// what [`Self::add_v4`], [`Self::del_v4`], [`Self::add_route4`] or
    /// [`Self::del_route4`] gives.
    ///
    /// ```
    /// use core::net::Ipv4Addr;
    /// use naskrefim::{Addresses, Event, Refused};
    /// let mut lo = Addresses::new();
    /// lo.up(0)?;
    /// // ip addr add 10.1.0.5/24 dev lo
    /// let message = [
    ///     40, 0, 0, 0, 20, 0, 0x05, 0x06, 0, 0, 0, 0, 0, 0, 0, 0, // length, type, flags
    ///     2, 24, 0, 0, 1, 0, 0, 0, // family, prefix, flags, scope, index
    ///     8, 0, 2, 0, 10, 1, 0, 5, // local
    ///     8, 0, 1, 0, 10, 1, 0, 5, // address
    /// ];
    /// let told = lo.perform(&message, true, 1_000)?;
    /// assert!(matches!(&told[0], Event::NewAddr4(new) if new.prefix == 24));
    /// assert!(lo.local4(Ipv4Addr::new(10, 1, 0, 5)));
    /// let again = lo.perform(&message, true, 2_000);
    /// assert_eq!(again, Err(Refused::THERE_ALREADY));
    /// # Ok::<(), Refused>(())
    /// ```
    pub fn perform(&mut self, message: &[u8], up: bool, now: u64) -> Result<Vec<Event>, Refused> {
        match Request::read(message, up)? {
            Request::NewAddress {
                new,
                lifetimes,
                replace,
                up,
            } => self.add_v4(new, lifetimes, replace, up, now),
            Request::DelAddress {
                local,
                address,
                prefix,
                label,
            } => self.del_v4(local, address, prefix, label.as_deref()),
            Request::NewRoute { ask, up } => self.add_route4(&ask, up),
            Request::DelRoute(select) => self.del_route4(&select),
        }
    }

    /// The routes of all listed tables, in the order of a dump.
    /// [`Self::routes`] has them in the state's order, and needs no buffer;
    /// [`Self::dump4_begin`] gives them in parts.
    #[must_use]
    pub fn dump4(&self) -> Vec<Route4> {
        let mut listing = vec![0; LISTING_BUFFER_WORDS];
        let reply = answered(words::dump4(&self.state[..], &mut listing));
        RouteIter::of(&listing, reply.value).collect()
    }

    /// The route to `ip`.
    ///
    /// # Errors
    /// [`Refused::NO_ROUTE_TO_NETWORK`] if none fits; the
    /// [`error`](crate::Kind::error) of the kind of one that rejects.
    pub fn lookup4(&self, ip: Ipv4Addr) -> Result<Route4, Refused> {
        let mut row = [0; ROUTE_WORDS];
        words::lookup4(&self.state[..], &mut row, ip.into()).accepted()?;
        Ok(layout::route(&row))
    }

    /// The route of a flow to `ip` with `tos`, through the device `oif` if
    /// that isn't 0.
    ///
    /// # Errors
    /// As of [`Self::lookup4`].
    pub fn lookup4_flow(&self, ip: Ipv4Addr, tos: u8, oif: u32) -> Result<Route4, Refused> {
        let mut row = [0; ROUTE_WORDS];
        let state = &self.state[..];
        words::lookup4_flow(state, &mut row, ip.into(), tos.into(), oif).accepted()?;
        Ok(layout::route(&row))
    }

    /// Whether `ip` is the loopback's own.
    #[must_use]
    pub fn local4(&self, ip: Ipv4Addr) -> bool {
        answered(words::local4(&self.state[..], ip.into())).value == 1
    }

    /// The source address of packets to `ip` by `route`; `None` if there is
    /// no address.
    ///
    /// # Errors
    /// [`Refused::UNFIT_STATE`] for a route that could not be in a table:
    /// its length over 32, or bits of `dst` outside it.
    pub fn source4(&self, route: &Route4, ip: Ipv4Addr) -> Result<Option<Ipv4Addr>, Refused> {
        let row = layout::route_row(route);
        let reply = words::source4(&self.state[..], &row, ip.into());
        reply.accepted().map(address)
    }

    /// The source address of packets to `ip`: that of its route, and
    /// 127.0.0.1 if there is none.
    #[must_use]
    pub fn source(&self, ip: Ipv4Addr) -> Ipv4Addr {
        answered(words::source(&self.state[..], ip.into()))
            .value
            .into()
    }

    /// The first address of a scope as wide as `scope` or wider, best in
    /// the subnet of `dst`; `None` if there is no address.
    #[must_use]
    pub fn select4(&self, dst: Option<Ipv4Addr>, scope: u8) -> Option<Ipv4Addr> {
        let (present, value) = (dst.is_some().into(), dst.map_or(0, u32::from));
        let reply = words::select4(&self.state[..], present, value, scope.into());
        address(answered(reply))
    }

    /// The addresses, in their order.
    #[must_use]
    pub fn v4(&self) -> Vec<V4> {
        self.addresses().collect()
    }

    /// The addresses, in their order, each made of its row as it is asked
    /// for.
    ///
    /// ```
    /// use naskrefim::{Addresses, Refused};
    /// let mut lo = Addresses::new();
    /// lo.up(0)?;
    /// assert!(lo.addresses().any(|a| a.local.is_loopback()));
    /// # Ok::<(), Refused>(())
    /// ```
    pub fn addresses(&self) -> AddressIter<'_> {
        AddressIter::of(&self.state[ADDRESSES_AT..ROUTES_AT], self.state[0])
    }

    /// The routes of all tables, listed or not, each made of its row as it
    /// is asked for, in the state's order: destination rising, length
    /// falling, table falling, tos falling, priority rising.
    ///
    /// ```
    /// use naskrefim::{Addresses, Refused};
    /// let mut lo = Addresses::new();
    /// lo.up(0)?;
    /// let lengths: Vec<u8> = lo.routes().map(|r| r.len).collect();
    /// assert_eq!(lengths, [8, 32, 32]);
    /// # Ok::<(), Refused>(())
    /// ```
    pub fn routes(&self) -> RouteIter<'_> {
        RouteIter::of(&self.state[ROUTES_AT..TABLES_AT], self.state[1])
    }

    /// The state, and a buffer for events.
    fn lent(&mut self) -> (&mut [u32], &mut [u32]) {
        if self.events.is_empty() {
            self.events = vec![0; EVENT_BUFFER_WORDS].into_boxed_slice();
        }
        (&mut self.state[..], &mut self.events)
    }

    /// The events of a changing call.
    fn told(&self, reply: Reply) -> Result<Vec<Event>, Refused> {
        let rows = reply.accepted()?.value as usize;
        let (events, _) = self.events.as_chunks::<EVENT_WORDS>();
        Ok(events[..rows].iter().map(layout::event).collect())
    }
}

/// A state's words where they are: never on the stack.
fn boxed(words: Vec<u32>) -> Box<[u32; STATE_WORDS]> {
    let words = words.into_boxed_slice();
    words.try_into().expect("as many words as a state has")
}

/// The reply of a call that a well-formed state is never refused.
fn answered(reply: Reply) -> Reply {
    reply.accepted().unwrap_or_else(impossible)
}

pub(crate) fn impossible<T>(refused: Refused) -> T {
    panic!("{refused}, of a well-formed state and a fit call")
}

fn address(reply: Reply) -> Option<Ipv4Addr> {
    (reply.present == 1).then(|| reply.value.into())
}

impl Default for Addresses {
    fn default() -> Self {
        Self::new()
    }
}

impl Clone for Addresses {
    fn clone(&self) -> Self {
        Self {
            state: self.state.clone(),
            events: Box::default(),
        }
    }
    /// Copies the state and allocates nothing.
    fn clone_from(&mut self, other: &Self) {
        self.state.copy_from_slice(&other.state[..]);
    }
}

/// Equal if all words of the lists are: the change count is left out. The row
/// counts follow from the lists.
impl PartialEq for Addresses {
    fn eq(&self, other: &Self) -> bool {
        self.state[..COUNT_AT] == other.state[..COUNT_AT]
    }
}

impl Eq for Addresses {}

impl fmt::Debug for Addresses {
    fn fmt(&self, f: &mut fmt::Formatter) -> fmt::Result {
        f.debug_struct("Addresses")
            .field("v4", &self.v4())
            .field("routes4", &self.routes().len())
            .field("tables4", &self.tables().collect::<Vec<_>>())
            .field("changes", &self.changes())
            .finish()
    }
}
