//! Addresses, routes, requests and events, with the Rust's names.
use crate::layout;
use crate::{F_CREATE, FOREVER, NO_METRICS, SCOPE_LINK, SCOPE_NOWHERE, TABLE_MAIN};
use crate::{MESSAGE_BYTES, Refused, words};
use alloc::vec::Vec;
use core::net::Ipv4Addr;

/// An IPv4 address of the loopback.
#[derive(Clone, Debug, PartialEq, Eq, Hash)]
pub struct V4 {
    /// The address itself.
    pub local: Ipv4Addr,
    /// Its peer, or the same as `local`.
    pub address: Ipv4Addr,
    /// At most 32.
    pub prefix: u8,
    /// The broadcast address that its request named.
    pub broadcast: Option<Ipv4Addr>,
    /// [`SCOPE_UNIVERSE`](crate::SCOPE_UNIVERSE) and so on.
    pub scope: u8,
    /// `IFA_F_*`, with [`SECONDARY`](crate::SECONDARY),
    /// [`PERMANENT`](crate::PERMANENT) and
    /// [`DEPRECATED`](crate::DEPRECATED) as the port sets them.
    pub flags: u32,
    /// `IFA_PROTO`.
    pub proto: u8,
    /// At most 15 bytes.
    pub label: Vec<u8>,
    /// The metric of its prefix route.
    pub priority: u32,
    /// Not looked at in a request.
    pub life: Life,
}

impl V4 {
    /// An address as a request names it: the rest as the Rust has it
    /// (label `lo`, no broadcast, no flags, no life).
    #[must_use]
    pub fn new(local: Ipv4Addr, address: Ipv4Addr, prefix: u8, scope: u8) -> Self {
        Self {
            local,
            address,
            prefix,
            broadcast: None,
            scope,
            flags: 0,
            proto: 0,
            label: b"lo".to_vec(),
            priority: 0,
            life: Life::default(),
        }
    }
    /// The seconds of the preferred and of the valid lifetime that are left
    /// at `now`, in nanoseconds; [`FOREVER`] for both while
    /// [`PERMANENT`](crate::PERMANENT).
    ///
    /// # Errors
    /// [`Refused::UNFIT_STATE`] for a prefix over 32 or a label over 15.
    pub fn left(&self, now: u64) -> Result<(u32, u32), Refused> {
        let reply = words::left(&layout::address_row(self), now).accepted()?;
        Ok((reply.value, reply.second))
    }
}

/// The lifetimes of an address in seconds from when they were last set, and
/// when it was made and they were set, in nanoseconds of the clock.
#[derive(Clone, Copy, Debug, Default, PartialEq, Eq, Hash)]
pub struct Life {
    /// The seconds until the address goes; not kept if that is never.
    pub valid: u32,
    /// The seconds until it is [`DEPRECATED`](crate::DEPRECATED); not kept
    /// if that is never.
    pub preferred: u32,
    /// When it was made.
    pub created: u64,
    /// When its lifetimes were set.
    pub changed: u64,
}

impl Life {
    /// The seconds of the preferred and of the valid lifetime that are left
    /// at `now`, of an address that is not permanent: see [`V4::left`].
    ///
    /// ```
    /// use naskrefim::{FOREVER, Life};
    /// let life = Life { valid: 10, preferred: 5, created: 0, changed: 1_000_000_000 };
    /// assert_eq!(life.left(3_500_000_000), (3, 8));
    /// assert_eq!(life.left(60_000_000_000), (0, 0));
    /// // none is taken from either when the preferred one never ends
    /// let life = Life { preferred: FOREVER, ..life };
    /// assert_eq!(life.left(3_500_000_000), (FOREVER, 10));
    /// ```
    #[must_use]
    pub fn left(&self, now: u64) -> (u32, u32) {
        // a row of zeros beside it is well-formed, and not permanent
        let reply = words::left(&layout::life_row(self), now);
        (reply.value, reply.second)
    }
}

/// The lifetimes that a request asks for, in seconds. As in Linux, `valid`
/// is not 0 and `preferred` at most `valid`, else the request is refused
/// with [`Refused::INVALID`].
#[derive(Clone, Copy, Debug, PartialEq, Eq, Hash)]
pub struct Lifetimes {
    /// Until the address goes.
    pub valid: u32,
    /// Until it is [`DEPRECATED`](crate::DEPRECATED).
    pub preferred: u32,
}

impl Lifetimes {
    /// Both never end.
    pub const FOREVER: Self = Self {
        valid: FOREVER,
        preferred: FOREVER,
    };
}

/// What a route is (`RTN_*`).
#[derive(Clone, Copy, Debug, PartialEq, Eq, Hash)]
pub enum Kind {
    /// To another host.
    Unicast,
    /// To the loopback itself.
    Local,
    /// To all of a subnet.
    Broadcast,
    /// Lookups give [`Refused::INVALID`].
    Blackhole,
    /// Lookups give [`Refused::UNREACHABLE`].
    Unreachable,
    /// Lookups give [`Refused::PROHIBITED`].
    Prohibit,
    /// A lookup goes on to the next table.
    Throw,
}

impl Kind {
    /// The kind with this code; `None` for one that isn't supported.
    #[must_use]
    pub const fn of(code: u8) -> Option<Self> {
        Some(match code {
            1 => Self::Unicast,
            2 => Self::Local,
            3 => Self::Broadcast,
            6 => Self::Blackhole,
            7 => Self::Unreachable,
            8 => Self::Prohibit,
            9 => Self::Throw,
            _ => return None,
        })
    }
    /// Its code.
    #[must_use]
    pub const fn code(self) -> u8 {
        match self {
            Self::Unicast => 1,
            Self::Local => 2,
            Self::Broadcast => 3,
            Self::Blackhole => 6,
            Self::Unreachable => 7,
            Self::Prohibit => 8,
            Self::Throw => 9,
        }
    }
    /// What a lookup that ends at a route of this kind gives;
    /// [`Refused::NEXT_TABLE`] leads on and is no call's answer.
    ///
    /// ```
    /// use naskrefim::{Kind, Refused};
    /// assert_eq!(Kind::Prohibit.error(), Some(Refused::PROHIBITED));
    /// assert_eq!(Kind::Local.error(), None);
    /// ```
    #[must_use]
    pub const fn error(self) -> Option<Refused> {
        match self {
            Self::Blackhole => Some(Refused::INVALID),
            Self::Unreachable => Some(Refused::UNREACHABLE),
            Self::Prohibit => Some(Refused::PROHIBITED),
            Self::Throw => Some(Refused::NEXT_TABLE),
            Self::Unicast | Self::Local | Self::Broadcast => None,
        }
    }
}

/// [`Kind::of`], with the refusal that a request to add a route with this
/// code meets: [`Refused::NOT_SUPPORTED`] for Linux's other kinds that can
/// be asked for, [`Refused::INVALID`] for the rest.
///
/// ```
/// use naskrefim::{Kind, Refused};
/// assert_eq!(Kind::try_from(9), Ok(Kind::Throw));
/// assert_eq!(Kind::try_from(5), Err(Refused::NOT_SUPPORTED));
/// assert_eq!(Kind::try_from(12), Err(Refused::INVALID));
/// ```
impl TryFrom<u8> for Kind {
    type Error = Refused;
    fn try_from(code: u8) -> Result<Self, Refused> {
        Self::of(code).ok_or(match code {
            4 | 5 | 10 | 11 => Refused::NOT_SUPPORTED,
            _ => Refused::INVALID,
        })
    }
}

/// [`Kind::code`].
impl From<Kind> for u8 {
    fn from(kind: Kind) -> u8 {
        kind.code()
    }
}

/// The metrics of a route: 17 values (`RTAX_*` at its code less one), 0 for
/// none.
pub type Metrics = [u32; 17];

/// An IPv4 route.
#[derive(Clone, Copy, Debug, PartialEq, Eq, Hash)]
pub struct Route4 {
    /// The table that it is in.
    pub table: u32,
    /// Its destination, without bits outside `len`.
    pub dst: Ipv4Addr,
    /// The length of its prefix, at most 32.
    pub len: u8,
    /// The type of service that it is for; 0 for all.
    pub tos: u8,
    /// The smaller one comes first.
    pub priority: u32,
    /// What it is.
    pub kind: Kind,
    /// Who made it: [`PROTO_KERNEL`](crate::PROTO_KERNEL) or what the
    /// request said.
    pub proto: u8,
    /// How far its destination is.
    pub scope: u8,
    /// The source address that it prefers.
    pub prefsrc: Option<Ipv4Addr>,
    /// The next hop.
    pub gateway: Option<Ipv4Addr>,
    /// Whether it goes through the loopback; kinds that reject have no
    /// device.
    pub device: bool,
    /// `RTNH_F_ONLINK`.
    pub onlink: bool,
    /// Whether a route of link scope reaches its gateway.
    pub uses_gateway: bool,
    /// What else its request carried.
    pub metrics: Metrics,
}

/// A change that the host tells netlink of.
#[derive(Clone, Debug, PartialEq, Eq, Hash)]
pub enum Event {
    /// An address came, or was changed.
    NewAddr4(V4),
    /// An address went.
    DelAddr4(V4),
    /// A route came, with the flags of its notification (`NLM_F_*`).
    NewRoute4(Route4, u16),
    /// A route went.
    DelRoute4(Route4),
    /// The loopback went down, and with it the routes through it, but for
    /// those of host scope ([`SCOPE_HOST`](crate::SCOPE_HOST)): nothing else
    /// tells of these.
    LinkDown,
    /// The last address went, and with it the routes through the loopback
    /// that were left: nothing else tells of these. It is its call's last
    /// event.
    IpDisabled,
}

impl Event {
    /// Whether rtnetlink has a [`message`](Self::message) for it: of an
    /// address or a route it has one, and none for [`Event::LinkDown`] and
    /// [`Event::IpDisabled`], which are for recordings
    /// ([`rebuild`](crate::rebuild)).
    ///
    /// ```
    /// use naskrefim::{Addresses, Event, Refused};
    /// let mut lo = Addresses::new();
    /// assert!(lo.up(0)?.iter().all(Event::has_message));
    /// assert!(!lo.down().iter().any(Event::has_message));
    /// # Ok::<(), Refused>(())
    /// ```
    #[must_use]
    pub const fn has_message(&self) -> bool {
        !matches!(self, Self::LinkDown | Self::IpDisabled)
    }

    /// The event as the rtnetlink message that tells it, of type 20, 21, 24
    /// or 25: netlink's header with `sequence` and `port`, `ifaddrmsg` or
    /// `rtmsg`, attributes by rising code; at most [`MESSAGE_BYTES`], and a
    /// multiple of four, so that a next one may follow at once. The header's
    /// flags are those of [`Event::NewRoute4`], else 0.
    ///
    /// An address's lifetimes are those that are [`left`](V4::left) at the
    /// clock `now`, in nanoseconds, and its stamps are 0. The device index
    /// is 1, that of the loopback. Absent values, a destination of length 0,
    /// and a priority, a metric or an address's proto of 0 give no
    /// attribute.
    ///
    /// [`Request::read`](crate::Request::read) finds in it what was put in,
    /// but for a label with a zero byte in it, which is read up to there.
    ///
    /// # Errors
    /// [`Refused::UNFIT_STATE`] for one that has no message
    /// ([`Self::has_message`]). None for another that a call told, or whose
    /// address or route is one of a state; [`Refused::UNFIT_STATE`] for one
    /// that could stand in none: a prefix over 32, a label over 15 bytes, or
    /// a destination with bits outside its length.
    ///
    /// ```
    /// use core::net::Ipv4Addr;
    /// use naskrefim::{Addresses, Lifetimes, Refused, Request, SCOPE_UNIVERSE, V4};
    ///
    /// # fn main() -> Result<(), Refused> {
    /// let mut lo = Addresses::new();
    /// lo.up(0)?;
    /// let own = Ipv4Addr::new(10, 1, 0, 5);
    /// let new = V4::new(own, own, 24, SCOPE_UNIVERSE);
    /// let lifetimes = Lifetimes { valid: 10, preferred: 5 };
    /// let told = lo.add_v4(new, lifetimes, false, true, 0)?;
    ///
    /// // to those who listen, three seconds later
    /// let message = told[0].message(7, 0, 3_000_000_000)?;
    /// assert_eq!(message.len(), 76);
    /// assert_eq!(message[..12], [76, 0, 0, 0, 20, 0, 0, 0, 7, 0, 0, 0]); // length, type, flags, sequence
    /// assert_eq!(message[16..24], [2, 24, 0, 0, 1, 0, 0, 0]); // family, prefix, flags, scope, index
    /// assert_eq!(message[24..32], [8, 0, 1, 0, 10, 1, 0, 5]); // address
    /// assert_eq!(message[48..56], [20, 0, 6, 0, 2, 0, 0, 0]); // preferred for two seconds more
    ///
    /// let read = Request::read(&message, true)?;
    /// let Request::NewAddress { new, lifetimes, .. } = read else {
    ///     panic!("type 20 is a new address")
    /// };
    /// assert_eq!((new.local, new.prefix), (own, 24));
    /// assert_eq!(lifetimes, Lifetimes { valid: 7, preferred: 2 });
    /// # Ok(())
    /// # }
    /// ```
    pub fn message(&self, sequence: u32, port: u32, now: u64) -> Result<Vec<u8>, Refused> {
        let mut message = [0; MESSAGE_BYTES];
        let row = layout::event_row(self);
        let reply = words::write(&row, &mut message, sequence, port, now).accepted()?;
        Ok(message[..reply.value as usize].to_vec())
    }
}

/// A route to add, as its request names it.
#[derive(Clone, Copy, Debug, PartialEq, Eq, Hash)]
pub struct Ask4 {
    /// 0 stands for [`TABLE_MAIN`].
    pub table: u32,
    /// Its destination.
    pub dst: Ipv4Addr,
    /// The length of its prefix.
    pub len: u8,
    /// The type of service that it is for; 0 for all.
    pub tos: u8,
    /// The smaller one comes first.
    pub priority: u32,
    /// Any code: see [`Kind::code`].
    pub kind: u8,
    /// Who asks (`RTPROT_*`).
    pub proto: u8,
    /// How far its destination is.
    pub scope: u8,
    /// The source address that it prefers: one of the loopback's.
    pub prefsrc: Option<Ipv4Addr>,
    /// The next hop.
    pub gateway: Option<Ipv4Addr>,
    /// 1 is the loopback, 0 none.
    pub oif: u32,
    /// `rtm_flags`; 4 is on-link.
    pub flags: u32,
    /// The request's `NLM_F_*`: [`F_CREATE`] and so on.
    pub request: u16,
    /// Its metrics, or the error (1 to 133) that converting them gave.
    pub metrics: Result<Metrics, Refused>,
}

impl Ask4 {
    /// A new unicast route `dst`/`len` through the loopback: of link scope,
    /// in the main table, proto 3 (`RTPROT_BOOT`), with the create flag and
    /// nothing else.
    #[must_use]
    pub fn new(dst: Ipv4Addr, len: u8) -> Self {
        Self {
            table: TABLE_MAIN,
            dst,
            len,
            tos: 0,
            priority: 0,
            kind: Kind::Unicast.code(),
            proto: 3,
            scope: SCOPE_LINK,
            prefsrc: None,
            gateway: None,
            oif: 1,
            flags: 0,
            request: F_CREATE,
            metrics: Ok(NO_METRICS),
        }
    }
}

/// A route to delete: the first one of `table` to `dst`/`len` of `tos`,
/// from `priority` on, that has the rest, where each of it is any if 0 or
/// absent ([`SCOPE_NOWHERE`] for the scope).
#[derive(Clone, Debug, PartialEq, Eq, Hash)]
pub struct Select4 {
    /// 0 stands for [`TABLE_MAIN`].
    pub table: u32,
    /// Its destination.
    pub dst: Ipv4Addr,
    /// The length of its prefix.
    pub len: u8,
    /// The type of service that it is for.
    pub tos: u8,
    /// Its priority at least.
    pub priority: u32,
    /// Its [`Kind::code`], or any.
    pub kind: u8,
    /// Who made it, or anybody.
    pub proto: u8,
    /// Its scope, or any.
    pub scope: u8,
    /// The source address that it prefers, or any.
    pub prefsrc: Option<Ipv4Addr>,
    /// The next hop, or any.
    pub gateway: Option<Ipv4Addr>,
    /// 1 is the loopback, 0 any or none.
    pub oif: u32,
    /// The metrics that it must have, each as an index (at most 16) and its
    /// value, at most 17 of them; `None` where the request names one that
    /// no route has.
    pub metrics: Option<Vec<(usize, u32)>>,
}

impl Select4 {
    /// The first route of the main table to `dst`/`len` with tos 0.
    #[must_use]
    pub fn new(dst: Ipv4Addr, len: u8) -> Self {
        Self {
            table: TABLE_MAIN,
            dst,
            len,
            tos: 0,
            priority: 0,
            kind: 0,
            proto: 0,
            scope: SCOPE_NOWHERE,
            prefsrc: None,
            gateway: None,
            oif: 0,
            metrics: Some(Vec::new()),
        }
    }
}
