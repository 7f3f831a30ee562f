//! Requests as rtnetlink messages carry them.
use crate::records::{Ask4, Lifetimes, Select4, V4};
use crate::{DEL_ROUTE4_WORDS, Refused, layout, words};
use alloc::vec::Vec;
use core::net::Ipv4Addr;

/// What one rtnetlink message asks for: the arguments of one of
/// [`Addresses`](crate::Addresses)' calls, which judges them.
#[derive(Clone, Debug, PartialEq, Eq, Hash)]
pub enum Request {
    /// `RTM_NEWADDR`, type 20: see
    /// [`Addresses::add_v4`](crate::Addresses::add_v4).
    NewAddress {
        /// The address; its life is 0.
        new: V4,
        /// What `IFA_CACHEINFO` says; forever without it.
        lifetimes: Lifetimes,
        /// `NLM_F_REPLACE` without `NLM_F_EXCL`.
        replace: bool,
        /// The host's word.
        up: bool,
    },
    /// `RTM_DELADDR`, type 21: see
    /// [`Addresses::del_v4`](crate::Addresses::del_v4).
    DelAddress {
        /// `IFA_LOCAL`.
        local: Option<Ipv4Addr>,
        /// `IFA_ADDRESS`.
        address: Option<Ipv4Addr>,
        /// `ifa_prefixlen`.
        prefix: u8,
        /// `IFA_LABEL`.
        label: Option<Vec<u8>>,
    },
    /// `RTM_NEWROUTE`, type 24: see
    /// [`Addresses::add_route4`](crate::Addresses::add_route4).
    NewRoute {
        /// The route.
        ask: Ask4,
        /// The host's word.
        up: bool,
    },
    /// `RTM_DELROUTE`, type 25: see
    /// [`Addresses::del_route4`](crate::Addresses::del_route4).
    DelRoute(Select4),
}

impl Request {
    /// Reads one message as it comes off a netlink socket: netlink's header,
    /// `ifaddrmsg` or `rtmsg`, attributes, laid out as netlink(7) and
    /// rtnetlink(7) say. `up` is the host's word on the device, of which no
    /// message knows.
    ///
    /// Only the message's own length counts, and bytes past it are ignored:
    /// where a socket gives several messages at once, the next begins at
    /// that length, rounded up to four. Of a repeated attribute the last
    /// counts, and one that the request has no field for is skipped.
    ///
    /// # What a host looks at itself
    ///
    /// Linux looks at more than the request can hold. A host that wants to
    /// answer as Linux does looks at these in the message:
    ///
    /// - `ifa_index`: the request has no field for it, so a message that
    ///   names another device reads as one for the loopback (`RTA_OIF` of a
    ///   route is read, and judged by the call).
    /// - `NLM_F_REQUEST`: not asked for. Linux skips a message without it.
    /// - `RTA_VIA`, `RTA_MULTIPATH` and the other attributes that have no
    ///   field (`RTA_SRC`, `RTA_FLOW`, `RTA_ENCAP`, `RTA_NH_ID` ..) are
    ///   skipped, and the rest of the message is read without them.
    /// - 0.0.0.0 as a broadcast address, gateway or preferred source is
    ///   present here, and none to Linux.
    /// - An attribute that is longer than its field, and a metric that
    ///   isn't four bytes (`RTAX_CC_ALGO` is a string), are refused here
    ///   with [`Refused::BAD_ATTRIBUTE`]; Linux takes them. A
    ///   name of four bytes (`reno`) is read as a number.
    ///
    /// # Errors
    /// [`Refused::BAD_LENGTH`], then [`Refused::NOT_IPV4`], then
    /// [`Refused::BAD_ATTRIBUTE`].
    ///
    /// ```
    /// use core::net::Ipv4Addr;
    /// use naskrefim::{Refused, Request};
    /// // ip addr add 10.1.0.5/24 dev lo
    /// let message = [
    ///     40, 0, 0, 0, 20, 0, 0x05, 0x06, 0, 0, 0, 0, 0, 0, 0, 0, // length, type, flags
    ///     2, 24, 0, 0, 1, 0, 0, 0, // family, prefix, flags, scope, index
    ///     8, 0, 2, 0, 10, 1, 0, 5, // local
    ///     8, 0, 1, 0, 10, 1, 0, 5, // address
    /// ];
    /// let Request::NewAddress { new, replace, .. } = Request::read(&message, true)? else {
    ///     panic!("type 20 is a new address")
    /// };
    /// assert_eq!((new.local, new.prefix), (Ipv4Addr::new(10, 1, 0, 5), 24));
    /// assert_eq!((new.label.as_slice(), replace), (&b"lo"[..], false));
    /// assert_eq!(Request::read(&message[..39], true), Err(Refused::BAD_LENGTH));
    /// # Ok::<(), Refused>(())
    /// ```
    pub fn read(message: &[u8], up: bool) -> Result<Self, Refused> {
        let mut request = [0; DEL_ROUTE4_WORDS];
        let reply = words::read(message, &mut request, up.into()).accepted()?;
        Ok(layout::request(reply.value, &request))
    }
}
