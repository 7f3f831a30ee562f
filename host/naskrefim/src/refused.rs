//! Why a call said no.
use core::fmt;
use core::num::NonZero;

/// A refusal: one of the numbers of documents 01 and 02, or the metrics
/// error that a request carried in. Nothing was changed, except that the
/// table which a request to add a route names may be listed now, and that
/// counted as a change.
///
/// ```
/// use naskrefim::Refused;
/// assert_eq!(Refused::NO_ROUTE_TO_NETWORK.number(), 101);
/// assert_eq!(Refused::of(17), Some(Refused::THERE_ALREADY));
/// assert_eq!(Refused::of(0), None);
/// ```
#[derive(Clone, Copy, PartialEq, Eq, PartialOrd, Ord, Hash)]
pub struct Refused(NonZero<u32>);

macro_rules! numbers {
    ($($(#[$doc:meta])* $name:ident = $number:literal, $text:literal;)*) => {
        impl Refused {
            $($(#[$doc])* pub const $name: Self = Self(NonZero::new($number).unwrap());)*

            /// What the number means.
            fn text(self) -> &'static str {
                match self {
                    $(Self::$name => $text,)*
                    _ => "the metrics error that the request carried",
                }
            }
        }
    };
}

numbers! {
    /// ENOENT: a new route, and the request does not say create.
    NO_CREATE_FLAG = 2, "a new route without the create flag";
    /// ESRCH: a deletion finds no such route or table.
    NO_SUCH_ROUTE = 3, "no such route or table";
    /// EAGAIN: what a throw route is ([`Kind::error`](crate::Kind::error));
    /// no call gives it.
    NEXT_TABLE = 11, "a throw: the next table is asked";
    /// EACCES: a route prohibits it.
    PROHIBITED = 13, "a route prohibits it";
    /// EEXIST: the address or the route is there.
    THERE_ALREADY = 17, "an address or a route that is there already";
    /// ENODEV: the device isn't the loopback.
    WRONG_DEVICE = 19, "wrong device";
    /// EINVAL: a bad route request; lifetimes that Linux turns down; or a
    /// blackhole that a lookup meets.
    INVALID = 22, "a bad route request, bad lifetimes, or a blackhole";
    /// EOPNOTSUPP: a kind of route that isn't supported.
    NOT_SUPPORTED = 95, "a kind of route that is not supported";
    /// EADDRNOTAVAIL: a deletion finds no such address.
    NO_SUCH_ADDRESS = 99, "no such address";
    /// ENETDOWN: the device is down.
    DOWN = 100, "the device is down";
    /// ENETUNREACH: no route fits.
    NO_ROUTE_TO_NETWORK = 101, "no route fits";
    /// EHOSTUNREACH: a route says that it can't be reached.
    UNREACHABLE = 113, "a route says unreachable";
    /// A lent slice of the wrong length.
    UNFIT_BUFFER = 200, "a lent slice of the wrong length";
    /// A state that is not well-formed, or a row that could not stand in
    /// one.
    UNFIT_STATE = 201, "a state or a row that is not well-formed";
    /// A request, a clock or an allowance out of its range.
    UNFIT_REQUEST = 202, "a request, a clock or an allowance out of its range";
    /// There would have been more than 64 addresses, 256 routes or 32
    /// tables.
    NO_SPACE = 203, "no space: 64 addresses, 256 routes, 32 tables";
    /// A message of under 16 bytes, or a length in it that passes the end
    /// or is below its header.
    BAD_LENGTH = 204, "a message with a bad length in it";
    /// A message of another type than 20, 21, 24 and 25, or of another
    /// family than IPv4.
    NOT_IPV4 = 205, "a message of another type or family";
    /// A message with an attribute of the wrong size, or for a new address
    /// without the local one.
    BAD_ATTRIBUTE = 206, "an attribute of the wrong size, or no local address";
    /// Ones and trailing zeros that don't make 32
    /// ([`Netmask`](crate::Netmask)).
    BAD_MASK = 207, "a netmask that is not good";
    /// A recording with an event that is none of those that a call tells.
    UNKNOWN_EVENT = 208, "an unknown kind of event in a recording";
    /// A recording with an event that doesn't fit: its address or route could
    /// stand in no state, another word should be 0, or the routes so far
    /// don't allow it ([`rebuild`](crate::rebuild)).
    UNFIT_EVENT = 209, "an event that does not fit its recording";
    /// More than 256 destinations
    /// ([`lookup4_many`](crate::Addresses::lookup4_many)).
    TOO_MANY_DESTINATIONS = 210, "more than 256 destinations";
    /// A destination below the one before it
    /// ([`lookup4_many`](crate::Addresses::lookup4_many)).
    NOT_RISING = 211, "destinations that do not rise";
}

impl Refused {
    /// The refusal with this number; none has 0.
    #[must_use]
    pub const fn of(number: u32) -> Option<Self> {
        match NonZero::new(number) {
            Some(number) => Some(Self(number)),
            None => None,
        }
    }
    /// Its number.
    #[must_use]
    pub const fn number(self) -> u32 {
        self.0.get()
    }
}

impl fmt::Debug for Refused {
    fn fmt(&self, f: &mut fmt::Formatter) -> fmt::Result {
        write!(f, "Refused({}: {})", self.0, self.text())
    }
}

impl fmt::Display for Refused {
    fn fmt(&self, f: &mut fmt::Formatter) -> fmt::Result {
        write!(f, "refused {}: {}", self.0, self.text())
    }
}

impl core::error::Error for Refused {}
