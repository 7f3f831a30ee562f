//! A netmask in place of a prefix.
use crate::Refused;
use core::fmt;
use core::net::Ipv4Addr;

/// A netmask, for readers that know 255.255.255.0 and not 24: ones, then
/// zeros. Any other mask is [`Refused::BAD_MASK`].
///
/// ```
/// use core::net::Ipv4Addr;
/// use naskrefim::{Netmask, Refused, SCOPE_UNIVERSE, V4};
///
/// # fn main() -> Result<(), Refused> {
/// let mask = Netmask::try_from(Ipv4Addr::new(255, 255, 255, 0))?;
/// assert_eq!(mask.prefix(), 24);
/// assert_eq!(Ipv4Addr::from(mask), Ipv4Addr::new(255, 255, 255, 0));
///
/// let own = Ipv4Addr::new(10, 1, 0, 5);
/// let new = V4::new(own, own, mask.prefix(), SCOPE_UNIVERSE);
/// # assert_eq!(new.prefix, 24);
///
/// let gap = Ipv4Addr::new(255, 0, 255, 0);
/// assert_eq!(Netmask::try_from(gap), Err(Refused::BAD_MASK));
/// # Ok(())
/// # }
/// ```
#[derive(Clone, Copy, PartialEq, Eq, PartialOrd, Ord, Hash)]
pub struct Netmask {
    /// At most 32.
    prefix: u8,
}

impl Netmask {
    /// The length of the prefix that it stands for, 0 to 32: its ones.
    #[must_use]
    pub const fn prefix(self) -> u8 {
        self.prefix
    }
}

impl TryFrom<Ipv4Addr> for Netmask {
    type Error = Refused;
    /// # Errors
    /// [`Refused::BAD_MASK`] unless the ones and the trailing zeros together
    /// make 32.
    fn try_from(mask: Ipv4Addr) -> Result<Self, Refused> {
        let reply = crate::prefix(mask.to_bits()).accepted()?;
        let prefix = u8::try_from(reply.value).expect("at most 32 ones");
        Ok(Self { prefix })
    }
}

impl From<Netmask> for Ipv4Addr {
    fn from(mask: Netmask) -> Self {
        let zeros = u32::BITS - u32::from(mask.prefix);
        // a shift by 32 is none, so prefix 0 stands apart
        Self::from_bits(u32::MAX.checked_shl(zeros).unwrap_or(0))
    }
}

impl fmt::Debug for Netmask {
    fn fmt(&self, f: &mut fmt::Formatter) -> fmt::Result {
        write!(f, "Netmask({self})")
    }
}

impl fmt::Display for Netmask {
    fn fmt(&self, f: &mut fmt::Formatter) -> fmt::Result {
        Ipv4Addr::from(*self).fmt(f)
    }
}
