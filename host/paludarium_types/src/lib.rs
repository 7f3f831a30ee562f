//! The part of `paludarium_types` that `interface.rs` uses: its error
//! number. The numbers are Linux's asm-generic ones, as document 01 says.

/// An error number.
#[derive(Clone, Copy, Debug, PartialEq, Eq)]
pub struct Errno(pub u32);

impl Errno {
    pub const ENOENT: Self = Self(2);
    pub const EAGAIN: Self = Self(11);
    pub const EACCES: Self = Self(13);
    pub const EEXIST: Self = Self(17);
    pub const ENODEV: Self = Self(19);
    pub const EINVAL: Self = Self(22);
}
