//! What `naskrefim` says itself, without the library: its constants and
//! kinds must be the Rust's.
use naskrefim::{Kind, Refused};

/// The first that differs.
pub fn compare() -> Result<(), String> {
    macro_rules! named {
        ($($name:ident)*) => { vec![$((stringify!($name), naskrefim::$name.into())),*] };
    }
    let own: Vec<(&str, u32)> = named! {
        SECONDARY NO_PREFIX_ROUTE PERMANENT DEPRECATED FOREVER
        SCOPE_UNIVERSE SCOPE_LINK SCOPE_HOST SCOPE_NOWHERE
        TABLE_DEFAULT TABLE_MAIN TABLE_LOCAL PROTO_KERNEL
        F_REPLACE F_EXCL F_CREATE F_APPEND
    };
    let expected = reference::constants();
    if own != expected {
        return Err(format!("constants: {own:?} in place of {expected:?}"));
    }
    let (own, expected) = (naskrefim::FUZZ, reference::FUZZ);
    if own != expected {
        return Err(format!("FUZZ: {own} in place of {expected}"));
    }
    for code in 0..=u8::MAX {
        let kind = Kind::of(code);
        let found = kind.map(|kind| kind.error().map(Refused::number));
        let expected = reference::kind_error(code);
        if found != expected || Kind::try_from(code).ok() != kind {
            return Err(format!("kind {code}: {found:?} in place of {expected:?}"));
        }
    }
    Ok(())
}
