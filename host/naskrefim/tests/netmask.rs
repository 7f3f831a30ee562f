//! Netmasks: each prefix has one, and no other is good.
use core::net::Ipv4Addr;
use naskrefim::{Netmask, Refused};

/// The mask of a prefix as a difference of powers.
fn mask(prefix: u8) -> u32 {
    let host = 2u64.pow(32 - u32::from(prefix));
    u32::try_from((1 << 32) - host).unwrap()
}

#[test]
fn a_mask_for_each_prefix() {
    for prefix in 0..=32 {
        let address = Ipv4Addr::from_bits(mask(prefix));
        let netmask = Netmask::try_from(address).unwrap();
        assert_eq!(netmask.prefix(), prefix);
        assert_eq!(Ipv4Addr::from(netmask), address);
        assert_eq!(netmask.to_string(), address.to_string());
    }
}

#[test]
fn no_other_mask_is_good() {
    let good: Vec<u32> = (0..=32).map(mask).collect();
    let near = |m: &u32| [m.wrapping_sub(1), m.wrapping_add(1)];
    let flipped = |m: &u32| (0..32).map(move |bit| m ^ (1 << bit)).collect::<Vec<_>>();
    for m in good
        .iter()
        .flat_map(near)
        .chain(good.iter().flat_map(flipped))
    {
        let found = Netmask::try_from(Ipv4Addr::from_bits(m));
        if good.contains(&m) {
            assert!(found.is_ok(), "{m:#010x}");
        } else {
            assert_eq!(found, Err(Refused::BAD_MASK), "{m:#010x}");
        }
    }
    assert_eq!(Refused::BAD_MASK.number(), 207);
}
