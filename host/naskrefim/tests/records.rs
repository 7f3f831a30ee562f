//! Constants, kinds, lifetimes, and records as keys.
use core::net::Ipv4Addr;
use naskrefim::*;
use std::collections::HashSet;

#[test]
fn constants_are_linuxs() {
    assert_eq!(
        [SECONDARY, DEPRECATED, PERMANENT, NO_PREFIX_ROUTE, FOREVER],
        [0x01, 0x20, 0x80, 0x200, u32::MAX]
    );
    assert_eq!(
        [SCOPE_UNIVERSE, SCOPE_LINK, SCOPE_HOST, SCOPE_NOWHERE],
        [0, 253, 254, 255]
    );
    assert_eq!([TABLE_DEFAULT, TABLE_MAIN, TABLE_LOCAL], [253, 254, 255]);
    assert_eq!(
        [F_REPLACE, F_EXCL, F_CREATE, F_APPEND],
        [0x100, 0x200, 0x400, 0x800]
    );
    assert_eq!((PROTO_KERNEL, NO_METRICS), (2, [0; 17]));
    assert_eq!(
        [STATE_WORDS, EVENT_BUFFER_WORDS, LISTING_BUFFER_WORDS],
        [9_541, 13_090, 8_192]
    );
}

#[test]
fn kinds_have_codes_and_errors() {
    let numbers = |code| Kind::of(code).map(|kind| kind.error().map_or(0, Refused::number));
    let found: Vec<(u8, u32)> = (0..=u8::MAX)
        .filter_map(|code| Some((code, numbers(code)?)))
        .collect();
    assert_eq!(
        found,
        [(1, 0), (2, 0), (3, 0), (6, 22), (7, 113), (8, 13), (9, 11)]
    );
    for code in 0..=u8::MAX {
        match Kind::try_from(code) {
            Ok(kind) => assert_eq!((Kind::of(code), u8::from(kind)), (Some(kind), code)),
            Err(refused) => assert_eq!(
                (Kind::of(code), refused.number()),
                (
                    None,
                    if [4, 5, 10, 11].contains(&code) {
                        95
                    } else {
                        22
                    }
                )
            ),
        }
    }
}

/// What `try_from` says is what a request meets.
#[test]
fn a_kind_that_is_none_is_refused_alike() {
    let mut lo = Addresses::new();
    lo.up(0).unwrap();
    for kind in 0..=u8::MAX {
        let ask = Ask4 {
            kind,
            scope: SCOPE_NOWHERE,
            oif: 0,
            ..Ask4::new(Ipv4Addr::new(10, 2, 0, 0), 24)
        };
        if let Err(refused) = Kind::try_from(kind) {
            assert_eq!(lo.add_route4(&ask, true), Err(refused), "kind {kind}");
        }
    }
}

#[test]
fn lifetimes_that_are_left() {
    const SECOND: u64 = 1_000_000_000;
    let life = Life {
        valid: 10,
        preferred: 5,
        created: 0,
        changed: SECOND,
    };
    let own = Ipv4Addr::new(10, 1, 0, 5);
    let mut address = V4::new(own, own, 24, SCOPE_UNIVERSE);
    address.life = life;
    for now in [
        0,
        SECOND,
        2 * SECOND - 1,
        6 * SECOND,
        11 * SECOND - 1,
        11 * SECOND,
        u64::MAX,
    ] {
        let age = u32::try_from(now.saturating_sub(SECOND) / SECOND).unwrap_or(u32::MAX);
        let expected = (5u32.saturating_sub(age), 10u32.saturating_sub(age));
        assert_eq!(life.left(now), expected);
        assert_eq!(address.left(now), Ok(expected));
    }
    let endless = Life {
        valid: FOREVER,
        ..life
    };
    assert_eq!(endless.left(3 * SECOND), (3, FOREVER));
    // a mark of the address, of which a life knows nothing
    address.flags |= PERMANENT;
    assert_eq!(address.left(3 * SECOND), Ok((FOREVER, FOREVER)));
    assert_eq!(address.life.left(3 * SECOND), (3, 8));
}

#[test]
fn records_are_keys() {
    let mut lo = Addresses::new();
    let told = lo.up(0).unwrap();
    let events: HashSet<Event> = told.iter().chain(&told).cloned().collect();
    assert_eq!(events.len(), 4);
    let routes: HashSet<Route4> = lo.routes().chain(lo.dump4()).collect();
    assert_eq!(routes.len(), 3);
    let own: HashSet<V4> = lo.addresses().collect();
    assert!(own.contains(&lo.v4()[0]));
    let net = Ipv4Addr::new(10, 2, 0, 0);
    let asks: HashSet<Ask4> = [Ask4::new(net, 24), Ask4::new(net, 16)].into();
    assert!(asks.contains(&Ask4::new(net, 16)) && !asks.contains(&Ask4::new(net, 8)));
    let selects: HashSet<Select4> = [Select4::new(net, 24)].into();
    assert!(selects.contains(&Select4::new(net, 24)));
    let replies: HashSet<Reply> = [words::check(&[]), words::check(lo.words())].into();
    assert_eq!(replies.len(), 2);
}
