//! Recordings of events: what they rebuild, and two held together.
use core::net::Ipv4Addr;
use naskrefim::*;

const OWN: Ipv4Addr = Ipv4Addr::new(10, 1, 0, 5);

fn ask(i: u8) -> Ask4 {
    Ask4::new(Ipv4Addr::new(10, 2, i, 0), 24)
}

/// A loopback and all that it told.
#[derive(Default)]
struct Recorded {
    lo: Addresses,
    told: Vec<Event>,
}

impl Recorded {
    fn keep(&mut self, call: impl FnOnce(&mut Addresses) -> Result<Vec<Event>, Refused>) -> usize {
        let told = call(&mut self.lo).unwrap_or_default();
        self.told.extend_from_slice(&told);
        let rebuilt = rebuild(&self.told).unwrap();
        assert!(self.lo.routes().eq(rebuilt), "behind every call");
        told.len()
    }
}

/// The words of an event row.
fn event_row(kind: u32, flags: u32, route: &[u32]) -> [u32; EVENT_WORDS] {
    let mut row = [0; EVENT_WORDS];
    row[..2].copy_from_slice(&[kind, flags]);
    row[2..2 + route.len()].copy_from_slice(route);
    row
}

/// A route row of 10.2.0.0/24 in the main table, with this last metric.
fn route_row(metric: u32) -> [u32; ROUTE_WORDS] {
    let mut row = [0; ROUTE_WORDS];
    row[..3].copy_from_slice(&[254, 0x0a02_0000, 24]);
    row[5..8].copy_from_slice(&[1, 3, 253]);
    row[12] = 1;
    row[31] = metric;
    row
}

#[test]
fn a_run_is_rebuilt() {
    let mut r = Recorded::default();
    assert_eq!(r.keep(|lo| lo.up(0)), 4);
    let new = V4::new(OWN, OWN, 24, SCOPE_UNIVERSE);
    let lifetimes = Lifetimes {
        valid: 10,
        preferred: 5,
    };
    assert_eq!(r.keep(|lo| lo.add_v4(new, lifetimes, false, true, 0)), 4);
    for (scope, request) in [
        (SCOPE_LINK, F_CREATE),
        (200, F_CREATE | F_APPEND),
        (210, F_CREATE),
        (220, F_CREATE | F_REPLACE),
    ] {
        let ask = Ask4 {
            scope,
            request,
            ..ask(1)
        };
        assert_eq!(r.keep(|lo| lo.add_route4(&ask, true)), 1);
    }
    // the first of three was replaced
    let scopes: Vec<u8> = r.lo.routes().skip(3).take(3).map(|r| r.scope).collect();
    assert_eq!(scopes, [220, SCOPE_LINK, 200]);
    let reject = Ask4 {
        kind: Kind::Blackhole.code(),
        oif: 0,
        ..ask(2)
    };
    r.keep(|lo| lo.add_route4(&reject, false));
    assert_eq!(r.keep(|lo| lo.add_route4(&reject, false)), 0, "refused");
    assert_eq!(r.keep(|lo| Ok(lo.down())), 1);
    assert_eq!(r.told.last(), Some(&Event::LinkDown));
    r.keep(|lo| lo.up(1));
    let from = Ask4 {
        prefsrc: Some(OWN),
        ..ask(3)
    };
    r.keep(|lo| lo.add_route4(&from, true));
    // the main route from it goes with it, and is told
    assert_eq!(r.keep(|lo| lo.expire(20_000_000_000, FUZZ)), 5);
    assert!(r.told.last().is_some_and(Event::has_message));
    r.keep(|lo| lo.del_v4(Some(Ipv4Addr::LOCALHOST), None, 0, None));
    assert_eq!(r.told.last(), Some(&Event::IpDisabled));
    assert_eq!(r.lo.routes().len(), 1, "the blackhole has no device");
}

#[test]
fn marks_have_no_message() {
    for mark in [Event::LinkDown, Event::IpDisabled] {
        assert!(!mark.has_message());
        assert_eq!(mark.message(1, 2, 3), Err(Refused::UNFIT_STATE));
    }
}

#[test]
fn what_does_not_fit() {
    let mut lo = Addresses::new();
    lo.up(0).unwrap();
    let route = lo.routes().next().unwrap();
    let new = |flags| Event::NewRoute4(route, flags);
    let unfit = Err(Refused::UNFIT_EVENT);
    assert_eq!(rebuild(&[]), Ok(vec![]));
    assert_eq!(rebuild(&[new(F_CREATE)]), Ok(vec![route]));
    assert_eq!(rebuild(&[new(F_REPLACE)]), unfit);
    assert_eq!(rebuild(&[new(0), new(F_APPEND)]), unfit);
    assert_eq!(rebuild(&[new(0), new(F_REPLACE)]), unfit);
    assert_eq!(rebuild(&[Event::DelRoute4(route)]), unfit);
    assert_eq!(rebuild(&[new(0), Event::DelRoute4(route)]), Ok(vec![]));
    let bits = Route4 {
        dst: OWN,
        len: 24,
        ..route
    };
    assert_eq!(rebuild(&[Event::NewRoute4(bits, 0)]), unfit);
    let own = V4::new(OWN, OWN, 33, SCOPE_UNIVERSE);
    assert_eq!(rebuild(&[Event::DelAddr4(own)]), unfit);
    let many = |count: u32| -> Vec<Event> {
        let one = |metric| {
            let mut route = route;
            route.metrics[16] = metric;
            Event::NewRoute4(route, F_APPEND)
        };
        (0..count).map(one).collect()
    };
    assert_eq!(rebuild(&many(256)).map(|rows| rows.len()), Ok(256));
    assert_eq!(rebuild(&many(257)), unfit);
}

#[test]
fn two_recordings() {
    let routes = |order: &[u8]| {
        let mut lo = Addresses::new();
        let mut told = lo.up(0).unwrap();
        for i in order {
            told.extend(lo.add_route4(&ask(*i), true).unwrap());
        }
        told
    };
    let (one, other) = (routes(&[1, 2, 3]), routes(&[3, 1, 2]));
    assert_eq!(same(&one, &other), Ok(true));
    assert_eq!(same(&one, &routes(&[1, 2])), Ok(false));
    assert_eq!(same(&[], &[Event::LinkDown, Event::IpDisabled]), Ok(true));
    let twice = [&one[..], &one[..]].concat();
    assert_eq!(same(&one, &twice), Err(Refused::UNFIT_EVENT));
    assert_eq!(same(&twice, &one), Err(Refused::UNFIT_EVENT));
}

/// The lent slices, on words and on bytes: what is behind the rows stays, and
/// a refusal leaves all.
#[test]
fn lent_slices() {
    let events = [
        event_row(3, 0xc00, &route_row(1)),
        event_row(3, 0x400, &route_row(2)),
    ];
    let recording = events.as_flattened();
    let bytes_of = |words: &[u32]| -> Vec<u8> {
        let bytes: Vec<[u8; 4]> = words.iter().map(|word| word.to_le_bytes()).collect();
        bytes.as_flattened().to_vec()
    };
    let mut rows = vec![7; LISTING_BUFFER_WORDS + 1];
    assert_eq!(words::rebuild(recording, &mut rows).value, 2);
    assert_eq!(rows[..64], *[route_row(2), route_row(1)].as_flattened());
    assert!(rows[64..].iter().all(|word| *word == 7));
    let mut on_bytes = vec![7; 4 * LISTING_BUFFER_WORDS + 3];
    let whole = bytes_of(recording);
    assert_eq!(bytes::rebuild(&whole, &mut on_bytes).value, 2);
    assert_eq!(on_bytes[..256], *bytes_of(&rows[..64]));
    assert!(on_bytes[256..].iter().all(|byte| *byte == 7));

    let (unknown, unfit) = (event_row(7, 65_536, &[]), event_row(2, 1, &[]));
    let number = |recording: &[u32], room: usize| {
        let mut rows = vec![7; room];
        let number = words::rebuild(recording, &mut rows).number;
        assert!(rows.iter().all(|word| *word == 7));
        let mut rows = vec![7; 4 * room];
        assert_eq!(
            bytes::rebuild(&bytes_of(recording), &mut rows).number,
            number
        );
        assert!(rows.iter().all(|byte| *byte == 7));
        number
    };
    let room = LISTING_BUFFER_WORDS;
    assert_eq!(number(&unknown, room - 1), 200);
    assert_eq!(number(&recording[1..], room), 200);
    assert_eq!(number(&[unknown, unfit].concat(), room), 208);
    assert_eq!(number(&[unfit, unknown].concat(), room), 209);
    assert_eq!(bytes::rebuild(&whole[1..], &mut on_bytes).number, 200);
    assert_eq!(bytes::same(&bytes_of(&unfit), &whole[1..]).number, 200);
    assert_eq!(words::same(&unfit, &unknown).number, 209);
    assert_eq!(words::same(recording, &unknown).number, 208);
    assert_eq!(words::same(recording, recording).value, 1);
}
