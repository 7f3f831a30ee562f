//! `Addresses` as a host uses it: document 01's examples, and what it
//! refuses.
use core::net::Ipv4Addr;
use naskrefim::{
    ALLOWANCE_LIMIT, Addresses, Ask4, Event, FOREVER, FUZZ, Kind, Lifetimes, Metrics, Refused,
    STATE_WORDS, Select4, TABLE_LIMIT, V4,
};

const SECOND: u64 = 1_000_000_000;

fn ip(text: &str) -> Ipv4Addr {
    text.parse().unwrap()
}

fn v4(text: &str, prefix: u8) -> V4 {
    V4::new(ip(text), ip(text), prefix, 0)
}

fn up() -> Addresses {
    let mut lo = Addresses::new();
    lo.up(0).unwrap();
    lo
}

fn add(lo: &mut Addresses, text: &str) -> Vec<Event> {
    let told = lo.add_v4(v4(text, 24), Lifetimes::FOREVER, false, true, 7);
    told.unwrap()
}

#[test]
fn up_tells_four_events_and_then_none() {
    let mut lo = Addresses::new();
    let told = lo.up(5).unwrap();
    let [Event::NewAddr4(own), Event::NewRoute4(route, flags), _, _] = &told[..] else {
        panic!("{told:?}")
    };
    assert_eq!(
        (own.local, own.prefix, own.label.as_slice()),
        (Ipv4Addr::LOCALHOST, 8, &b"lo"[..])
    );
    assert_eq!((own.life.created, own.life.changed), (5, 5));
    assert_eq!(
        (route.dst, route.len, route.kind),
        (Ipv4Addr::LOCALHOST, 32, Kind::Local)
    );
    assert_eq!(
        (route.prefsrc, route.device, *flags),
        (Some(Ipv4Addr::LOCALHOST), true, 0x600)
    );
    assert_eq!(lo.up(6), Ok(vec![]));
    assert_eq!(lo.v4(), std::slice::from_ref(own));
}

#[test]
fn lookups_and_sources() {
    let lo = up();
    let found = lo.lookup4(ip("127.5.6.7")).unwrap();
    assert_eq!((found.dst, found.len), (ip("127.0.0.0"), 8));
    assert_eq!(
        lo.source4(&found, ip("127.5.6.7")),
        Ok(Some(Ipv4Addr::LOCALHOST))
    );
    assert_eq!(
        lo.lookup4(ip("10.0.0.1")),
        Err(Refused::NO_ROUTE_TO_NETWORK)
    );
    assert_eq!(
        lo.lookup4_flow(ip("127.0.0.1"), 8, 2),
        Err(Refused::NO_ROUTE_TO_NETWORK)
    );
    assert_eq!(lo.source(ip("10.0.0.1")), Ipv4Addr::LOCALHOST);
    assert!(lo.local4(ip("127.5.6.7")) && !lo.local4(ip("10.0.0.1")));
    assert_eq!(lo.select4(None, 254), Some(Ipv4Addr::LOCALHOST));
    assert_eq!(Addresses::new().select4(Some(ip("10.0.0.1")), 254), None);
    let unfit = naskrefim::Route4 { len: 33, ..found };
    assert_eq!(
        lo.source4(&unfit, ip("10.0.0.1")),
        Err(Refused::UNFIT_STATE)
    );
}

#[test]
fn a_second_address_of_a_subnet_goes_with_the_first() {
    let mut lo = up();
    assert_eq!(add(&mut lo, "10.1.0.5").len(), 4);
    assert_eq!(add(&mut lo, "10.1.0.6").len(), 2);
    let again = lo.add_v4(v4("10.1.0.5", 24), Lifetimes::FOREVER, false, true, 7);
    assert_eq!(again, Err(Refused::THERE_ALREADY));
    let told = lo
        .del_v4(None, Some(ip("10.1.0.77")), 24, Some(b"lo"))
        .unwrap();
    let gone = |event: &Event| matches!(event, Event::DelAddr4(_) | Event::DelRoute4(_));
    assert_eq!((told.len(), told.iter().all(gone)), (6, true));
    assert_eq!(
        lo.del_v4(Some(ip("10.1.0.5")), None, 0, None),
        Err(Refused::NO_SUCH_ADDRESS)
    );
    assert_eq!(lo, up());
}

#[test]
fn lifetimes_end() {
    let mut lo = up();
    let lifetimes = Lifetimes {
        valid: 10,
        preferred: 5,
    };
    lo.add_v4(v4("10.1.0.5", 24), lifetimes, false, true, 0)
        .unwrap();
    let own = lo
        .v4()
        .into_iter()
        .find(|a| a.local == ip("10.1.0.5"))
        .unwrap();
    assert_eq!(own.left(3 * SECOND), Ok((2, 7)));
    assert_eq!(lo.v4()[0].left(3 * SECOND), Ok((FOREVER, FOREVER)));
    assert_eq!(V4 { prefix: 33, ..own }.left(0), Err(Refused::UNFIT_STATE));
    assert_eq!(lo.expire(9_979_999_999, FUZZ).unwrap().len(), 1);
    assert_eq!(lo.expire(9_980_000_000, 4_000_000).unwrap().len(), 0);
    assert_eq!(lo.expire(9_980_000_000, FUZZ).unwrap().len(), 4);
    let too_late = lo.expire(u64::MAX - FUZZ + 1, FUZZ);
    assert_eq!(too_late, Err(Refused::UNFIT_REQUEST));
    assert_eq!(lo.expire(u64::MAX, 0), Ok(vec![]));
    let too_long = lo.expire(0, ALLOWANCE_LIMIT + 1);
    assert_eq!(too_long, Err(Refused::UNFIT_REQUEST));
}

#[test]
fn lifetimes_that_linux_turns_down() {
    let mut lo = up();
    let of = |valid, preferred| Lifetimes { valid, preferred };
    for lifetimes in [of(0, 0), of(10, 20), of(10, FOREVER)] {
        for (new, replace) in [(v4("10.1.0.5", 24), false), (v4("127.0.0.1", 8), true)] {
            let told = lo.add_v4(new, lifetimes, replace, true, 0);
            assert_eq!(told, Err(Refused::INVALID));
        }
        let told = lo.add_v4(v4("10.1.0.5", 33), lifetimes, false, true, 0);
        assert_eq!(told, Err(Refused::UNFIT_REQUEST));
    }
    assert_eq!(lo, up());
    let told = lo.add_v4(v4("10.1.0.5", 24), of(10, 10), false, true, 0);
    assert_eq!(told.unwrap().len(), 4);
}

#[test]
fn p7_a_request_carries_no_life() {
    let mut lo = Addresses::new();
    let mut new = v4("10.1.0.5", 24);
    new.life.valid = 10;
    lo.add_v4(new, Lifetimes::FOREVER, false, false, 0).unwrap();
    assert_eq!(lo.v4()[0].life.valid, 0);
}

#[test]
fn routes() {
    let mut lo = up();
    let metrics: Metrics = core::array::from_fn(|i| i as u32);
    let ask = Ask4 {
        tos: 8,
        metrics: Ok(metrics),
        ..Ask4::new(ip("10.2.0.0"), 24)
    };
    let [Event::NewRoute4(made, 0x600)] = lo.add_route4(&ask, true).unwrap()[..] else {
        panic!()
    };
    assert_eq!((made.tos, made.metrics, made.gateway), (8, metrics, None));
    assert_eq!(lo.lookup4_flow(ip("10.2.0.9"), 0xe8, 1), Ok(made));
    assert!(lo.dump4().contains(&made));
    assert_eq!(lo.add_route4(&ask, false), Err(Refused::DOWN));
    let error = Refused::of(133).unwrap();
    let carried = Ask4 {
        metrics: Err(error),
        ..ask
    };
    assert_eq!(lo.add_route4(&carried, true), Err(error));

    let mut select = Select4 {
        tos: 8,
        ..Select4::new(ip("10.2.0.0"), 24)
    };
    select.metrics = Some(vec![(16, 15)]);
    assert_eq!(lo.del_route4(&select), Err(Refused::NO_SUCH_ROUTE));
    select.metrics = Some(vec![(17, 0)]);
    assert_eq!(lo.del_route4(&select), Err(Refused::UNFIT_REQUEST));
    select.metrics = Some(vec![(16, 16); 18]);
    assert_eq!(lo.del_route4(&select), Err(Refused::UNFIT_REQUEST));
    select.metrics = Some(vec![(16, 16), (0, 0)]);
    assert_eq!(lo.del_route4(&select), Ok(vec![Event::DelRoute4(made)]));
    assert_eq!(lo, up());
    assert_eq!(lo.down(), [Event::LinkDown]);
    assert_eq!(lo.dump4().len(), 2);
}

#[test]
fn unfit_requests_are_refused() {
    let mut lo = up();
    let before = lo.clone();
    let long = V4 {
        label: vec![b'x'; 16],
        ..v4("10.1.0.5", 24)
    };
    for new in [long, v4("10.1.0.5", 33)] {
        let told = lo.add_v4(new, Lifetimes::FOREVER, false, true, 0);
        assert_eq!(told, Err(Refused::UNFIT_REQUEST));
    }
    assert_eq!(
        lo.del_v4(None, None, 0, Some(&[b'x'; 300])),
        Err(Refused::UNFIT_REQUEST)
    );
    assert_eq!(lo, before);
}

#[test]
fn words_are_kept_and_taken_up_again() {
    let mut lo = up();
    add(&mut lo, "10.1.0.5");
    assert_eq!(Addresses::from_words(lo.words()), Ok(lo.clone()));
    assert_eq!(Addresses::from_bytes(&lo.to_bytes()), Ok(lo.clone()));
    assert_eq!(
        Addresses::from_words(&lo.words()[1..]),
        Err(Refused::UNFIT_BUFFER)
    );
    assert_eq!(
        Addresses::from_bytes(&lo.to_bytes()[1..]),
        Err(Refused::UNFIT_BUFFER)
    );
    // up to the last table, and the row counts; between them is the change
    // count, and any is well-formed
    let counts = STATE_WORDS - TABLE_LIMIT;
    for at in [0, 2, 1288, counts - 3, counts, counts + 2, STATE_WORDS - 1] {
        let mut words = *lo.words();
        words[at] = 77;
        assert_eq!(Addresses::from_words(&words), Err(Refused::UNFIT_STATE));
        let bytes = words.map(u32::to_le_bytes);
        assert_eq!(naskrefim::bytes::check(bytes.as_flattened()).number, 201);
    }
    assert_eq!(
        Addresses::from_words(&[0; STATE_WORDS]),
        Ok(Addresses::new())
    );
}

#[test]
fn refusals_say_their_number() {
    assert_eq!(Refused::NO_SPACE.number(), 203);
    assert_eq!(
        Refused::WRONG_DEVICE.to_string(),
        "refused 19: wrong device"
    );
    let mut lo = up();
    for table in 2..32 {
        let ask = Ask4 {
            table,
            ..Ask4::new(ip("10.2.0.0"), 24)
        };
        lo.add_route4(&ask, true).unwrap();
    }
    let ask = Ask4 {
        table: 1,
        ..Ask4::new(ip("10.2.0.0"), 24)
    };
    assert_eq!(lo.add_route4(&ask, true), Err(Refused::NO_SPACE));
}
