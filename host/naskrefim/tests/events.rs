//! Events as messages: against what Linux tells of the same changes
//! (host/messages/told.txt), by hand, and read again.
use core::net::Ipv4Addr;
use naskrefim::*;

fn file(name: &str) -> String {
    let path = format!("{}/../messages/{name}", env!("CARGO_MANIFEST_DIR"));
    std::fs::read_to_string(&path).unwrap_or_else(|e| panic!("{path}: {e}"))
}

fn bytes_of(hex: &str) -> Vec<u8> {
    let digits: Vec<u8> = hex.bytes().filter(u8::is_ascii_hexdigit).collect();
    let pair = |two: &[u8]| u8::from_str_radix(std::str::from_utf8(two).unwrap(), 16).unwrap();
    digits.chunks(2).map(pair).collect()
}

/// Linux's message with its attributes by rising code, and stamps of 0.
fn arranged(message: &[u8]) -> Vec<u8> {
    let (head, mut rest) = message.split_at(if message[4] < 24 { 24 } else { 28 });
    let mut attributes = Vec::new();
    while !rest.is_empty() {
        let length = usize::from(rest[0]).next_multiple_of(4);
        let (mut one, behind) = (rest[..length].to_vec(), &rest[length..]);
        if message[4] < 24 && one[2] == 6 {
            one[12..].fill(0);
        }
        attributes.push(one);
        rest = behind;
    }
    attributes.sort_by_key(|one| one[2]);
    [head.to_vec(), attributes.concat()].concat()
}

/// Each request that `ip` sent to Linux is performed, and what is told of it
/// is what Linux told, byte for byte, but for the order of attributes and
/// the stamps.
#[test]
fn what_linux_tells() {
    let (requests, told) = (file("ip.txt"), file("told.txt"));
    let mut told = told.lines().filter(|line| !line.starts_with('#'));
    let mut next = |command: &str| -> Vec<Vec<u8>> {
        let (of, messages) = told.next().unwrap().split_once('\t').unwrap();
        assert_eq!(of, command);
        let messages = messages.split(' ').filter(|hex| !hex.is_empty());
        messages.map(|hex| arranged(&bytes_of(hex))).collect()
    };
    let mut lo = Addresses::new();
    let messages = |told: Vec<Event>| -> Vec<Vec<u8>> {
        let all = told.iter().map(|event| event.message(0, 0, 1_000));
        all.map(Result::unwrap).collect()
    };
    assert_eq!(messages(lo.up(1_000).unwrap()), next("ip link set lo up"));
    let mut compared = 0;
    let requests = requests.lines().filter(|line| !line.starts_with('#'));
    for line in requests.take_while(|line| !line.starts_with('=')) {
        let [_, command, hex] = line.split('\t').collect::<Vec<_>>()[..] else {
            panic!("{line}")
        };
        let own = messages(lo.perform(&bytes_of(hex), true, 1_000).unwrap_or_default());
        assert_eq!(own, next(command), "{command}");
        compared += own.len();
    }
    assert!(compared > 50, "{compared}");
    assert_eq!(told.next(), None);
}

/// 11.3.0.0/16 of table 1000 with everything that a route can have.
fn every() -> Route4 {
    Route4 {
        table: 1_000,
        dst: Ipv4Addr::new(11, 3, 0, 0),
        len: 16,
        tos: 4,
        priority: 50,
        kind: Kind::Unicast,
        proto: 3,
        scope: 253,
        prefsrc: Some(Ipv4Addr::new(10, 1, 0, 5)),
        gateway: Some(Ipv4Addr::new(10, 1, 0, 1)),
        device: true,
        onlink: true,
        uses_gateway: true,
        metrics: [1; 17],
    }
}

#[test]
fn a_route_by_hand() {
    let mut route = every();
    route.metrics = NO_METRICS;
    [route.metrics[1], route.metrics[16]] = [1_400, 7];
    let message = Event::DelRoute4(route).message(7, 9, 0).unwrap();
    let expected = bytes_of(
        "60000000 1900 0000 07000000 09000000 02 10 00 04 fc 03 fd 01 04000000
         0800 0100 0b030000  0800 0400 01000000  0800 0500 0a010001
         0800 0600 32000000  0800 0700 0a010005
         1400 0800 0800 0200 78050000 0800 1100 07000000
         0800 0f00 e8030000",
    );
    assert_eq!(message, expected);
}

/// A message of each type is read as a request that has all of the event
/// that such a request has a field for.
#[test]
fn what_is_read_back() {
    let own = V4 {
        address: Ipv4Addr::new(10, 9, 0, 6),
        broadcast: Some(Ipv4Addr::new(10, 9, 0, 7)),
        flags: NO_PREFIX_ROUTE | 0x100,
        proto: 5,
        label: b"lo:fifteen-char".to_vec(),
        priority: 77,
        life: Life {
            valid: 100,
            preferred: 50,
            created: 1,
            changed: 2,
        },
        ..V4::new(Ipv4Addr::new(10, 1, 0, 7), every().dst, 30, SCOPE_LINK)
    };
    let read = |event: Event| Request::read(&event.message(7, 9, 0).unwrap(), true);
    let new = Request::NewAddress {
        new: V4 {
            life: Life::default(),
            ..own.clone()
        },
        lifetimes: Lifetimes {
            valid: 100,
            preferred: 50,
        },
        replace: false,
        up: true,
    };
    assert_eq!(read(Event::NewAddr4(own.clone())), Ok(new));
    let deleted = Request::DelAddress {
        local: Some(own.local),
        address: Some(own.address),
        prefix: 30,
        label: Some(own.label.clone()),
    };
    assert_eq!(read(Event::DelAddr4(own)), Ok(deleted));

    let r = every();
    let ask = Ask4 {
        table: r.table,
        tos: r.tos,
        priority: r.priority,
        kind: r.kind.code(),
        proto: r.proto,
        scope: r.scope,
        prefsrc: r.prefsrc,
        gateway: r.gateway,
        oif: 1,
        flags: 4,
        request: 0x0600,
        metrics: Ok(r.metrics),
        ..Ask4::new(r.dst, r.len)
    };
    let new = Request::NewRoute { ask, up: true };
    assert_eq!(read(Event::NewRoute4(r, 0x0600)), Ok(new));
    let select = Select4 {
        table: r.table,
        tos: r.tos,
        priority: r.priority,
        kind: r.kind.code(),
        proto: r.proto,
        scope: r.scope,
        prefsrc: r.prefsrc,
        gateway: r.gateway,
        oif: 1,
        metrics: Some((0..17).zip(r.metrics).collect()),
        ..Select4::new(r.dst, r.len)
    };
    assert_eq!(read(Event::DelRoute4(r)), Ok(Request::DelRoute(select)));
}

/// A label with a zero byte in it is written whole, and read up to there.
#[test]
fn a_zero_in_a_label() {
    let own = Ipv4Addr::new(10, 1, 0, 5);
    let label = b"lo\0a".to_vec();
    let event = Event::DelAddr4(V4 {
        label: label.clone(),
        ..V4::new(own, own, 24, SCOPE_UNIVERSE)
    });
    let message = event.message(0, 0, 0).unwrap();
    assert_eq!(message[40..49], [&[9, 0, 3, 0][..], &label, &[0]].concat());
    let Ok(Request::DelAddress { label, .. }) = Request::read(&message, true) else {
        panic!("a deleted address")
    };
    assert_eq!(label.as_deref(), Some(&b"lo"[..]));
}

/// The longest message fills the buffer, and its flags are the event's.
#[test]
fn the_longest() {
    let message = Event::NewRoute4(every(), 0x0600).message(0, 0, 0).unwrap();
    assert_eq!(message.len(), MESSAGE_BYTES);
    assert_eq!(message[4..8], [24, 0, 0, 6]);
    let Ok(Request::NewRoute { ask, .. }) = Request::read(&message, true) else {
        panic!("a new route")
    };
    assert_eq!((ask.request, ask.metrics), (0x0600, Ok([1; 17])));
    assert_eq!((ask.gateway, ask.flags, ask.oif), (every().gateway, 4, 1));
}

/// What could stand in no state is refused, and nothing else is.
#[test]
fn what_is_refused() {
    let own = Ipv4Addr::new(10, 1, 0, 5);
    let number = |event: Event| event.message(0, 0, 0).map(|message| message.len());
    let refused = Err(Refused::UNFIT_STATE);
    assert_eq!(number(Event::NewAddr4(V4::new(own, own, 32, 0))), Ok(76));
    assert_eq!(number(Event::DelAddr4(V4::new(own, own, 33, 0))), refused);
    for (length, expected) in [(0, Ok(76)), (15, Ok(88)), (16, refused), (17, refused)] {
        let label = vec![b'l'; length];
        let own = V4 {
            label,
            ..V4::new(own, own, 24, 0)
        };
        assert_eq!(number(Event::NewAddr4(own)), expected, "{length}");
    }
    let bits = Route4 {
        dst: own,
        ..every()
    };
    assert_eq!(number(Event::DelRoute4(bits)), refused);
    let event = [0; EVENT_WORDS];
    let mut message = [7; MESSAGE_BYTES];
    for (reply, expected) in [
        (words::write(&event, &mut message[1..], 0, 0, 0), 200),
        (words::write(&event, &mut message, 0, 0, 0), 201),
        (words::write(&event[1..], &mut message, 0, 0, 0), 201),
        (bytes::write(&[0; 135], &mut message, 0, 0, 0), 201),
        (bytes::write(&[], &mut message[1..], 0, 0, 0), 200),
    ] {
        assert_eq!(reply.number, expected);
    }
    // an event that is none of a message's, as `down` and `del_v4` write it
    for (kind, mark) in [(5, Event::LinkDown), (6, Event::IpDisabled)] {
        assert_eq!(number(mark), refused);
        let mut event = [0; EVENT_WORDS];
        event[0] = kind;
        assert_eq!(words::write(&event, &mut message, 0, 0, 0).number, 201);
        let mut event = [0; 4 * EVENT_WORDS];
        event[0] = kind as u8;
        assert_eq!(bytes::write(&event, &mut message, 0, 0, 0).number, 201);
    }
    assert_eq!(message, [7; MESSAGE_BYTES]);
}

/// Lifetimes are those at the clock that is given.
#[test]
fn lifetimes() {
    let own = Ipv4Addr::new(10, 1, 0, 5);
    let mut lo = Addresses::new();
    let lifetimes = Lifetimes {
        valid: 10,
        preferred: 5,
    };
    let new = V4::new(own, own, 24, SCOPE_UNIVERSE);
    let told = lo.add_v4(new, lifetimes, false, true, 0).unwrap();
    for (seconds, preferred, valid) in [(0, 5, 10), (3, 2, 7), (7, 0, 3), (20, 0, 0)] {
        let message = told[0].message(0, 0, seconds * 1_000_000_000).unwrap();
        let Ok(Request::NewAddress { lifetimes, .. }) = Request::read(&message, true) else {
            panic!("a new address")
        };
        assert_eq!(lifetimes, Lifetimes { valid, preferred }, "{seconds}");
    }
}
