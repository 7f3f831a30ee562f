//! What a loopback tells, as messages for `ip monitor`: they are written to
//! the file that is named, and for each event a line is printed: its message
//! in hexadecimal, a tab, and what `ip -N -d -o monitor file` prints of the
//! message, here made of the event itself. `host/messages/monitor` compares
//! the two.
use core::net::Ipv4Addr;
use naskrefim::{Addresses, Ask4, DEPRECATED, Event, F_CREATE, F_REPLACE, FOREVER, FUZZ, Kind};
use naskrefim::{Lifetimes, NO_METRICS, NO_PREFIX_ROUTE, PERMANENT, Refused, Route4};
use naskrefim::{SCOPE_LINK, SCOPE_UNIVERSE, SECONDARY, Select4, V4};

const SECOND: u64 = 1_000_000_000;
/// The metrics that `ip` shows as plain numbers: the index, and the name.
const NAMES: [(usize, &str); 10] = [
    (1, "mtu"),
    (2, "window"),
    (5, "ssthresh"),
    (6, "cwnd"),
    (7, "advmss"),
    (8, "reordering"),
    (9, "hoplimit"),
    (10, "initcwnd"),
    (13, "initrwnd"),
    (14, "quickack"),
];

fn main() -> Result<(), Box<dyn std::error::Error>> {
    let path = std::env::args().nth(1).ok_or("usage: monitor FILE")?;
    let mut messages = Vec::new();
    for (sequence, (event, now)) in (0..).zip(day()?) {
        let message = event.message(sequence, 0, now)?;
        let hex: String = message.iter().map(|b| format!("{b:02x}")).collect();
        println!("{hex}\t{}", line(&event, now)?);
        messages.extend(message);
    }
    std::fs::write(path, messages)?;
    Ok(())
}

/// Events, each with the clock at which it is told.
fn day() -> Result<Vec<(Event, u64)>, Refused> {
    let mut lo = Addresses::new();
    let mut all = lo.up(0)?;
    all.extend(addresses(&mut lo)?);
    all.extend(routes(&mut lo)?);
    let mut told: Vec<(Event, u64)> = all.into_iter().map(|e| (e, 7 * SECOND / 2)).collect();
    // one is deprecated, and the last goes with what it had
    for now in [51 * SECOND, 200 * SECOND] {
        told.extend(lo.expire(now, FUZZ)?.into_iter().map(|e| (e, now)));
    }
    Ok(told)
}

fn ip(a: u8, b: u8, c: u8, d: u8) -> Ipv4Addr {
    Ipv4Addr::new(a, b, c, d)
}

fn addresses(lo: &mut Addresses) -> Result<Vec<Event>, Refused> {
    let new = |local: Ipv4Addr, prefix| V4::new(local, local, prefix, SCOPE_UNIVERSE);
    let lifetimes = Lifetimes {
        valid: 100,
        preferred: 50,
    };
    let mut told = lo.add_v4(new(ip(10, 1, 0, 5), 24), lifetimes, false, true, 0)?;
    let forever = Lifetimes::FOREVER;
    told.extend(lo.add_v4(new(ip(10, 1, 0, 6), 24), forever, false, true, 0)?);
    let peer = V4 {
        address: ip(10, 9, 0, 6),
        broadcast: Some(ip(10, 9, 0, 7)),
        label: b"lo:fifteen-char".to_vec(),
        scope: SCOPE_LINK,
        priority: 77,
        ..new(ip(10, 1, 0, 7), 30)
    };
    told.extend(lo.add_v4(peer, forever, false, true, 0)?);
    let own = V4 {
        flags: NO_PREFIX_ROUTE,
        proto: 5,
        ..new(ip(10, 2, 0, 1), 32)
    };
    let only = Lifetimes {
        preferred: 10,
        ..forever
    };
    told.extend(lo.add_v4(own, only, false, true, 0)?);
    Ok(told)
}

fn routes(lo: &mut Addresses) -> Result<Vec<Event>, Refused> {
    let mut metrics = NO_METRICS;
    for (value, (index, _)) in (1_400..).zip(NAMES) {
        metrics[index] = value;
    }
    let net = Ask4::new(ip(13, 0, 0, 0), 24);
    let every = Ask4 {
        table: 1_000,
        tos: 4,
        priority: 50,
        prefsrc: Some(ip(10, 1, 0, 6)),
        metrics: Ok(metrics),
        ..Ask4::new(ip(11, 3, 0, 0), 16)
    };
    let gateway = Ask4 {
        gateway: Some(ip(13, 0, 0, 9)),
        scope: SCOPE_UNIVERSE,
        ..Ask4::new(ip(12, 0, 0, 0), 8)
    };
    let onlink = Ask4 {
        gateway: Some(ip(14, 0, 0, 9)),
        flags: 4,
        table: 256,
        ..gateway
    };
    let replaced = Ask4 {
        request: F_CREATE | F_REPLACE,
        proto: 4,
        ..net
    };
    let default = Ask4 {
        kind: Kind::Blackhole.code(),
        oif: 0,
        scope: SCOPE_UNIVERSE,
        ..Ask4::new(ip(0, 0, 0, 0), 0)
    };
    let mut told = Vec::new();
    for ask in [&net, &every, &gateway, &onlink, &replaced, &default] {
        told.extend(lo.add_route4(ask, true)?);
    }
    for (kind, third) in [Kind::Unreachable, Kind::Prohibit, Kind::Throw]
        .into_iter()
        .zip(0..)
    {
        let ask = Ask4 {
            kind: kind.code(),
            dst: ip(15, 0, third, 1),
            len: 32,
            table: u32::MAX,
            ..default
        };
        told.extend(lo.add_route4(&ask, true)?);
    }
    told.extend(lo.del_route4(&Select4::new(default.dst, 0))?);
    let select = Select4 {
        table: 1_000,
        tos: 4,
        ..Select4::new(every.dst, 16)
    };
    told.extend(lo.del_route4(&select)?);
    Ok(told)
}

/// The line for an event, as its address or route says.
fn line(event: &Event, now: u64) -> Result<String, Refused> {
    Ok(match event {
        Event::NewAddr4(own) => address(own, now)?,
        Event::DelAddr4(own) => format!("Deleted {}", address(own, now)?),
        Event::NewRoute4(to, _) => route(to),
        Event::DelRoute4(to) => format!("Deleted {}", route(to)),
        // netlink isn't told of these
        Event::LinkDown | Event::IpDisabled => return Err(Refused::UNFIT_STATE),
    })
}

fn address(own: &V4, now: u64) -> Result<String, Refused> {
    let mut text = format!("1: lo    inet {}", own.local);
    if own.address != own.local {
        text += &format!(" peer {}", own.address);
    }
    text += &format!("/{}", own.prefix);
    if own.priority != 0 {
        text += &format!(" metric {}", own.priority);
    }
    if let Some(broadcast) = own.broadcast {
        text += &format!(" brd {broadcast}");
    }
    text += &format!(" scope {}", own.scope);
    for (shown, name) in [
        (own.flags & SECONDARY != 0, "secondary"),
        (own.flags & DEPRECATED != 0, "deprecated"),
        (own.flags & PERMANENT == 0, "dynamic"),
        (own.flags & NO_PREFIX_ROUTE != 0, "noprefixroute"),
    ] {
        if shown {
            text += &format!(" {name}");
        }
    }
    let (preferred, valid) = own.left(now)?;
    let seconds = |left| match left {
        FOREVER => "forever".to_string(),
        left => format!("{left}sec"),
    };
    let label = String::from_utf8_lossy(&own.label);
    text += &format!(" {label}\\       valid_lft {}", seconds(valid));
    text += &format!(" preferred_lft {}", seconds(preferred));
    Ok(text)
}

fn route(to: &Route4) -> String {
    let mut text = format!("{} ", to.kind.code());
    text += &match to.len {
        0 => "default ".to_string(),
        32 => format!("{} ", to.dst),
        len => format!("{}/{len} ", to.dst),
    };
    if to.tos != 0 {
        text += &format!("tos {:#04x} ", to.tos);
    }
    if let Some(gateway) = to.gateway {
        text += &format!("via {gateway} ");
    }
    if to.device {
        text += "dev lo ";
    }
    text += &format!("table {} proto {} scope {} ", to.table, to.proto, to.scope);
    if let Some(prefsrc) = to.prefsrc {
        text += &format!("src {prefsrc} ");
    }
    if to.priority != 0 {
        text += &format!("metric {} ", to.priority);
    }
    if to.onlink {
        text += "onlink ";
    }
    for (index, name) in NAMES {
        if to.metrics[index] != 0 {
            text += &format!("{name} {} ", to.metrics[index]);
        }
    }
    text
}
