//! A loopback's day: up, an address with a lifetime, a route in a table of
//! its own, the state kept and taken up again, the address run out.
use core::net::Ipv4Addr;
use naskrefim::{Addresses, Ask4, Event, FUZZ, Lifetimes, Refused, V4};

const SECOND: u64 = 1_000_000_000;

fn main() -> Result<(), Refused> {
    let mut lo = Addresses::new();
    tell("up", &lo.up(0)?);

    let own = Ipv4Addr::new(10, 1, 0, 5);
    let new = V4::new(own, own, 24, 0);
    let lifetimes = Lifetimes {
        valid: 10,
        preferred: 5,
    };
    tell("add", &lo.add_v4(new.clone(), lifetimes, false, true, 0)?);
    match lo.add_v4(new, lifetimes, false, true, SECOND) {
        Err(refused) => println!("add again: {refused}"),
        Ok(told) => tell("add again", &told),
    }

    let ask = Ask4 {
        table: 100,
        ..Ask4::new(Ipv4Addr::new(10, 2, 0, 0), 16)
    };
    tell("route", &lo.add_route4(&ask, true)?);

    // kept, and taken up again
    let kept = lo.to_bytes();
    let mut lo = Addresses::from_bytes(&kept)?;
    for route in lo.dump4() {
        println!("{}: {}/{}", route.table, route.dst, route.len);
    }
    let peer = Ipv4Addr::new(10, 1, 0, 9);
    println!("to {peer} from {}", lo.source(peer));

    tell("after 6 s", &lo.expire(6 * SECOND, FUZZ)?);
    tell("after 10 s", &lo.expire(10 * SECOND, FUZZ)?);
    println!("to {peer} from {}", lo.source(peer));
    Ok(())
}

fn tell(what: &str, events: &[Event]) {
    println!("{what}: {} events", events.len());
    for event in events {
        match event {
            Event::NewAddr4(a) => println!("  new address {}/{}", a.local, a.prefix),
            Event::DelAddr4(a) => println!("  address gone {}/{}", a.local, a.prefix),
            Event::NewRoute4(r, flags) => println!("  new route {}/{} {flags:#x}", r.dst, r.len),
            Event::DelRoute4(r) => println!("  route gone {}/{}", r.dst, r.len),
            Event::LinkDown => println!("  down"),
            Event::IpDisabled => println!("  no address is left"),
        }
    }
}
