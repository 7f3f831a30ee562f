//! What is measured: states of three sizes and some special ones, and the
//! call that is made on each.
use oracle::call::{Call, NAMES};
use oracle::script::{NewAddress, Route, Script, address, ip, route};
use oracle::words::{address_at, route_at};
use reference::FUZZ;

/// A call, and the state that it is made on.
pub struct Measured {
    pub name: String,
    pub state: Vec<u32>,
    pub call: Call,
}

/// Addresses, routes and tables.
pub const SIZES: [[usize; 3]; 3] = [[0, 0, 0], [16, 32, 4], [62, 250, 30]];

/// A state of this size: after `up`, addresses with a /32 row each, half of
/// them with a lifetime, and routes to /24s, half of them in the main table
/// and half in private ones.
pub fn of_size(size: [usize; 3]) -> Vec<u32> {
    numbered(size, 1)
}

/// The same, the private tables' numbers this far apart.
fn numbered([addresses, routes, tables]: [usize; 3], apart: u32) -> Vec<u32> {
    let mut script = Script::default();
    if addresses > 0 {
        script.up(0);
    }
    for i in 1..addresses {
        let lives = if i % 2 == 0 {
            (1000, 500)
        } else {
            (u32::MAX, u32::MAX)
        };
        script.add(NewAddress {
            valid: lives.0,
            preferred: lives.1,
            ..address(&format!("10.{i}.0.5/32")).up()
        });
    }
    let (mut i, mut private) = (0, 0);
    while (script.state[1] as usize) < routes {
        let table = if i % 2 == 1 && tables > 2 {
            private += 1;
            100 + apart * (private % (tables - 2)) as u32
        } else {
            254
        };
        let text = format!("11.{}.{}.0/24", i / 200, i % 200);
        script.add_route(Route {
            table,
            ..route(&text).up()
        });
        i += 1;
    }
    let found = [0, 1, 2].map(|i| script.state[i] as usize);
    assert_eq!(found, [addresses, routes, tables], "a state of that size");
    script.state
}

/// Every call on a state of every size; `left`, which sees no state, once.
pub fn usual() -> Vec<Measured> {
    let mut all = Vec::new();
    for (i, name) in NAMES.iter().enumerate() {
        let call = usual_call(i + 1);
        let stateless = matches!(call, Call::Left { .. });
        for size in SIZES {
            let [a, r, t] = size;
            if stateless && a > 0 {
                continue;
            }
            all.push(Measured {
                name: if stateless {
                    name.to_string()
                } else {
                    format!("{name}, {a}/{r}/{t}")
                },
                state: of_size(size),
                call: call.clone(),
            });
        }
    }
    all
}

/// The calls that messages for new addresses and routes lead to.
pub fn changing() -> Vec<Measured> {
    let of = |one: &Measured| matches!(one.call, Call::AddV4 { .. } | Call::AddRoute4 { .. });
    usual().into_iter().filter(of).collect()
}

/// The call of this code that is measured: one that is accepted, wherever
/// the state has what it asks for.
fn usual_call(code: usize) -> Call {
    let full = of_size(SIZES[1]);
    let main = (0..32).map(|i| route_at(&full, i)).find(|r| r[0] == 254);
    let target = ip("11.0.2.7");
    match code {
        1 => Call::Up { now: 5 },
        2 => Call::Down,
        3 => Call::AddV4 {
            request: address("10.200.0.5/24").up().words(),
            now: 5,
        },
        4 => {
            let mut request = vec![0; 11];
            request[..2].copy_from_slice(&[1, ip("10.9.0.5")]);
            Call::DelV4 { request }
        }
        5 => Call::Expire {
            now: 5,
            allowance: FUZZ,
        },
        6 => Call::AddRoute4 {
            request: route("10.77.0.0/24").up().adding(),
        },
        7 => Call::DelRoute4 {
            request: route("11.0.6.0/24").deleting(),
        },
        8 => Call::Dump4,
        9 => Call::Lookup4 { ip: target },
        10 => Call::Lookup4Flow {
            ip: target,
            tos: 8,
            oif: 1,
        },
        11 => Call::Local4 { ip: ip("10.9.0.5") },
        12 => Call::Source4 {
            row: main.expect("a row of the main table").to_vec(),
            ip: target,
        },
        13 => Call::Source { ip: target },
        14 => Call::Select4 {
            present: 1,
            dst: target,
            scope: 253,
        },
        _ => Call::Left {
            row: address_at(&full, 2).to_vec(),
            now: 7_000_000_000,
        },
    }
}

/// The longest jobs.
pub fn special() -> Vec<Measured> {
    let of = |name: &str, state: Vec<u32>, call: Call| Measured {
        name: name.to_string(),
        state,
        call,
    };
    let mut request = vec![0; 11];
    request[..2].copy_from_slice(&[1, ip("12.0.0.1")]);
    vec![
        of(
            "lookup4 that finds nothing, 62/250/30",
            of_size(SIZES[2]),
            Call::Lookup4 { ip: ip("99.0.0.1") },
        ),
        of("dump4, 64/256/32", of_size([64, 256, 32]), Call::Dump4),
        of(
            "dump4 of private tables with one low byte, 64/256/32",
            numbered([64, 256, 32], 256),
            Call::Dump4,
        ),
        of(
            "del_v4 of one address, 64/256/32",
            of_size([64, 256, 32]),
            usual_call(4),
        ),
        of(
            "del_v4 of a primary with 63 secondaries and 190 routes from it, 64/256/2",
            one_subnet(),
            Call::DelV4 { request },
        ),
        of(
            "expire, 64 subnets all due, a route from each, 64/256/2",
            all_due(),
            Call::Expire {
                now: 2_000_000_000,
                allowance: FUZZ,
            },
        ),
    ]
}

fn one_subnet() -> Vec<u32> {
    let mut script = Script::default();
    for i in 1..=64 {
        script.add(address(&format!("12.0.0.{i}/24")).up());
    }
    for i in 0..190 {
        script.add_route(Route {
            prefsrc: Some(ip("12.0.0.1")),
            ..route(&format!("13.0.{i}.0/24")).up()
        });
    }
    assert_eq!(script.state[..3], [64, 256, 2]);
    script.state
}

fn all_due() -> Vec<u32> {
    let mut script = Script::default();
    for i in 0..64 {
        script.add(NewAddress {
            valid: 1,
            preferred: 1,
            ..address(&format!("12.0.{i}.1/24")).up()
        });
    }
    for i in 0..64 {
        script.add_route(Route {
            prefsrc: Some(ip(&format!("12.0.{i}.1"))),
            ..route(&format!("13.0.{i}.0/24")).up()
        });
    }
    assert_eq!(script.state[..3], [64, 256, 2]);
    script.state
}
