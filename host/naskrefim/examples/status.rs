//! The planner's status page: how many routes each table has, then the routes
//! a few rows at a time while guests go on with their calls, and once more
//! where one of them changed something.
use core::net::Ipv4Addr;
use naskrefim::{Addresses, Ask4, Parts, Refused, Table};

/// Rows at a time.
const ROWS: usize = 2;

/// What a guest does between two parts.
type Guest = fn(&mut Addresses);

fn main() -> Result<(), Refused> {
    let mut lo = Addresses::new();
    lo.up(0)?;
    for i in 0..3 {
        lo.add_route4(&route(i), true)?;
    }
    let mut guests = GUESTS.iter();
    while !listed(&mut lo, &mut guests)? {}
    Ok(())
}

/// One after the other, while there are parts to come.
const GUESTS: [Guest; 4] = [
    |lo| say("a guest is up again", lo.up(1)),
    |lo| say("a guest adds a route", lo.add_route4(&route(9), true)),
    |lo| say("a guest adds it again", lo.add_route4(&route(9), true)),
    |lo| {
        let wrong = Ask4 {
            table: 77,
            len: 33,
            ..route(1)
        };
        say("a guest asks for a bad prefix", lo.add_route4(&wrong, true));
    },
];

fn route(i: u8) -> Ask4 {
    Ask4::new(Ipv4Addr::new(10, 2, i, 0), 24)
}

fn say<T>(what: &str, told: Result<T, Refused>) {
    match told {
        Ok(_) => println!("  ({what})"),
        Err(refused) => println!("  ({what}: {refused})"),
    }
}

/// Lists all rows in parts, with a guest's call after each; whether nothing
/// changed meanwhile.
fn listed<'a>(
    lo: &mut Addresses,
    guests: &mut impl Iterator<Item = &'a Guest>,
) -> Result<bool, Refused> {
    println!("the routes, {} changes so far:", lo.changes());
    let tables: Vec<Table> = lo.tables().collect();
    for Table { table, rows } in &tables {
        println!("  table {table} has {rows}");
    }
    let (start, mut shown) = (lo.dump4(), Vec::new());
    let mut parts = Parts::of(ROWS)?;
    while let Some(part) = parts.next(lo) {
        if part.interrupted {
            println!("  changed meanwhile: once more");
            return Ok(false);
        }
        for route in &part.routes {
            println!("  {}: {}/{}", route.table, route.dst, route.len);
        }
        shown.extend(part.routes);
        if let Some(guest) = guests.next() {
            guest(lo);
        }
    }
    assert_eq!(shown, start, "what there was at the start");
    for Table { table, rows } in tables {
        let own = shown.iter().filter(|route| route.table == table);
        assert_eq!(own.count(), rows, "as its count says");
    }
    println!("  that is all");
    Ok(true)
}
