//! Rows and tables as iterators, and what a clone and a comparison are.
use core::net::Ipv4Addr;
use naskrefim::*;
use std::collections::HashSet;

/// 64 addresses, 256 routes, 32 tables.
fn full() -> Addresses {
    let mut lo = Addresses::new();
    lo.up(0).unwrap();
    for i in 1..64 {
        let own = Ipv4Addr::new(10, i, 0, 5);
        let new = V4::new(own, own, 32, SCOPE_UNIVERSE);
        lo.add_v4(new, Lifetimes::FOREVER, false, true, 0).unwrap();
    }
    let mut table = 0;
    while lo.routes().len() < ROUTE_LIMIT {
        let ask = Ask4 {
            table: 100 + table % 30,
            ..Ask4::new(Ipv4Addr::new(11, 0, table as u8, 0), 24)
        };
        lo.add_route4(&ask, true).unwrap();
        table += 1;
    }
    lo
}

#[test]
fn an_empty_one_has_no_rows() {
    let lo = Addresses::default();
    assert_eq!(
        (
            lo.addresses().len(),
            lo.routes().len(),
            lo.tables().len(),
            lo.has_table4(0)
        ),
        (0, 0, 0, false)
    );
}

#[test]
fn a_full_one_shows_all_its_rows() {
    let lo = full();
    assert_eq!(
        (lo.addresses().len(), lo.routes().len(), lo.tables().len()),
        (ADDRESS_LIMIT, ROUTE_LIMIT, TABLE_LIMIT)
    );
    assert_eq!(lo.addresses().collect::<Vec<V4>>(), lo.v4());
    assert_eq!(lo.addresses().next().unwrap().local, Ipv4Addr::LOCALHOST);
    assert_eq!(
        lo.addresses().next_back().unwrap().local,
        Ipv4Addr::new(10, 63, 0, 5)
    );
    // the oldest first: `up` brings 254 and 255
    let tables: Vec<u32> = lo.tables().map(|t| t.table).collect();
    assert_eq!(tables[..4], [TABLE_MAIN, TABLE_LOCAL, 100, 101]);
    assert!(tables.iter().all(|table| lo.has_table4(*table)));
    for Table { table, rows } in lo.tables() {
        let own = lo.routes().filter(|r| r.table == table);
        assert_eq!(rows, own.count(), "{table}");
    }
    assert_eq!(lo.tables().map(|t| t.rows).sum::<usize>(), ROUTE_LIMIT);
    assert_eq!(lo.tables().next_back().unwrap().table, 129);
    assert!(!lo.has_table4(TABLE_DEFAULT));
    // the state's order, from both ends
    let place = |r: &Route4| (r.dst, !r.len, !r.table, !r.tos, r.priority);
    let routes: Vec<Route4> = lo.routes().collect();
    assert!(routes.is_sorted_by_key(place));
    assert!(lo.routes().rev().eq(routes.iter().rev().copied()));
    assert_eq!(lo.routes().nth(7), Some(routes[7]));
    assert_eq!(lo.routes().last(), routes.last().copied());
    assert_eq!(lo.routes().skip(6).count(), ROUTE_LIMIT - 6);
    // every table is listed, so that a dump has the same rows
    let dumped: HashSet<Route4> = lo.dump4().into_iter().collect();
    assert_eq!(dumped, routes.into_iter().collect());
}

/// A route of a table that isn't listed is no part of a dump.
#[test]
fn rows_of_unlisted_tables_are_shown() {
    let mut lo = Addresses::new();
    lo.up(0).unwrap();
    let mut words = *lo.words();
    let counts = STATE_WORDS - TABLE_LIMIT;
    let tables = counts - 2 - TABLE_LIMIT;
    (words[2], words[tables + 1]) = (1, 0);
    let refused = Addresses::from_words(&words);
    assert_eq!(refused, Err(Refused::UNFIT_STATE), "three rows of 255");
    words[counts + 1] = 0;
    let mut lo = Addresses::from_words(&words).unwrap();
    let main = Table {
        table: TABLE_MAIN,
        rows: 0,
    };
    assert!(lo.tables().eq([main]));
    assert_eq!((lo.routes().len(), lo.dump4().len()), (3, 0));
    // a refused route lists its table, and they are counted
    let ask = Ask4 {
        table: TABLE_LOCAL,
        ..Ask4::new(Ipv4Addr::LOCALHOST, 33)
    };
    assert_eq!(lo.add_route4(&ask, true), Err(Refused::INVALID));
    let local = Table {
        table: TABLE_LOCAL,
        rows: 3,
    };
    assert!(lo.tables().eq([main, local]));
}

#[test]
fn a_clone_is_the_state_alone() {
    let mut lo = Addresses::new();
    lo.up(0).unwrap();
    let mut copy = lo.clone();
    assert_eq!(copy, lo);
    // what one was told doesn't count, nor does the way there
    let own = Ipv4Addr::new(10, 1, 0, 5);
    let new = V4::new(own, own, 24, SCOPE_UNIVERSE);
    let told = copy.add_v4(new, Lifetimes::FOREVER, false, true, 0);
    assert_eq!(told.unwrap().len(), 4);
    assert_ne!(copy, lo);
    assert_eq!(copy.del_v4(Some(own), None, 0, None).unwrap().len(), 4);
    assert_eq!(copy, lo);
    assert_eq!(copy.changes(), lo.changes() + 2);
    assert_eq!(lo.up(1), Ok(vec![]));

    let full = full();
    lo.clone_from(&full);
    assert_eq!(lo, full);
    assert_eq!(lo.up(0), Ok(vec![]));
}

#[test]
fn it_may_go_to_another_thread() {
    fn may<T: Send + Sync + Clone + 'static>(_: &T) {}
    let lo = full();
    may(&lo);
    let sources = std::thread::scope(|scope| {
        let ask = || scope.spawn(|| lo.source(Ipv4Addr::new(11, 0, 0, 7)));
        [ask(), ask()].map(|thread| thread.join().unwrap())
    });
    assert_eq!(sources[0], sources[1]);
}

#[test]
fn it_says_what_it_holds() {
    let mut lo = Addresses::new();
    lo.up(0).unwrap();
    let said = format!("{lo:?}");
    assert!(said.contains("127.0.0.1") && said.contains("routes4: 3"));
    assert!(
        said.contains("tables4: [Table { table: 254, rows: 0 }, Table { table: 255, rows: 3 }]")
    );
}
