//! The row counts kept with the tables (document 02, Paper 8), by hand. A
//! line in quotation marks is the paper's. On generated cases `document`
//! holds that every call keeps them true, and the self-test has the planted
//! faults in them.
use crate::call::{Call, Reply};
use crate::checks::Checks;
use crate::script::{CREATE, Route, Script, address, any, route, started};
use crate::well_formed;
use crate::words::{self, BASE_WORDS, ROW_COUNTS_AT, STATE_WORDS, TABLE_LIMIT};

/// "Store the count beside each listed table": the tables with their counts.
/// Whatever stands at places that are not in use is shown too.
fn counts(s: &Script) -> Vec<(u32, u32)> {
    let tables = s.tables();
    let counts = &s.state[ROW_COUNTS_AT..];
    let unused = counts[tables.len()..].iter().filter(|n| **n != 0);
    let unused: Vec<(u32, u32)> = unused.map(|n| (u32::MAX, *n)).collect();
    let mut all: Vec<(u32, u32)> = tables.into_iter().zip(counts.iter().copied()).collect();
    all.extend(unused);
    all
}

pub fn check(checks: &mut Checks) {
    let mut s = Script::default();
    checks.same("no table, no count", counts(&s), vec![]);
    s.up(0);
    checks.same("after up", counts(&s), vec![(254, 0), (255, 3)]);
    s.add(address("10.1.0.5/24").up());
    checks.same("an address", counts(&s), vec![(254, 0), (255, 6)]);
    let new = route("10.2.0.0/24").up();
    s.add_route(new);
    checks.same("a route", counts(&s), vec![(254, 1), (255, 6)]);
    let with = |request, priority| Route {
        request,
        priority,
        scope: 200,
        ..new
    };
    checks.same(
        "one that replaces it",
        s.add_route(with(CREATE | 0x100, 0)).reply,
        Reply::value(1),
    );
    checks.same("is no other", counts(&s), vec![(254, 1), (255, 6)]);
    s.add_route(Route {
        request: CREATE | 0x800,
        ..new
    });
    checks.same("one beside it", counts(&s), vec![(254, 2), (255, 6)]);
    s.add_route(Route {
        table: 77,
        ..route("10.3.0.0/16").rejecting(6)
    });
    s.add_route(Route { table: 77, ..new });
    let all = vec![(254, 2), (255, 6), (77, 2)];
    checks.same("two of another table", counts(&s), all);
    let unfit = Route {
        table: 78,
        len: 33,
        ..new
    };
    checks.same("a refused one", s.add_route(unfit).reply.number, 22);
    let all = vec![(254, 2), (255, 6), (77, 2), (78, 0)];
    checks.same("lists its table, with none", counts(&s), all);
    s.del_route(any("10.2.0.0/24"));
    let all = vec![(254, 1), (255, 6), (77, 2), (78, 0)];
    checks.same("one deleted", counts(&s), all);
    // "`down` and the removal of the last address included"
    s.call(Call::Down);
    let all = vec![(254, 0), (255, 4), (77, 1), (78, 0)];
    checks.same("down", counts(&s), all);
    s.up(1);
    let all = vec![(254, 0), (255, 6), (77, 1), (78, 0)];
    checks.same("up again", counts(&s), all);
    s.del("10.1.0.5");
    let all = vec![(254, 0), (255, 3), (77, 1), (78, 0)];
    checks.same("an address gone", counts(&s), all);
    s.add_route(new);
    s.del("127.0.0.1");
    let all = vec![(254, 0), (255, 0), (77, 1), (78, 0)];
    checks.same("the last address gone", counts(&s), all);
    unlisted(checks);
    wrong(checks);
}

/// Rows of tables that aren't listed are counted nowhere, and with their
/// table once it is: only a state that no run reaches has them.
fn unlisted(checks: &mut Checks) {
    let mut s = Script::default();
    let of_7 = Route {
        table: 7,
        ..route("10.3.0.0/16").rejecting(6)
    };
    s.add_route(of_7);
    let mut lists = words::decode(&s.state);
    lists.tables.clear();
    s.state = words::encode(&lists);
    checks.same("a row of no listed table", counts(&s), vec![]);
    let unfit = Route { len: 33, ..of_7 };
    checks.same("a refused one of it", s.add_route(unfit).reply.number, 22);
    checks.same("lists it with its row", counts(&s), vec![(7, 1)]);
}

/// "A wrong count makes a state not well-formed."
fn wrong(checks: &mut Checks) {
    let right = started().state;
    let number = |state: &[u32]| {
        let mut s = Script {
            state: state.to_vec(),
        };
        s.lookup("127.0.0.1").reply.number
    };
    let wrong: [(&str, &[(usize, u32)]); 6] = [
        ("P17 one too many", &[(1, 4)]),
        ("P17 one too few", &[(1, 2)]),
        ("P17 one where there is none", &[(0, 1)]),
        ("P17 the right sum", &[(0, 3), (1, 0)]),
        ("P17 one at a place not in use", &[(2, 1)]),
        ("P17 one at the last place", &[(TABLE_LIMIT - 1, 1)]),
    ];
    for (name, counts) in wrong {
        let mut state = right.clone();
        for (place, count) in counts {
            state[ROW_COUNTS_AT + place] = *count;
        }
        checks.same(
            name,
            (number(&state), well_formed::state(&state)),
            (201, false),
        );
    }
    // "32 words at the end of the state, 9,541 in all"
    for (words, expected) in [
        (BASE_WORDS, 200),
        (ROW_COUNTS_AT, 200),
        (STATE_WORDS - 1, 200),
        (STATE_WORDS, 0),
    ] {
        let found = number(&right[..words]);
        checks.same(&format!("a state of {words} words"), found, expected);
    }
    checks.same("in all", STATE_WORDS, 9_541);
}
