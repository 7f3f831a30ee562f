//! Listings taken in parts, with calls between them.
use core::net::Ipv4Addr;
use naskrefim::{
    Addresses, Ask4, CURSOR_WORDS, Cursor, F_CREATE, F_DUMP_INTR, F_REPLACE, FUZZ, Kind, Lifetimes,
    Part, Parts, ROUTE_WORDS, Refused, Route4, SCOPE_UNIVERSE, STATE_WORDS, Select4, V4, bytes,
    words,
};

/// Where a state's change count is.
const COUNT: core::ops::Range<usize> = 9_507..9_509;

/// After `up`, and this many routes more.
fn with(routes: u8) -> Addresses {
    let mut lo = Addresses::new();
    lo.up(0).unwrap();
    for i in 0..routes {
        lo.add_route4(&ask(i), true).unwrap();
    }
    lo
}

fn ask(i: u8) -> Ask4 {
    Ask4::new(Ipv4Addr::new(11, 0, i, 0), 24)
}

/// The rows and the marks of all parts, `between` being made before each.
fn listed(
    lo: &mut Addresses,
    rows: usize,
    mut between: impl FnMut(&mut Addresses, usize),
) -> (Vec<Route4>, Vec<bool>) {
    let mut part = lo.dump4_begin(rows).unwrap();
    let (mut routes, mut marks) = (part.routes.clone(), vec![part.interrupted]);
    while let Some(cursor) = part.next {
        between(lo, marks.len());
        part = lo.dump4_next(cursor, rows).unwrap();
        routes.extend(&part.routes);
        marks.push(part.interrupted);
    }
    (routes, marks)
}

#[test]
fn parts_of_any_size_are_the_whole() {
    let mut lo = with(20);
    let whole = lo.dump4();
    for rows in [1, 2, 5, 22, 23, 24, 255, 256] {
        let (routes, marks) = listed(&mut lo, rows, |_, _| {});
        assert_eq!(routes, whole);
        assert_eq!(marks, vec![false; 23usize.div_ceil(rows)], "{rows}");
    }
    assert_eq!(
        Addresses::new().dump4_begin(1).unwrap(),
        Part {
            routes: vec![],
            interrupted: false,
            next: None
        }
    );
}

#[test]
fn what_changes_nothing_leaves_a_listing_whole() {
    let mut lo = with(8);
    let own = Ipv4Addr::new(10, 1, 0, 5);
    let new = V4::new(own, own, 24, SCOPE_UNIVERSE);
    let lifetimes = Lifetimes {
        valid: 20,
        preferred: 10,
    };
    lo.add_v4(new.clone(), lifetimes, false, true, 7).unwrap();
    let (before, whole) = (lo.changes(), lo.dump4());
    let (routes, marks) = listed(&mut lo, 1, |lo, i| match i % 6 {
        0 => assert_eq!(lo.up(9), Ok(vec![])),
        1 => {
            // the same values at the same clock: told, and nothing changes
            let told = lo.add_v4(new.clone(), lifetimes, true, true, 7);
            assert_eq!(told.unwrap().len(), 1);
        }
        2 => {
            let again = Ask4 {
                request: F_CREATE | F_REPLACE,
                ..ask(3)
            };
            assert_eq!(lo.add_route4(&again, true), Ok(vec![]));
        }
        3 => assert_eq!(lo.expire(8, FUZZ), Ok(vec![])),
        4 => assert_eq!(
            lo.add_v4(new.clone(), lifetimes, false, true, 8),
            Err(Refused::THERE_ALREADY)
        ),
        _ => assert_eq!(
            lo.del_route4(&Select4::new(own, 32)),
            Err(Refused::NO_SUCH_ROUTE)
        ),
    });
    assert_eq!(routes, whole);
    assert!(marks.len() > 10 && marks.iter().all(|mark| !mark));
    assert_eq!(lo.changes(), before);
}

/// Each kind of call that changes something, at the second part.
#[test]
fn every_change_interrupts() {
    let own = Ipv4Addr::new(10, 1, 0, 5);
    let new = V4::new(own, own, 24, SCOPE_UNIVERSE);
    let lifetimes = Lifetimes {
        valid: 20,
        preferred: 10,
    };
    type Change<'a> = &'a dyn Fn(&mut Addresses);
    let changes: [Change; 9] = [
        &|lo| drop(lo.down()),
        &|lo| {
            drop(lo.add_v4(
                V4 {
                    prefix: 25,
                    ..new.clone()
                },
                lifetimes,
                false,
                true,
                0,
            ))
        },
        &|lo| drop(lo.add_v4(new.clone(), lifetimes, true, true, 1)),
        &|lo| drop(lo.del_v4(Some(own), None, 0, None)),
        // only marks
        &|lo| assert_eq!(lo.expire(10_000_000_000, FUZZ).unwrap().len(), 1),
        &|lo| drop(lo.expire(20_000_000_000, FUZZ)),
        &|lo| drop(lo.add_route4(&ask(200), true)),
        &|lo| drop(lo.del_route4(&Select4::new(Ipv4Addr::new(11, 0, 3, 0), 24))),
        // refused, and lists its table
        &|lo| {
            let wrong = Ask4 {
                table: 77,
                len: 33,
                ..ask(1)
            };
            assert_eq!(lo.add_route4(&wrong, true), Err(Refused::INVALID));
        },
    ];
    for (i, change) in changes.into_iter().enumerate() {
        let mut lo = with(8);
        lo.add_v4(new.clone(), lifetimes, false, true, 0).unwrap();
        let before = lo.changes();
        let (_, marks) = listed(&mut lo, 3, |lo, part| {
            if part == 1 {
                change(lo);
            }
        });
        assert!(!marks[0] && marks[1..].iter().all(|mark| *mark), "{i}");
        assert_eq!(lo.changes(), before + 1, "{i}");
    }
}

/// Rows that come and go again leave the listing interrupted.
#[test]
fn there_and_back_interrupts() {
    let mut lo = with(8);
    let part = lo.dump4_begin(2).unwrap();
    let whole = lo.dump4();
    lo.add_route4(&ask(100), true).unwrap();
    let select = Select4::new(Ipv4Addr::new(11, 0, 100, 0), 24);
    lo.del_route4(&select).unwrap();
    assert_eq!(lo.dump4(), whole);
    assert!(lo.dump4_next(part.next.unwrap(), 2).unwrap().interrupted);
}

#[test]
fn rows_are_1_to_256() {
    let lo = with(8);
    let cursor = lo.dump4_begin(1).unwrap().next.unwrap();
    for rows in [0, 257, usize::MAX] {
        assert_eq!(lo.dump4_begin(rows), Err(Refused::UNFIT_REQUEST));
        assert_eq!(lo.dump4_next(cursor, rows), Err(Refused::UNFIT_REQUEST));
    }
    assert_eq!(lo.dump4_next(cursor, 256).unwrap().routes.len(), 10);
}

/// Any three words are a cursor.
#[test]
fn cursors_of_any_words() {
    let lo = with(8);
    let cursor: [u32; CURSOR_WORDS] = lo.dump4_begin(4).unwrap().next.unwrap().into();
    assert_eq!(cursor, [4, 9, 0]);
    let next = |words: [u32; 3]| lo.dump4_next(Cursor::from(words), 4).unwrap();
    assert!(!next([4, 9, 0]).interrupted);
    for other in [[4, 8, 0], [4, 10, 0], [4, 9, 1], [0, 0, 0]] {
        assert!(next(other).interrupted);
    }
    for past in [11, 12, u32::MAX] {
        let part = next([past, 9, 0]);
        assert!(part.routes.is_empty() && part.next.is_none() && !part.interrupted);
    }
}

/// At its largest value the count stays, and every part has the mark.
#[test]
fn the_largest_count() {
    let mut words = *with(2).words();
    words[COUNT].copy_from_slice(&[u32::MAX - 1, u32::MAX]);
    let mut lo = Addresses::from_words(&words).unwrap();
    let part = lo.dump4_begin(1).unwrap();
    assert!(!part.interrupted);
    lo.add_route4(&ask(7), true).unwrap();
    assert_eq!(lo.changes(), u64::MAX);
    assert!(lo.dump4_next(part.next.unwrap(), 1).unwrap().interrupted);
    lo.add_route4(&ask(8), true).unwrap();
    assert_eq!(lo.changes(), u64::MAX);
    let part = lo.dump4_begin(1).unwrap();
    assert!(part.interrupted);
    assert!(lo.dump4_next(part.next.unwrap(), 1).unwrap().interrupted);
    // and what carries
    words[COUNT].copy_from_slice(&[u32::MAX, 4]);
    let mut lo = Addresses::from_words(&words).unwrap();
    lo.add_route4(&ask(7), true).unwrap();
    assert_eq!(lo.words()[COUNT], [0, 5]);
}

/// States that were kept before there was a change count, or row counts.
#[test]
fn states_of_older_libraries() {
    let lo = with(2);
    let changes = lo.changes();
    for (words, changes) in [
        (COUNT.start, 0),
        (COUNT.end, changes),
        (STATE_WORDS, changes),
    ] {
        let kept = &lo.words()[..words];
        let taken = Addresses::from_older_words(kept).unwrap();
        assert_eq!((&taken, taken.changes()), (&lo, changes));
        assert!(taken.tables().eq(lo.tables()));
        // what isn't well-formed there isn't here
        for (at, word) in [(0, 65), (1, 257), (2, 33), (1, 0)] {
            let mut unfit = kept.to_vec();
            unfit[at] = word;
            let refused = Addresses::from_older_words(&unfit);
            assert_eq!(refused, Err(Refused::UNFIT_STATE), "word {at} of {words}");
        }
    }
    for words in [COUNT.start, COUNT.end] {
        let kept = &lo.words()[..words];
        assert_eq!(Addresses::from_words(kept), Err(Refused::UNFIT_BUFFER));
        let bytes = &lo.to_bytes()[..4 * words];
        assert_eq!(Addresses::from_bytes(bytes), Err(Refused::UNFIT_BUFFER));
    }
    // what no run reaches: a row of a table that isn't listed
    let mut kept = lo.words()[..COUNT.end].to_vec();
    (kept[2], kept[COUNT.start - 31]) = (1, 0);
    let taken = Addresses::from_older_words(&kept).unwrap();
    assert!(taken.tables().eq(lo.tables().take(1)));
    for words in [0, 9_506, 9_508, 9_510, STATE_WORDS - 1, STATE_WORDS + 1] {
        let refused = Addresses::from_older_words(&vec![0; words]);
        assert_eq!(refused, Err(Refused::UNFIT_BUFFER));
    }
}

/// Part by part, and interrupted from the first change on.
#[test]
fn an_iterator_over_parts() {
    let mut lo = with(8);
    for change in [None, Some(1), Some(3)] {
        let (whole, mut routes) = (lo.dump4(), Vec::new());
        let mut marks = Vec::new();
        let mut parts = Parts::of(3).unwrap();
        while let Some(part) = parts.next(&lo) {
            marks.push(part.interrupted);
            routes.extend(part.routes);
            if change == Some(marks.len()) {
                lo.add_route4(&ask(200 + marks.len() as u8), true).unwrap();
            }
        }
        assert!(parts.next(&lo).is_none());
        let interrupted = change.map_or(marks.len(), |at| at);
        assert!(marks[..interrupted].iter().all(|mark| !mark));
        assert!(marks[interrupted..].iter().all(|mark| *mark));
        assert_eq!(routes == whole, change.is_none());
    }
    for rows in [0, 257] {
        assert_eq!(Parts::of(rows).unwrap_err(), Refused::UNFIT_REQUEST);
    }
}

/// The lent slices, on words and on bytes: what is past the rows stays, and
/// a refusal leaves the cursor.
#[test]
fn lent_slices() {
    let lo = with(0);
    let (state, all) = (&lo.words()[..], lo.to_bytes());
    let (mut listing, mut cursor) = ([7; 5 * ROUTE_WORDS], [7; CURSOR_WORDS]);
    let reply = words::dump4_begin(state, &mut listing, &mut cursor, 2);
    assert_eq!(
        [reply.number, reply.value, reply.present, reply.second],
        [0, 2, 0, 0]
    );
    assert_eq!(cursor, [2, 1, 0]);
    assert_eq!(listing[2 * ROUTE_WORDS..], [7; 3 * ROUTE_WORDS]);
    assert_eq!(listing[5], u32::from(Kind::Local.code()));
    let mut bytes_cursor = [2, 0, 0, 0, 1, 0, 0, 0, 0, 0, 0, 0];
    let mut bytes_listing = [7; 4 * 5 * ROUTE_WORDS];
    let reply = bytes::dump4_next(&all, &mut bytes_listing, &mut bytes_cursor, 5);
    assert_eq!([reply.value, reply.present, reply.second], [1, 0, 1]);
    assert_eq!(bytes_cursor[0], 3);
    assert_eq!(bytes_listing[4 * ROUTE_WORDS], 7);
    for (room, rows, length, number) in [
        (0, 0, 3, 202),
        (1, 2, 3, 200),
        (5, 1, 2, 200),
        (5, 1, 4, 200),
        (255, 257, 3, 200),
        (256, 257, 3, 202),
    ] {
        let (mut listing, mut cursor) = (vec![7; ROUTE_WORDS * room], vec![9; length]);
        for call in [words::dump4_begin, words::dump4_next] {
            let reply = call(state, &mut listing, &mut cursor, rows);
            assert_eq!(reply.number, number, "{room} {rows} {length}");
            assert!(cursor.iter().all(|w| *w == 9) && listing.iter().all(|w| *w == 7));
        }
    }
    assert_eq!(F_DUMP_INTR, 0x10);
}
