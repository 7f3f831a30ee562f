//! The C header says the same sizes, refusals and stack as this crate.
use naskrefim::*;
use std::collections::BTreeMap;

/// A file of the repository.
fn read(path: &str) -> String {
    let path = format!("{}/../../{path}", env!("CARGO_MANIFEST_DIR"));
    std::fs::read_to_string(&path).unwrap_or_else(|e| panic!("{path}: {e}"))
}

/// The header's numbers by their names.
fn defined() -> BTreeMap<String, usize> {
    let text = read("include/interface4.h");
    let lines = text
        .lines()
        .filter_map(|line| line.strip_prefix("#define "));
    lines
        .filter_map(|line| {
            let mut parts = line.split_whitespace();
            let (name, value) = (parts.next()?, parts.next()?.parse().ok()?);
            Some((name.to_string(), value))
        })
        .collect()
}

#[test]
fn sizes_are_the_crates_and_the_librarys() {
    let defined = defined();
    let of = |name: &str| defined[&format!("INTERFACE4_{name}")];
    assert_eq!(of("ADDRESSES"), ADDRESS_LIMIT);
    assert_eq!(of("ROUTES"), ROUTE_LIMIT);
    assert_eq!(of("TABLES"), TABLE_LIMIT);
    assert_eq!(of("EVENTS"), EVENT_LIMIT);
    for (name, words) in [
        ("ADDRESS", ADDRESS_WORDS),
        ("ROUTE", ROUTE_WORDS),
        ("EVENT", EVENT_WORDS),
        ("STATE", STATE_WORDS),
        ("EVENT_BUFFER", EVENT_BUFFER_WORDS),
        ("LISTING_BUFFER", LISTING_BUFFER_WORDS),
        ("ROW_BUFFER", ROUTE_WORDS),
        ("ADD_V4", ADD_V4_WORDS),
        ("DEL_V4", DEL_V4_WORDS),
        ("ADD_ROUTE4", ADD_ROUTE4_WORDS),
        ("DEL_ROUTE4", DEL_ROUTE4_WORDS),
        ("REQUEST_BUFFER", DEL_ROUTE4_WORDS),
        ("CURSOR", CURSOR_WORDS),
        ("ANSWER", ANSWER_WORDS),
    ] {
        assert_eq!(of(&format!("{name}_WORDS")), words, "{name}");
        assert_eq!(of(&format!("{name}_BYTES")), 4 * words, "{name}");
    }
    assert_eq!(of("MESSAGE_BYTES"), MESSAGE_BYTES);
    assert_eq!(of("DESTINATIONS"), DESTINATION_LIMIT);
    assert_eq!(of("FUZZ") as u64, FUZZ);
    assert_eq!(of("ALLOWANCE_LIMIT") as u64, ALLOWANCE_LIMIT);
    assert_eq!(of("ADDRESSES_AT"), 3);
    assert_eq!(of("ROUTES_AT"), 3 + ADDRESS_LIMIT * ADDRESS_WORDS);
    assert_eq!(of("TABLES_AT"), of("COUNT_AT") - TABLE_LIMIT);
    assert_eq!(of("COUNT_AT"), of("ROW_COUNTS_AT") - 2);
    assert_eq!(of("ROW_COUNTS_AT"), STATE_WORDS - TABLE_LIMIT);
    assert_eq!(of("DUMP_INTERRUPTED"), usize::from(F_DUMP_INTR));
    let sizes = sizes();
    assert_eq!(of("STATE_WORDS"), sizes.state_words);
    assert_eq!(of("EVENTS"), sizes.event_rows);
    assert_eq!(of("PAPER"), sizes.paper as usize);
    assert_eq!(
        size_of::<Reply>(),
        16,
        "four words, as the header's struct has"
    );
}

#[test]
fn refusals() {
    macro_rules! numbers {
        ($($name:ident)*) => { [$((stringify!($name), Refused::$name.number())),*] };
    }
    // all that a call gives: not NEXT_TABLE
    let all = numbers! {
        NO_CREATE_FLAG NO_SUCH_ROUTE PROHIBITED THERE_ALREADY WRONG_DEVICE INVALID NOT_SUPPORTED
        NO_SUCH_ADDRESS DOWN NO_ROUTE_TO_NETWORK UNREACHABLE
        UNFIT_BUFFER UNFIT_STATE UNFIT_REQUEST NO_SPACE
        BAD_LENGTH NOT_IPV4 BAD_ATTRIBUTE BAD_MASK UNKNOWN_EVENT UNFIT_EVENT
        TOO_MANY_DESTINATIONS NOT_RISING
    };
    let defined = defined();
    for (name, number) in all {
        assert_eq!(
            defined[&format!("INTERFACE4_{name}")],
            number as usize,
            "{name}"
        );
    }
}

#[test]
fn stack() {
    let thousands = |n: usize| format!("{},{:03}", n / 1000, n % 1000);
    let (defined, docs) = (defined(), read("host/naskrefim/src/lib.rs"));
    let mut rows = 0;
    for (name, bytes) in &defined {
        let Some(call) = name.strip_prefix("INTERFACE4_STACK_") else {
            continue;
        };
        if ["SIZES", "PREFIX"].contains(&call) {
            assert_eq!(*bytes, 4_096, "what every call may need");
            continue;
        }
        let words = defined[&format!("INTERFACE4W_STACK_{call}")];
        let row = format!(
            "//! | `{}` | {} | {} |",
            call.to_lowercase(),
            thousands(words),
            thousands(*bytes)
        );
        assert!(docs.lines().any(|line| line == row), "{row}");
        rows += 1;
    }
    assert_eq!(rows, 25);
}
