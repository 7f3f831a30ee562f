//! Sentences of document 01 that can be read off single calls, held
//! against the Rust on generated cases: what a refusal leaves, that calls
//! keep a state well-formed, lookups by item 5, lifetimes by item 2. What a
//! call leaves has the counts of document 02, Papers 6 and 8.
use crate::call::{Buffer, Call, Reply};
use crate::compare::Case;
use crate::generate::cases::{Cases, USUAL};
use crate::model::model;
use crate::script::{FOREVER, written};
use crate::well_formed;
use crate::words::{self, TABLES_AT};
use reference::{AddressRow, Lists, RouteRow};

/// How often each sentence was held.
#[derive(Default)]
struct Held {
    refusals: usize,
    kept: usize,
    lookups: usize,
    lifetimes: usize,
}

pub fn run(count: usize, seed: u64) -> bool {
    let mut cases = Cases::new(seed, USUAL);
    let mut held = Held::default();
    let mut failed = 0;
    for _ in 0..count {
        let (_, case) = cases.next_case();
        if let Err(what) = hold(&case, &mut held) {
            failed += 1;
            println!("FAILED  {}: {what}", case.call);
        }
    }
    println!(
        "document: {count} cases, {failed} failed; {} refusals left what they may, {} states \
         stayed well-formed, {} lookups by item 5, {} expiries by item 2",
        held.refusals, held.kept, held.lookups, held.lifetimes
    );
    failed == 0
}

fn hold(case: &Case, held: &mut Held) -> Result<(), String> {
    let mut state = case.state.clone();
    let mut buffer = case.buffer.clone();
    let reply = model(&case.call, &mut state, &mut buffer);
    let kept = written(&case.call, &reply);
    if buffer[kept..] != case.buffer[kept..] {
        return Err("a buffer word past the last row changed".to_string());
    }
    if reply.number != 0 {
        refusal(case, &reply, &state)?;
        held.refusals += 1;
    }
    // `left` is lent no state, and behind 200 and 201 there is no fit one
    if matches!(case.call, Call::Left { .. }) || matches!(reply.number, 200 | 201) {
        return Ok(());
    }
    if !well_formed::state(&state) {
        return Err("the state isn't well-formed afterwards".to_string());
    }
    held.kept += 1;
    if case.call.buffer() != Buffer::Events && state != case.state {
        return Err("a reading call changed the state".to_string());
    }
    if reply.number == 202 {
        return Ok(());
    }
    let lists = words::decode(&case.state);
    if let Some(expected) = by_item_5(&case.call, &lists) {
        let row = buffer.get(..kept).unwrap_or(&[]);
        let found = (reply, row);
        if found != (expected.0, expected.1.as_ref().map_or(&[], |r| &r[..])) {
            return Err(format!("item 5 says {:?}, not {reply:?}", expected.0));
        }
        held.lookups += 1;
    }
    if let Call::Expire { now, allowance } = case.call {
        lifetimes(&lists, &words::decode(&state), now, allowance)?;
        held.lifetimes += 1;
    }
    Ok(())
}

/// "Nothing is left changed except as the last column says."
fn refusal(case: &Case, reply: &Reply, state: &[u32]) -> Result<(), String> {
    if *reply != Reply::refused(reply.number) {
        return Err("returned is the number alone".to_string());
    }
    if state == case.state {
        return Ok(());
    }
    let Call::AddRoute4 { request } = &case.call else {
        return Err(format!("{} changed the state", reply.number));
    };
    if reply.number >= 200 {
        return Err(format!("{} changed the state", reply.number));
    }
    let mut tables = words::decode(&case.state).tables;
    let named = if request[0] == 0 { 254 } else { request[0] };
    for table in [254, named] {
        let brought = table == named || named == 255;
        if brought && !tables.contains(&table) {
            tables.push(table);
        }
    }
    let mut expected = case.state.clone();
    expected[2] = tables.len() as u32;
    expected[TABLES_AT..TABLES_AT + tables.len()].copy_from_slice(&tables);
    // document 02, Paper 6: "refused or not"
    let count = words::change_count(&case.state).saturating_add(1);
    words::set_change_count(&mut expected, count);
    // Paper 8: rows that were there are counted with the table
    words::recount(&mut expected);
    if state == expected {
        Ok(())
    } else {
        Err("a refused request left more than its table".to_string())
    }
}

/// The reply, and a row, that item 5 gives a lookup, `local4` or `source`.
fn by_item_5(call: &Call, lists: &Lists) -> Option<(Reply, Option<RouteRow>)> {
    Some(match *call {
        Call::Lookup4 { ip } => answer(lookup(lists, ip, 0, 0)),
        Call::Lookup4Flow { ip, tos, oif } => answer(lookup(lists, ip, tos, oif)),
        Call::Local4 { ip } => {
            let local = lists.tables.contains(&255)
                && set_answer(lists, &[254, 255], ip, 0, 0).is_some_and(|r| r[5] == 2);
            (Reply::value(u32::from(local)), None)
        }
        _ => return None,
    })
}

fn answer(found: Result<RouteRow, u32>) -> (Reply, Option<RouteRow>) {
    match found {
        Ok(row) => (Reply::default(), Some(row)),
        Err(number) => (Reply::refused(number), None),
    }
}

fn lookup(lists: &Lists, ip: u32, tos: u32, oif: u32) -> Result<RouteRow, u32> {
    let throws = |row: &RouteRow| row[5] == 9;
    let first = set_answer(lists, &[254, 255], ip, tos, oif).filter(|r| !throws(r));
    let found = first.or_else(|| {
        let listed = lists.tables.contains(&253);
        let second = listed.then(|| set_answer(lists, &[253], ip, tos, oif));
        second.flatten().filter(|r| !throws(r))
    });
    let row = found.ok_or(101u32)?;
    match row[5] {
        6 => Err(22),
        7 => Err(113),
        8 => Err(13),
        _ => Ok(row),
    }
}

/// The fitting row of greatest len, the first in list order among equals.
fn set_answer(lists: &Lists, tables: &[u32], ip: u32, tos: u32, oif: u32) -> Option<RouteRow> {
    let fits = |r: &&RouteRow| {
        let masked = u64::from(ip) >> (32 - r[2]) << (32 - r[2]);
        tables.contains(&r[0])
            && u64::from(r[1]) == masked
            && (r[3] == 0 || r[3] == tos & 0x1c)
            && (r[5] >= 6 || oif == 0 || (oif == 1 && r[12] == 1))
    };
    let longest = lists.routes.iter().filter(fits).map(|r| r[2]).max()?;
    lists
        .routes
        .iter()
        .filter(fits)
        .find(|r| r[2] == longest)
        .copied()
}

/// Item 2 with the allowance of document 02, Paper 7. After an expiry
/// nothing that is due is left, and what is past its preferred lifetime is
/// marked; and no other is gone or marked, but a secondary, which goes with
/// its primary. Those that stay are in order, and otherwise as they were.
fn lifetimes(before: &Lists, after: &Lists, now: u64, allowance: u64) -> Result<(), String> {
    let reached = |a: &AddressRow, lifetime: u32| {
        let changed = u128::from(a[18]) | u128::from(a[19]) << 32;
        let early = u128::from(now) + u128::from(allowance);
        let age = early.saturating_sub(changed) / 1_000_000_000;
        a[6] & 0x80 == 0 && lifetime != FOREVER && age >= u128::from(lifetime)
    };
    let mut left = after.addresses.iter().peekable();
    for a in &before.addresses {
        let mut marked = *a;
        if reached(a, a[15]) {
            marked[6] |= 0x20;
        }
        let stays = left.next_if(|b| **b == marked).is_some();
        if !stays && !reached(a, a[14]) && a[6] & 1 == 0 {
            return Err("an address that isn't due is gone, or another".to_string());
        }
    }
    if left.next().is_some() {
        return Err("an address that wasn't there, or in another place".to_string());
    }
    for a in after.addresses.iter().filter(|a| a[6] & 0x80 == 0) {
        if reached(a, a[14]) {
            return Err("an address that is due stays".to_string());
        }
        if reached(a, a[15]) && a[6] & 0x20 == 0 {
            return Err("an address past its preferred lifetime isn't marked".to_string());
        }
    }
    Ok(())
}
