//! Plain Rust that rebuilds the rows of a recording: one pass over the events,
//! rows kept in order in a list, a row's place found by halving. The answers
//! are those of the oracle's model, and a refusal leaves what is lent.
use crate::same_job::{address, route};
use oracle::call::Reply;
use oracle::words::{ADDRESS_WORDS, EVENT_WORDS, LISTING_BUFFER, ROUTE_LIMIT};

type Row = [u32; 32];
type Rows = Vec<Row>;

pub fn rebuild(recording: &[u32], rows: &mut [u32]) -> Reply {
    let (events, []) = recording.as_chunks() else {
        return Reply::refused(200);
    };
    if rows.len() < LISTING_BUFFER {
        return Reply::refused(200);
    }
    match all(events) {
        Err(number) => Reply::refused(number),
        Ok(rebuilt) => {
            let words = rebuilt.as_flattened();
            rows[..words.len()].copy_from_slice(words);
            Reply::value(rebuilt.len() as u32)
        }
    }
}

pub fn same(first: &[u32], second: &[u32]) -> Reply {
    let ((first, []), (second, [])) = (first.as_chunks(), second.as_chunks()) else {
        return Reply::refused(200);
    };
    match all(first).and_then(|first| Ok(first == all(second)?)) {
        Err(number) => Reply::refused(number),
        Ok(same) => Reply::value(same.into()),
    }
}

fn all(events: &[[u32; EVENT_WORDS]]) -> Result<Rows, u32> {
    let mut rows = Rows::with_capacity(ROUTE_LIMIT);
    for event in events {
        one(&mut rows, event)?;
    }
    Ok(rows)
}

fn fit(holds: bool) -> Result<(), u32> {
    if holds { Ok(()) } else { Err(209) }
}

fn zero(words: &[u32]) -> bool {
    words.iter().fold(0, |all, word| all | word) == 0
}

fn one(rows: &mut Rows, event: &[u32; EVENT_WORDS]) -> Result<(), u32> {
    let [kind, flags, row @ ..] = event;
    match kind {
        1 | 2 => {
            let (own, behind) = row.split_at(ADDRESS_WORDS);
            let own = own.try_into().expect("an address is shorter");
            fit(*flags == 0 && address(own) && zero(behind))
        }
        3 => {
            fit(*flags <= 65_535 && route(row))?;
            let [start, end] = alike(rows, row);
            fit(!rows[start..end].contains(row))?;
            if flags & 0x100 != 0 {
                fit(start < end)?;
                rows[start] = *row;
            } else {
                fit(rows.len() < ROUTE_LIMIT)?;
                rows.insert(if flags & 0x800 != 0 { end } else { start }, *row);
            }
            Ok(())
        }
        4 => {
            fit(*flags == 0 && route(row))?;
            let [start, end] = alike(rows, row);
            let at = rows[start..end].iter().position(|other| other == row);
            rows.remove(start + at.ok_or(209_u32)?);
            Ok(())
        }
        5 | 6 => {
            fit(zero(&event[1..]))?;
            rows.retain(|row| row[12] == 0 || (*kind == 5 && row[7] == 254));
            Ok(())
        }
        _ => Err(208),
    }
}

/// Where the rows alike begin and end.
fn alike(rows: &[Row], row: &Row) -> [usize; 2] {
    let place = |r: &Row| (r[1], !r[2], !r[0], !r[3], r[4]);
    let here = place(row);
    let start = rows.partition_point(|other| place(other) < here);
    let like = rows[start..]
        .iter()
        .take_while(|other| place(other) == here);
    [start, start + like.count()]
}
