//! Short lists with one thing wrong in each, which a replayer must report.
use super::{HEAD_WORDS, check};
use crate::port::bytes;
use crate::words::{BASE_WORDS, ROW_COUNTS_AT};

/// How many of the list's first records a damaged list has: `up`, `up`
/// again, `dump4`, a route added.
const RECORDS: usize = 4;
const UP: usize = 0;
const DUMP4: usize = 2;
const ADD_ROUTE4: usize = 3;

/// The places of a record's words.
const LENGTH: usize = 1;
const CALL: usize = 2;
const NUMBER: usize = 6;
const VALUE: usize = 8;
const SETS_END: usize = 10;
const LENT_END: usize = 11;
const CHANGES_END: usize = 12;

/// Each damaged list's name and bytes.
pub fn lists(data: &[u32]) -> Vec<(&'static str, Vec<u8>)> {
    let records = first(data);
    let of =
        |count: usize, records: &[Vec<u32>]| bytes(&[head(data, count), records.concat()].concat());
    // one record says something else, and its check is right
    let saying = |at: usize, wrong: &dyn Fn(&mut Vec<u32>)| {
        let mut records = records.clone();
        let record = &mut records[at];
        wrong(record);
        record[LENGTH] = record.len() as u32;
        record[0] = check(&record[1..]);
        of(RECORDS, &records)
    };
    let whole = of(RECORDS, &records);
    let mut flipped = whole.clone();
    let middle = flipped.len() / 2;
    flipped[middle] ^= 16;
    let mut other = whole.clone();
    other[3] = b'2';
    vec![
        ("number", saying(DUMP4, &|r| r[NUMBER] = 201)),
        ("value", saying(UP, &|r| r[VALUE] -= 1)),
        ("request", saying(ADD_ROUTE4, &|r| raise(r, SETS_END, 0))),
        ("state", saying(ADD_ROUTE4, &|r| raise(r, LENT_END, 1))),
        (
            "change",
            saying(ADD_ROUTE4, &|r| {
                let at = r[LENT_END] as usize;
                r.drain(at..at + 2);
                r[CHANGES_END] -= 2;
            }),
        ),
        ("count", saying(UP, &|r| raise_word(r, BASE_WORDS))),
        // of the second table, which is 255
        ("rows", saying(UP, &|r| raise_word(r, ROW_COUNTS_AT + 1))),
        ("event", saying(UP, &|r| raise(r, CHANGES_END, 2))),
        (
            "past",
            saying(UP, &|r| {
                r.pop();
            }),
        ),
        ("listing", saying(DUMP4, &|r| raise(r, CHANGES_END, 0))),
        // a number between those of calls
        ("call", saying(DUMP4, &|r| r[CALL] = 16)),
        ("byte", flipped),
        ("short", whole[..whole.len() - 1].to_vec()),
        ("long", [whole.clone(), vec![0]].concat()),
        ("fewer", of(RECORDS, &records[..RECORDS - 1])),
        ("more", of(RECORDS - 1, &records)),
        ("other", other),
        ("nothing", Vec::new()),
    ]
}

/// One more at the i-th word behind the end of a part.
fn raise(record: &mut [u32], part: usize, i: usize) {
    let at = record[part] as usize + i;
    record[at] += 1;
}

/// One more in a state word that the call changes.
fn raise_word(record: &mut [u32], place: usize) {
    let [lent_end, changes_end] = [LENT_END, CHANGES_END].map(|i| record[i] as usize);
    let (changes, _) = record[lent_end..changes_end].as_chunks_mut::<2>();
    let change = changes.iter_mut().find(|change| change[0] == place as u32);
    change.expect("the call changes that word")[1] += 1;
}

/// The head of a list of `count` records.
fn head(data: &[u32], count: usize) -> Vec<u32> {
    let mut head = data[..HEAD_WORDS].to_vec();
    head[3] = count as u32;
    head[4] = check(&head[..4]);
    head
}

/// The list's first records.
fn first(data: &[u32]) -> Vec<Vec<u32>> {
    let mut rest = &data[HEAD_WORDS..];
    let mut records = Vec::new();
    for _ in 0..RECORDS {
        let (record, after) = rest.split_at(rest[LENGTH] as usize);
        records.push(record.to_vec());
        rest = after;
    }
    records
}
