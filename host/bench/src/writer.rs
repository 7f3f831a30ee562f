//! A writer of events as one writes it to be fast: one pass over the row,
//! straight into the lent bytes, nothing allocated. It is what the library's
//! is measured against.
use oracle::call::Reply;
use oracle::event::{Given, MESSAGE_BYTES};

const WORDS: usize = 34;
const FOREVER: u32 = u32::MAX;

/// Writes an event of words.
pub fn write(event: &[u32], message: &mut [u8], given: Given) -> Reply {
    let Some((message, _)) = message.split_first_chunk_mut::<MESSAGE_BYTES>() else {
        return Reply::refused(200);
    };
    let Ok(event) = event.try_into() else {
        return Reply::refused(201);
    };
    match written(event, message, given) {
        None => Reply::refused(201),
        Some(length) => Reply::value(length),
    }
}

/// Writes an event of bytes.
pub fn write_bytes(event: &[u8], message: &mut [u8], given: Given) -> Reply {
    if message.len() < MESSAGE_BYTES {
        return Reply::refused(200);
    }
    if event.len() != 4 * WORDS {
        return Reply::refused(201);
    }
    let mut words = [0; WORDS];
    for (word, four) in words.iter_mut().zip(event.as_chunks().0) {
        *word = u32::from_le_bytes(*four);
    }
    write(&words, message, given)
}

/// A message, and where its next byte goes.
struct Out<'a> {
    message: &'a mut [u8; MESSAGE_BYTES],
    at: usize,
}

impl Out<'_> {
    #[inline(always)]
    fn put<const N: usize>(&mut self, bytes: [u8; N]) {
        self.message[self.at..self.at + N].copy_from_slice(&bytes);
        self.at += N;
    }
    /// An attribute of four bytes.
    #[inline(always)]
    fn four(&mut self, code: u8, [a, b, c, d]: [u8; 4]) {
        self.put([8, 0, code, 0, a, b, c, d]);
    }
}

#[inline(always)]
fn optional(present: u32, value: u32) -> bool {
    present == 1 || (present | value) == 0
}

/// The bytes written; `None` for an event that is refused. Nothing is
/// written before all of it was looked at.
fn written(event: &[u32; WORDS], message: &mut [u8; MESSAGE_BYTES], given: Given) -> Option<u32> {
    let [kind, flags, row @ ..] = event;
    if *flags > 65_535 {
        return None;
    }
    let mut out = Out { message, at: 16 };
    let of = match kind {
        1 | 2 => {
            let (row, _) = row.split_first_chunk()?;
            address(row, given.now, &mut out)?;
            19 + *kind as u8
        }
        3 | 4 => {
            route(row, &mut out)?;
            21 + *kind as u8
        }
        _ => return None,
    };
    let length = out.at as u32;
    let [low, high, ..] = flags.to_le_bytes();
    out.at = 0;
    out.put(length.to_le_bytes());
    out.put([of, 0, low, high]);
    out.put(given.sequence.to_le_bytes());
    out.put(given.port.to_le_bytes());
    Some(length)
}

fn address(row: &[u32; 20], now: u64, out: &mut Out) -> Option<()> {
    let [prefix, scope, proto, length] = [row[2], row[5], row[7], row[8]];
    if prefix > 32 || scope > 255 || proto > 255 || length > 15 || !optional(row[3], row[4]) {
        return None;
    }
    let mut label = [0; 16];
    for (four, word) in label.as_chunks_mut().0.iter_mut().zip(&row[9..13]) {
        *four = word.to_le_bytes();
    }
    if u128::from_le_bytes(label) >> (8 * length) != 0 {
        return None;
    }
    out.put([2, prefix as u8, row[6] as u8, scope as u8, 1, 0, 0, 0]);
    out.four(1, row[1].to_be_bytes());
    out.four(2, row[0].to_be_bytes());
    // the closing zero and the padding are the label's own zeros
    let length = length as usize;
    out.put([length as u8 + 5, 0, 3, 0]);
    let padded = (length + 4) & !3;
    out.message[out.at..out.at + padded].copy_from_slice(&label[..padded]);
    out.at += padded;
    if row[3] == 1 {
        out.four(4, row[4].to_be_bytes());
    }
    let (preferred, valid) = left(row, now);
    out.put([20, 0, 6, 0]);
    out.put(preferred.to_le_bytes());
    out.put(valid.to_le_bytes());
    out.put([0; 8]);
    out.four(8, row[6].to_le_bytes());
    if row[13] != 0 {
        out.four(9, row[13].to_le_bytes());
    }
    if proto != 0 {
        out.put([5, 0, 11, 0, proto as u8, 0, 0, 0]);
    }
    Some(())
}

/// The preferred and the valid lifetime that are left.
fn left(row: &[u32; 20], now: u64) -> (u32, u32) {
    let [flags, valid, preferred] = [row[6], row[14], row[15]];
    if flags & 0x80 != 0 {
        return (FOREVER, FOREVER);
    }
    if preferred == FOREVER {
        return (FOREVER, valid);
    }
    let changed = u64::from(row[18]) | u64::from(row[19]) << 32;
    let age = now.saturating_sub(changed) / 1_000_000_000;
    let age = u32::try_from(age).unwrap_or(FOREVER);
    let valid = match valid {
        FOREVER => FOREVER,
        valid => valid.saturating_sub(age),
    };
    (preferred.saturating_sub(age), valid)
}

fn route(row: &[u32; 32], out: &mut Out) -> Option<()> {
    let [table, dst, len, tos, priority, kind, proto, scope] = *row.first_chunk()?;
    let [device, onlink, uses_gateway] = [row[12], row[13], row[14]];
    let fit = len <= 32
        && (tos | proto | scope) < 256
        && matches!(kind, 1 | 2 | 3 | 6..=9)
        && optional(row[8], row[9])
        && optional(row[10], row[11])
        && (device | onlink | uses_gateway) < 2
        && u64::from(dst) << len & 0xffff_ffff == 0;
    if !fit {
        return None;
    }
    let byte = if table > 255 { 252 } else { table as u8 };
    out.put([2, len as u8, 0, tos as u8, byte]);
    out.put([proto as u8, scope as u8, kind as u8]);
    out.put([4 * onlink as u8, 0, 0, 0]);
    if len != 0 {
        out.four(1, dst.to_be_bytes());
    }
    if device == 1 {
        out.four(4, [1, 0, 0, 0]);
    }
    if row[10] == 1 {
        out.four(5, row[11].to_be_bytes());
    }
    if priority != 0 {
        out.four(6, priority.to_le_bytes());
    }
    if row[8] == 1 {
        out.four(7, row[9].to_be_bytes());
    }
    let begin = out.at;
    out.at += 4;
    for (t, value) in (1..).zip(&row[15..]) {
        if *value != 0 {
            out.four(t, value.to_le_bytes());
        }
    }
    let length = out.at - begin;
    out.at = begin;
    if length > 4 {
        out.put([length as u8, 0, 8, 0]);
        out.at = begin + length;
    }
    out.four(15, table.to_le_bytes());
    Some(())
}
