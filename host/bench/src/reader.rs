//! A reader of messages as one writes it to be fast: one pass over the
//! attributes, the fields kept as they come, nothing allocated. It is what
//! the library's is measured against.
use oracle::call::Reply;
use oracle::message::{
    BAD_ATTRIBUTE, BAD_LENGTH, DEL_ADDRESS, DEL_ROUTE, NEW_ADDRESS, NEW_ROUTE, NOT_IPV4,
};

const WORDS: usize = 49;
const LO: [u32; 5] = [2, 0x6f6c, 0, 0, 0];

/// Reads into lent words.
pub fn read(message: &[u8], request: &mut [u32], up: u32) -> Reply {
    let Some((request, _)) = request.split_first_chunk_mut() else {
        return Reply::refused(200);
    };
    match request_of(message, request, up) {
        Err(number) => Reply::refused(number),
        Ok((kind, second)) => Reply {
            second,
            ..Reply::value(kind.into())
        },
    }
}

/// Reads into lent bytes.
pub fn read_bytes(message: &[u8], request: &mut [u8], up: u32) -> Reply {
    if request.len() < 4 * WORDS {
        return Reply::refused(200);
    }
    let mut words = [0; WORDS];
    let reply = read(message, &mut words, up);
    let written = &words[..reply.second as usize];
    for (four, word) in request.as_chunks_mut().0.iter_mut().zip(written) {
        *four = word.to_le_bytes();
    }
    reply
}

/// The type and the number of words written.
fn request_of(message: &[u8], w: &mut [u32; WORDS], up: u32) -> Result<(u16, u32), u32> {
    let (header, _) = message.split_first_chunk::<16>().ok_or(BAD_LENGTH)?;
    let [a, b, c, d, kind, kind_high, flags, flags_high, ..] = *header;
    let length = u32::from_le_bytes([a, b, c, d]) as usize;
    let kind = u16::from_le_bytes([kind, kind_high]);
    let flags = u16::from_le_bytes([flags, flags_high]);
    let rest = message.get(16..length).ok_or(BAD_LENGTH)?;
    match kind {
        NEW_ADDRESS => new_address(rest, flags, w, up).map(|()| (kind, 18)),
        DEL_ADDRESS => del_address(rest, w).map(|()| (kind, 11)),
        NEW_ROUTE => {
            let (fixed, metrics) = route(rest, w)?;
            w[13] = u32::from_le_bytes([fixed[8], fixed[9], fixed[10], fixed[11]]);
            w[14] = flags.into();
            w[15] = if metrics.above { 22 } else { 0 };
            w[16..33].copy_from_slice(if metrics.above {
                &[0; 17]
            } else {
                &metrics.values
            });
            w[33] = up;
            Ok((kind, 34))
        }
        DEL_ROUTE => {
            let (_, metrics) = route(rest, w)?;
            w[13..].fill(0);
            if !metrics.above {
                w[13] = 1;
                w[14] = metrics.named.count_ones();
                let mut named = metrics.named;
                let mut at = 15;
                while named != 0 {
                    let index = named.trailing_zeros();
                    w[at] = index;
                    w[at + 1] = metrics.values[index as usize];
                    named &= named - 1;
                    at += 2;
                }
            }
            Ok((kind, 49))
        }
        _ => Err(NOT_IPV4),
    }
}

/// The attributes of a list; an error at the first bad length.
struct Attributes<'a>(&'a [u8]);

impl<'a> Attributes<'a> {
    #[inline(always)]
    fn next(&mut self) -> Result<Option<(u16, &'a [u8])>, u32> {
        let Some(&[low, high, code, code_high]) = self.0.first_chunk() else {
            return Ok(None);
        };
        let length = u16::from_le_bytes([low, high]) as usize;
        let value = self.0.get(4..length).ok_or(BAD_LENGTH)?;
        self.0 = self.0.get((length + 3) & !3..).unwrap_or(&[]);
        Ok(Some((
            u16::from_le_bytes([code, code_high]) & 0x3fff,
            value,
        )))
    }
}

/// A number of four bytes; `bad` of another size.
#[inline(always)]
fn number(value: &[u8], bad: &mut bool) -> u32 {
    match value.try_into() {
        Ok(four) => u32::from_le_bytes(four),
        Err(_) => {
            *bad = true;
            0
        }
    }
}

#[inline(always)]
fn address(value: &[u8], bad: &mut bool) -> u32 {
    number(value, bad).swap_bytes()
}

/// A label's length and words.
#[inline(always)]
fn label(value: &[u8], bad: &mut bool) -> [u32; 5] {
    let length = value.iter().position(|&b| b == 0).unwrap_or(value.len());
    if length > 15 {
        *bad = true;
        return [0; 5];
    }
    let mut bytes = [0; 16];
    bytes[..length].copy_from_slice(&value[..length]);
    let mut words = [length as u32; 5];
    for (word, four) in words[1..].iter_mut().zip(bytes.as_chunks().0) {
        *word = u32::from_le_bytes(*four);
    }
    words
}

fn new_address(rest: &[u8], flags: u16, w: &mut [u32; WORDS], up: u32) -> Result<(), u32> {
    let (fixed, rest) = rest.split_first_chunk::<8>().ok_or(BAD_LENGTH)?;
    let mut all = Attributes(rest);
    let (mut local, mut peer, mut broadcast) = (None, None, [0, 0]);
    let (mut own_flags, mut proto, mut priority) = (fixed[2].into(), 0, 0);
    let (mut name, mut life, mut bad) = (LO, [u32::MAX; 2], false);
    while let Some((code, value)) = all.next()? {
        match code {
            1 => peer = Some(address(value, &mut bad)),
            2 => local = Some(address(value, &mut bad)),
            3 => name = label(value, &mut bad),
            4 => broadcast = [1, address(value, &mut bad)],
            6 if value.len() == 16 => {
                life = [&value[4..8], &value[..4]].map(|four| number(four, &mut bad));
            }
            6 => bad = true,
            8 => own_flags = number(value, &mut bad),
            9 => priority = number(value, &mut bad),
            11 => match value {
                [one] => proto = u32::from(*one),
                _ => bad = true,
            },
            _ => {}
        }
    }
    if fixed[0] != 2 {
        return Err(NOT_IPV4);
    }
    let (Some(local), false) = (local, bad) else {
        return Err(BAD_ATTRIBUTE);
    };
    w[0] = local;
    w[1] = peer.unwrap_or(local);
    w[2] = fixed[1].into();
    w[3..5].copy_from_slice(&broadcast);
    w[5..8].copy_from_slice(&[fixed[3].into(), own_flags, proto]);
    w[8..13].copy_from_slice(&name);
    w[13] = priority;
    w[14..16].copy_from_slice(&life);
    w[16] = (flags & 0x300 == 0x100).into();
    w[17] = up;
    Ok(())
}

fn del_address(rest: &[u8], w: &mut [u32; WORDS]) -> Result<(), u32> {
    let (fixed, rest) = rest.split_first_chunk::<8>().ok_or(BAD_LENGTH)?;
    let mut all = Attributes(rest);
    let (mut local, mut peer, mut name, mut bad) = ([0; 2], [0; 2], [0; 6], false);
    while let Some((code, value)) = all.next()? {
        match code {
            1 => peer = [1, address(value, &mut bad)],
            2 => local = [1, address(value, &mut bad)],
            3 => {
                name[0] = 1;
                name[1..].copy_from_slice(&label(value, &mut bad));
            }
            _ => {}
        }
    }
    if fixed[0] != 2 {
        return Err(NOT_IPV4);
    }
    if bad {
        return Err(BAD_ATTRIBUTE);
    }
    w[..2].copy_from_slice(&local);
    w[2..4].copy_from_slice(&peer);
    w[4] = fixed[1].into();
    w[5..11].copy_from_slice(&name);
    Ok(())
}

/// One list of metrics: which are named, their values, and whether a type
/// is above 17.
#[derive(Clone, Copy, Default)]
struct Metrics {
    named: u32,
    values: [u32; 17],
    above: bool,
}

fn metrics(value: &[u8], bad: &mut bool) -> Result<Metrics, u32> {
    let mut all = Attributes(value);
    let mut found = Metrics::default();
    while let Some((code, value)) = all.next()? {
        match code {
            0 => {}
            1..=17 => {
                found.named |= 1 << (code - 1);
                found.values[usize::from(code - 1)] = number(value, bad);
            }
            _ => found.above = true,
        }
    }
    Ok(found)
}

/// Writes the thirteen words with which both requests begin; nothing where
/// the message is refused.
fn route<'a>(rest: &'a [u8], w: &mut [u32; WORDS]) -> Result<(&'a [u8; 12], Metrics), u32> {
    let (fixed, rest) = rest.split_first_chunk::<12>().ok_or(BAD_LENGTH)?;
    let mut all = Attributes(rest);
    let (mut dst, mut oif, mut priority) = (0, 0, 0);
    let (mut gateway, mut prefsrc) = ([0; 2], [0; 2]);
    let (mut table, mut bad, mut found) = (fixed[4].into(), false, Metrics::default());
    while let Some((code, value)) = all.next()? {
        match code {
            1 => dst = address(value, &mut bad),
            4 => oif = number(value, &mut bad),
            5 => gateway = [1, address(value, &mut bad)],
            6 => priority = number(value, &mut bad),
            7 => prefsrc = [1, address(value, &mut bad)],
            8 => found = metrics(value, &mut bad)?,
            15 => table = number(value, &mut bad),
            _ => {}
        }
    }
    if fixed[0] != 2 {
        return Err(NOT_IPV4);
    }
    if bad {
        return Err(BAD_ATTRIBUTE);
    }
    w[..5].copy_from_slice(&[table, dst, fixed[1].into(), fixed[3].into(), priority]);
    w[5..8].copy_from_slice(&[fixed[7], fixed[5], fixed[6]].map(u32::from));
    w[8..10].copy_from_slice(&prefsrc);
    w[10..12].copy_from_slice(&gateway);
    w[12] = oif;
    Ok((fixed, found))
}
