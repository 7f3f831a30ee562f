//! Messages before they are bytes, so that every part of them can be
//! damaged, and such messages made of requests, attribute by attribute.
use crate::call::Call;
use crate::message::{CODE, DEL_ADDRESS, DEL_ROUTE, EXCL, FAMILY, HEADER, METRICS, REPLACE, text};
use crate::message::{NEW_ADDRESS, NEW_ROUTE, ifa, rta};
use crate::port::bytes;
use crate::rng::Rng;
use crate::words;

/// What padding is filled with: no reader may look at it.
const PAD: u8 = 0xa7;
const INVALID: u32 = 22;

/// A list of attributes, the message's own or nested.
#[derive(Clone, Debug, Default)]
pub struct List {
    pub attributes: Vec<Attribute>,
    /// The last one's padding is left out.
    pub unpadded: bool,
    /// Bytes behind the last one.
    pub spare: Vec<u8>,
}

#[derive(Clone, Debug)]
pub struct Attribute {
    pub raw: u16,
    pub value: Value,
    /// What its length says, if that isn't so.
    pub length: Option<u16>,
}

#[derive(Clone, Debug)]
pub enum Value {
    Bytes(Vec<u8>),
    Nested(List),
}

impl Attribute {
    pub fn new(raw: u16, value: &[u8]) -> Self {
        Self {
            raw,
            value: Value::Bytes(value.to_vec()),
            length: None,
        }
    }
    pub fn nested(raw: u16, list: List) -> Self {
        Self {
            raw,
            value: Value::Nested(list),
            length: None,
        }
    }
    pub fn code(&self) -> u16 {
        self.raw & CODE
    }
    fn bytes(&self) -> Vec<u8> {
        let value = match &self.value {
            Value::Bytes(value) => value.clone(),
            Value::Nested(list) => list.bytes(),
        };
        let length = self.length.unwrap_or((4 + value.len()) as u16);
        let mut all = length.to_le_bytes().to_vec();
        all.extend(self.raw.to_le_bytes());
        all.extend(value);
        all
    }
}

impl List {
    pub fn bytes(&self) -> Vec<u8> {
        let mut all = Vec::new();
        for (i, attribute) in self.attributes.iter().enumerate() {
            all.extend(attribute.bytes());
            if !self.unpadded || i + 1 < self.attributes.len() {
                all.resize(all.len().next_multiple_of(4), PAD);
            }
        }
        all.extend(&self.spare);
        all
    }
    /// The bytes from the attribute at `i` on.
    pub fn behind(&self, i: usize) -> usize {
        let rest = Self {
            attributes: self.attributes[i..].to_vec(),
            ..self.clone()
        };
        rest.bytes().len()
    }
}

/// A message.
#[derive(Clone, Debug, Default)]
pub struct Draft {
    pub kind: u16,
    pub flags: u16,
    /// `ifaddrmsg` or `rtmsg`.
    pub fixed: Vec<u8>,
    pub list: List,
    /// What the header's length says, if that isn't so.
    pub length: Option<u32>,
    /// Bytes past the message.
    pub past: Vec<u8>,
    /// How many bytes are lent, if not all.
    pub kept: Option<usize>,
}

impl Draft {
    pub fn new(kind: u16, flags: u16, fixed: &[u8]) -> Self {
        Self {
            kind,
            flags,
            fixed: fixed.to_vec(),
            ..Self::default()
        }
    }
    pub fn with(mut self, code: u16, value: &[u8]) -> Self {
        self.list.attributes.push(Attribute::new(code, value));
        self
    }
    /// With metrics, each a type and its value.
    pub fn with_metrics(mut self, metrics: &[(u16, &[u8])]) -> Self {
        let metrics = metrics.iter().map(|(t, value)| Attribute::new(*t, value));
        let list = List {
            attributes: metrics.collect(),
            ..List::default()
        };
        let all = &mut self.list.attributes;
        all.push(Attribute::nested(rta::METRICS, list));
        self
    }
    pub fn right_length(&self) -> usize {
        HEADER + self.fixed.len() + self.list.bytes().len()
    }
    pub fn bytes(&self) -> Vec<u8> {
        let length = self.length.unwrap_or(self.right_length() as u32);
        let mut all = length.to_le_bytes().to_vec();
        for half in [self.kind, self.flags] {
            all.extend(half.to_le_bytes());
        }
        // sequence and port, of which no request knows
        all.extend([0x11, 0x22, 0x33, 0x44, 0x55, 0x66, 0x77, 0x88]);
        all.extend(&self.fixed);
        all.extend(self.list.bytes());
        all.extend(&self.past);
        all.truncate(self.kept.unwrap_or(all.len()));
        all
    }
}

/// A message that asks for a call, and the request that it reads as: the
/// call's, as far as a message can say it. Attributes that say what a
/// missing one means are left out at times.
pub fn of(rng: &mut Rng, call: &Call) -> (Draft, Vec<u32>) {
    let (mut draft, words) = match call {
        Call::AddV4 { request, .. } => new_address(rng, request.clone()),
        Call::DelV4 { request } => del_address(rng, request.clone()),
        Call::AddRoute4 { request } => new_route(rng, request.clone()),
        Call::DelRoute4 { request } => del_route(rng, request.clone()),
        other => panic!("no message asks for {other}"),
    };
    shuffle(rng, &mut draft.list.attributes);
    (draft, words)
}

fn shuffle<T>(rng: &mut Rng, items: &mut [T]) {
    for i in (1..items.len()).rev() {
        items.swap(i, rng.below(i + 1));
    }
}

/// Whether an attribute stands there that `must`, or need not.
fn stands(rng: &mut Rng, must: bool) -> bool {
    must || rng.one_in(3)
}

pub fn any_bytes(rng: &mut Rng, count: usize) -> Vec<u8> {
    (0..count).map(|_| rng.draw() as u8).collect()
}

/// Cuts the label of a request at its first zero, and gives it.
fn label(words: &mut [u32]) -> Vec<u8> {
    let whole = bytes(&words[1..5])[..words[0] as usize].to_vec();
    let label = text(&whole).to_vec();
    words[..5].copy_from_slice(&words::label(&label));
    label
}

/// A byte field, and an attribute that goes before it: the byte holds
/// anything then.
fn wide(rng: &mut Rng, value: u32) -> (u8, bool) {
    if stands(rng, value > 255) {
        (rng.draw() as u8, true)
    } else {
        (value as u8, false)
    }
}

fn new_address(rng: &mut Rng, mut w: Vec<u32>) -> (Draft, Vec<u32>) {
    let (flags, named) = wide(rng, w[6]);
    let other = rng.draw() as u16 & !(REPLACE | EXCL);
    let header = match (w[16], rng.below(3)) {
        (1, _) => REPLACE,
        (_, 0) => REPLACE | EXCL,
        (_, 1) => EXCL,
        _ => 0,
    };
    let mut fixed = vec![FAMILY, w[2] as u8, flags, w[5] as u8];
    fixed.extend(any_bytes(rng, 4));
    let mut draft = Draft::new(NEW_ADDRESS, header | other, &fixed);
    draft = draft.with(ifa::LOCAL, &w[0].to_be_bytes());
    if stands(rng, w[1] != w[0]) {
        draft = draft.with(ifa::ADDRESS, &w[1].to_be_bytes());
    }
    let label = label(&mut w[8..13]);
    if stands(rng, label != b"lo") {
        draft = draft.with(ifa::LABEL, &label);
    }
    if w[3] == 1 {
        draft = draft.with(ifa::BROADCAST, &w[4].to_be_bytes());
    }
    if stands(rng, w[14..16] != [u32::MAX; 2]) {
        let mut information = bytes(&[w[15], w[14]]);
        information.extend(any_bytes(rng, 8));
        draft = draft.with(ifa::CACHEINFO, &information);
    }
    if named {
        draft = draft.with(ifa::FLAGS, &w[6].to_le_bytes());
    }
    if stands(rng, w[13] != 0) {
        draft = draft.with(ifa::RT_PRIORITY, &w[13].to_le_bytes());
    }
    if stands(rng, w[7] != 0) {
        draft = draft.with(ifa::PROTO, &[w[7] as u8]);
    }
    (draft, w)
}

fn del_address(rng: &mut Rng, mut w: Vec<u32>) -> (Draft, Vec<u32>) {
    let mut fixed = vec![FAMILY, w[4] as u8];
    fixed.extend(any_bytes(rng, 6));
    let mut draft = Draft::new(DEL_ADDRESS, rng.draw() as u16, &fixed);
    if w[0] == 1 {
        draft = draft.with(ifa::LOCAL, &w[1].to_be_bytes());
    }
    if w[2] == 1 {
        draft = draft.with(ifa::ADDRESS, &w[3].to_be_bytes());
    }
    let label = label(&mut w[6..11]);
    if w[5] == 1 {
        draft = draft.with(ifa::LABEL, &label);
    }
    (draft, w)
}

/// A message with the thirteen words with which both requests begin.
fn route(rng: &mut Rng, kind: u16, header: u16, flags: u32, w: &[u32]) -> Draft {
    let (table, named) = wide(rng, w[0]);
    let mut fixed = vec![FAMILY, w[2] as u8, rng.draw() as u8, w[3] as u8, table];
    fixed.extend([w[6], w[7], w[5]].map(|word| word as u8));
    fixed.extend(flags.to_le_bytes());
    let mut draft = Draft::new(kind, header, &fixed);
    if named {
        draft = draft.with(rta::TABLE, &w[0].to_le_bytes());
    }
    if stands(rng, w[1] != 0) {
        draft = draft.with(rta::DST, &w[1].to_be_bytes());
    }
    for (code, value) in [(rta::PRIORITY, w[4]), (rta::OIF, w[12])] {
        if stands(rng, value != 0) {
            draft = draft.with(code, &value.to_le_bytes());
        }
    }
    for (code, at) in [(rta::PREFSRC, 8), (rta::GATEWAY, 10)] {
        if w[at] == 1 {
            draft = draft.with(code, &w[at + 1].to_be_bytes());
        }
    }
    draft
}

/// Metrics in any order; if they are `None`, with a type above 17.
fn metrics(rng: &mut Rng, pairs: Option<&[[u32; 2]]>) -> List {
    let of = |&[index, value]: &[u32; 2]| Attribute::new(index as u16 + 1, &value.to_le_bytes());
    let mut attributes: Vec<Attribute> = match pairs {
        Some(pairs) => pairs.iter().map(of).collect(),
        None => {
            let size = rng.pick(&[4, 4, 0, 1, 5, 16]);
            let too_great = rng.pick(&[METRICS + 1, METRICS + 2, 255, CODE]);
            let some = Attribute::new(1 + rng.below(17) as u16, &rng.word().to_le_bytes());
            vec![some, Attribute::new(too_great, &any_bytes(rng, size))]
        }
    };
    shuffle(rng, &mut attributes);
    List {
        attributes,
        ..List::default()
    }
}

fn new_route(rng: &mut Rng, mut w: Vec<u32>) -> (Draft, Vec<u32>) {
    let mut draft = route(rng, NEW_ROUTE, w[14] as u16, w[13], &w);
    let pairs: Vec<[u32; 2]> = (0..).zip(&w[16..33]).map(|(i, v)| [i, *v]).collect();
    let named: Vec<[u32; 2]> = pairs
        .into_iter()
        .filter(|pair| pair[1] != 0 || rng.one_in(8))
        .collect();
    let good = w[15] == 0;
    if !good {
        w[15] = INVALID;
        w[16..33].fill(0);
    }
    if stands(rng, !good || !named.is_empty()) {
        let list = metrics(rng, good.then_some(&named));
        let all = &mut draft.list.attributes;
        all.push(Attribute::nested(rta::METRICS, list));
    }
    (draft, w)
}

fn del_route(rng: &mut Rng, mut w: Vec<u32>) -> (Draft, Vec<u32>) {
    let (header, flags) = (rng.draw() as u16, rng.word());
    let mut draft = route(rng, DEL_ROUTE, header, flags, &w);
    let mut pairs = w[15..].as_chunks::<2>().0[..w[14] as usize].to_vec();
    pairs.sort_by_key(|pair| pair[0]);
    pairs.dedup_by_key(|pair| pair[0]);
    w[14] = pairs.len() as u32;
    w[15..].fill(0);
    w[15..15 + 2 * pairs.len()].copy_from_slice(pairs.as_flattened());
    if stands(rng, w[13] == 0 || !pairs.is_empty()) {
        let list = metrics(rng, (w[13] == 1).then_some(&pairs));
        let all = &mut draft.list.attributes;
        all.push(Attribute::nested(rta::METRICS, list));
    }
    (draft, w)
}
