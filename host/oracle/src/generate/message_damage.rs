//! Damage to messages in named ways, each with the number that it is met by
//! where it stands alone.
use super::drafts::{Attribute, Draft, List, Value, any_bytes};
use crate::message::{BAD_ATTRIBUTE, BAD_LENGTH, NOT_IPV4, TYPES, ifa, rta};
use crate::message::{CODE, DEL_ADDRESS, HEADER, LABEL, METRICS, NEW_ADDRESS};
use crate::rng::Rng;

/// What is done to a message; `false` if there was nothing to do it to.
type Damage = fn(&mut Rng, &mut Draft) -> bool;

/// Each way with its number alone; 0: it reads as it did.
pub const DAMAGES: [(&str, u32, Damage); 46] = [
    ("under 16 bytes", BAD_LENGTH, |rng, d| {
        kept(d, rng.below(HEADER))
    }),
    ("header's length past the end", BAD_LENGTH, |rng, d| {
        let right = d.right_length() as u32;
        said(d, rng.pick(&[right + 1, right + 4, 65_536, u32::MAX]))
    }),
    ("header's length 0", BAD_LENGTH, |_, d| said(d, 0)),
    ("header's length under 16", BAD_LENGTH, |rng, d| {
        said(d, rng.below(HEADER) as u32)
    }),
    ("header's length in the fixed part", BAD_LENGTH, |rng, d| {
        let within = HEADER + rng.below(d.fixed.len());
        said(d, within as u32)
    }),
    (
        "lent no further than the fixed part",
        BAD_LENGTH,
        |rng, d| {
            let within = HEADER + rng.below(d.fixed.len());
            d.length = Some(within as u32);
            kept(d, within)
        },
    ),
    ("attribute's length 0", BAD_LENGTH, |rng, d| {
        length(rng, Some(&mut d.list), |_, _| 0)
    }),
    ("attribute's length 1 to 3", BAD_LENGTH, |rng, d| {
        length(rng, Some(&mut d.list), |rng, _| rng.pick(&[1, 2, 3]))
    }),
    ("attribute's length past the end", BAD_LENGTH, |rng, d| {
        // the bytes are lent, but they are not the message's
        d.past = any_bytes(rng, 8);
        length(rng, Some(&mut d.list), past)
    }),
    ("zeros at the end", BAD_LENGTH, |rng, d| {
        zeros(rng, Some(&mut d.list))
    }),
    ("nested length 0", BAD_LENGTH, |rng, d| {
        length(rng, some_metrics(d), |_, _| 0)
    }),
    ("nested length 1 to 3", BAD_LENGTH, |rng, d| {
        length(rng, some_metrics(d), |rng, _| rng.pick(&[1, 2, 3]))
    }),
    ("nested length past the end", BAD_LENGTH, |rng, d| {
        length(rng, some_metrics(d), past)
    }),
    ("nested zeros at the end", BAD_LENGTH, |rng, d| {
        zeros(rng, some_metrics(d))
    }),
    ("nested length in an earlier list", BAD_LENGTH, |_, d| {
        let mut bad = Attribute::new(2, &[0; 4]);
        bad.length = Some(9);
        earlier_metrics(d, vec![bad])
    }),
    ("length and family", BAD_LENGTH, |rng, d| {
        family(rng, d) && length(rng, Some(&mut d.list), past)
    }),
    ("length and size", BAD_LENGTH, |rng, d| {
        wrong_size(rng, d, false) && length(rng, Some(&mut d.list), past)
    }),
    ("another type", NOT_IPV4, another_type),
    ("another type, lengths amiss", NOT_IPV4, |rng, d| {
        another_type(rng, d);
        length(rng, Some(&mut d.list), past)
    }),
    ("another type, a header alone", NOT_IPV4, |rng, d| {
        another_type(rng, d);
        d.list = List::default();
        d.fixed.truncate(rng.below(4));
        true
    }),
    ("another family", NOT_IPV4, family),
    ("another family, a size amiss", NOT_IPV4, |rng, d| {
        family(rng, d) && wrong_size(rng, d, false)
    }),
    ("another family, no local", NOT_IPV4, |rng, d| {
        family(rng, d) && no_local(d)
    }),
    ("wrong size", BAD_ATTRIBUTE, |rng, d| {
        wrong_size(rng, d, false)
    }),
    ("wrong size of an earlier one", BAD_ATTRIBUTE, |rng, d| {
        wrong_size(rng, d, true)
    }),
    ("label over 15", BAD_ATTRIBUTE, |rng, d| {
        let long = vec![b'x'; LABEL + 1 + rng.below(20)];
        d.kind <= DEL_ADDRESS && put(rng, d, Attribute::new(ifa::LABEL, &long))
    }),
    ("no local", BAD_ATTRIBUTE, |_, d| no_local(d)),
    ("metric of a wrong size", BAD_ATTRIBUTE, |rng, d| {
        let bad = bad_metric(rng);
        some_metrics(d).is_some_and(|list| insert(rng, list, bad))
    }),
    (
        "metric of a wrong size, type above 17",
        BAD_ATTRIBUTE,
        |rng, d| {
            let (bad, above) = (bad_metric(rng), above(rng));
            some_metrics(d).is_some_and(|list| insert(rng, list, bad) && insert(rng, list, above))
        },
    ),
    (
        "metric of a wrong size, earlier list",
        BAD_ATTRIBUTE,
        |rng, d| earlier_metrics(d, vec![bad_metric(rng)]),
    ),
    ("no field", 0, |rng, d| {
        let code = no_field(rng, d.kind);
        let size = rng.below(40);
        let skipped = Attribute::new(code, &any_bytes(rng, size));
        put(rng, d, skipped)
    }),
    ("an earlier one", 0, |rng, d| {
        let at = rng.below(d.list.attributes.len().max(1));
        let Some(Value::Bytes(value)) = d.list.attributes.get(at).map(|a| &a.value) else {
            return false;
        };
        let (size, raw) = (value.len(), d.list.attributes[at].raw);
        let earlier = Attribute::new(raw, &any_bytes(rng, size));
        d.list.attributes.insert(0, earlier);
        true
    }),
    ("top bits", 0, |rng, d| top_bits(rng, Some(&mut d.list))),
    ("top bits of a metric", 0, |rng, d| {
        top_bits(rng, some_metrics(d))
    }),
    ("spare bytes", 0, |rng, d| spare(rng, Some(&mut d.list))),
    ("nested spare bytes", 0, |rng, d| {
        spare(rng, some_metrics(d))
    }),
    ("padding missing", 0, |rng, d| {
        let code = no_field(rng, d.kind);
        unpadded(rng, Some(&mut d.list), code)
    }),
    ("nested padding missing", 0, |rng, d| {
        unpadded(rng, some_metrics(d), 0)
    }),
    ("bytes past the message", 0, |rng, d| {
        let count = 1 + rng.below(40);
        d.past = any_bytes(rng, count);
        true
    }),
    ("bytes behind a label's zero", 0, |rng, d| {
        let all = d.list.attributes.iter_mut();
        let mut labels = all.filter(|a| d.kind <= DEL_ADDRESS && a.code() == ifa::LABEL);
        let Some(Value::Bytes(label)) = labels.next().map(|a| &mut a.value) else {
            return false;
        };
        label.push(0);
        let count = rng.below(30);
        label.extend(any_bytes(rng, count));
        true
    }),
    ("metric of type 0", 0, |rng, d| {
        let size = rng.below(12);
        let none = Attribute::new(0, &any_bytes(rng, size));
        some_metrics(d).is_some_and(|list| insert(rng, list, none))
    }),
    ("an earlier metric", 0, |rng, d| {
        let Some(list) = some_metrics(d) else {
            return false;
        };
        let of = |a: &&Attribute| (1..=METRICS).contains(&a.code());
        let Some(raw) = list.attributes.iter().find(of).map(|a| a.raw) else {
            return false;
        };
        let earlier = Attribute::new(raw, &any_bytes(rng, 4));
        list.attributes.insert(0, earlier);
        true
    }),
    ("an earlier list", 0, |rng, d| {
        let value = any_bytes(rng, 4);
        let metric = Attribute::new(1 + rng.below(17) as u16, &value);
        earlier_metrics(d, vec![metric])
    }),
    ("type above 17 in an earlier list", 0, |rng, d| {
        earlier_metrics(d, vec![above(rng)])
    }),
    ("type above 17 twice", 0, |rng, d| {
        let more = above(rng);
        let is = |a: &Attribute| a.code() > METRICS;
        some_metrics(d)
            .is_some_and(|list| list.attributes.iter().any(is) && insert(rng, list, more))
    }),
    ("another message behind it", 0, |_, d| {
        // as a socket may give it
        d.past = d.bytes();
        true
    }),
];

fn kept(draft: &mut Draft, count: usize) -> bool {
    draft.kept = Some(count);
    true
}

fn said(draft: &mut Draft, length: u32) -> bool {
    draft.length = Some(length);
    true
}

/// Sets the length of one attribute.
fn length(rng: &mut Rng, list: Option<&mut List>, to: fn(&mut Rng, usize) -> usize) -> bool {
    let Some(list) = list.filter(|list| !list.attributes.is_empty()) else {
        return false;
    };
    let at = rng.below(list.attributes.len());
    let behind = list.behind(at);
    list.attributes[at].length = Some(to(rng, behind) as u16);
    true
}

/// A length past what there is.
fn past(rng: &mut Rng, behind: usize) -> usize {
    behind + rng.pick(&[1, 1, 2, 4, 40])
}

/// A length of 0, which needs four bytes.
fn zeros(rng: &mut Rng, list: Option<&mut List>) -> bool {
    list.is_some_and(|list| {
        list.unpadded = false;
        list.spare = vec![0; 4 + rng.below(9)];
        true
    })
}

/// The last list of metrics of a route, which counts; one that is there or
/// a new, empty one.
fn some_metrics(draft: &mut Draft) -> Option<&mut List> {
    if draft.kind <= DEL_ADDRESS {
        return None;
    }
    let all = &mut draft.list.attributes;
    if !all.iter().any(|a| a.code() == rta::METRICS) {
        all.push(Attribute::nested(rta::METRICS, List::default()));
    }
    all.iter_mut().rev().find_map(|a| match &mut a.value {
        Value::Nested(list) => Some(list),
        Value::Bytes(_) => None,
    })
}

/// Another list of metrics before the one that is there.
fn earlier_metrics(draft: &mut Draft, metrics: Vec<Attribute>) -> bool {
    let all = &mut draft.list.attributes;
    if !all.iter().any(|a| matches!(a.value, Value::Nested(_))) {
        return false;
    }
    let list = List {
        attributes: metrics,
        ..List::default()
    };
    all.insert(0, Attribute::nested(rta::METRICS, list));
    true
}

fn bad_metric(rng: &mut Rng) -> Attribute {
    let size = rng.pick(&[0, 1, 2, 3, 5, 8, 16]);
    Attribute::new(1 + rng.below(17) as u16, &any_bytes(rng, size))
}

/// A metric of a type above 17, of any size.
fn above(rng: &mut Rng) -> Attribute {
    let size = rng.below(9);
    let of = rng.pick(&[METRICS + 1, 18, 30, 255, CODE]);
    Attribute::new(of, &any_bytes(rng, size))
}

fn another_type(rng: &mut Rng, draft: &mut Draft) -> bool {
    draft.kind = loop {
        let other = match rng.below(3) {
            0 => rng.draw() as u16,
            1 => rng.below(32) as u16,
            _ => draft.kind ^ 1 << rng.below(16),
        };
        if !TYPES.contains(&other) {
            break other;
        }
    };
    true
}

fn family(rng: &mut Rng, draft: &mut Draft) -> bool {
    draft.fixed[0] = rng.pick(&[0, 1, 3, 10, 17, 0x12, 0x82, 255]);
    true
}

fn no_local(draft: &mut Draft) -> bool {
    let all = &mut draft.list.attributes;
    all.retain(|a| a.code() != ifa::LOCAL);
    draft.kind == NEW_ADDRESS
}

/// The codes with a field of a fixed size, for each type.
pub fn fields(kind: u16) -> &'static [(u16, usize)] {
    const ROUTE: &[(u16, usize)] = &[(1, 4), (4, 4), (5, 4), (6, 4), (7, 4), (15, 4)];
    match kind {
        20 => &[(1, 4), (2, 4), (4, 4), (6, 16), (8, 4), (9, 4), (11, 1)],
        21 => &[(1, 4), (2, 4)],
        _ => ROUTE,
    }
}

/// A code without a field; a field of another type, often.
fn no_field(rng: &mut Rng, kind: u16) -> u16 {
    let more = if kind <= DEL_ADDRESS {
        ifa::LABEL
    } else {
        rta::METRICS
    };
    loop {
        let code = match rng.below(4) {
            0 => rng.draw() as u16 & CODE,
            _ => rng.below(32) as u16,
        };
        if code != more && fields(kind).iter().all(|(field, _)| *field != code) {
            return code;
        }
    }
}

/// An attribute with a field, of another size: behind all of its code, or
/// before one of the right size.
fn wrong_size(rng: &mut Rng, draft: &mut Draft, earlier: bool) -> bool {
    let (code, size) = rng.pick(fields(draft.kind));
    let other = loop {
        let other = rng.below(size + 5);
        if other != size {
            break other;
        }
    };
    let all = &mut draft.list.attributes;
    all.push(Attribute::new(code, &any_bytes(rng, other)));
    if earlier {
        all.push(Attribute::new(code, &any_bytes(rng, size)));
    }
    true
}

fn put(rng: &mut Rng, draft: &mut Draft, attribute: Attribute) -> bool {
    insert(rng, &mut draft.list, attribute)
}

fn insert(rng: &mut Rng, list: &mut List, attribute: Attribute) -> bool {
    let at = rng.below(list.attributes.len() + 1);
    list.attributes.insert(at, attribute);
    true
}

fn top_bits(rng: &mut Rng, list: Option<&mut List>) -> bool {
    let Some(list) = list.filter(|list| !list.attributes.is_empty()) else {
        return false;
    };
    let at = rng.below(list.attributes.len());
    list.attributes[at].raw |= rng.pick(&[0x8000, 0x4000, 0xc000]);
    true
}

fn spare(rng: &mut Rng, list: Option<&mut List>) -> bool {
    list.is_some_and(|list| {
        let count = 1 + rng.below(3);
        list.spare = any_bytes(rng, count);
        true
    })
}

/// An attribute that is skipped and needs padding, at the end without it.
fn unpadded(rng: &mut Rng, list: Option<&mut List>, code: u16) -> bool {
    list.is_some_and(|list| {
        let size = 4 * rng.below(3) + 1 + rng.below(3);
        list.attributes
            .push(Attribute::new(code, &any_bytes(rng, size)));
        list.unpadded = true;
        true
    })
}

/// None, one or several ways.
pub fn damage(rng: &mut Rng, draft: &mut Draft) -> Vec<&'static str> {
    let count = rng.pick(&[0, 0, 1, 1, 1, 1, 1, 2, 2, 3]);
    let mut done = Vec::new();
    for _ in 0..count {
        // what is cut short or another's can be damaged no more
        if draft.kept.is_some() || !TYPES.contains(&draft.kind) {
            break;
        }
        let (name, _, way) = rng.pick(&DAMAGES);
        let mut damaged = draft.clone();
        if way(rng, &mut damaged) {
            *draft = damaged;
            done.push(name);
        }
    }
    done
}
