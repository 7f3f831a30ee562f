//! The entries of docs/DIFFERENCES.md on messages: this side.
use super::{CREATE, NET, OWN, base, new_net, own};
use crate::checks::Checks;
use crate::generate::drafts::Draft;
use crate::message::{self, DEL_ADDRESS, NEW_ADDRESS, NEW_ROUTE, ifa, read, rta};
use crate::model::model;
use crate::script::Script;

/// The number by which a message is met where the device is up.
fn performed(draft: &Draft) -> u32 {
    let mut script = Script::default();
    script.up(0);
    let bytes = draft.bytes();
    match read(&bytes, 1) {
        Err(number) => number,
        Ok((kind, request)) => {
            let call = message::call(kind, request, 0);
            let mut buffer = vec![0; call.buffer().least()];
            model(&call, &mut script.state, &mut buffer).number
        }
    }
}

pub fn check(checks: &mut Checks) {
    devices(checks);
    skipped(checks);
    longer(checks);
    lists(checks);
    numbers(checks);
}

fn devices(checks: &mut Checks) {
    for index in [0, 2] {
        let mut other = own(CREATE);
        other.fixed[4] = index;
        checks.same("M1 another device", performed(&other), 0);
    }
    let no_request = own(CREATE & !1);
    checks.same("M2 no request", performed(&no_request), 0);
}

fn skipped(checks: &mut Checks) {
    let via = new_net().with(18, &[2, 0, 11, 1, 0, 1]);
    checks.same("M3 a gateway as RTA_VIA", performed(&via), 0);
    let mut hop = base(NEW_ROUTE).with(rta::DST, &NET);
    hop.flags = CREATE;
    let hop = hop.with(9, &[8, 0, 0, 0, 1, 0, 0, 0]);
    checks.same("M3 RTA_MULTIPATH", performed(&hop), 19);
    let broadcast = own(CREATE).with(ifa::BROADCAST, &[0; 4]);
    let present = read(&broadcast.bytes(), 1).map(|(_, words)| words[3..5].to_vec());
    checks.same("M4 broadcast 0.0.0.0", present, Ok(vec![1, 0]));
    let mut gateway = new_net().with(rta::GATEWAY, &[0; 4]);
    gateway.fixed[6] = 0;
    checks.same("M4 gateway 0.0.0.0", performed(&gateway), 101);
    let prefsrc = new_net().with(rta::PREFSRC, &[0; 4]);
    checks.same("M4 prefsrc 0.0.0.0", performed(&prefsrc), 22);
}

fn longer(checks: &mut Checks) {
    let local = base(NEW_ADDRESS).with(ifa::LOCAL, b"\x0a\x01\x00\x05x");
    checks.same("M5 a local of five bytes", performed(&local), 206);
    let dst = new_net().with(rta::DST, &[NET, NET].concat());
    checks.same("M5 a destination of eight", performed(&dst), 206);
    let named = |name: &[u8]| new_net().with_metrics(&[(16, name)]);
    checks.same("M6 a metric's name", performed(&named(b"cubic")), 206);
    let number = read(&named(b"reno").bytes(), 1).map(|(_, words)| words[31]);
    checks.same("M6 a name of four bytes", number, Ok(0x6f6e_6572));
    let labelled = |label: &[u8]| performed(&own(CREATE).with(ifa::LABEL, label));
    let long = labelled(b"lo\0and twenty bytes more");
    checks.same("M7 bytes behind a label's zero", long, 0);
    checks.same("M7 an empty label", labelled(b""), 0);
}

fn lists(checks: &mut Checks) {
    let mut zeros = own(CREATE);
    zeros.list.spare = vec![0; 8];
    checks.same("M8 zeros at the end", performed(&zeros), 204);
    let mut past = own(CREATE).with(ifa::BROADCAST, &OWN);
    past.list.attributes[1].length = Some(40);
    checks.same("M8 a length past the end", performed(&past), 204);
    let nested = new_net().with(rta::METRICS, &[8, 0, 2, 0, 0, 4, 0, 0, 0, 0, 0, 0]);
    checks.same("M8 nested zeros", performed(&nested), 204);
    let twice = new_net().with_metrics(&[(2, b"abc")]);
    let twice = twice.with_metrics(&[(2, &[0; 4])]);
    checks.same("M9 an earlier list", performed(&twice), 206);
    let del = Draft {
        kind: DEL_ADDRESS,
        ..own(0).with(ifa::BROADCAST, b"ab")
    };
    checks.same("M10 what a deletion skips", performed(&del), 99);
}

fn numbers(checks: &mut Checks) {
    let local = |value| performed(&base(NEW_ADDRESS).with(ifa::LOCAL, value));
    checks.same("M11 a local of three bytes", local(&[0; 3]), 206);
    checks.same("M11 no local", performed(&base(NEW_ADDRESS)), 206);
    let metric = new_net().with_metrics(&[(2, b"abc")]);
    checks.same("M11 a metric of three bytes", performed(&metric), 206);
    for length in [20, 200] {
        let short = Draft {
            length: Some(length),
            ..own(CREATE)
        };
        checks.same("M11 the header's length", performed(&short), 204);
    }
    let other = Draft {
        kind: 99,
        ..own(CREATE)
    };
    checks.same("M11 another type", performed(&other), 205);
    let mut family = own(CREATE);
    family.fixed[0] = 0;
    checks.same("M11 another family", performed(&family), 205);
}
