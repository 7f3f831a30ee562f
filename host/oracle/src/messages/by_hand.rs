//! Messages written by hand, and the words of each request.
use super::{OWN, base, own};
use crate::call::Reply;
use crate::checks::Checks;
use crate::generate::drafts::Draft;
use crate::message::{
    DEL_ADDRESS, DEL_ROUTE, Model, NEW_ROUTE, REQUEST_BYTES, Reader, ifa, read, rta,
};

/// `lo`, as a label's length and its words.
const LO: [u32; 5] = [2, 0x6f6c, 0, 0, 0];
const FOREVER: u32 = u32::MAX;

pub fn check(checks: &mut Checks) {
    addresses(checks);
    routes(checks);
    lengths(checks);
    sizes(checks);
    labels(checks);
}

fn addresses(checks: &mut Checks) {
    let new = bytes_of(
        "28000000 1400 0506 00000000 00000000 02 18 00 00 01000000
         0800 0200 0a010005  0800 0100 0a010005",
    );
    let mut words = vec![0x0a01_0005, 0x0a01_0005, 24, 0, 0, 0, 0, 0];
    words.extend(LO);
    words.extend([0, FOREVER, FOREVER, 0, 1]);
    checks.same("ip addr add 10.1.0.5/24", read(&new, 1), Ok((20, words)));

    let all = bytes_of(
        "64000000 1400 0101 00000000 00000000 02 20 ff fd 07000000
         0800 0200 0a010005  0800 0100 0a010009  0600 0300 6c78 0000
         0800 0400 0a0100ff  1400 0600 32000000 64000000 01000000 02000000
         0800 0800 00020000  0800 0900 07000000  0500 0b00 05 000000",
    );
    let mut words = vec![0x0a01_0005, 0x0a01_0009, 32, 1, 0x0a01_00ff, 253, 0x200, 5];
    words.extend([2, 0x786c, 0, 0, 0, 7, 100, 50, 1, 9]);
    checks.same("every field of an address", read(&all, 9), Ok((20, words)));

    let del = bytes_of("18000000 1500 0500 00000000 00000000 02 18 00 00 01000000");
    let words = vec![0, 0, 0, 0, 24, 0, 0, 0, 0, 0, 0];
    checks.same("no condition", read(&del, 1), Ok((21, words)));

    let del = bytes_of(
        "30000000 1500 0500 00000000 00000000 02 18 00 00 01000000
         0800 0200 0a010005  0800 0100 0a010006  0700 0300 6c6f3a 00",
    );
    let words = vec![
        1,
        0x0a01_0005,
        1,
        0x0a01_0006,
        24,
        1,
        3,
        0x003a_6f6c,
        0,
        0,
        0,
    ];
    checks.same("three conditions", read(&del, 7), Ok((21, words)));

    let replaces = |flags| read(&own(flags).bytes(), 0).map(|(_, words)| words[16]);
    checks.same("REPLACE", replaces(0x100), Ok(1));
    checks.same("REPLACE and EXCL", replaces(0x300), Ok(0));
    checks.same("CREATE", replaces(0x400), Ok(0));
}

fn routes(checks: &mut Checks) {
    let new = bytes_of(
        "48000000 1800 0506 00000000 00000000 02 10 00 00 fe 03 fd 01 00000000
         0800 0100 0b030000  0800 0700 0a010005  0800 0400 01000000
         1400 0800 0800 0200 78050000 0800 0800 14050000",
    );
    let mut words = vec![254, 0x0b03_0000, 16, 0, 0, 1, 3, 253, 1, 0x0a01_0005, 0, 0];
    words.extend([1, 0, 0x605, 0]);
    words.extend([0, 1400, 0, 0, 0, 0, 0, 1300, 0, 0, 0, 0, 0, 0, 0, 0, 0, 1]);
    checks.same("ip route add, two metrics", read(&new, 1), Ok((24, words)));

    let del = bytes_of(
        "51000000 1900 0500 00000000 00000000 02 08 00 04 64 00 ff 00 04000000
         0800 0500 0a010001  0800 0600 32000000  0800 0f00 e8030000
         1d00 0880 0800 1180 07000000 0800 0240 dc050000 0700 0000 aabbcc 00 aa",
    );
    let mut words = vec![1000, 0, 8, 4, 50, 0, 0, 255, 0, 0, 1, 0x0a01_0001];
    words.extend([0, 1, 2, 1, 1500, 16, 7]);
    words.resize(49, 0);
    checks.same("a route's deletion", read(&del, 1), Ok((25, words)));

    let metrics = |kind, metrics: &[(u16, &[u8])]| {
        let read = read(&base(kind).with_metrics(metrics).bytes(), 0);
        read.map(|(_, words)| words[13..19].to_vec())
    };
    let four: &[u8] = &[1, 0, 0, 0];
    let found = metrics(NEW_ROUTE, &[(1, four), (18, b"any")]);
    checks.same("a type above 17: 22", found, Ok(vec![0, 0, 22, 0, 0, 0]));
    let found = metrics(DEL_ROUTE, &[(1, four), (18, b"any")]);
    checks.same("in a deletion: absent", found, Ok(vec![0; 6]));
    let found = metrics(DEL_ROUTE, &[]);
    checks.same("no metric: a list", found, Ok(vec![1, 0, 0, 0, 0, 0]));
    let found = metrics(DEL_ROUTE, &[(17, four), (2, four)]);
    checks.same("pairs rising", found, Ok(vec![1, 2, 1, 1, 16, 1]));
    let found = metrics(NEW_ROUTE, &[(0, b"any"), (17, &[9; 3]), (18, b"")]);
    checks.same("a wrong size beside it", found, Err(206));

    let twice = base(NEW_ROUTE).with_metrics(&[(99, b"")]);
    let twice = twice.with_metrics(&[(1, four)]).bytes();
    let last = read(&twice, 0).map(|(_, words)| words[15..17].to_vec());
    checks.same("the last list, its error too", last, Ok(vec![0, 1]));
}

fn lengths(checks: &mut Checks) {
    let number = |bytes: &[u8]| read(bytes, 0).map(drop);
    let whole = own(0).bytes();
    checks.same("nothing", number(&[]), Err(204));
    checks.same("15 bytes", number(&whole[..15]), Err(204));
    checks.same("cut short", number(&whole[..whole.len() - 1]), Err(204));
    let says = |draft: Draft, length| {
        let length = Some(length);
        number(&Draft { length, ..draft }.bytes())
    };
    checks.same("a length of 15", says(own(0), 15), Err(204));
    checks.same("a length of 23", says(own(0), 23), Err(204));
    checks.same("a length of 24: no local", says(own(0), 24), Err(206));
    checks.same("a route's of 27", says(base(NEW_ROUTE), 27), Err(204));
    checks.same("a route's of 28", says(base(NEW_ROUTE), 28), Ok(()));
    let other = Draft::new(16, 0, &[]);
    checks.same("another type, 16 bytes", number(&other.bytes()), Err(205));
    checks.same("another type, 15 said", says(other, 15), Err(204));
    let spare = |count, byte| {
        let mut draft = own(0);
        draft.list.spare = vec![byte; count];
        number(&draft.bytes())
    };
    checks.same("three spare bytes", spare(3, 0xff), Ok(()));
    checks.same("four zeros", spare(4, 0), Err(204));
    let mut ipv6 = own(0);
    ipv6.fixed[0] = 10;
    checks.same("another family", number(&ipv6.bytes()), Err(205));
    ipv6.list.spare = vec![0; 4];
    checks.same("lengths before it", number(&ipv6.bytes()), Err(204));
    let mut nested = base(DEL_ROUTE).with(rta::METRICS, &[7, 0, 1, 0, 0, 0]);
    checks.same("a nested length", number(&nested.bytes()), Err(204));
    nested.kind = DEL_ADDRESS;
    nested.fixed.truncate(8);
    checks.same("no list in an address", number(&nested.bytes()), Ok(()));
}

fn sizes(checks: &mut Checks) {
    let own_with = |code, value: &[u8]| read(&own(0).with(code, value).bytes(), 0).map(drop);
    checks.same(
        "cache information",
        own_with(ifa::CACHEINFO, &[0; 12]),
        Err(206),
    );
    checks.same("a proto of four", own_with(ifa::PROTO, &[0; 4]), Err(206));
    checks.same("no field", own_with(5, &[0; 3]), Ok(()));
    let twice = Draft::new(DEL_ADDRESS, 0, &[2, 24, 0, 0, 0, 0, 0, 0]);
    let twice = twice.with(ifa::LOCAL, &[0; 5]).with(ifa::LOCAL, &OWN);
    checks.same("both are checked", read(&twice.bytes(), 0), Err(206));
    let last = own(0).with(ifa::LOCAL, &[10, 0, 0, 1]).bytes();
    let local = read(&last, 0).map(|(_, words)| words[0]);
    checks.same("the last counts", local, Ok(0x0a00_0001));
    let mut request = [7; REQUEST_BYTES - 1];
    let reply = Model.read(&[], &mut request, 0);
    checks.same("200 before all", reply, Reply::refused(200));
}

fn labels(checks: &mut Checks) {
    let label = |value: &[u8]| {
        let read = read(&own(0).with(ifa::LABEL, value).bytes(), 0);
        read.map(|(_, words)| words[8..13].to_vec())
    };
    checks.same("an empty label", label(b""), Ok(vec![0; 5]));
    checks.same("a zero", label(b"\0lo"), Ok(vec![0; 5]));
    checks.same(
        "lo and zeros",
        label(b"lo\0\0rest-of-it-is-not-read"),
        Ok(LO.to_vec()),
    );
    let fifteen = vec![15, 0x3332_3130, 0x3736_3534, 0x6261_3938, 0x0065_6463];
    checks.same("fifteen", label(b"0123456789abcde"), Ok(fifteen.clone()));
    checks.same(
        "fifteen and a zero",
        label(b"0123456789abcde\0"),
        Ok(fifteen),
    );
    checks.same("sixteen", label(b"0123456789abcdef"), Err(206));
}

/// The bytes of a message written as hexadecimal digits.
fn bytes_of(hex: &str) -> Vec<u8> {
    let digits: Vec<u8> = hex.bytes().filter(u8::is_ascii_hexdigit).collect();
    let pair = |two: &[u8]| {
        let text = std::str::from_utf8(two).expect("digits");
        u8::from_str_radix(text, 16).expect("two digits")
    };
    digits.chunks(2).map(pair).collect()
}
