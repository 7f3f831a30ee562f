//! Events written by hand, and the bytes of each message.
use crate::call::Reply;
use crate::checks::Checks;
use crate::event::{Given, MESSAGE_BYTES, Model, WordWriter, event, write};
use crate::messages::bytes_of;
use reference::{AddressRow, RouteRow};

const FOREVER: u32 = u32::MAX;
const SECOND: u32 = 1_000_000_000;

/// 10.1.0.5/24, permanent, labelled lo.
pub const OWN: AddressRow = [
    0x0a01_0005,
    0x0a01_0005,
    24,
    0,
    0,
    0,
    0x80,
    0,
    2,
    0x6f6c,
    0,
    0,
    0,
    0,
    0,
    0,
    0,
    0,
    0,
    0,
];

/// An address with every field: a peer, a broadcast address, a label, a
/// priority, 50 and 100 seconds from the first second on.
pub const ADDRESS: AddressRow = [
    0x0a01_0005,
    0x0a01_0009,
    32,
    1,
    0x0a01_00ff,
    253,
    0x201,
    5,
    4,
    0x313a_6f6c,
    0,
    0,
    0,
    7,
    100,
    50,
    SECOND,
    0,
    SECOND,
    0,
];

/// 11.3.0.0/16 of table 1000 with every field.
pub const ROUTE: RouteRow = [
    1000,
    0x0b03_0000,
    16,
    4,
    50,
    1,
    3,
    253,
    1,
    0x0a01_0005,
    1,
    0x0a01_0001,
    1,
    1,
    1,
    0,
    1400,
    0,
    0,
    0,
    0,
    0,
    0,
    0,
    0,
    0,
    0,
    0,
    0,
    0,
    0,
    7,
];

/// The default route of the main table, a blackhole.
pub fn blackhole() -> RouteRow {
    let mut row = [0; 32];
    row[0] = 254;
    row[5..7].copy_from_slice(&[6, 3]);
    row
}

pub fn check(checks: &mut Checks) {
    addresses(checks);
    routes(checks);
    lengths(checks);
    refusals(checks);
}

fn addresses(checks: &mut Checks) {
    let given = Given {
        sequence: 0x0102_0304,
        port: 0x0a0b_0c0d,
        now: 0,
    };
    let bytes = bytes_of(
        "4c000000 1400 0000 04030201 0d0c0b0a 02 18 80 00 01000000
         0800 0100 0a010005  0800 0200 0a010005  0700 0300 6c6f00 00
         1400 0600 ffffffff ffffffff 00000000 00000000
         0800 0800 80000000",
    );
    checks.same(
        "10.1.0.5/24, forever",
        write(&event(1, 0, &OWN), given),
        Ok(bytes),
    );

    let given = Given {
        now: 11 * u64::from(SECOND),
        ..Given::default()
    };
    let bytes = bytes_of(
        "68000000 1500 0001 00000000 00000000 02 20 01 fd 01000000
         0800 0100 0a010009  0800 0200 0a010005  0900 0300 6c6f3a3100 000000
         0800 0400 0a0100ff  1400 0600 28000000 5a000000 00000000 00000000
         0800 0800 01020000  0800 0900 07000000  0500 0b00 05 000000",
    );
    checks.same(
        "every field of an address",
        write(&event(2, 0x100, &ADDRESS), given),
        Ok(bytes),
    );

    // the label alone: "a label, even an empty one, has its closing zero"
    let label = |length: u32, words: [u32; 4]| {
        let mut row = OWN;
        row[8] = length;
        row[9..13].copy_from_slice(&words);
        let all = write(&event(1, 0, &row), given);
        all.map(|all| all[40..all.len() - 28].to_vec())
    };
    checks.same(
        "an empty label",
        label(0, [0; 4]),
        Ok(bytes_of("0500 0300 00 000000")),
    );
    checks.same(
        "fifteen",
        label(15, [0x3332_3130, 0x3736_3534, 0x6261_3938, 0x0065_6463]),
        Ok(bytes_of("1400 0300 30313233 34353637 38396162 63646500")),
    );
    checks.same(
        "a zero inside",
        label(4, [0x6100_6f6c, 0, 0, 0]),
        Ok(bytes_of("0900 0300 6c6f0061 00 000000")),
    );
}

fn routes(checks: &mut Checks) {
    let given = Given::default();
    let bytes = bytes_of(
        "24000000 1800 0006 00000000 00000000 02 00 00 00 fe 03 00 06 00000000
         0800 0f00 fe000000",
    );
    checks.same(
        "no more than it must have",
        write(&event(3, 0x600, &blackhole()), given),
        Ok(bytes),
    );
    let bytes = bytes_of(
        "60000000 1900 0000 00000000 00000000 02 10 00 04 fc 03 fd 01 04000000
         0800 0100 0b030000  0800 0400 01000000  0800 0500 0a010001
         0800 0600 32000000  0800 0700 0a010005
         1400 0800 0800 0200 78050000 0800 1100 07000000
         0800 0f00 e8030000",
    );
    checks.same(
        "every field of a route",
        write(&event(4, 0, &ROUTE), given),
        Ok(bytes),
    );
    let tables = |table| {
        let mut row = blackhole();
        row[0] = table;
        let all = write(&event(3, 0, &row), given);
        all.map(|all| (all[20], all[32..].to_vec()))
    };
    for (table, byte, four) in [
        (0, 0, [0; 4]),
        (255, 255, [255, 0, 0, 0]),
        (256, 252, [0, 1, 0, 0]),
        (FOREVER, 252, [255; 4]),
    ] {
        checks.same(
            &format!("table {table}"),
            tables(table),
            Ok((byte, four.to_vec())),
        );
    }
}

fn lengths(checks: &mut Checks) {
    let mut row = ROUTE;
    row[15..].fill(FOREVER);
    let most = write(&event(3, 65_535, &row), Given::default());
    checks.same("the longest", most.map(|all| all.len()), Ok(216));
    let reply = |event: &[u32], length: usize| {
        let mut message = vec![7; length];
        let reply = Model.write(event, &mut message, Given::default());
        (reply, message.iter().skip(36).all(|&b| b == 7))
    };
    let short = event(4, 0, &blackhole());
    checks.same(
        "215 bytes are too few for 36",
        reply(&short, MESSAGE_BYTES - 1),
        (Reply::refused(200), true),
    );
    checks.same(
        "what is behind stays",
        reply(&short, MESSAGE_BYTES + 9),
        (Reply::value(36), true),
    );
    checks.same("200 before 201", reply(&[], 0), (Reply::refused(200), true));
}

fn refusals(checks: &mut Checks) {
    let number = |event: &[u32]| write(event, Given::default()).map(drop);
    for kind in [0, 5, 6, 257, FOREVER] {
        checks.same(
            &format!("kind {kind}"),
            number(&event(kind, 0, &[0; 32])),
            Err(201),
        );
    }
    checks.same("flags 65,535", number(&event(1, 65_535, &OWN)), Ok(()));
    checks.same("flags 65,536", number(&event(1, 65_536, &OWN)), Err(201));
    let mut behind = event(1, 0, &OWN);
    behind[22..].fill(FOREVER);
    checks.same("words behind an address", number(&behind), Ok(()));
    checks.same("33 words", number(&behind[..33]), Err(201));
    behind.push(0);
    checks.same("35 words", number(&behind), Err(201));
    let mut row = OWN;
    row[2] = 33;
    checks.same("a prefix of 33", number(&event(2, 0, &row)), Err(201));
    let mut row = ROUTE;
    row[1] |= 1;
    checks.same("host bits", number(&event(4, 0, &row)), Err(201));
    let mut row = ROUTE;
    row[5] = 5;
    checks.same("a kind of route", number(&event(3, 0, &row)), Err(201));
}
