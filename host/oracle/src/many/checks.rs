//! Destinations looked up together: by hand, what generated cases reach, and
//! planted faults.
use super::{ANSWER_WORDS, Looker, ManyCase, Model, against, expected, reach};
use crate::call::Reply;
use crate::checks::{self, Checks};
use crate::faults::all_found;
use crate::faults::many::{FAULTS, ManyFault};
use crate::generate::many::Manies;
use crate::port::Bytes;
use crate::script::{Script, any, ip, route, started};

/// How many cases are made, and within how many a planted fault must be
/// found.
pub const CASES: usize = 10_000;

/// Runs the checks by hand, `count` generated cases, and the faults.
pub fn run(count: usize, seed: u64) -> bool {
    let parts = [
        checks::run("many by hand", by_hand),
        reach::run(count, seed),
        selftest(count, seed),
    ];
    parts.into_iter().all(|passed| passed)
}

/// Every fault must be found within `count` cases.
fn selftest(count: usize, seed: u64) -> bool {
    let cases = || {
        let mut cases = Manies::new(seed);
        std::iter::repeat_with(move || cases.next_case())
    };
    let one = |fault: &ManyFault, case: &ManyCase| -> Result<Reply, String> {
        let expected = expected(case);
        against(&mut Bytes(*fault), case, &expected).map(|()| expected.reply)
    };
    all_found("many", count, FAULTS, |fault| fault.name, cases, one)
}

/// The paper's sentences by hand: rows of 254, 255 and 253, and a throw.
fn by_hand(checks: &mut Checks) {
    let many = |s: &Script, to: &[&str]| {
        let to: Vec<u32> = to.iter().map(|text| ip(text)).collect();
        let mut answers = vec![7; ANSWER_WORDS * to.len()];
        let reply = Model.many(&s.state, &to, &mut answers);
        let numbers: Vec<u32> = answers.iter().step_by(ANSWER_WORDS).copied().collect();
        (reply.number, reply.value, numbers)
    };
    let mut s = started();
    checks.same("no destinations", many(&s, &[]), (0, 0, vec![]));
    // 127.0.0.0/8, 127.0.0.1/32 and 127.255.255.255/32 of 255
    checks.same(
        "127.0.0.1 weighs its own row, and not the one behind it",
        many(&s, &["127.0.0.1"]),
        (0, 2, vec![0]),
    );
    checks.same(
        "P20 127.0.0.9 before 127.0.0.1",
        many(&s, &["127.0.0.9", "127.0.0.1"]).0,
        211,
    );
    checks.same(
        "a row below every destination is none of theirs",
        many(&s, &["9.0.0.1", "10.0.0.1"]),
        (0, 0, vec![101, 101]),
    );
    for (text, table, kind) in [
        ("10.0.0.0/8", 254, 1),
        ("10.2.0.0/16", 254, 9),
        ("10.4.0.0/16", 254, 8),
        ("10.2.3.0/24", 253, 1),
        ("10.5.0.0/16", 253, 1),
    ] {
        let mut row = if kind == 1 {
            route(text).up()
        } else {
            any(text).rejecting(kind)
        };
        row.table = table;
        checks.same(text, s.add_route(row).reply.number, 0);
    }
    checks.same("253 is listed", s.tables().contains(&253), true);
    checks.same(
        "a throw leads on to 253, whose rows are weighed up to it",
        many(&s, &["10.1.0.1", "10.2.3.4", "10.3.0.1", "10.4.0.1"]),
        (0, 4, vec![0, 0, 0, 13]),
    );
    checks.same(
        "none of 253 for destinations that the first set answers",
        many(&s, &["10.1.0.1", "10.6.0.1"]),
        (0, 3, vec![0, 0]),
    );
    checks.same(
        "a throw that 253 has nothing for is 101",
        many(&s, &["10.2.4.4", "10.2.4.4"]),
        (0, 3, vec![101, 101]),
    );
    checks.same(
        "all of 253 for a last one that leads on",
        many(&s, &["11.0.0.0"]),
        (0, 5, vec![101]),
    );
    let texts = ["10.1.0.1", "10.2.3.4", "10.2.4.4", "10.4.0.1", "127.0.0.1"];
    let to = texts.map(ip);
    let mut answers = vec![7; ANSWER_WORDS * to.len()];
    Model.many(&s.state, &to, &mut answers);
    for (text, answer) in texts.iter().zip(answers.chunks(ANSWER_WORDS)) {
        let told = s.lookup(text);
        let mut alone = vec![told.reply.number];
        alone.extend(told.written);
        alone.resize(ANSWER_WORDS, 0);
        let name = format!("the answer for {text} is lookup4's, or zeros");
        checks.same(&name, answer, &alone);
    }
    let refused = |to: &[u32], room: usize| {
        let mut answers = vec![7; room];
        let reply = Model.many(&s.state, to, &mut answers);
        (reply.number, answers.iter().all(|&word| word == 7))
    };
    checks.same("256 fit", refused(&[0; 256], 256 * 33).0, 0);
    checks.same("P20 257 don't", refused(&[0; 257], 257 * 33), (210, true));
    checks.same("without room", refused(&[0; 257], 256 * 33), (200, true));
    let mut falls = [5; 257];
    falls[256] = 4;
    checks.same("210 before 211", refused(&falls, 257 * 33), (210, true));
    checks.same("P20 a fall", refused(&falls[1..], 256 * 33), (211, true));
}
