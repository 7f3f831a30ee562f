//! Destinations looked up together, against one by one.
use core::net::Ipv4Addr;
use naskrefim::{
    ANSWER_WORDS, Addresses, Ask4, DESTINATION_LIMIT, Kind, Lookups, Refused, TABLE_DEFAULT, bytes,
    words,
};

/// After `up`, routes of the main table and of 253, among them a throw.
fn with_throw() -> Addresses {
    let mut lo = Addresses::new();
    lo.up(0).unwrap();
    for (net, len, kind, table) in [
        ([10, 0, 0, 0], 8, Kind::Unicast, 254),
        ([10, 2, 0, 0], 16, Kind::Throw, 254),
        ([10, 4, 0, 0], 16, Kind::Prohibit, 254),
        ([10, 2, 3, 0], 24, Kind::Unicast, TABLE_DEFAULT),
        ([10, 5, 0, 0], 16, Kind::Unicast, TABLE_DEFAULT),
    ] {
        let mut ask = Ask4::new(Ipv4Addr::from(net), len);
        ask.kind = kind.code();
        ask.table = table;
        if kind != Kind::Unicast {
            ask.oif = 0;
        }
        lo.add_route4(&ask, true).unwrap();
    }
    lo
}

fn one_by_one(lo: &Addresses, to: &[Ipv4Addr]) -> Vec<Result<naskrefim::Route4, Refused>> {
    to.iter().map(|&ip| lo.lookup4(ip)).collect()
}

#[test]
fn each_answer_is_that_of_one() {
    let lo = with_throw();
    let to = [
        [9, 0, 0, 1],
        [10, 1, 0, 1],
        [10, 2, 3, 4],
        [10, 2, 3, 4],
        [10, 2, 9, 9],
        [10, 4, 0, 1],
        [127, 0, 0, 1],
    ]
    .map(Ipv4Addr::from);
    let found = lo.lookup4_many(&to).unwrap();
    assert_eq!(found.answers, one_by_one(&lo, &to));
    // 10.0.0.0/8, 10.2.0.0/16, 10.4.0.0/16, 127.0.0.0/8, 127.0.0.1/32; 10.2.3.0/24 of 253
    assert_eq!(found.weighed, 6);
    // 10.4.0.1 is answered by the first set, so 253 isn't walked
    let found = lo.lookup4_many(&to[5..6]).unwrap();
    assert_eq!(found.answers, [Err(Refused::PROHIBITED)]);
    assert_eq!(found.weighed, 3);
}

#[test]
fn no_destinations() {
    let none = Lookups {
        answers: vec![],
        weighed: 0,
    };
    assert_eq!(with_throw().lookup4_many(&[]), Ok(none));
}

#[test]
fn what_is_refused() {
    let lo = with_throw();
    let ip = Ipv4Addr::new(10, 1, 0, 1);
    let all = vec![ip; DESTINATION_LIMIT];
    assert_eq!(lo.lookup4_many(&all).unwrap().answers.len(), 256);
    let more = vec![ip; DESTINATION_LIMIT + 1];
    let refused = lo.lookup4_many(&more);
    assert_eq!(refused, Err(Refused::TOO_MANY_DESTINATIONS));
    let far = vec![ip; 1 << 20];
    assert_eq!(lo.lookup4_many(&far), refused);
    let falls = [ip, Ipv4Addr::new(10, 1, 0, 0)];
    assert_eq!(lo.lookup4_many(&falls), Err(Refused::NOT_RISING));
}

#[test]
fn lengths_on_words_and_bytes() {
    let lo = with_throw();
    let state = &lo.words()[..];
    let to = [0x0a01_0001, 0x0a01_0002];
    let mut answers = [7; 2 * ANSWER_WORDS + 1];
    let reply = words::lookup4_many(state, &to, &mut answers[..2 * ANSWER_WORDS - 1]);
    assert_eq!(reply.number, 200);
    assert_eq!(
        answers,
        [7; 2 * ANSWER_WORDS + 1],
        "a refusal writes nothing"
    );
    let reply = words::lookup4_many(state, &to, &mut answers);
    assert_eq!((reply.number, reply.value), (0, 1));
    assert_eq!(answers[2 * ANSWER_WORDS], 7, "what is behind them stays");
    let destinations: Vec<u8> = to.iter().flat_map(|word| word.to_le_bytes()).collect();
    let mut room = [7; 8 * ANSWER_WORDS];
    let reply = bytes::lookup4_many(&lo.to_bytes(), &destinations, &mut room);
    assert_eq!((reply.number, reply.value), (0, 1));
    let words: Vec<u8> = answers.iter().flat_map(|word| word.to_le_bytes()).collect();
    assert_eq!(room[..], words[..room.len()]);
    for cut in 1..4 {
        let cut = &destinations[..destinations.len() - cut];
        let reply = bytes::lookup4_many(&lo.to_bytes(), cut, &mut room);
        assert_eq!(reply.number, 200, "not whole words");
    }
}
