//! Messages as they come off a socket: those that `ip` sent to Linux
//! (host/messages/ip.txt), with what Linux answered and then showed, and
//! what is read otherwise here.
use naskrefim::*;

/// A request that was captured, and the error that Linux answered, or 0.
struct Captured {
    error: u32,
    command: String,
    message: Vec<u8>,
}

/// The requests up to the listing, the listing's lines, the requests behind
/// it.
fn captured() -> (Vec<Captured>, Vec<String>, Vec<Captured>) {
    let path = concat!(env!("CARGO_MANIFEST_DIR"), "/../messages/ip.txt");
    let text = std::fs::read_to_string(path).unwrap_or_else(|e| panic!("{path}: {e}"));
    let (mut before, mut shown, mut behind) = (Vec::new(), Vec::new(), Vec::new());
    for line in text.lines().filter(|line| !line.starts_with('#')) {
        if let Some(line) = line.strip_prefix("= ") {
            shown.push(line.to_string());
            continue;
        }
        let [error, command, hex] = line.split('\t').collect::<Vec<_>>()[..] else {
            panic!("{line}")
        };
        let byte = |at| u8::from_str_radix(&hex[at..at + 2], 16).unwrap();
        let one = Captured {
            error: error.parse().unwrap(),
            command: command.to_string(),
            message: (0..hex.len()).step_by(2).map(byte).collect(),
        };
        if shown.is_empty() {
            before.push(one);
        } else {
            behind.push(one);
        }
    }
    (before, shown, behind)
}

fn up() -> Addresses {
    let mut lo = Addresses::new();
    lo.up(0).unwrap();
    lo
}

/// The number that the message is met by, or 0.
fn number(lo: &mut Addresses, message: &[u8]) -> u32 {
    lo.perform(message, true, 1_000)
        .map_or_else(Refused::number, |_| 0)
}

/// Each message is performed as Linux did, and the addresses and routes
/// then are those that `ip` shows, in their order.
#[test]
fn what_ip_asks_for_is_done_as_linux_does() {
    let (requests, shown, _) = captured();
    assert!(requests.len() > 40 && shown.len() > 40);
    let mut lo = up();
    for Captured {
        error,
        command,
        message,
    } in &requests
    {
        assert_eq!(number(&mut lo, message), *error, "{command}");
    }
    let addresses = lo.addresses().map(|a| shown_address(&a));
    let routes = lo.dump4().into_iter().map(|r| shown_route(&r));
    assert_eq!(addresses.chain(routes).collect::<Vec<_>>(), shown);
}

/// The documentation says what a host looks at itself.
#[test]
fn what_linux_reads_otherwise() {
    let (_, _, requests) = captured();
    let mut lo = up();
    let mut ours = |text: &str| {
        let of = |c: &&Captured| c.command.contains(text);
        let found = requests.iter().find(of).unwrap();
        (found.error, number(&mut lo, &found.message))
    };
    assert_eq!(ours("congctl cubic"), (0, 206));
    assert_eq!(ours("congctl reno"), (0, 0));
    assert_eq!(ours("nexthop"), (0, 19));
    assert_eq!(ours("via inet6"), (22, 0));
    assert_eq!(ours("broadcast 0.0.0.0"), (0, 0));
    assert_eq!(ours("via 0.0.0.0"), (0, 101));
    assert_eq!(ours("src 0.0.0.0"), (0, 22));
    assert_eq!(requests.len(), 7);
    let zero = lo.addresses().find_map(|a| a.broadcast);
    assert_eq!(zero, Some(core::net::Ipv4Addr::UNSPECIFIED));
    // the name is a number here
    let reno = u32::from_le_bytes(*b"reno");
    assert!(lo.routes().any(|r| r.metrics[15] == reno));
}

fn scope(scope: u8) -> &'static str {
    match scope {
        SCOPE_UNIVERSE => "global",
        SCOPE_LINK => "link",
        SCOPE_HOST => "host",
        other => panic!("no scope of the commands: {other}"),
    }
}

/// As `ip -4 -d -o addr show dev lo` has it, up to the lifetimes.
fn shown_address(a: &V4) -> String {
    let mut text = format!("inet {}", a.local);
    if a.address != a.local {
        text += &format!(" peer {}", a.address);
    }
    text += &format!("/{}", a.prefix);
    if a.priority != 0 {
        text += &format!(" metric {}", a.priority);
    }
    if let Some(broadcast) = a.broadcast {
        text += &format!(" brd {broadcast}");
    }
    text += &format!(" scope {}", scope(a.scope));
    for (flag, set, name) in [
        (SECONDARY, true, " secondary"),
        (PERMANENT, false, " dynamic"),
        (NO_PREFIX_ROUTE, true, " noprefixroute"),
    ] {
        if (a.flags & flag != 0) == set {
            text += name;
        }
    }
    format!("{text} {}", String::from_utf8_lossy(&a.label))
}

/// As `ip -4 route show table all` has it.
fn shown_route(r: &Route4) -> String {
    let mut text = match r.kind {
        Kind::Unicast => String::new(),
        kind => format!("{kind:?} ").to_lowercase(),
    };
    text += &match (r.len, r.dst) {
        (0, _) => "default".to_string(),
        (32, dst) => dst.to_string(),
        (len, dst) => format!("{dst}/{len}"),
    };
    let mut say = |word: String| text += &format!(" {word}");
    if r.tos != 0 {
        say(format!("tos {:#x}", r.tos));
    }
    if let Some(gateway) = r.gateway {
        say(format!("via {gateway}"));
    }
    if r.device {
        say("dev lo".to_string());
    }
    match r.table {
        TABLE_MAIN => {}
        TABLE_LOCAL => say("table local".to_string()),
        TABLE_DEFAULT => say("table default".to_string()),
        table => say(format!("table {table}")),
    }
    if r.proto == PROTO_KERNEL {
        say("proto kernel".to_string());
    }
    if r.scope != SCOPE_UNIVERSE {
        say(format!("scope {}", scope(r.scope)));
    }
    if let Some(source) = r.prefsrc {
        say(format!("src {source}"));
    }
    if r.priority != 0 {
        say(format!("metric {}", r.priority));
    }
    if r.onlink {
        say("onlink".to_string());
    }
    let locked = r.metrics[0];
    for (index, name) in [(1, "mtu"), (7, "advmss"), (9, "hoplimit"), (10, "initcwnd")] {
        let lock = if locked >> (index + 1) & 1 == 1 {
            "lock "
        } else {
            ""
        };
        if r.metrics[index] != 0 {
            say(format!("{name} {lock}{}", r.metrics[index]));
        }
    }
    text
}
