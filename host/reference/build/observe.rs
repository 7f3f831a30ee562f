//! The copy of `interface.rs` that records how long its IPv4 lists get, and
//! has the allowance of a call in place of the constant `FUZZ`.
//!
//! Each statement that makes one of them longer is followed by a record of
//! the three lengths. The build stops if there are other such statements
//! than the four known ones, or a use of the lists or of the constant that
//! isn't known.

/// The statements that make a list longer, each once in the file.
const GROWING: [&str; 4] = [
    "self.v4.push(new.clone());",
    "self.v4.insert(last_primary, new.clone());",
    "self.tables4.push(table);",
    "self.routes4.insert(at, new);",
];
/// The methods called on the lists; of these only `push` and `insert` make
/// one longer.
const KNOWN: [&str; 10] = [
    "clone",
    "contains",
    "is_empty",
    "iter",
    "len",
    "partition_point",
    "remove",
    "retain",
    "push",
    "insert",
];
const RECORD: &str =
    "crate::peaks::record([self.v4.len(), self.routes4.len(), self.tables4.len()]);";

/// The constant, and its one use.
const FUZZ: [&str; 2] = ["const FUZZ: u64 = 20_000_000;", "(now + FUZZ)"];
const ALLOWED: &str = "(now + crate::peaks::allowance())";

/// `text` with the records and the allowance put in.
pub fn observed(text: &str) -> Result<String, String> {
    let code = without_comments(text);
    for statement in GROWING {
        let times = code.matches(statement).count();
        if times != 1 {
            return Err(format!(
                "`{statement}` stands there {times} times, not once"
            ));
        }
    }
    check_uses(&code)?;
    let known = FUZZ.iter().map(|use_| code.matches(use_).count());
    if code.matches("FUZZ").count() != 2 || known.into_iter().any(|times| times != 1) {
        return Err("a use of FUZZ that isn't known".to_string());
    }
    let mut copy = text.replacen(FUZZ[1], ALLOWED, 1);
    for statement in GROWING {
        copy = copy.replacen(statement, &format!("{statement} {RECORD}"), 1);
    }
    Ok(copy)
}

fn without_comments(text: &str) -> String {
    text.lines()
        .map(|line| line.split("//").next().unwrap_or(""))
        .collect::<Vec<_>>()
        .join("\n")
}

/// Looks at whatever follows each `.v4`, `.routes4` and `.tables4`.
fn check_uses(code: &str) -> Result<(), String> {
    let mut growing = 0;
    for list in [".v4", ".routes4", ".tables4"] {
        for (at, _) in code.match_indices(list) {
            let rest = &code[at + list.len()..];
            if rest.starts_with(|c: char| c.is_alphanumeric() || c == '_') {
                continue;
            }
            let rest = rest.trim_start();
            let here = || format!("a use of {list} that isn't known: {}", excerpt(code, at));
            if let Some(call) = rest.strip_prefix('.') {
                let name: String = call
                    .chars()
                    .take_while(|c| c.is_alphanumeric() || *c == '_')
                    .collect();
                if !KNOWN.contains(&name.as_str()) {
                    return Err(here());
                }
                growing += usize::from(name == "push" || name == "insert");
            } else if rest.starts_with(')') {
                // handed on: to a function that takes a shared slice
                if !code[..at].ends_with("table_order(&self") {
                    return Err(here());
                }
            } else if !rest.starts_with('[') {
                return Err(here());
            }
        }
    }
    if growing == GROWING.len() {
        Ok(())
    } else {
        Err(format!(
            "{growing} statements make a list longer, not {}",
            GROWING.len()
        ))
    }
}

fn excerpt(code: &str, at: usize) -> String {
    code[at.saturating_sub(40)..]
        .chars()
        .take(100)
        .collect::<String>()
        .split_whitespace()
        .collect::<Vec<_>>()
        .join(" ")
}
