//! Small tables, payloads and packets with a few places damaged, from fixed seeds.

use face::Kind;

use super::Named;

/// How many there are.
const DAMAGED: u64 = 600;

pub(super) fn damaged() -> Vec<Named> {
    (0..DAMAGED).map(named).collect()
}

fn named(seed: u64) -> Named {
    let input = maker::damaged(seed);
    let kind = match input.kind {
        Kind::Table => "table",
        Kind::Payload => "payload",
        Kind::Packet => "packet",
    };
    Named {
        name: format!("damaged {kind}, seed {seed}"),
        input,
        answer: None,
    }
}
