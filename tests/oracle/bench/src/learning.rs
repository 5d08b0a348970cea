//! Rows on learning: a PLT or an MPT, the same again or with a change, and messages in fragments. The original's side
//! is its `observe` up to the rules, the proved one `observe`. Both tell whether the rules are to be worked out.

use oracle::builders::{ALL, fragment, long_message, whole};
use original::Parts;

use crate::broadcast::{Message, mpt_of, plt_of};
use crate::known::Known;
use crate::measure::Row;

/// How many messages a turn brings. Each service has as many of one edition as of the other, by turns.
const MESSAGES: u16 = 80;
const SERVICES: u16 = 10;
const ASSETS: u16 = 8;

/// A signalling payload and the identifier that carries it.
type Payload = (u16, Vec<u8>);

pub fn rows() -> Vec<Row> {
    let plts = |editions| messages(|nth| plt_of(SERVICES, nth % editions));
    let mpts = |editions| messages(|nth| mpt_of(nth % SERVICES, ASSETS, nth / SERVICES % editions));
    let others = || messages(|nth| (0x1000 + nth, long_message(0x8000, &[7; 4_193])));
    let unchanged = |name, messages| row(name, 0, wholes(messages));
    let changed = |name, messages| row(name, usize::from(MESSAGES), wholes(messages));
    let fragments = |name, messages, at_a_time| row(name, 0, thirds(messages, at_a_time));
    vec![
        unchanged("PLT of 10 services, unchanged", plts(1)),
        changed("PLT of 10 services, changed", plts(2)),
        unchanged("MPT of 8 assets, unchanged", mpts(1)),
        changed("MPT of 8 assets, changed", mpts(2)),
        fragments("MPT of 8 in 3 fragments, one at a time", mpts(1), 1),
        fragments("4,200 bytes in 3 fragments, one at a time", others(), 1),
        fragments("4,200 bytes in 3 fragments, 16 at a time", others(), 16),
    ]
}

fn messages(message: impl Fn(u16) -> Message) -> Vec<Message> {
    (0..MESSAGES).map(message).collect()
}

/// Each message whole, in a payload of its own.
fn wholes(messages: Vec<Message>) -> Vec<Payload> {
    let payload = |(identifier, message): Message| (identifier, whole(&message));
    messages.into_iter().map(payload).collect()
}

/// Each message in thirds, some messages at a time: all their firsts, then all their middles, then all their lasts.
fn thirds(messages: Vec<Message>, at_a_time: usize) -> Vec<Payload> {
    let third = |place: u8, (identifier, message): &Message| {
        let mut parts = message.chunks(message.len().div_ceil(3));
        let part = parts.nth(usize::from(place) - 1).expect("three parts");
        (*identifier, fragment(place, part))
    };
    let in_turn = |some: &[Message]| -> Vec<Payload> {
        let of_all = |place| some.iter().map(move |message| third(place, message));
        (1..=3).flat_map(of_all).collect()
    };
    messages.chunks(at_a_time).flat_map(in_turn).collect()
}

/// A row whose payloads teach both sides the same. Once all were there, so many of them change something.
fn row(name: &str, changes: usize, payloads: Vec<Payload>) -> Row {
    let (mut filter, mut known) = (Parts::new(ALL), Known::new());
    let mut told = 0;
    for _ in 0..2 {
        told = 0;
        for (identifier, payload) in &payloads {
            let changed = filter.observe(*identifier, payload);
            assert_eq!(known.observe(*identifier, payload), changed, "{name}");
            assert_eq!(known.learned(), filter.learned(), "{name}");
            told += usize::from(changed);
        }
    }
    assert_eq!(told, changes, "{name}");
    let given = payloads.clone();
    Row {
        name: name.to_owned(),
        times: usize::from(MESSAGES),
        original: Box::new(move || {
            let learn = |(identifier, payload): &Payload| filter.observe(*identifier, payload);
            payloads.iter().map(learn).map(usize::from).sum()
        }),
        proved: Box::new(move || {
            let learn = |(identifier, payload): &Payload| known.observe(*identifier, payload);
            given.iter().map(learn).map(usize::from).sum()
        }),
        aside: None,
    }
}
