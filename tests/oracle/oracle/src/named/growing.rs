//! For request 3: messages in fragments that grow while others are held, in a few of the orders of which `orders` has all, with
//! T just met and just passed. Beside each stands what is known after each packet; it is what 01 has.

use super::calls::{NamedCalls, asked, calls, sent};
use super::streams::{Sent, passes};
use crate::builders::{media, only};
use crate::orders::{Message, SERVICE, Scripts};
use crate::orders::{again, in_order, known, messages, with_whole};

/// The name of a case, T, whose turn it is, and how many identifiers are dropped after each turn. Three are from the start,
/// those of the services' MPTs; a message that is joined adds as many as it lists, which is its number.
type Row = (&'static str, usize, [usize; 9], [u32; 9]);

pub(super) fn growing() -> Vec<NamedCalls> {
    let of = |nth, ends: &[usize]| Message::new(nth).parts(ends);
    let thirds = vec![of(1, &[10, 24]), of(2, &[26, 38]), of(3, &[15, 54])];
    let with_empty = vec![of(1, &[0, 20]), of(2, &[30, 30]), of(3, &[37, 81])];
    let beside = |script| vec![of(1, &[18]), script, of(3, &[15, 54])];
    [
        cases(&thirds, &IN_TURNS),
        cases(&with_empty, &WITH_EMPTY),
        cases(&beside(again(&[12], &[33, 45])), &FIRSTS_AGAIN),
        cases(&beside(with_whole(1)), &WHOLES),
    ]
    .concat()
}

/// Bodies of 10, 14 and 17 bytes, of 26, 12 and 23, and of 15, 39 and 27.
const IN_TURNS: [Row; 7] = [
    (
        "the oldest ends first, T met",
        133,
        [0, 1, 2, 0, 1, 2, 0, 1, 2],
        [3, 3, 3, 3, 3, 3, 4, 6, 9],
    ),
    (
        "the oldest ends first, T passed",
        132,
        [0, 1, 2, 0, 1, 2, 0, 1, 2],
        [3, 3, 3, 3, 3, 3, 3, 5, 8],
    ),
    (
        "the oldest ends first, in what a middle without room gives back",
        93,
        [0, 1, 2, 0, 1, 2, 0, 1, 2],
        [3, 3, 3, 3, 3, 3, 4, 6, 6],
    ),
    (
        "the newest ends first, T met",
        143,
        [0, 1, 2, 2, 1, 0, 2, 1, 0],
        [3, 3, 3, 3, 3, 3, 6, 8, 9],
    ),
    (
        "the newest ends first, T passed",
        142,
        [0, 1, 2, 2, 1, 0, 2, 1, 0],
        [3, 3, 3, 3, 3, 3, 3, 5, 6],
    ),
    (
        "one begins behind one that grew, T met",
        100,
        [0, 1, 0, 2, 1, 1, 0, 2, 2],
        [3, 3, 3, 3, 3, 5, 6, 6, 9],
    ),
    (
        "one begins behind one that grew, T passed",
        99,
        [0, 1, 0, 2, 1, 1, 0, 2, 2],
        [3, 3, 3, 3, 3, 3, 4, 4, 7],
    ),
];

/// Bodies of 0, 20 and 21 bytes, of 30, 0 and 31, and of 37, 44 and 0.
const WITH_EMPTY: [Row; 1] = [(
    "empty fragments, T met",
    152,
    [0, 1, 2, 0, 1, 2, 0, 1, 2],
    [3, 3, 3, 3, 3, 3, 4, 6, 9],
)];

/// Bodies of 18 and 23 bytes, of 12, then 33, 12 and 16, and of 15, 39 and 27. The second first needs 105 bytes. Where they
/// just fit the next two find no room and go, and the message is joined; where not, it is the one that is not joined.
const FIRSTS_AGAIN: [Row; 4] = [
    (
        "a first again, T met",
        128,
        [1, 2, 0, 2, 1, 0, 2, 1, 1],
        [3, 3, 3, 3, 3, 4, 7, 7, 9],
    ),
    (
        "a first again, T passed",
        127,
        [1, 2, 0, 2, 1, 0, 2, 1, 1],
        [3, 3, 3, 3, 3, 3, 6, 6, 8],
    ),
    (
        "a first again that just fits",
        105,
        [1, 2, 0, 2, 1, 0, 2, 1, 1],
        [3, 3, 3, 3, 3, 3, 3, 3, 5],
    ),
    (
        "a first again that just does not fit",
        104,
        [1, 2, 0, 2, 1, 0, 2, 1, 1],
        [3, 3, 3, 3, 3, 4, 7, 7, 7],
    ),
];

/// Bodies of 18 and 23 bytes, of 26, and of 15, 39 and 27. The whole message is the fourth packet, and gives 26 back.
const WHOLES: [Row; 2] = [
    (
        "a whole between fragments, T met",
        95,
        [0, 1, 2, 1, 1, 2, 0, 2, 1],
        [3, 3, 3, 5, 5, 5, 6, 9, 9],
    ),
    (
        "a whole between fragments, T passed",
        94,
        [0, 1, 2, 1, 1, 2, 0, 2, 1],
        [3, 3, 3, 5, 5, 5, 5, 8, 8],
    ),
];

fn cases(scripts: &Scripts, rows: &[Row]) -> Vec<NamedCalls> {
    rows.iter().map(|row| case(scripts, row)).collect()
}

/// A message is known from the turn on after which more identifiers are dropped.
fn case(scripts: &Scripts, &(name, total, order, dropped): &Row) -> NamedCalls {
    let mut joined = Vec::new();
    let mut steps = vec![sent(&ready(scripts.len()))];
    let mut before = dropped[0];
    for (turn, dropped) in in_order(scripts, &order).into_iter().zip(dropped) {
        steps.extend([sent(&[(turn.packet(), None)]), asked(dropped)]);
        if dropped > before {
            joined.push(turn.message);
        }
        before = dropped;
    }
    let probes = messages(scripts).into_iter().flat_map(|message| {
        let stays = !joined.contains(&message);
        let packets = message.assets().map(media);
        packets.map(move |packet| (packet.clone(), stays.then_some(packet)))
    });
    steps.push(sent(&probes.collect::<Vec<Sent>>()));
    let mut named = calls(name, only(SERVICE), steps);
    named.case.limits.total = total;
    named.case.limits.most = total;
    named
}

/// The tables that come first; the PLT has the wanted service alone.
fn ready(others: usize) -> [Sent; 2] {
    let ([plt, mpt], [narrowed, _]) = (known(others), known(0));
    [(plt, Some(narrowed)), passes(&mpt)]
}
