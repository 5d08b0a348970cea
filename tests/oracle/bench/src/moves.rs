//! Lines on moves: how many bytes of the fragment room change their offset for one incoming body, in each layout of the model
//! (`room.rs`). Before they are printed the model's room, free bytes and all, must be the proved code's.

use std::rc::Rc;

use face::Modes;
use maker::Operation;
use oracle::orders::{Ordered, orders};

use crate::passage::Passage;
use crate::room::{Layout, Room};
use crate::streams::{Stream, fragments, pieces};

/// The layout of the proved code.
const PROVED: Layout = Layout::Parted;
/// The rooms are compared after each chunk of a stream. Those of an order are shorter than its packets.
const CHUNK: usize = 65_536;
const SHORT_CHUNK: usize = 50;

/// The streams of messages in fragments.
pub fn lines() -> Vec<Stream> {
    fragments()
}

/// What a line can be asked for by.
pub fn words(stream: &Stream) -> String {
    format!("moves {}", stream.name)
}

/// Compares the rooms, counts the moves and prints them, if any line is asked for.
pub fn print(streams: &[Stream]) {
    if streams.is_empty() {
        return;
    }
    let chunks: usize = streams.iter().map(compare_stream).sum();
    let orders: usize = orders().map(|ordered| compare_order(&ordered)).sum();
    println!(
        "bytes of the fragment room that are moved: in all, for each body that comes, and at most for one body"
    );
    let proved = format!("{PROVED:?}").to_lowercase();
    println!(
        "by a model, whose {proved} room is the proved code's after {chunks} chunks of these streams and {orders} orders of fragments"
    );
    println!("{:38}{:>21}{:>31}{:>31}", "", "", "packed", "parted");
    println!(
        "{:38}{:>8}{:>13}{:>13}{:>9}{:>9}{:>13}{:>9}{:>9}",
        "stream", "bodies", "their bytes", "in all", "a body", "most", "in all", "a body", "most"
    );
    for stream in streams {
        let [packed, parted] =
            [Layout::Packed, Layout::Parted].map(|layout| Moves::counted(layout, stream));
        println!(
            "{:38}{:>8}{:>13}{}{}",
            stream.name,
            packed.bodies,
            packed.bytes,
            packed.told(),
            parted.told()
        );
    }
}

/// Bodies of fragments that came, their bytes, and the bytes that moved: in all, and at most for one body.
#[derive(Default)]
struct Moves {
    bodies: usize,
    bytes: usize,
    moved: usize,
    most: usize,
}

impl Moves {
    fn counted(layout: Layout, stream: &Stream) -> Self {
        let mut room = Room::new(layout, stream.total);
        let mut moves = Self::default();
        for piece in pieces(&stream.bytes) {
            room.take(&piece);
            if piece.place > 0 {
                moves.bodies += 1;
                moves.bytes += piece.body.len();
            }
            moves.most = moves.most.max(room.moved - moves.moved);
            moves.moved = room.moved;
        }
        moves
    }

    fn told(&self) -> String {
        let each = self.moved as f64 / self.bodies as f64;
        format!("{:>13}{each:>9.0}{:>9}", self.moved, self.most)
    }
}

/// The room after each chunk of a stream. Answers after how many.
fn compare_stream(stream: &Stream) -> usize {
    let passage = |bytes: &[u8]| Passage {
        stream: bytes.into(),
        options: stream.options,
        modes: stream.modes,
        total: stream.total,
        first: 0,
        size: CHUNK,
    };
    let chunks = stream.bytes.len().div_ceil(CHUNK);
    for chunk in 1..=chunks {
        let end = stream.bytes.len().min(chunk * CHUNK);
        compare(&passage(&stream.bytes[..end]), &stream.name);
    }
    chunks
}

/// The room after all packets of an order, if its M is T: the bench lends no other. Answers how many were compared.
fn compare_order(ordered: &Ordered) -> usize {
    let case = &ordered.case;
    if case.limits.most < case.limits.total {
        return 0;
    }
    let pushed = case
        .operations
        .iter()
        .filter_map(|operation| match operation {
            Operation::Push { chunk, .. } => Some(&chunk[..]),
            Operation::Dropped => None,
        });
    let passage = Passage {
        stream: Rc::from(pushed.collect::<Vec<_>>().concat()),
        options: case.options,
        modes: Modes::OFF,
        total: case.limits.total,
        first: 0,
        size: SHORT_CHUNK,
    };
    compare(&passage, &format!("{ordered:?}"));
    1
}

fn compare(passage: &Passage, name: &str) {
    let mut room = Room::new(PROVED, passage.total);
    for piece in pieces(&passage.stream) {
        room.take(&piece);
    }
    assert!(passage.room() == room.bytes, "{name}");
}
