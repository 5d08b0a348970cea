//! `cases --named`: narrowings and after them streams, in a fixed order, each with a name to find it by: 01's
//! examples, the readings of its open sentences, sizes at each limit, damaged inputs and small streams. Behind them
//! the cases of 02's requests, one request after the other. Beside each that was built by hand stands its answer; the
//! others are the original's to judge.

use face::{Kind, Modes, Narrowed, Options};
use maker::Input;

mod calls;
mod captions;
mod damaged;
mod examples;
mod growing;
mod packets;
mod plain_ip;
mod readings;
mod relay;
mod sizes;
mod streams;
mod wishes;
mod worked_out;

pub use calls::{NamedCalls, Reply};
pub use streams::{Answer, NamedStream, streams};

#[derive(Debug, Clone, PartialEq, Eq)]
pub struct Named {
    pub name: String,
    pub input: Input,
    /// `None`: it is not stated here.
    pub answer: Option<Narrowed>,
}

/// All narrowings of the base, in the order in which they are written.
pub fn named() -> Vec<Named> {
    [
        examples::examples(),
        readings::readings(),
        packets::packets(),
        sizes::sizes(),
        damaged::damaged(),
    ]
    .concat()
}

/// A case of a request. Its narrowings are with modes.
#[derive(Debug, Clone, PartialEq, Eq)]
pub enum Requested {
    Narrowing(Named),
    Calls(NamedCalls),
}

/// The cases of the requests, in the order in which they are written.
pub fn requested() -> Vec<Requested> {
    [
        of_request(wishes::wishes(), captions::captions()),
        of_request(
            [plain_ip::plain_ip(), worked_out::worked_out()].concat(),
            relay::relay(),
        ),
        of_request(Vec::new(), growing::growing()),
    ]
    .concat()
}

fn of_request(narrowings: Vec<Named>, series: Vec<NamedCalls>) -> Vec<Requested> {
    let narrowings = narrowings.into_iter().map(Requested::Narrowing);
    let series = series.into_iter().map(Requested::Calls);
    narrowings.chain(series).collect()
}

/// A table; the output is as long as it.
fn table(name: impl Into<String>, options: Options, bytes: Vec<u8>, answer: Narrowed) -> Named {
    built(name, Kind::Table, options, 0, bytes, answer)
}

/// A payload on this identifier.
fn payload(
    name: impl Into<String>,
    options: Options,
    identifier: u16,
    bytes: Vec<u8>,
    answer: Narrowed,
) -> Named {
    built(name, Kind::Payload, options, identifier, bytes, answer)
}

/// A packet; its identifier is in its bytes.
fn packet(name: impl Into<String>, options: Options, bytes: Vec<u8>, answer: Narrowed) -> Named {
    built(name, Kind::Packet, options, 0, bytes, answer)
}

fn built(
    name: impl Into<String>,
    kind: Kind,
    options: Options,
    identifier: u16,
    bytes: Vec<u8>,
    answer: Narrowed,
) -> Named {
    let input = Input {
        kind,
        options,
        modes: Modes::OFF,
        identifier,
        room: bytes.len(),
        bytes,
    };
    Named {
        name: name.into(),
        input,
        answer: Some(answer),
    }
}

impl Named {
    /// The same with an output of another length.
    fn lent(mut self, room: usize) -> Self {
        self.input.room = room;
        self
    }
}

/// Changed to these bytes: how many captions, carousels and others stayed, and how many went.
fn counted(out: Vec<u8>, stayed: [u32; 3], went: [u32; 3]) -> Narrowed {
    Narrowed::Changed { out, stayed, went }
}

/// One caption went, one other asset stayed.
fn cut(out: Vec<u8>) -> Narrowed {
    counted(out, [0, 0, 1], [1, 0, 0])
}

/// A PLT changed, and there is no MPT whose entries would count.
fn listed(out: Vec<u8>) -> Narrowed {
    counted(out, [0; 3], [0; 3])
}
