//! Makes test streams for filters of MMT/TLV recordings: whole cases with limits, options and cuts, series of
//! calls, inputs for narrowing alone, and clean streams for benchmarks. Each follows from its seed alone. Beside them
//! stand the checksums that packets of plain IP have, and the room that fragments need.

mod bench;
mod broadcast;
mod calls;
mod cases;
mod crowd;
mod cuts;
mod damage;
mod edges;
mod examples;
mod foreseen;
mod fragments;
pub mod holding;
mod ip;
mod limits;
mod messages;
mod mmtp;
mod narrowing;
mod rng;
mod scenes;
mod signalling;
mod stage;
pub mod sums;
mod tables;
mod tags;
#[cfg(test)]
mod tests;
mod tlv;

use face::{Kind, Limits, Modes, Options, Part};

/// A stream, how it is cut into chunks, and what the filter is told at its start.
#[derive(Debug, Clone, PartialEq, Eq)]
pub struct Case {
    pub limits: Limits,
    pub options: Options,
    /// The length of the output that each call is lent.
    pub room: usize,
    /// The lengths of the chunks; their sum is the stream's length.
    pub cuts: Vec<usize>,
    pub bytes: Vec<u8>,
}

/// What a filter is told at its start, and what it is asked after it.
#[derive(Debug, Clone, PartialEq, Eq)]
pub struct Calls {
    pub limits: Limits,
    pub options: Options,
    pub modes: Modes,
    pub operations: Vec<Operation>,
}

#[derive(Debug, Clone, PartialEq, Eq)]
pub enum Operation {
    /// A chunk, and the length of the output that is lent for it.
    Push { room: usize, chunk: Vec<u8> },
    /// How many packet identifiers are dropped.
    Dropped,
}

/// One input for narrowing.
#[derive(Debug, Clone, PartialEq, Eq)]
pub struct Input {
    pub kind: Kind,
    pub options: Options,
    pub modes: Modes,
    pub identifier: u16,
    /// The length of the output that is lent.
    pub room: usize,
    pub bytes: Vec<u8>,
}

/// A case with any limits, some of them out of range, and some calls that are refused.
pub fn case(seed: u64) -> Case {
    cases::tagged_case(seed).0
}

/// A case at the limits of the original, which has no others: nothing is refused, no map is lost.
pub fn plain_case(seed: u64) -> Case {
    cases::tagged_plain_case(seed).0
}

/// Calls with any of the four wishes, some of them refused, and starts that are.
pub fn calls(seed: u64) -> Calls {
    calls::tagged_calls(seed).0
}

/// Inputs with other assets wanted.
pub fn inputs(seed: u64) -> Vec<Input> {
    narrowing::tagged_inputs(seed).0
}

/// Inputs with any of the four wishes.
pub fn wished_inputs(seed: u64) -> Vec<Input> {
    narrowing::tagged_wished_inputs(seed).0
}

/// Calls with any of the four wishes and the mode of plain IP, which carries most of their packets.
pub fn plain_ip_calls(seed: u64) -> Calls {
    calls::tagged_plain_ip_calls(seed).0
}

/// Inputs with any of the four wishes and the mode of plain IP, most of them packets of it.
pub fn plain_ip_inputs(seed: u64) -> Vec<Input> {
    narrowing::tagged_plain_ip_inputs(seed).0
}

/// 01's examples 1 to 10, tables to narrow.
pub fn examples() -> Vec<Input> {
    examples::inputs()
}

/// A small input for narrowing with one to three places damaged; the kinds take turns from seed to seed.
pub fn damaged(seed: u64) -> Input {
    narrowing::damaged(seed)
}

/// A clean stream of `size` bytes (none where that is under four) like a broadcast of several services:
/// packets of 1,400 bytes, and a burst of tables each 60 of them.
pub fn air(seed: u64, size: usize) -> Vec<u8> {
    bench::air(seed, size)
}

/// The same in plain IPv4, with right lengths and checksums: its tables are narrowed in the mode of plain IP alone.
pub fn plain_ip_air(seed: u64, size: usize) -> Vec<u8> {
    bench::plain_ip_air(seed, size)
}

/// So many packets of one length in plain IPv4, each with an MPT of so many entries (255 at most), none of them a caption or
/// a carousel.
pub fn plain_ip_uncut(seed: u64, entries: usize, packets: usize) -> Vec<Vec<u8>> {
    bench::plain_ip_uncut(seed, entries, packets)
}

/// So many packets of one length in plain IPv4, each with the PLT of `air`, whose services are 0x0400 to 0x0405.
pub fn plain_ip_plts(seed: u64, packets: usize) -> Vec<Vec<u8>> {
    bench::plain_ip_plts(seed, packets)
}

/// A clean stream of `size` bytes (none where that is under four), most of it tables.
pub fn dense(seed: u64, size: usize) -> Vec<u8> {
    bench::dense(seed, size)
}

/// Null packets of `packet` bytes each, header included (four at least), as many as fit in `size` bytes.
pub fn nulls(packet: usize, size: usize) -> Vec<u8> {
    bench::nulls(packet, size)
}

/// A clean stream of at most `size` bytes: the tables of `air` once, then media packets of `packet` bytes each, header
/// included (65,539 at most), all of one identifier, which a table names as an asset of this kind.
pub fn media(seed: u64, part: Part, packet: usize, size: usize) -> Vec<u8> {
    bench::media(seed, part, packet, size)
}

/// A clean stream of at least `size` bytes: the tables of `air` once, then messages of so many identifiers, each in three
/// fragments with bodies of `body` bytes: all firsts, then all middles, then all lasts, and so on.
pub fn fragmented(seed: u64, identifiers: u16, body: usize, size: usize) -> Vec<u8> {
    bench::fragmented(seed, identifiers, body, size)
}

/// The same, but each identifier begins its messages one step behind the one before it, the fourth with the first: firsts,
/// middles and lasts alternate.
pub fn staggered(seed: u64, identifiers: u16, body: usize, size: usize) -> Vec<u8> {
    bench::staggered(seed, identifiers, body, size)
}

/// Random bytes. Some look like the start of a packet until the bytes behind them are there.
pub fn garbage(seed: u64, size: usize) -> Vec<u8> {
    bench::garbage(seed, size)
}
