//! What the tests are built from: bytes from hex, tables, messages and packets in 01's words, and short ways
//! to feed a filter and to narrow.

use face::{Call, Engine, Kind, Limits, Modes, Narrowed, Options};
use plain::Plain;

pub const LIMITS: Limits = Limits {
    work: 65_536,
    total: 65_536,
    most: 65_536,
    maps: 32_768,
};

pub const ALL: Options = Options {
    service: None,
    caption: true,
    carousel: true,
    eit: true,
    other: true,
};
pub const NO_CAPTIONS: Options = Options {
    caption: false,
    ..ALL
};
pub const NO_CAROUSELS: Options = Options {
    carousel: false,
    ..ALL
};
pub const NO_EIT: Options = Options { eit: false, ..ALL };
pub const NO_OTHERS: Options = Options {
    other: false,
    ..ALL
};

pub fn only(service: u16) -> Options {
    Options {
        service: Some(service),
        ..ALL
    }
}

/// Bytes from hex digits; blanks are for reading.
pub fn hex(text: &str) -> Vec<u8> {
    let digits: Vec<u8> = text
        .bytes()
        .filter(|byte| !byte.is_ascii_whitespace())
        .collect();
    let value = |digit: u8| (digit as char).to_digit(16).expect("a hex digit") as u8;
    digits
        .chunks_exact(2)
        .map(|pair| value(pair[0]) * 16 + value(pair[1]))
        .collect()
}

fn be16(length: usize) -> [u8; 2] {
    u16::try_from(length).expect("at most 65,535").to_be_bytes()
}

/// 01's E(id,kind,pid).
pub fn entry(id: u8, kind: &str, identifier: u16) -> Vec<u8> {
    entry_at(id, kind, &[&[0], &identifier.to_be_bytes()[..]].concat(), 1)
}

/// An asset entry with these `count` locations.
pub fn entry_at(id: u8, kind: &str, locations: &[u8], count: u8) -> Vec<u8> {
    [
        &[0, 0, 0, 0, 0, 1, id],
        kind.as_bytes(),
        &[0, count],
        locations,
        &[0, 0],
    ]
    .concat()
}

/// A table of version 5.
pub fn table(number: u8, body: &[u8]) -> Vec<u8> {
    [&[number, 5], &be16(body.len())[..], body].concat()
}

pub fn mpt_numbered(number: u8, entries: &[Vec<u8>]) -> Vec<u8> {
    table(
        number,
        &[
            &hex("00 02 0400 0000")[..],
            &[entries.len() as u8],
            &entries.concat(),
        ]
        .concat(),
    )
}

pub fn mpt(entries: &[Vec<u8>]) -> Vec<u8> {
    mpt_numbered(0x20, entries)
}

/// 01's M.
pub fn m() -> Vec<u8> {
    hex("20 05 00 2B 00 02 04 00 00 00 02
         00 00000000 01 11 68766331 00 01 00 F100 0000
         00 00000000 01 22 73747070 00 01 00 F130 0000")
}

pub fn package(service: u16, identifier: u16) -> Vec<u8> {
    [
        &[2],
        &service.to_be_bytes()[..],
        &[0],
        &identifier.to_be_bytes()[..],
    ]
    .concat()
}

pub fn plt(packages: &[Vec<u8>]) -> Vec<u8> {
    table(
        0x80,
        &[&[packages.len() as u8], &packages.concat()[..]].concat(),
    )
}

/// A PA body with one right head entry for each table.
pub fn pa_body(tables: &[Vec<u8>]) -> Vec<u8> {
    let heads: Vec<u8> = tables
        .iter()
        .flat_map(|table| &table[..4])
        .copied()
        .collect();
    [&[tables.len() as u8], &heads[..], &tables.concat()].concat()
}

/// A message with a length of 32 bits.
pub fn message(number: u16, body: &[u8]) -> Vec<u8> {
    [
        &number.to_be_bytes()[..],
        &[7],
        &(body.len() as u32).to_be_bytes(),
        body,
    ]
    .concat()
}

pub fn pa(tables: &[Vec<u8>]) -> Vec<u8> {
    message(0, &pa_body(tables))
}

pub fn data_message() -> Vec<u8> {
    message(0x8003, &[])
}

/// A signalling payload: byte 0, a counter that nobody reads, and the body.
pub fn payload(flags: u8, body: &[u8]) -> Vec<u8> {
    [&[flags, 9], body].concat()
}

pub fn mmtp(payload_type: u8, identifier: u16, payload: &[u8]) -> Vec<u8> {
    [
        &[0, payload_type],
        &identifier.to_be_bytes()[..],
        &[0; 8],
        payload,
    ]
    .concat()
}

pub fn tlv(kind: u8, payload: &[u8]) -> Vec<u8> {
    [&[0x7F, kind], &be16(payload.len())[..], payload].concat()
}

/// A rewritable packet.
pub fn rewritable(mmtp: &[u8]) -> Vec<u8> {
    tlv(0x03, &[&hex("0000 61"), mmtp].concat())
}

/// A rewritable packet with a signalling payload.
pub fn signal(identifier: u16, payload: &[u8]) -> Vec<u8> {
    rewritable(&mmtp(2, identifier, payload))
}

/// A rewritable packet with a whole PA message.
pub fn tables(identifier: u16, tables: &[Vec<u8>]) -> Vec<u8> {
    signal(identifier, &payload(0, &pa(tables)))
}

/// A packet that is no signalling.
pub fn media(identifier: u16) -> Vec<u8> {
    rewritable(&mmtp(0, identifier, &hex("AABB")))
}

pub fn filter(options: Options) -> Plain {
    filter_within(LIMITS, options)
}

pub fn filter_within(limits: Limits, options: Options) -> Plain {
    Plain::start(limits, options, Modes::OFF).expect("limits in range")
}

/// Feeds packets as one chunk.
pub fn feed(filter: &mut Plain, packets: &[Vec<u8>]) -> Call {
    let chunk = packets.concat();
    let room = filter.held() + chunk.len();
    filter
        .push(&chunk, room)
        .expect("a chunk and a room of allowed lengths")
}

/// Whether a packet is written whole and alone.
pub fn passes(filter: &mut Plain, packet: &[u8]) -> bool {
    feed(filter, &[packet.to_vec()]).out == packet
}

pub fn narrow(kind: Kind, options: Options, identifier: u16, input: &[u8]) -> Narrowed {
    Plain::narrow(kind, options, Modes::OFF, identifier, input, input.len())
}

/// The bytes that narrowing a table alone gives.
pub fn narrow_table(options: Options, table: &[u8]) -> Option<Vec<u8>> {
    changed(narrow(Kind::Table, options, 0xFFFF, table))
}

pub fn changed(narrowed: Narrowed) -> Option<Vec<u8>> {
    match narrowed {
        Narrowed::Changed { out, .. } => Some(out),
        Narrowed::Unchanged => None,
        Narrowed::Refused(number) => panic!("refused {number}"),
    }
}
