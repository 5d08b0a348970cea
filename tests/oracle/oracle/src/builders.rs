//! Packets, messages and tables, built from the inside out: an entry goes into a table, tables into a PA
//! message, a message into a payload, a payload into a packet. The named cases and the tests are made of them.

use face::Options;

/// Everything is wanted of every service: copy-all.
pub const ALL: Options = Options {
    service: None,
    caption: true,
    carousel: true,
    eit: true,
    other: true,
};
pub const NO_CAPTIONS: Options = Options {
    caption: false,
    ..ALL
};
pub const NO_CAROUSELS: Options = Options {
    carousel: false,
    ..ALL
};
pub const NO_EIT: Options = Options { eit: false, ..ALL };
pub const NO_OTHERS: Options = Options {
    other: false,
    ..ALL
};

/// Everything of one service.
pub fn only(service: u16) -> Options {
    Options {
        service: Some(service),
        ..ALL
    }
}

pub fn hex(digits: &str) -> Vec<u8> {
    crate::narrow::from_hex(digits).expect("hexadecimal digits")
}

// Entries and tables

/// A location of type 0.
pub fn here(identifier: u16) -> Vec<u8> {
    [&[0][..], &identifier.to_be_bytes()].concat()
}

/// 01's E: an asset without clock and descriptors, at one location of type 0.
pub fn entry(id: u8, kind: &str, identifier: u16) -> Vec<u8> {
    asset(&[id], kind, &[0], &[here(identifier)], &[])
}

/// An asset by `asset_size`'s layout; `clock` is the flag byte and what follows it.
pub fn asset(id: &[u8], kind: &str, clock: &[u8], places: &[Vec<u8>], tail: &[u8]) -> Vec<u8> {
    let mut entry = vec![0, 0, 0, 0, 0, id.len() as u8];
    entry.extend(id);
    entry.extend(kind.bytes());
    entry.extend(clock);
    entry.push(places.len() as u8);
    entry.extend(places.concat());
    entry.extend((tail.len() as u16).to_be_bytes());
    entry.extend(tail);
    entry
}

pub fn video(identifier: u16) -> Vec<u8> {
    entry(0x11, "hvc1", identifier)
}

pub fn caption(identifier: u16) -> Vec<u8> {
    entry(0x22, "stpp", identifier)
}

pub fn carousel(identifier: u16) -> Vec<u8> {
    entry(0x33, "aapp", identifier)
}

/// A table: number, version, length and body.
pub fn table(number: u8, body: &[u8]) -> Vec<u8> {
    let mut table = vec![number, 5];
    table.extend((body.len() as u16).to_be_bytes());
    table.extend(body);
    table
}

pub fn mpt(entries: &[Vec<u8>]) -> Vec<u8> {
    mpt_of(0x20, entries, &[])
}

/// An MPT of any number, with bytes after its last entry.
pub fn mpt_of(number: u8, entries: &[Vec<u8>], tail: &[u8]) -> Vec<u8> {
    let mut body = hex("00 02 04 00 00 00");
    body.push(entries.len() as u8);
    body.extend(entries.concat());
    body.extend(tail);
    table(number, &body)
}

/// A package of a PLT.
pub fn package(name: &[u8], location: &[u8]) -> Vec<u8> {
    [&[name.len() as u8][..], name, location].concat()
}

/// A package of a service at a location of type 0.
pub fn service_at(service: u16, identifier: u16) -> Vec<u8> {
    package(&service.to_be_bytes(), &here(identifier))
}

pub fn plt(packages: &[Vec<u8>]) -> Vec<u8> {
    let mut body = vec![packages.len() as u8];
    body.extend(packages.concat());
    table(0x80, &body)
}

// Messages and payloads

/// A PA message; its head tells the tables as they are.
pub fn pa(tables: &[Vec<u8>]) -> Vec<u8> {
    pa_with_tail(tables, &[])
}

/// A PA message with bytes behind its tables.
pub fn pa_with_tail(tables: &[Vec<u8>], tail: &[u8]) -> Vec<u8> {
    let heads: Vec<_> = tables.iter().map(|table| table[..4].to_vec()).collect();
    let mut behind = tables.to_vec();
    behind.push(tail.to_vec());
    pa_with_heads(&heads, &behind)
}

/// A PA message whose head tells what it likes.
pub fn pa_with_heads(heads: &[Vec<u8>], tables: &[Vec<u8>]) -> Vec<u8> {
    let mut body = vec![heads.len() as u8];
    body.extend(heads.concat());
    body.extend(tables.concat());
    long_message(0, &body)
}

/// A message whose length has 32 bits.
pub fn long_message(number: u16, body: &[u8]) -> Vec<u8> {
    let mut message = number.to_be_bytes().to_vec();
    message.push(0);
    message.extend((body.len() as u32).to_be_bytes());
    message.extend(body);
    message
}

/// The message that puts its identifier into the data set: 7 bytes.
pub fn data() -> Vec<u8> {
    long_message(0x8003, &[])
}

/// A payload of one whole message.
pub fn whole(message: &[u8]) -> Vec<u8> {
    [&[0, 0][..], message].concat()
}

/// A first, middle or last fragment: 1, 2 or 3.
pub fn fragment(place: u8, body: &[u8]) -> Vec<u8> {
    [&[place << 6, 0][..], body].concat()
}

/// An aggregated payload, with 16-bit lengths.
pub fn aggregate(messages: &[Vec<u8>]) -> Vec<u8> {
    let mut payload = vec![1, 0];
    for message in messages {
        payload.extend((message.len() as u16).to_be_bytes());
        payload.extend(message);
    }
    payload
}

// Packets

pub fn mmtp(payload_type: u8, identifier: u16, payload: &[u8]) -> Vec<u8> {
    let mut packet = vec![0, payload_type];
    packet.extend(identifier.to_be_bytes());
    packet.extend([0; 8]);
    packet.extend(payload);
    packet
}

pub fn tlv(packet_type: u8, payload: &[u8]) -> Vec<u8> {
    let mut packet = vec![0x7f, packet_type];
    packet.extend((payload.len() as u16).to_be_bytes());
    packet.extend(payload);
    packet
}

/// A packet with a compressed header, in which messages are rewritable.
pub fn compressed(mmtp: &[u8]) -> Vec<u8> {
    tlv(3, &[&[0, 0, 0x61][..], mmtp].concat())
}

pub fn signalling(identifier: u16, payload: &[u8]) -> Vec<u8> {
    compressed(&mmtp(2, identifier, payload))
}

/// A packet with one PA message of the tables.
pub fn tables(identifier: u16, tables: &[Vec<u8>]) -> Vec<u8> {
    signalling(identifier, &whole(&pa(tables)))
}

/// A packet that is not signalling.
pub fn media(identifier: u16) -> Vec<u8> {
    compressed(&mmtp(0, identifier, b"media"))
}
