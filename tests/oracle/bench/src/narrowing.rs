//! Rows on narrowing: packets with a table of 8 entries, or with none. The original's side is its `packet` without
//! what it learns, the proved one `rewrite`, and `copy` where nothing changed. Both write to an output that is
//! there already. Each side goes through the packets in its own language, so that no row holds a call from one to the
//! other for each packet. In plain IP nothing is cut out, so that the original gives the same in either mode.

use face::{Modes, Options};
use oracle::builders::{
    NO_CAPTIONS, asset, here, long_message, mpt, only, plt, service_at, signalling, tables, whole,
};
use original::Parts;

use crate::measure::Row;
use crate::proved::{Work, each};

const PACKETS: usize = 64;
const ENTRIES: usize = 8;

pub fn rows() -> Vec<Row> {
    let neither = Options {
        carousel: false,
        ..NO_CAPTIONS
    };
    let sent = |name, options, packets| row(name, (options, Modes::OFF), packets, Work::Written);
    // The original counts no entries: its side is the same with counts and without.
    let counted = |name, options, packets| row(name, (options, Modes::OFF), packets, Work::Counted);
    let plain_ip = |name, modes| row(name, (neither, modes), uncut(), Work::Written);
    vec![
        sent("MPT of 8 entries, 1 goes", neither, mpts(1)),
        sent("MPT of 8 entries, 2 go", neither, mpts(2)),
        sent("MPT of 8 entries, 4 go", neither, mpts(4)),
        sent("MPT of 8 entries, none goes", neither, mpts(0)),
        sent("PLT of 8 entries, one stays", only(0x0404), plts()),
        sent("no PA message, 1,400 bytes", neither, others()),
        counted("MPT of 8 entries, 2 go, with counts", neither, mpts(2)),
        plain_ip("plain IP, none goes, mode off", Modes::OFF),
        plain_ip("plain IP, none goes, mode on", Modes::PLAIN_IP),
    ]
}

/// Plain IPv4 packets with an MPT each, in which nothing is to be cut out.
fn uncut() -> Vec<Vec<u8>> {
    maker::plain_ip_uncut(1, ENTRIES, PACKETS)
}

/// Packets with an MPT each. Of its captions and carousels this many go, elsewhere in each packet.
fn mpts(gone: usize) -> Vec<Vec<u8>> {
    let entry = |packet: usize, nth: usize| {
        let kind = match (nth + 3 * packet) % ENTRIES {
            place if place >= gone => ["hvc1", "mp4a", "asgd"][nth % 3],
            place if place % 2 == 0 => "stpp",
            _ => "aapp",
        };
        let place = here((ENTRIES * packet + nth) as u16);
        asset(&[nth as u8], kind, &[0], &[place], &[0x80, 0x10, 1, 0])
    };
    let packet = |packet| {
        let entries: Vec<_> = (0..ENTRIES).map(|nth| entry(packet, nth)).collect();
        tables(0xf000, &[mpt(&entries)])
    };
    (0..PACKETS).map(packet).collect()
}

/// Packets with a PLT each; the services stand in another order in each.
fn plts() -> Vec<Vec<u8>> {
    let packet = |packet: u16| {
        let service = |nth: u16| service_at(0x0400 + (nth + packet) % 8, nth);
        tables(0, &[plt(&(0..8).map(service).collect::<Vec<_>>())])
    };
    (0..PACKETS as u16).map(packet).collect()
}

/// Signalling packets of 1,400 bytes with a message that is not looked into.
fn others() -> Vec<Vec<u8>> {
    let packet = |packet: u16| signalling(packet, &whole(&long_message(0x8000, &[7; 1_372])));
    (0..PACKETS as u16).map(packet).collect()
}

/// A row whose packets, all of one size, both sides narrow alike.
fn row(name: &str, by: (Options, Modes), packets: Vec<Vec<u8>>, work: Work) -> Row {
    let (times, size) = (packets.len(), packets[0].len());
    let mut filter = Parts::new(by.0);
    let (mut out, mut grown) = (vec![0; size], Vec::with_capacity(size));
    for packet in &packets {
        assert_eq!(packet.len(), size, "{name}");
        let written = each(work, packet, size, by, &mut out);
        let mut expected = Vec::new();
        filter.packet(packet, &mut expected);
        assert_eq!(out[..written], expected, "{name}");
    }
    let packets = packets.concat();
    let given = packets.clone();
    Row {
        name: name.to_owned(),
        times,
        original: Box::new(move || filter.packets(&packets, size, &mut grown)),
        proved: Box::new(move || each(work, &given, size, by, &mut out)),
        aside: None,
    }
}
