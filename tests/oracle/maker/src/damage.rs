//! Damage to what was right: to the bytes of one packet or message, and to a row of packets;
//! and junk to stand between packets.

use crate::rng::Rng;
use crate::tags::Tag;
use crate::tlv::{self, SYNC};

/// Changes some bytes in place, or how many there are.
pub(crate) fn bytes(rng: &mut Rng, bytes: &mut Vec<u8>) {
    if bytes.is_empty() {
        return;
    }
    let at = rng.below(bytes.len());
    match rng.below(6) {
        0 | 1 => {
            rng.note(Tag::Flipped);
            bytes[at] ^= 1 << rng.below(8);
        }
        2 => {
            rng.note(Tag::Stepped);
            bytes[at] = bytes[at].wrapping_add(rng.pick(&[1, 255]));
        }
        3 => {
            rng.note(Tag::Extreme);
            bytes[at] = rng.pick(&[0, 255, SYNC]);
        }
        4 => {
            rng.note(Tag::FieldCut);
            let end = (at + rng.within(1..=4)).min(bytes.len());
            bytes.drain(at..end);
        }
        _ => {
            rng.note(Tag::FieldLonger);
            let more = rng.some_bytes(1..=4);
            bytes.splice(at..at, more);
        }
    }
}

/// Damages a row of packets in up to `count` places, each of which touches one packet's content at most.
pub(crate) fn packets(rng: &mut Rng, packets: &mut Vec<Vec<u8>>, count: usize) {
    for _ in 0..count {
        packets.retain(|packet| !packet.is_empty());
        if !packets.is_empty() {
            place(rng, packets);
        }
    }
}

fn place(rng: &mut Rng, packets: &mut Vec<Vec<u8>>) {
    let nth = rng.below(packets.len());
    match rng.below(10) {
        0..4 => inside(rng, &mut packets[nth]),
        4 => bytes(rng, &mut packets[nth]),
        5 => {
            rng.note(Tag::Duplicated);
            packets.insert(nth, packets[nth].clone());
        }
        6 => {
            rng.note(Tag::Dropped);
            packets.remove(nth);
        }
        7 => {
            rng.note(Tag::Swapped);
            let other = rng.below(packets.len());
            packets.swap(nth, other);
        }
        8 => packets.insert(nth, junk(rng)),
        _ => {
            rng.note(Tag::Cut);
            let length = rng.below(packets[nth].len());
            packets[nth].truncate(length);
        }
    }
}

/// Damages what the packet carries, and puts its TLV length right so that it is found.
fn inside(rng: &mut Rng, packet: &mut Vec<u8>) {
    let Some((&[_, kind, _, _], rest)) = packet.split_first_chunk::<4>() else {
        return;
    };
    let mut payload = rest.to_vec();
    bytes(rng, &mut payload);
    *packet = tlv::packet(kind, &payload);
}

/// Bytes that are no packet but may look like one.
pub(crate) fn junk(rng: &mut Rng) -> Vec<u8> {
    rng.note(Tag::Junk);
    let mut junk = rng.some_bytes(1..=40);
    for _ in 0..rng.below(4) {
        let at = rng.below(junk.len());
        junk[at] = SYNC;
    }
    // Only so is the packet before it still a packet.
    if rng.chance(50) {
        junk[0] = SYNC;
    }
    if rng.chance(40) {
        rng.note(Tag::JunkLikeStart);
        let length = rng.below(60) as u8;
        let kind = rng.pick(&[
            tlv::IPV4,
            tlv::IPV6,
            tlv::COMPRESSED,
            tlv::CONTROL,
            tlv::NULL,
        ]);
        junk.extend([SYNC, kind, 0, length]);
    }
    junk
}
