//! The MMTP layer: packets whose headers have none, one or both of the optional parts,
//! and packets that end with their header or inside it.

use crate::rng::Rng;
use crate::tags::Tag;

pub(crate) const MEDIA: u8 = 0x00;
pub(crate) const SIGNALLING: u8 = 0x02;
const COUNTER_FLAG: u8 = 0x20;
const EXTENSION_FLAG: u8 = 0x02;

/// A header for this identifier and payload type; bits that no filter reads are random.
pub(crate) fn header(rng: &mut Rng, identifier: u16, kind: u8) -> Vec<u8> {
    let counter = rng.chance(15);
    let extension = rng.chance(15);
    let mut first = rng.byte() & !(COUNTER_FLAG | EXTENSION_FLAG);
    first |= if counter { COUNTER_FLAG } else { 0 };
    first |= if extension { EXTENSION_FLAG } else { 0 };
    let mut out = vec![first, rng.byte() & 0xc0 | kind & 0x3f];
    out.extend_from_slice(&identifier.to_be_bytes());
    out.extend(rng.bytes(8));
    if counter {
        rng.note(Tag::Counter);
        out.extend(rng.bytes(4));
    }
    if extension {
        rng.note(Tag::Extension);
        let content = rng.some_bytes(0..=12);
        out.extend(rng.bytes(2));
        out.extend_from_slice(&(content.len() as u16).to_be_bytes());
        out.extend(content);
    }
    out
}

pub(crate) fn packet(rng: &mut Rng, identifier: u16, kind: u8, payload: &[u8]) -> Vec<u8> {
    let mut out = header(rng, identifier, kind);
    out.extend_from_slice(payload);
    out
}

/// A packet with nothing behind its header, or whose header is cut.
pub(crate) fn bare(rng: &mut Rng, identifier: u16, kind: u8) -> Vec<u8> {
    let mut out = header(rng, identifier, kind);
    match rng.below(4) {
        0 => rng.note(Tag::HeaderAtEnd),
        1 => {
            rng.note(Tag::HeaderOneShort);
            out.pop();
        }
        2 => {
            rng.note(Tag::HeaderCut);
            out.truncate(rng.below(out.len()));
        }
        _ => {
            rng.note(Tag::ExtensionPastEnd);
            let past = rng.pick(&[1, 2, 0xffff]);
            out.truncate(12);
            out[0] = out[0] & !COUNTER_FLAG | EXTENSION_FLAG;
            out.extend([0, 0]);
            out.extend_from_slice(&u16::to_be_bytes(past));
            out.extend(rng.bytes(usize::from(past.min(9)) - 1));
        }
    }
    out
}
