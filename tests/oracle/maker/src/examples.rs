//! The written-out examples, byte for byte: ten tables for narrowing,
//! and a stream of one packet in several cuts.

use std::collections::BTreeSet;

use face::{Kind, Limits, Modes, Options};

use crate::limits;
use crate::rng::Rng;
use crate::tags::Tag;
use crate::tlv::{NULL, SYNC};
use crate::{Case, Input};

const CAPTIONS_OFF: u8 = 0b110;
const CAROUSELS_OFF: u8 = 0b101;
const SERVICE: u8 = 0b1111;
/// The bytes of the example MPT before its first entry, and of an entry before its location.
const MPT_HEAD: usize = 11;
const ENTRY_LOCATION: usize = 13;

fn entry(name: u8, kind: &[u8; 4], identifier: u16) -> Vec<u8> {
    let mut out = vec![0, 0, 0, 0, 0, 1, name];
    out.extend_from_slice(kind);
    out.extend([0, 1, 0]);
    out.extend_from_slice(&identifier.to_be_bytes());
    out.extend([0, 0]);
    out
}

fn mpt(length: u8, count: u8, entries: &[Vec<u8>]) -> Vec<u8> {
    let head = vec![0x20, 5, 0, length, 0, 2, 4, 0, 0, 0, count];
    [head, entries.concat()].concat()
}

fn plt(first: [u8; 2], second: [u8; 2]) -> Vec<u8> {
    let entry = |name: [u8; 2], nth| [2, name[0], name[1], 0, 0xf0, nth];
    let head = [0x80, 1, 0, 0x0e, 2];
    [&head[..], &entry(first, 0), &entry(second, 1), &[0]].concat()
}

pub(crate) fn inputs() -> Vec<Input> {
    let video = entry(0x11, b"hvc1", 0xf100);
    let captions = entry(0x22, b"stpp", 0xf130);
    let both = [video.clone(), captions.clone()];
    let mut strange = mpt(0x2b, 2, &both);
    strange[MPT_HEAD + ENTRY_LOCATION] = 6;
    let twice = [entry(0x11, b"stpp", 0xf100), captions];
    let list = plt([4, 0], [4, 1]);
    let alone = vec![0x80, 1, 0, 8, 1, 2, 4, 1, 0, 0xf0, 1, 0];
    vec![
        input(CAPTIONS_OFF, 0, mpt(0x2b, 2, &both)),
        input(CAPTIONS_OFF, 0, mpt(0x19, 1, &[video])),
        input(CAROUSELS_OFF, 0, mpt(0x2b, 2, &both)),
        input(CAPTIONS_OFF, 0, mpt(0x2b, 3, &both)),
        input(CAPTIONS_OFF, 0, strange),
        input(CAPTIONS_OFF, 0, mpt(0x2b, 2, &twice)),
        input(SERVICE, 0x0401, list.clone()),
        input(SERVICE, 0x0401, alone),
        input(SERVICE, 0x0402, list),
        input(SERVICE, 0x0400, plt([4, 0], [4, 0])),
    ]
}

fn input(flags: u8, service: u16, bytes: Vec<u8>) -> Input {
    Input {
        kind: Kind::Table,
        options: Options::from_flags(flags, service),
        modes: Modes::OFF,
        identifier: 0,
        room: bytes.len(),
        bytes,
    }
}

/// A null packet and one byte more, in one chunk or cut after the packet.
pub(crate) fn case(mut rng: Rng) -> (Case, BTreeSet<Tag>) {
    rng.note(Tag::Example);
    let cuts = rng.pick::<&[usize]>(&[&[6], &[5, 1], &[4, 2], &[0, 5, 0, 1], &[1, 1, 1, 1, 1, 1]]);
    let bytes = vec![SYNC, NULL, 0, 1, 0xaa, 0];
    let case = Case {
        limits: Limits {
            total: 65_536,
            most: 65_536,
            ..limits::ample()
        },
        options: Options::from_flags(rng.pick(&[0, 6]), 0),
        room: limits::WORK_MOST,
        cuts: cuts.to_vec(),
        bytes,
    };
    (case, rng.into_tags())
}
