//! Inputs for narrowing alone: tables, payloads and packets, right, odd, damaged and random,
//! of all lengths up to just past the longest that is taken.

use std::collections::BTreeSet;

use face::{Kind, Modes, Options};

use crate::Input;
use crate::broadcast::Broadcast;
use crate::cuts::ROOM_MOST;
use crate::rng::Rng;
use crate::signalling::{self, ODD};
use crate::tables;
use crate::tags::Tag;
use crate::{damage, examples, foreseen, ip, limits, messages, mmtp, tlv};

/// The longest input that narrowing takes.
const TAKEN_MOST: usize = 65_539;
/// The longest input that is made, for programs with fixed rooms.
pub(crate) const INPUT_MOST: usize = 131_200;
const INPUTS: usize = 8;
const EXAMPLES_EACH: u64 = 50;
/// The longest damaged input before its damage.
const SMALL: usize = 400;
const KINDS: [Kind; 3] = [Kind::Table, Kind::Payload, Kind::Packet];
/// Flag bytes with something not wanted.
const LEAVE_OUT: [u8; 7] = [0, 5, 6, 8, 12, 13, 14];

pub(crate) fn tagged_inputs(seed: u64) -> (Vec<Input>, BTreeSet<Tag>) {
    let mut rng = Rng::new(seed, 3);
    if seed.is_multiple_of(EXAMPLES_EACH) {
        rng.note(Tag::Example);
        return (examples::inputs(), rng.into_tags());
    }
    let manner = Manner {
        options: limits::options,
        ..WISHED
    };
    tagged(rng, |rng| input(rng, &manner))
}

pub(crate) fn tagged_wished_inputs(seed: u64) -> (Vec<Input>, BTreeSet<Tag>) {
    tagged(Rng::new(seed, 10), |rng| input(rng, &WISHED))
}

pub(crate) fn tagged_plain_ip_inputs(seed: u64) -> (Vec<Input>, BTreeSet<Tag>) {
    tagged(Rng::new(seed, 12), |rng| {
        if rng.chance(40) {
            foreseen_input(rng)
        } else {
            input(rng, &PLAIN_IP)
        }
    })
}

/// How inputs are made.
struct Manner {
    /// Chooses options for a broadcast with these services.
    options: fn(&mut Rng, &[u16]) -> Options,
    modes: Modes,
    kinds: &'static [Kind],
    /// How many in a hundred are damaged.
    damaged: usize,
}

const WISHED: Manner = Manner {
    options: limits::wishes,
    modes: Modes::OFF,
    kinds: &KINDS,
    damaged: 25,
};

/// The mode of plain IP is about packets.
const PLAIN_IP: Manner = Manner {
    modes: Modes::PLAIN_IP,
    kinds: &[
        Kind::Table,
        Kind::Payload,
        Kind::Packet,
        Kind::Packet,
        Kind::Packet,
        Kind::Packet,
        Kind::Packet,
        Kind::Packet,
    ],
    damaged: 8,
    ..WISHED
};

fn tagged(mut rng: Rng, input: impl Fn(&mut Rng) -> Input) -> (Vec<Input>, BTreeSet<Tag>) {
    let inputs = (0..INPUTS).map(|_| input(&mut rng)).collect();
    (inputs, rng.into_tags())
}

/// How long a table's filling can be in a packet of the longest.
const FILLING_MOST: usize = 65_000;

/// A packet of plain IP of which it is foreseen what its options leave.
fn foreseen_input(rng: &mut Rng) -> Input {
    let options = limits::wishes(rng, &[0x0400, 0x0401]);
    let most = rng.pick(&[30, 30, 1_500, 1_500, FILLING_MOST]);
    let bytes = foreseen::packet(rng, &options, most);
    Input {
        kind: Kind::Packet,
        options,
        modes: Modes::PLAIN_IP,
        identifier: identifier(rng),
        room: room(rng, bytes.len()),
        bytes,
    }
}

fn input(rng: &mut Rng, manner: &Manner) -> Input {
    let services = rng.below(6);
    let mut broadcast = Broadcast::new(rng, services);
    for _ in 0..rng.below(5) {
        broadcast.evolve(rng);
    }
    match rng.below(20) {
        0 => broadcast.fill_assets(rng),
        1 => broadcast.fill_packages(rng),
        _ => {}
    }
    let kind = rng.pick(manner.kinds);
    let identifier = identifier(rng);
    let mut bytes = if rng.chance(4) {
        rng.note(Tag::RandomInput);
        rng.some_bytes(0..=300)
    } else {
        made(rng, kind, &broadcast, &manner.modes)
    };
    if rng.chance(manner.damaged) {
        damage::bytes(rng, &mut bytes);
    }
    resize(rng, &mut bytes);
    Input {
        kind,
        options: (manner.options)(rng, &broadcast.numbers()),
        modes: manner.modes,
        identifier,
        room: room(rng, bytes.len()),
        bytes,
    }
}

pub(crate) fn damaged(seed: u64) -> Input {
    let mut rng = Rng::new(seed, 6);
    let kind = KINDS[seed as usize % KINDS.len()];
    let (broadcast, mut bytes) = small(&mut rng, kind);
    for _ in 0..rng.pick(&[1, 1, 2, 3]) {
        damage::bytes(&mut rng, &mut bytes);
    }
    let service = rng.pick(&broadcast.numbers());
    Input {
        kind,
        options: Options::from_flags(rng.pick(&LEAVE_OUT), service),
        modes: Modes::OFF,
        identifier: identifier(&mut rng),
        room: bytes.len(),
        bytes,
    }
}

/// An input that is short enough, and the broadcast that it is of, which has a service.
fn small(rng: &mut Rng, kind: Kind) -> (Broadcast, Vec<u8>) {
    loop {
        let services = rng.within(1..=4);
        let broadcast = Broadcast::new(rng, services);
        let bytes = made(rng, kind, &broadcast, &Modes::OFF);
        if bytes.len() <= SMALL && !broadcast.numbers().is_empty() {
            return (broadcast, bytes);
        }
    }
}

fn identifier(rng: &mut Rng) -> u16 {
    rng.pick(&[0, 0, 0xf000])
}

fn made(rng: &mut Rng, kind: Kind, broadcast: &Broadcast, modes: &Modes) -> Vec<u8> {
    match kind {
        Kind::Table => table(rng, broadcast),
        Kind::Payload => payload(rng, broadcast),
        Kind::Packet => {
            let payload = payload(rng, broadcast);
            packet(rng, &payload, modes)
        }
    }
}

fn table(rng: &mut Rng, broadcast: &Broadcast) -> Vec<u8> {
    match (rng.below(100), broadcast.services.first()) {
        (0..35, _) => signalling::plt(rng, broadcast, ODD),
        (35..90, Some(service)) => signalling::mpt(rng, service, ODD),
        (90..93, _) => signalling::longest_mpt(rng, broadcast),
        _ => {
            rng.note(Tag::UnknownTable);
            let number = rng.byte();
            tables::table(number, 0, &rng.some_bytes(0..=30))
        }
    }
}

fn payload(rng: &mut Rng, broadcast: &Broadcast) -> Vec<u8> {
    let count = rng.pick(&[1, 1, 1, 2, 3]);
    let tables = (0..count).map(|_| table(rng, broadcast)).collect();
    let message = signalling::pa(rng, tables, ODD);
    if rng.chance(70) {
        return messages::whole(rng.pick(&[0, 0, 2, 0x3e]), &message);
    }
    let payloads = signalling::payloads(rng, &message);
    payloads[rng.below(payloads.len())].clone()
}

/// Its identifier is its own, whatever the input says beside it.
fn packet(rng: &mut Rng, payload: &[u8], modes: &Modes) -> Vec<u8> {
    let kind = if rng.chance(90) { mmtp::SIGNALLING } else { 0 };
    let identifier = identifier(rng);
    let mmtp = if rng.chance(5) {
        mmtp::bare(rng, identifier, kind)
    } else {
        mmtp::packet(rng, identifier, kind, payload)
    };
    let mut packet = if modes.plain_ip && rng.chance(85) {
        ip::packet(rng, &mmtp)
    } else {
        carried(rng, &mmtp)
    };
    if rng.chance(15) {
        rng.note(Tag::HeaderUnread);
        packet[0] = rng.byte();
        packet[2] = rng.byte();
        packet[3] = rng.byte();
    }
    packet
}

fn carried(rng: &mut Rng, mmtp: &[u8]) -> Vec<u8> {
    let carrier = if rng.chance(5) {
        tlv::unread_carrier(rng)
    } else {
        tlv::carrier(rng)
    };
    tlv::carry(rng, carrier, mmtp)
}

/// Sometimes cuts the input, or brings it to a length around the longest that is taken.
fn resize(rng: &mut Rng, bytes: &mut Vec<u8>) {
    match rng.below(100) {
        0..4 => {
            rng.note(Tag::InputCut);
            bytes.truncate(rng.below(bytes.len() + 1));
        }
        4..7 => bytes.truncate(rng.below(6)),
        7..15 => {
            rng.note(Tag::InputLonger);
            bytes.extend(rng.some_bytes(1..=9));
        }
        15..17 => {
            let length = rng.within(TAKEN_MOST - 4..=TAKEN_MOST + 1);
            if length < bytes.len() {
                bytes.truncate(length);
            } else {
                bytes.extend(rng.bytes(length - bytes.len()));
            }
        }
        _ => {}
    }
    bytes.truncate(INPUT_MOST);
    match bytes.len() {
        0 => rng.note(Tag::InputEmpty),
        1..4 => rng.note(Tag::InputTiny),
        TAKEN_MOST => rng.note(Tag::InputLongest),
        length if length > TAKEN_MOST => rng.note(Tag::InputPast),
        _ => {}
    }
}

fn room(rng: &mut Rng, length: usize) -> usize {
    match rng.below(100) {
        0..8 => rng.within(length..=ROOM_MOST),
        8..18 if length > 0 => {
            rng.note(Tag::RoomOneShort);
            length - 1
        }
        18..20 => {
            rng.note(Tag::RoomNone);
            0
        }
        20..22 => rng.below(length + 1),
        _ => length,
    }
}
