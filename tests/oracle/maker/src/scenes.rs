//! Scenes about situations rather than limits: identifiers that become data carousels, tables in plain IP,
//! packets that belong to nothing, and noise.

use face::Options;

use crate::broadcast::UNNAMED;
use crate::damage;
use crate::foreseen;
use crate::messages::{self, DATA, Pa};
use crate::rng::Rng;
use crate::signalling;
use crate::stage::Stage;
use crate::tags::Tag;
use crate::tlv::{COMPRESSED, SYNC};

/// Identifiers become data carousels, among them those of PLT, MPTs and assets.
pub(crate) fn data(stage: &mut Stage) {
    stage.announce_all();
    stage.probe();
    for _ in 0..stage.rng.within(1..=3) {
        data_message(stage);
        stage.probe();
        stage.broadcast.evolve(&mut stage.rng);
        let steps = stage.rng.within(5..=60);
        stage.play(steps);
        stage.announce_all();
    }
    stage.probe();
}

/// All that wishes sort: each identifier's media and messages, and data carousels; then something changes.
pub(crate) fn wishes(stage: &mut Stage) {
    for _ in 0..stage.rng.within(1..=2) {
        stage.announce_all();
        stage.probe();
        stage.signal_all();
        if stage.rng.chance(50) {
            data_message(stage);
        }
        stage.broadcast.evolve(&mut stage.rng);
        let steps = stage.rng.within(5..=30);
        stage.play(steps);
    }
    stage.probe();
}

/// How long a table's filling can be in a packet that fits in the smallest work room.
const FILLING_MOST: usize = 1_500;

/// Tables in plain IP, of which it is foreseen what these options leave.
pub(crate) fn foreseen(stage: &mut Stage, options: &Options) {
    for _ in 0..stage.rng.within(3..=10) {
        let packet = foreseen::packet(&mut stage.rng, options, FILLING_MOST);
        stage.packets.push(packet);
    }
}

fn data_message(stage: &mut Stage) {
    let body = stage.rng.some_bytes(0..=30);
    let mut message = messages::message(DATA, &body);
    match stage.rng.below(8) {
        0..3 => {
            let right = body.len() as u32;
            let (tag, length) = stage.rng.pick(&[
                (Tag::DataCut, right + 1),
                (Tag::DataHuge, u32::MAX),
                (Tag::DataHuge, u32::MAX - 6),
            ]);
            stage.rng.note(tag);
            message[3..7].copy_from_slice(&length.to_be_bytes());
            stage.signal_plainly(UNNAMED[0], &message);
        }
        3 | 4 => data_before_pa(stage, message),
        5 => {
            stage.rng.note(Tag::DataInFragments);
            let identifier = data_identifier(stage);
            for payload in messages::fragments(0, &message, &[3]) {
                stage.signal(identifier, &payload);
            }
        }
        _ => {
            stage.rng.note(Tag::DataWhole);
            let identifier = data_identifier(stage);
            stage.signal_plainly(identifier, &message);
        }
    }
}

fn data_identifier(stage: &mut Stage) -> u16 {
    let named = stage.rng.pick(&stage.broadcast.identifiers());
    let identifier = stage
        .rng
        .weighted(&[(20, 0), (40, UNNAMED[1]), (40, named)]);
    if identifier == 0 {
        stage.rng.note(Tag::DataOnZero);
    }
    identifier
}

/// One aggregated payload that makes its identifier a data carousel and then tells something new.
fn data_before_pa(stage: &mut Stage, message: Vec<u8>) {
    stage.rng.note(Tag::DataBeforePa);
    stage.broadcast.evolve(&mut stage.rng);
    let rng = &mut stage.rng;
    let (identifier, table) = match stage.broadcast.services.last() {
        Some(service) if rng.chance(50) => (service.mpt, signalling::news(rng, &stage.broadcast)),
        _ => {
            rng.note(Tag::DataOnZero);
            (0, signalling::plt(rng, &stage.broadcast, 0))
        }
    };
    let wide = rng.chance(50);
    let mut payload = vec![messages::aggregate_flags(wide), 0];
    let list = [message, Pa::of(vec![table]).write()];
    payload.extend(messages::aggregate(wide, &list));
    stage.signal(identifier, &payload);
}

/// A known broadcast with many packets that belong to nothing.
pub(crate) fn strays(stage: &mut Stage) {
    stage.announce_plainly();
    for _ in 0..stage.rng.within(20..=120) {
        stage.stray();
    }
    stage.probe();
}

/// Random bytes and short junk, with a broadcast between them.
pub(crate) fn noise(stage: &mut Stage) {
    stage.rng.note(Tag::Noise);
    for _ in 0..stage.rng.within(1..=12) {
        let bytes = noisy(&mut stage.rng);
        stage.packets.push(bytes);
        stage.announce_plainly();
        let junk = damage::junk(&mut stage.rng);
        stage.packets.push(junk);
        stage.play(10);
    }
}

/// Random bytes, among them more than their share of those that a packet begins with.
fn noisy(rng: &mut Rng) -> Vec<u8> {
    let mut bytes = rng.some_bytes(1..=3_000);
    for byte in bytes.iter_mut().filter(|byte| **byte < 20) {
        *byte = [SYNC, SYNC, COMPRESSED, 0][usize::from(*byte) % 4];
    }
    bytes
}
