//! Scenes about the other limits: packets of P bytes and one more, more MPT identifiers than are kept,
//! and tables with as many entries or bytes as their fields can tell.

use std::collections::BTreeSet;

use face::Limits;

use crate::limits;
use crate::messages::{self, Pa};
use crate::mmtp;
use crate::rng::Rng;
use crate::signalling;
use crate::stage::Stage;
use crate::tables::{Asset, Mpt};
use crate::tags::Tag;
use crate::tlv::{self, COMPRESSED, NULL, SYNC};

const MAPS_MOST: usize = 64;

/// Work rooms whose packet limit is small, or just under or at the longest packet that a TLV length can tell.
pub(crate) fn limits(rng: &mut Rng) -> Limits {
    let small = rng.within(4_096..=6_000);
    let most = limits::WORK_MOST;
    Limits {
        work: rng.weighted(&[(80, small), (8, most), (6, most - 1), (6, most - 3)]),
        ..limits::ample()
    }
}

pub(crate) fn packets(stage: &mut Stage, limits: &Limits) {
    // At the very beginning, where the longest chunk can hold all of it.
    if stage.rng.chance(40) {
        past_packet(stage, limits);
    }
    stage.announce_plainly();
    let most = if limits.work > 100_000 { 1 } else { 3 };
    for _ in 0..stage.rng.within(1..=most) {
        sized_packet(stage, limits.packet());
        stage.rng.note(Tag::PacketMet);
        stage.probe();
        past_packet(stage, limits);
        stage.probe();
    }
    let steps = stage.rng.within(5..=60);
    stage.play(steps);
}

/// A packet one byte too long, where a TLV length can tell of it.
fn past_packet(stage: &mut Stage, limits: &Limits) {
    if limits.packet() < tlv::HEADER + usize::from(u16::MAX) {
        stage.rng.note(Tag::PacketPassed);
        sized_packet(stage, limits.packet() + 1);
    }
}

/// A packet of exactly this size, media or an MPT; packets stand inside it, to be found where it is skipped.
fn sized_packet(stage: &mut Stage, size: usize) {
    let rng = &mut stage.rng;
    let identifier = stage.broadcast.identifier(rng);
    let signalling = rng.chance(50);
    let kind = if signalling {
        mmtp::SIGNALLING
    } else {
        mmtp::MEDIA
    };
    let mut payload = vec![0, 0, 0x61];
    payload.extend(mmtp::header(rng, identifier, kind));
    if signalling {
        let asset = Asset::plain(rng.pick(&[b"hvc1", b"stpp", b"aapp"]), identifier);
        let message = Pa::of(vec![Mpt::of(vec![asset]).write()]).write();
        payload.extend(messages::whole(0, &message));
    }
    let inner = rng.some_bytes(0..=30);
    payload.extend(tlv::packet(NULL, &inner));
    payload.push(SYNC);
    let rest = size - tlv::HEADER - payload.len();
    payload.extend(rng.bytes(rest));
    stage.packets.push(tlv::packet(COMPRESSED, &payload));
}

/// MPTs from as many identifiers as are kept, the services' among them or not, and then from others.
pub(crate) fn many_maps(stage: &mut Stage) {
    let mut known = BTreeSet::new();
    let known_first = stage.rng.chance(50);
    if known_first {
        stage.announce_plainly();
        known.extend(stage.broadcast.services.iter().map(|service| service.mpt));
    }
    let past = stage.rng.pick(&[0, 1, 1, 6, 30]);
    for identifier in (0x1000..).take(MAPS_MOST + past - known.len()) {
        let table = small_mpt(stage);
        stage.signal_plainly(identifier, &Pa::of(vec![table]).write());
    }
    stage.probe();
    if !known_first {
        stage.announce_plainly();
    }
    stage.rng.note(Tag::MapsPast);
    let two = vec![small_mpt(stage), small_mpt(stage)];
    stage.signal_plainly(0x1fff, &Pa::of(two).write());
    let mut unreadable = Mpt::of(Vec::new());
    unreadable.miscount = 1;
    stage.signal_plainly(0x1ffe, &Pa::of(vec![unreadable.write()]).write());
    let steps = stage.rng.within(5..=80);
    stage.play(steps);
    stage.probe();
}

fn small_mpt(stage: &mut Stage) -> Vec<u8> {
    let asset = stage.broadcast.asset(&mut stage.rng);
    Mpt::of(vec![asset]).write()
}

/// Tables with the most entries, or of the most bytes.
pub(crate) fn wide(stage: &mut Stage) {
    match stage.rng.below(3) {
        0 => stage.broadcast.fill_assets(&mut stage.rng),
        1 => stage.broadcast.fill_packages(&mut stage.rng),
        _ => long_table(stage),
    }
    stage.announce_all();
    stage.probe();
    let steps = stage.rng.within(5..=40);
    stage.play(steps);
}

/// The longest MPT, in fragments since no packet holds it.
fn long_table(stage: &mut Stage) {
    stage.announce_plainly();
    let table = signalling::longest_mpt(&mut stage.rng, &stage.broadcast);
    let message = Pa::of(vec![table]).write();
    let identifier = match stage.broadcast.services.first() {
        Some(service) => service.mpt,
        None => 0xf000,
    };
    for payload in messages::fragments(0, &message, &[100, 40_000]) {
        stage.signal(identifier, &payload);
    }
    stage.probe();
}
