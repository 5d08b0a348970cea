//! Whole cases: a profile chosen by the seed says which limits a case has and which scenes it plays;
//! options, cuts and the lent output are chosen last, when the stream is known.

use std::collections::BTreeSet;

use face::Limits;

use crate::Case;
use crate::broadcast::Broadcast;
use crate::rng::Rng;
use crate::stage::Stage;
use crate::tags::Tag;
use crate::{cuts, damage, edges, examples, fragments, limits, scenes};

#[derive(Clone, Copy)]
enum Profile {
    Broadcast,
    Damaged,
    Fragments,
    Disorder,
    ManyFragments,
    ManyMaps,
    PacketEdge,
    Wide,
    Data,
    Strays,
    Refused,
    Noise,
}

const PROFILES: [(usize, Profile); 12] = [
    (17, Profile::Broadcast),
    (14, Profile::Damaged),
    (14, Profile::Fragments),
    (5, Profile::Disorder),
    (6, Profile::ManyFragments),
    (4, Profile::ManyMaps),
    (7, Profile::PacketEdge),
    (8, Profile::Wide),
    (10, Profile::Data),
    (3, Profile::Strays),
    (17, Profile::Refused),
    (3, Profile::Noise),
];

pub(crate) fn tagged_case(seed: u64) -> (Case, BTreeSet<Tag>) {
    let mut rng = Rng::new(seed, 1);
    if rng.chance(2) {
        return examples::case(rng);
    }
    let profile = rng.weighted(&PROFILES);
    let services = match profile {
        Profile::ManyFragments => 2 + rng.below(3),
        _ if rng.chance(4) => 0,
        _ => rng.within(1..=6),
    };
    let broadcast = Broadcast::new(&mut rng, services);
    let limits = limits_of(&mut rng, profile);
    limits::note(&mut rng, &limits);
    let mut stage = Stage::new(rng, broadcast);
    perform(&mut stage, profile, &limits);
    finish(stage, limits, true)
}

/// A case at the original's limits. Few services and little damage keep the map identifiers under 65.
pub(crate) fn tagged_plain_case(seed: u64) -> (Case, BTreeSet<Tag>) {
    let mut rng = Rng::new(seed, 2);
    let services = rng.below(9);
    let broadcast = Broadcast::new(&mut rng, services);
    let mut stage = Stage::new(rng, broadcast);
    let profile = stage.rng.weighted(&[
        (43, Profile::Broadcast),
        (26, Profile::Damaged),
        (6, Profile::Disorder),
        (5, Profile::ManyFragments),
        (3, Profile::PacketEdge),
        (4, Profile::Wide),
        (7, Profile::Data),
        (3, Profile::Strays),
        (3, Profile::Noise),
    ]);
    perform(&mut stage, profile, &limits::ORIGINAL);
    finish(stage, limits::ORIGINAL, false)
}

fn limits_of(rng: &mut Rng, profile: Profile) -> Limits {
    match profile {
        Profile::Fragments => fragments::limits(rng),
        Profile::PacketEdge => edges::limits(rng),
        Profile::ManyFragments | Profile::ManyMaps | Profile::Wide => limits::ample(),
        Profile::Refused => limits::refused(rng),
        _ => limits::usual(rng),
    }
}

fn perform(stage: &mut Stage, profile: Profile, limits: &Limits) {
    match profile {
        Profile::Refused => {
            stage.announce_all();
            stage.play(10);
        }
        Profile::Broadcast => broadcast(stage),
        Profile::Damaged => {
            broadcast(stage);
            let count = stage.rng.within(1..=20);
            damage::packets(&mut stage.rng, &mut stage.packets, count);
        }
        Profile::Fragments => fragments::edges(stage, limits),
        Profile::Disorder => fragments::disorders(stage),
        Profile::ManyFragments => fragments::many(stage),
        Profile::ManyMaps => edges::many_maps(stage),
        Profile::PacketEdge => edges::packets(stage, limits),
        Profile::Wide => edges::wide(stage),
        Profile::Data => scenes::data(stage),
        Profile::Strays => scenes::strays(stage),
        Profile::Noise => scenes::noise(stage),
    }
}

fn broadcast(stage: &mut Stage) {
    if stage.rng.chance(85) {
        stage.announce_all();
    }
    let steps = stage.rng.within(10..=260);
    stage.play(steps);
    stage.probe();
}

/// How often, in percent, a case has chunks that are too long, and how often too short an output.
#[derive(Clone, Copy)]
struct Refusals {
    chunk: usize,
    room: usize,
}

impl Refusals {
    const NONE: Self = Self { chunk: 0, room: 0 };
    const SOME: Self = Self { chunk: 7, room: 18 };
    /// For copy-all, which can go wrong in no other way.
    const MANY: Self = Self {
        chunk: 40,
        room: 50,
    };
}

/// Joins the packets, and chooses options, cuts and room.
fn finish(mut stage: Stage, limits: Limits, may_refuse: bool) -> (Case, BTreeSet<Tag>) {
    let mut rng = stage.rng;
    let options = limits::options(&mut rng, &stage.broadcast.numbers());
    let refusals = if !may_refuse {
        Refusals::NONE
    } else if options.copies_all() {
        Refusals::MANY
    } else {
        Refusals::SOME
    };
    let past = rng.chance(refusals.chunk);
    if past {
        lengthen(&mut stage.packets, limits.work - limits.packet() + 1);
    }
    let (bytes, ends) = join(&stage.packets);
    let cuts = cuts::cuts(&mut rng, &limits, &ends, past);
    let needed = cuts::needed(&limits, &options, &bytes, &cuts);
    let room = if needed > 0 && rng.chance(refusals.room) {
        cuts::short_room(&mut rng, needed)
    } else {
        cuts::room(&mut rng, needed, limits.work)
    };
    let case = Case {
        limits,
        options,
        room,
        cuts,
        bytes,
    };
    (case, rng.into_tags())
}

/// Sends all of it again until it is at least this long.
pub(crate) fn lengthen(packets: &mut Vec<Vec<u8>>, least: usize) {
    let once = packets.len();
    let length: usize = packets.iter().map(Vec::len).sum();
    let times = least.div_ceil(length.max(1));
    for _ in 1..times {
        packets.extend_from_within(..once);
    }
}

/// The stream, and the offsets at which its packets end.
pub(crate) fn join(packets: &[Vec<u8>]) -> (Vec<u8>, Vec<usize>) {
    let mut bytes = Vec::new();
    let mut ends = Vec::new();
    for packet in packets {
        bytes.extend_from_slice(packet);
        ends.push(bytes.len());
    }
    (bytes, ends)
}
