//! Series of calls, about the four wishes and the modes: each push has an output of its own length, and between pushes the
//! filter is asked how many identifiers it drops. Broadcasts, limits and cuts are those of whole cases.

use std::collections::BTreeSet;

use face::{Limits, Modes, Options};

use crate::broadcast::Broadcast;
use crate::cases::{join, lengthen};
use crate::cuts::{Held, ROOM_MOST};
use crate::rng::Rng;
use crate::stage::Stage;
use crate::tags::Tag;
use crate::{Calls, Operation};
use crate::{cuts, damage, fragments, limits, scenes};

/// The most operations, for programs with fixed rooms.
pub(crate) const OPERATIONS_MOST: usize = 1_024;

#[derive(Clone, Copy, PartialEq, Eq)]
enum Profile {
    /// The captions-only profile.
    Captions,
    /// Any wishes.
    Wishes,
    /// Any wishes, with assets of all kinds on few identifiers.
    Crowded,
    Damaged,
    Disorder,
    /// Starts that are refused for limits, for wishes, or for both.
    RefusedLimits,
    RefusedWishes,
    RefusedBoth,
    /// Nothing is asked after the start.
    Empty,
}

const PROFILES: [(usize, Profile); 9] = [
    (22, Profile::Captions),
    (26, Profile::Wishes),
    (26, Profile::Crowded),
    (7, Profile::Damaged),
    (4, Profile::Disorder),
    (5, Profile::RefusedLimits),
    (3, Profile::RefusedWishes),
    (9, Profile::RefusedBoth),
    (3, Profile::Empty),
];

pub(crate) fn tagged_calls(seed: u64) -> (Calls, BTreeSet<Tag>) {
    tagged(Rng::new(seed, 9), Modes::OFF)
}

pub(crate) fn tagged_plain_ip_calls(seed: u64) -> (Calls, BTreeSet<Tag>) {
    tagged(Rng::new(seed, 11), Modes::PLAIN_IP)
}

fn tagged(mut rng: Rng, modes: Modes) -> (Calls, BTreeSet<Tag>) {
    let profile = rng.weighted(&PROFILES);
    let services = rng.within(1..=4);
    let broadcast = match profile {
        Profile::Crowded => Broadcast::crowded(&mut rng, services),
        _ => Broadcast::new(&mut rng, services),
    };
    let limits = match profile {
        Profile::RefusedLimits | Profile::RefusedBoth => limits::refused(&mut rng),
        _ => limits::usual(&mut rng),
    };
    let options = options(&mut rng, profile, &broadcast.numbers());
    limits::note_refusals(&mut rng, &limits, &options);
    if !options.other {
        broadcast.note_kinds(&mut rng);
    }
    let mut stage = Stage::new(rng, broadcast);
    if modes.plain_ip && profile != Profile::Empty {
        stage.plain_ip = true;
        scenes::foreseen(&mut stage, &options);
    }
    perform(&mut stage, profile);
    let operations = operations(&mut stage, &limits, &options);
    let calls = Calls {
        limits,
        options,
        modes,
        operations,
    };
    (calls, stage.rng.into_tags())
}

fn options(rng: &mut Rng, profile: Profile, services: &[u16]) -> Options {
    match profile {
        Profile::Captions => limits::captions_only(rng, services),
        Profile::RefusedWishes | Profile::RefusedBoth => limits::refused_wishes(rng, services),
        _ => limits::taken_wishes(rng, services),
    }
}

fn perform(stage: &mut Stage, profile: Profile) {
    match profile {
        Profile::Empty => {}
        Profile::RefusedLimits | Profile::RefusedWishes | Profile::RefusedBoth => {
            stage.announce_all();
            stage.play(5);
        }
        Profile::Disorder => fragments::disorders(stage),
        Profile::Captions | Profile::Wishes | Profile::Crowded => scenes::wishes(stage),
        Profile::Damaged => {
            scenes::wishes(stage);
            let count = stage.rng.within(1..=12);
            damage::packets(&mut stage.rng, &mut stage.packets, count);
        }
    }
}

/// How a series asks: how often, in percent, an output is too short, how often it asks for the number of dropped
/// identifiers, and whether all outputs are of one length.
struct Manner {
    short: usize,
    dropped: usize,
    one_room: bool,
}

fn manner(rng: &mut Rng) -> Manner {
    let one_room = rng.chance(30);
    if one_room {
        rng.note(Tag::OneRoom);
    }
    Manner {
        short: rng.pick(&[0, 0, 8]),
        dropped: rng.pick(&[0, 10, 50]),
        one_room,
    }
}

/// The packets in chunks, with questions between them.
fn operations(stage: &mut Stage, limits: &Limits, options: &Options) -> Vec<Operation> {
    let rng = &mut stage.rng;
    let past = !stage.packets.is_empty() && rng.chance(6);
    if past {
        lengthen(&mut stage.packets, limits.work - limits.packet() + 1);
    }
    let (bytes, ends) = join(&stage.packets);
    let cuts = cuts::cuts(rng, limits, &ends, past);
    let manner = manner(rng);
    let mut lender = Lender::new(limits, options);
    let mut spare = OPERATIONS_MOST.saturating_sub(cuts.len());
    let mut operations = Vec::new();
    let mut rest = &bytes[..];
    for cut in cuts {
        ask(rng, &manner, &mut spare, &mut operations);
        let (chunk, after) = rest.split_at(cut);
        rest = after;
        operations.push(lender.push(rng, &manner, chunk));
    }
    ask(rng, &manner, &mut spare, &mut operations);
    note_questions(rng, &operations);
    operations
}

/// Perhaps a question, as long as there is a place for it.
fn ask(rng: &mut Rng, manner: &Manner, spare: &mut usize, operations: &mut Vec<Operation>) {
    if rng.chance(manner.dropped) && *spare > 0 {
        *spare -= 1;
        operations.push(Operation::Dropped);
    }
}

fn note_questions(rng: &mut Rng, operations: &[Operation]) {
    let asks = |operation: Option<&Operation>| operation == Some(&Operation::Dropped);
    let inner = operations.len().saturating_sub(1).max(1);
    let facts = [
        (Tag::NoOperations, operations.is_empty()),
        (Tag::DroppedFirst, asks(operations.first())),
        (Tag::DroppedLast, asks(operations.last())),
        (
            Tag::DroppedBetween,
            operations.len() > 1 && operations[1..inner].contains(&Operation::Dropped),
        ),
    ];
    for (tag, _) in facts.into_iter().filter(|(_, fact)| *fact) {
        rng.note(tag);
    }
}

/// Lends outputs, and knows what the filter holds by them.
struct Lender {
    held: Held,
    work: usize,
}

impl Lender {
    fn new(limits: &Limits, options: &Options) -> Self {
        Self {
            held: Held::new(limits, options),
            work: limits.work,
        }
    }

    fn push(&mut self, rng: &mut Rng, manner: &Manner, chunk: &[u8]) -> Operation {
        let room = match self.held.needed(chunk.len()) {
            None => {
                rng.note(Tag::PushPast);
                self.work
            }
            Some(needed) => {
                let room = self.room(rng, manner, needed);
                if room >= needed {
                    self.held.take(chunk);
                }
                room
            }
        };
        let chunk = chunk.to_vec();
        Operation::Push { room, chunk }
    }

    fn room(&self, rng: &mut Rng, manner: &Manner, needed: usize) -> usize {
        if manner.one_room {
            return self.work;
        }
        if needed > 0 && rng.chance(manner.short) {
            rng.note(Tag::PushShort);
            return rng.pick(&[0, needed - 1, needed - 1]);
        }
        if rng.chance(50) {
            rng.note(Tag::PushExact);
            return needed;
        }
        rng.note(Tag::PushRoomy);
        rng.pick(&[needed + 1, self.work.max(needed), ROOM_MOST])
    }
}
