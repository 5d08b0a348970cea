//! Limits and options of a case: usual limits, those that hold nothing back, those that a start refuses,
//! and all combinations of wishes and services.

use face::{Limits, Options};

use crate::rng::Rng;
use crate::tags::Tag;

const WORK_LEAST: usize = 4_096;
pub(crate) const WORK_MOST: usize = 131_078;
const MAP_ROOM: usize = 32_768;
/// Fragment rooms and message limits that the first packets reach.
const TINY: [usize; 4] = [1, 2, 50, 1_000];
/// The largest fragment room of a case, under the filter's own limit so that fixed rooms can hold it.
pub(crate) const TOTAL_MOST: usize = 1 << 20;

/// The limits that the original has, and those at which it cannot be told from a filter with limits.
pub(crate) const ORIGINAL: Limits = Limits {
    work: WORK_MOST,
    total: 16 << 20,
    most: 4 << 20,
    maps: MAP_ROOM,
};

pub(crate) fn usual(rng: &mut Rng) -> Limits {
    let (total, most) = fragments(rng);
    Limits {
        work: work(rng),
        total,
        most,
        maps: MAP_ROOM,
    }
}

/// Limits that hold no message back, so that a scene meets only the limit it is about.
pub(crate) fn ample() -> Limits {
    Limits {
        work: WORK_MOST,
        total: TOTAL_MOST,
        most: TOTAL_MOST,
        maps: MAP_ROOM,
    }
}

fn work(rng: &mut Rng) -> usize {
    match rng.below(100) {
        0..30 => WORK_MOST,
        30..40 => WORK_LEAST,
        40..60 => rng.within(WORK_LEAST..=6_000),
        _ => rng.within(WORK_LEAST..=WORK_MOST),
    }
}

/// T and M.
fn fragments(rng: &mut Rng) -> (usize, usize) {
    let total = match rng.below(100) {
        0..12 => rng.pick(&TINY),
        12..40 => 65_536,
        40..60 => rng.within(100..=5_000),
        _ => TOTAL_MOST,
    };
    let most = match rng.below(10) {
        0..6 => total,
        6..9 => rng.within(1..=total),
        _ => rng.pick(&TINY).min(total),
    };
    (total, most)
}

/// Limits of which at least one is out of range.
pub(crate) fn refused(rng: &mut Rng) -> Limits {
    let mut limits = usual(rng);
    for _ in 0..rng.pick(&[1, 1, 2]) {
        match rng.below(8) {
            0 => limits.work = WORK_LEAST - 1,
            1 => limits.work = WORK_MOST + 1,
            2 => limits.total = 0,
            3 => limits.most = 0,
            4 => limits.most = limits.total + 1,
            5 => limits.most = u32::MAX as usize,
            6 => limits.maps = MAP_ROOM - 1,
            _ => limits.maps = MAP_ROOM + 1,
        }
    }
    limits
}

/// Notes at which edges these limits lie.
pub(crate) fn note(rng: &mut Rng, limits: &Limits) {
    let facts = [
        (Tag::WorkUnder, limits.work + 1 == WORK_LEAST),
        (Tag::WorkLeast, limits.work == WORK_LEAST),
        (Tag::WorkMost, limits.work == WORK_MOST),
        (Tag::WorkOver, limits.work == WORK_MOST + 1),
        (Tag::TotalNone, limits.total == 0),
        (Tag::TotalTiny, TINY.contains(&limits.total)),
        (Tag::MostNone, limits.most == 0),
        (Tag::MostTiny, TINY.contains(&limits.most)),
        (Tag::MostIsTotal, limits.most == limits.total),
        (Tag::MostPastTotal, limits.most == limits.total + 1),
        (Tag::MostHuge, limits.most == u32::MAX as usize),
        (Tag::MapsUnder, limits.maps + 1 == MAP_ROOM),
        (Tag::MapsOver, limits.maps == MAP_ROOM + 1),
    ];
    for (tag, _) in facts.into_iter().filter(|(_, fact)| *fact) {
        rng.note(tag);
    }
}

/// Options for a broadcast with these services, with other assets wanted.
pub(crate) fn options(rng: &mut Rng, services: &[u16]) -> Options {
    let wishes = rng.below(8) as u8;
    let mut options = with_service(rng, wishes, services);
    if options.copies_all() && rng.chance(20) {
        options.caption = false;
    }
    note_options(rng, &options, services);
    options
}

/// Options with any of the four wishes.
pub(crate) fn wishes(rng: &mut Rng, services: &[u16]) -> Options {
    let wishes = rng.below(8) as u8;
    let other = rng.pick(&[0, Options::OTHER_OFF]);
    wished(rng, wishes | other, services)
}

/// Options with which a filter starts, most of them without other assets: captions are wanted then.
pub(crate) fn taken_wishes(rng: &mut Rng, services: &[u16]) -> Options {
    let any = rng.below(8) as u8;
    let wishes = rng.weighted(&[(60, any | CAPTIONS | Options::OTHER_OFF), (40, any)]);
    wished(rng, wishes, services)
}

/// Options with which no filter starts: neither captions nor other assets.
pub(crate) fn refused_wishes(rng: &mut Rng, services: &[u16]) -> Options {
    let any = rng.below(8) as u8;
    wished(rng, any & !CAPTIONS | Options::OTHER_OFF, services)
}

/// The captions-only profile.
pub(crate) fn captions_only(rng: &mut Rng, services: &[u16]) -> Options {
    let wishes = Options::captions_only(None).flags();
    let options = wished(rng, wishes, services);
    rng.note(match options.service {
        Some(_) => Tag::CaptionsOfOne,
        None => Tag::CaptionsOfAll,
    });
    options
}

/// The flag bit of captions.
const CAPTIONS: u8 = 1;

fn wished(rng: &mut Rng, wishes: u8, services: &[u16]) -> Options {
    let options = with_service(rng, wishes, services);
    note_options(rng, &options, services);
    options
}

/// These wishes for one of the services, for one that is not there, or for all.
fn with_service(rng: &mut Rng, wishes: u8, services: &[u16]) -> Options {
    let service = if services.is_empty() || rng.chance(12) {
        rng.pick(&[0, 0x0400, 0x04ff, 0xffff])
    } else {
        rng.pick(services)
    };
    let named = if rng.chance(55) { 8 } else { 0 };
    Options::from_flags(wishes | named, service)
}

fn note_options(rng: &mut Rng, options: &Options, services: &[u16]) {
    rng.note(match options.service {
        None if options.copies_all() => Tag::CopyAll,
        None => Tag::NoService,
        Some(service) if services.contains(&service) => Tag::ServiceThere,
        Some(_) => Tag::ServiceMissing,
    });
    let wishes = if options.other { WISHES } else { WITHOUT_OTHER };
    rng.note(wishes[usize::from(options.flags() & 7)]);
}

const WISHES: [Tag; 8] = [
    Tag::Wishes0,
    Tag::Wishes1,
    Tag::Wishes2,
    Tag::Wishes3,
    Tag::Wishes4,
    Tag::Wishes5,
    Tag::Wishes6,
    Tag::Wishes7,
];

const WITHOUT_OTHER: [Tag; 8] = [
    Tag::WithoutOther0,
    Tag::WithoutOther1,
    Tag::WithoutOther2,
    Tag::WithoutOther3,
    Tag::WithoutOther4,
    Tag::WithoutOther5,
    Tag::WithoutOther6,
    Tag::WithoutOther7,
];

/// Notes by which numbers a start with these limits and options would be refused.
pub(crate) fn note_refusals(rng: &mut Rng, limits: &Limits, options: &Options) {
    let fragments = !(1..=limits.total).contains(&limits.most);
    let maps = limits.maps != MAP_ROOM;
    let work = !(WORK_LEAST..=WORK_MOST).contains(&limits.work);
    let wishes = !options.caption && !options.other;
    let tags = [
        (work, Tag::StartWork, Tag::StartWorkWishes),
        (fragments, Tag::StartFragments, Tag::StartFragmentsWishes),
        (maps, Tag::StartMaps, Tag::StartMapsWishes),
        (wishes, Tag::StartWishes, Tag::StartWishes),
    ];
    let lowest = tags.into_iter().find(|(applies, ..)| *applies);
    if let Some((_, alone, with_wishes)) = lowest {
        rng.note(if wishes { with_wishes } else { alone });
    }
}
