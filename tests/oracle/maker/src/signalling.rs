//! Tables and messages as a broadcast sends them, mostly right and sometimes odd in one place,
//! and the ways in which a message is put into payloads.

use crate::broadcast::{Broadcast, Service};
use crate::damage;
use crate::messages::{self, CA, DATA, OTHERS, Pa};
use crate::rng::Rng;
use crate::tables::{self, Asset, LONGEST, Location, MPT_FIRST, MPT_LAST, Mpt, PLT, Plt};
use crate::tags::Tag;

/// How often, in percent, a table or message is odd.
pub(crate) const ODD: usize = 30;
/// Numbers of tables that consist of a head alone or are cut.
const BARE: [u8; 4] = [MPT_FIRST, MPT_LAST, PLT, 0x40];

pub(crate) fn plt(rng: &mut Rng, broadcast: &Broadcast, odd: usize) -> Vec<u8> {
    let mut plt = Plt::of(broadcast.packages());
    plt.version = rng.byte();
    if rng.chance(odd) {
        odd_plt(rng, &mut plt);
    }
    plt.write()
}

fn odd_plt(rng: &mut Rng, plt: &mut Plt) {
    match (rng.below(5), plt.packages.last_mut()) {
        (0, _) => {
            rng.note(Tag::EmptyPlt);
            plt.packages.clear();
        }
        (1, _) => {
            rng.note(Tag::WrongCount);
            plt.miscount = rng.pick(&[1, 255]);
        }
        (2, Some(last)) => {
            rng.note(Tag::LocationWrong);
            last.location = wrong_location(rng);
        }
        _ => {
            rng.note(Tag::InsidePlt);
            plt.trailing = rng.some_bytes(1..=5);
        }
    }
}

pub(crate) fn mpt(rng: &mut Rng, service: &Service, odd: usize) -> Vec<u8> {
    let mut mpt = Mpt::of(service.assets.clone());
    mpt.number = service.table;
    mpt.version = rng.byte();
    mpt.name = service.name.clone();
    if rng.chance(20) {
        mpt.descriptors = rng.some_bytes(1..=30);
    }
    if rng.chance(odd) {
        odd_mpt(rng, &mut mpt);
    }
    mpt.write()
}

/// A short MPT unlike those that the broadcast sends; it always has the same length.
pub(crate) fn news(rng: &mut Rng, broadcast: &Broadcast) -> Vec<u8> {
    let assets = (0..3).map(|_| {
        let kind = rng.pick(&[b"hvc1", b"stpp", b"stpp", b"aapp", b"aapp"]);
        Asset::plain(kind, broadcast.identifier(rng))
    });
    Mpt::of(assets.collect()).write()
}

/// An MPT of the highest length, or one under. At times its last entry would end a byte behind it.
pub(crate) fn longest_mpt(rng: &mut Rng, broadcast: &Broadcast) -> Vec<u8> {
    rng.note(Tag::LongestTable);
    let mut mpt = Mpt::of((0..4).map(|_| broadcast.asset(rng)).collect());
    let rest = LONGEST - mpt.write().len();
    match rng.below(4) {
        0 => mpt.trailing = rng.bytes(rest),
        1 => mpt.descriptors = rng.bytes(rest),
        2 => mpt.assets[2].descriptors.extend(rng.bytes(rest - 1)),
        _ => mpt.assets[2].descriptors.extend(rng.bytes(rest + 1)),
    }
    mpt.write()
}

fn odd_mpt(rng: &mut Rng, mpt: &mut Mpt) {
    match (rng.below(7), mpt.assets.last_mut()) {
        (0, _) => {
            rng.note(Tag::WrongCount);
            mpt.miscount = rng.pick(&[1, 255]);
        }
        (1, Some(last)) => {
            rng.note(Tag::LocationWrong);
            last.locations.push(wrong_location(rng));
        }
        (2, Some(last)) => {
            rng.note(Tag::AssetPastTable);
            last.overlong = rng.pick(&[1, 0x100, 0xffff - last.descriptors.len() as u16]);
        }
        (3, _) => {
            rng.note(Tag::NumberBeside);
            mpt.number = rng.pick(&[MPT_FIRST - 1, MPT_LAST + 1]);
        }
        (4, _) => {
            rng.note(Tag::MptNoAsset);
            mpt.assets.clear();
        }
        _ => {
            rng.note(Tag::InsideMpt);
            mpt.trailing = rng.some_bytes(1..=5);
        }
    }
}

fn wrong_location(rng: &mut Rng) -> Location {
    let kind = rng.pick(&[6, 7, 0x80, 0xff]);
    Location::of_type(rng, kind)
}

/// A PA message of these tables; its head, tables and length are odd each for itself.
pub(crate) fn pa(rng: &mut Rng, tables: Vec<Vec<u8>>, odd: usize) -> Vec<u8> {
    let mut pa = Pa::of(tables);
    if rng.chance(odd / 2) {
        odd_head(rng, &mut pa);
    }
    if rng.chance(odd / 2) {
        odd_tables(rng, &mut pa);
    }
    if rng.chance(odd / 2) {
        odd_length(rng, &mut pa);
    }
    let mut message = pa.write();
    if rng.chance(odd / 4) {
        rng.note(Tag::MessageDamaged);
        damage::bytes(rng, &mut message);
    }
    message
}

fn odd_head(rng: &mut Rng, pa: &mut Pa) {
    match rng.below(5) {
        0 | 1 => {
            rng.note(Tag::HeadWrong);
            for entry in &mut pa.entries {
                entry.copy_from_slice(&rng.bytes(4));
            }
        }
        2 => {
            rng.note(Tag::HeadFew);
            pa.entries.pop();
        }
        3 => {
            rng.note(Tag::HeadMany);
            pa.entries.extend([[0x20, 1, 2, 3], [0xff; 4]]);
        }
        _ => {
            rng.note(Tag::HeadMiscount);
            pa.miscount = rng.pick(&[1, 1, 200, 255]);
        }
    }
}

fn odd_tables(rng: &mut Rng, pa: &mut Pa) {
    match rng.below(5) {
        0 | 1 => {
            let count = rng.within(1..=3);
            rng.note([Tag::Leftover1, Tag::Leftover2, Tag::Leftover3][count - 1]);
            pa.leftover = rng.bytes(count);
        }
        2 => {
            rng.note(Tag::UnknownTable);
            let number = rng.pick(&[0x00, 0x10, 0x21, 0x7f, 0x81, 0xff]);
            let body = rng.some_bytes(0..=20);
            let at = rng.below(pa.tables.len() + 1);
            pa.tables.insert(at, tables::table(number, 0, &body));
        }
        3 => {
            rng.note(Tag::BareTable);
            pa.leftover = vec![rng.pick(&BARE), 0, 0, 0];
        }
        _ => {
            rng.note(Tag::CutTable);
            let there = rng.some_bytes(0..=4);
            pa.leftover = vec![rng.pick(&BARE), 0, 0, there.len() as u8 + 1];
            pa.leftover.extend(there);
        }
    }
}

fn odd_length(rng: &mut Rng, pa: &mut Pa) {
    let right = pa.write().len() as u32 - 7;
    match rng.below(7) {
        0 => {
            rng.note(Tag::MessageShort);
            pa.length = Some(rng.below(right as usize) as u32);
        }
        1 => {
            rng.note(Tag::MessagePastEnd);
            pa.length = Some(right + 1);
        }
        2 => {
            rng.note(Tag::MessageHuge);
            pa.length = Some(rng.pick(&[u32::MAX, u32::MAX - 6, u32::MAX - 7, 1 << 31]));
        }
        3 => {
            rng.note(Tag::SecondMessage);
            let asset = Asset::plain(b"stpp", 0xf100);
            pa.after = Pa::of(vec![Mpt::of(vec![asset]).write()]).write();
        }
        _ => {
            rng.note(Tag::AfterMessage);
            pa.after = rng.some_bytes(1..=9);
        }
    }
}

/// The payloads that carry this message: one, or its fragments.
pub(crate) fn payloads(rng: &mut Rng, message: &[u8]) -> Vec<Vec<u8>> {
    let (flags, content) = if rng.chance(18) {
        aggregated(rng, message.to_vec())
    } else {
        rng.note(Tag::Whole);
        (rng.pick(&[0, 0, 0, 2, 0x3e]), message.to_vec())
    };
    if rng.chance(20) {
        return fragmented(rng, flags, &content);
    }
    let mut payload = vec![flags, rng.pick(&[0, 0, 1, 255])];
    payload.extend(content);
    vec![payload]
}

fn fragmented(rng: &mut Rng, flags: u8, content: &[u8]) -> Vec<Vec<u8>> {
    rng.note(Tag::Fragmented);
    let mut ends: Vec<usize> = (0..rng.within(1..=4))
        .map(|_| rng.below(content.len() + 1))
        .collect();
    ends.sort_unstable();
    if rng.chance(15) {
        rng.note(Tag::EmptyBody);
        ends.push(content.len());
    }
    messages::fragments(flags, content, &ends)
}

/// The message among others: the flags and content of an aggregated payload.
fn aggregated(rng: &mut Rng, message: Vec<u8>) -> (u8, Vec<u8>) {
    let wide = rng.chance(50) || message.len() > 60_000;
    rng.note(if wide {
        Tag::Aggregate32
    } else {
        Tag::Aggregate16
    });
    let mut list: Vec<Vec<u8>> = (0..rng.below(3)).map(|_| companion(rng)).collect();
    list.push(message.clone());
    list.extend((0..rng.below(3)).map(|_| companion(rng)));
    let mut content = messages::aggregate(wide, &list);
    let mut flags = messages::aggregate_flags(wide);
    match rng.below(10) {
        0 => {
            rng.note(Tag::AggregatePastEnd);
            content.extend(if wide { vec![255; 4] } else { vec![0, 9] });
            content.extend(rng.bytes(8));
        }
        1 => {
            rng.note(Tag::AggregateLastPast);
            content = messages::aggregate_length(wide, message.len() + 1);
            content.extend(message);
        }
        2 => {
            rng.note(Tag::AggregateRest);
            content.push(0);
        }
        3 if !wide => {
            // Short lengths under the flag of long ones: the first is then past the end.
            rng.note(Tag::AggregateMislabelled);
            flags = messages::aggregate_flags(true);
        }
        _ => {}
    }
    (flags, content)
}

fn companion(rng: &mut Rng) -> Vec<u8> {
    match rng.below(6) {
        0 => {
            rng.note(Tag::AggregateEmpty);
            Vec::new()
        }
        1 => {
            rng.note(Tag::AggregateUnreadable);
            let mut message = messages::message(rng.pick(&[0, DATA, CA]), &[0; 4]);
            message.truncate(rng.within(1..=message.len() - 1));
            message
        }
        2 => {
            rng.note(Tag::AggregateCa);
            messages::message(CA, &rng.some_bytes(0..=16))
        }
        _ => other_message(rng),
    }
}

/// A message that teaches nothing.
pub(crate) fn other_message(rng: &mut Rng) -> Vec<u8> {
    let number = rng.pick(&OTHERS);
    rng.note(match number {
        0x7000..=0x7fff => Tag::Number7000,
        0xf000.. => Tag::NumberF000,
        _ => Tag::NumberOther,
    });
    messages::message(number, &rng.some_bytes(0..=20))
}
