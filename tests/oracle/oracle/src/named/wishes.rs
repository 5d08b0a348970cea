//! Request 1, the wish of other assets: tables, payloads and packets that are narrowed with any of the four wishes.

use face::{Narrowed, Options};

use super::examples::three_ways;
use super::{Named, counted, packet, payload, table};
use crate::builders::*;

pub(super) fn wishes() -> Vec<Named> {
    [
        example_m(),
        all_wishes(),
        near_kinds(),
        kind_alone(),
        unreadable(),
        with_a_service(),
        refused(),
    ]
    .concat()
}

/// Neither captions nor other assets.
pub(super) const NEITHER: Options = Options {
    caption: false,
    ..NO_OTHERS
};

/// An asset of no kind that has a wish of its own.
pub(super) fn audio(identifier: u16) -> Vec<u8> {
    entry(0x44, "mp4a", identifier)
}

/// 01's M.
fn m() -> Vec<u8> {
    mpt(&[entry(0x11, "hvc1", 0xf100), entry(0x22, "stpp", 0xf130)])
}

fn example_m() -> Vec<Named> {
    let caption_left =
        hex("20 05 00 19 00 02 04 00 00 00 01 00 00000000 01 22 73747070 00 01 00 F130 0000");
    let none_left = hex("20 05 00 07 00 02 04 00 00 00 00");
    let video_left = mpt(&[entry(0x11, "hvc1", 0xf100)]);
    let captions = counted(caption_left.clone(), [1, 0, 0], [0, 0, 1]);
    let none = counted(none_left.clone(), [0; 3], [1, 0, 1]);
    let video = counted(video_left, [0, 0, 1], [1, 0, 0]);
    let profile = Options::captions_only(None);
    let stays = || Narrowed::Unchanged;
    [
        three_ways("M, other assets off", NO_OTHERS, &m(), captions.clone()),
        three_ways("M, captions only", profile, &m(), captions),
        three_ways("M, captions and other assets off", NEITHER, &m(), none),
        three_ways("M, captions off", NO_CAPTIONS, &m(), video),
        three_ways("M, everything wanted", ALL, &m(), stays()),
        three_ways("M's caption again", NO_OTHERS, &caption_left, stays()),
        three_ways("nothing of M again", NEITHER, &none_left, stays()),
    ]
    .concat()
}

/// Each combination of the four wishes, with the words for what is wanted.
pub(super) fn combinations() -> impl Iterator<Item = (String, Options)> {
    (0..16).map(|bits: u8| {
        let on = |bit: u8| bits >> bit & 1 == 1;
        let options = Options {
            service: None,
            caption: on(0),
            carousel: on(1),
            eit: on(2),
            other: on(3),
        };
        let words = [(0, "captions"), (1, "carousels"), (2, "EIT"), (3, "other")];
        let wanted = words.into_iter().filter(|(bit, _)| on(*bit));
        let wanted: Vec<_> = wanted.map(|(_, word)| word).collect();
        (format!("[{}]", wanted.join(" ")), options)
    })
}

/// A clip of two captions, a carousel and three other assets, under each combination of wishes.
fn all_wishes() -> Vec<Named> {
    let clip = |captions: bool, carousels: bool, others: bool| {
        let entries = [
            (others, video(1)),
            (captions, caption(2)),
            (carousels, carousel(3)),
            (others, audio(4)),
            (captions, caption(5)),
            (others, video(6)),
        ];
        let left = entries.into_iter().filter(|(wanted, _)| *wanted);
        mpt(&left.map(|(_, entry)| entry).collect::<Vec<_>>())
    };
    let case = |(wanted, options): (String, Options)| {
        let kinds = [options.caption, options.carousel, options.other];
        let [stayed, went] = [true, false].map(|stays| {
            let count = |(kind, entries)| if kind == stays { entries } else { 0 };
            [(kinds[0], 2), (kinds[1], 1), (kinds[2], 3)].map(count)
        });
        let answer = if went == [0; 3] {
            Narrowed::Unchanged
        } else {
            counted(clip(kinds[0], kinds[1], kinds[2]), stayed, went)
        };
        let name = format!("a clip, {wanted} wanted");
        three_ways(&name, options, &clip(true, true, true), answer)
    };
    combinations().flat_map(case).collect()
}

/// Kinds that differ from those of captions and carousels in one letter, or in its case, are other assets.
fn near_kinds() -> Vec<Named> {
    let near = ["STPP", "stpq", "tpps", "aapq", "AAPP", "aap\0"];
    let entries: Vec<_> = (1..)
        .zip(near)
        .map(|(at, kind)| entry(7, kind, at))
        .collect();
    let both = [caption(20), carousel(21)];
    let before = mpt(&[&entries[..], &both].concat());
    let neither = Options {
        carousel: false,
        ..NO_CAPTIONS
    };
    vec![
        table(
            "kinds near stpp and aapp go with other assets",
            NO_OTHERS,
            before.clone(),
            counted(mpt(&both), [1, 1, 0], [0, 0, 6]),
        ),
        table(
            "kinds near stpp and aapp stay with other assets",
            neither,
            before,
            counted(mpt(&entries), [0, 0, 6], [1, 1, 0]),
        ),
    ]
}

/// Entries go whether or not they are listed, and on whichever identifier.
fn kind_alone() -> Vec<Named> {
    let nowhere = asset(&[1], "hvc1", &[0], &[], &[]);
    let elsewhere = asset(&[1], "mp4a", &[1, 0, 0], &[vec![5, 0]], &[7, 7]);
    let around = |entries: &[Vec<u8>]| whole(&pa(&[mpt_of(0x11, entries, &[8, 9])]));
    let before = around(&[caption(5), nowhere, video(5), elsewhere, carousel(5)]);
    let after = around(&[caption(5), carousel(5)]);
    let sent = |entries: &[Vec<u8>]| tables(0x8000, &[mpt(entries)]);
    vec![
        payload(
            "other assets that are not listed go",
            NO_OTHERS,
            0xf001,
            before,
            counted(after, [1, 1, 0], [0, 0, 3]),
        ),
        packet(
            "captions only, on 0x8000",
            Options::captions_only(None),
            sent(&[video(1), caption(2), carousel(3)]),
            counted(sent(&[caption(2)]), [1, 0, 0], [0, 1, 1]),
        ),
    ]
}

/// What does not read stays, beside what does.
fn unreadable() -> Vec<Named> {
    let mut miscounted = m();
    miscounted[10] = 3;
    let mut strange = m();
    let location = 11 + 13;
    strange[location] = 6;
    let beside = |readable: Vec<u8>| whole(&pa(&[miscounted.clone(), readable]));
    let stays =
        |name, options, bytes: &[u8]| table(name, options, bytes.to_vec(), Narrowed::Unchanged);
    vec![
        stays("M with count 3, other assets off", NO_OTHERS, &miscounted),
        stays("M with count 3, both off", NEITHER, &miscounted),
        stays("M with location type 06, other off", NO_OTHERS, &strange),
        payload(
            "M with count 3 beside M, both off",
            NEITHER,
            0xf001,
            beside(m()),
            counted(beside(mpt(&[])), [0; 3], [1, 0, 1]),
        ),
    ]
}

/// A PLT and an MPT in one message.
fn with_a_service() -> Vec<Named> {
    let (ours, other) = (service_at(0x0401, 1), service_at(0x0402, 2));
    let message =
        |packages: &[Vec<u8>], assets: &[Vec<u8>]| whole(&pa(&[plt(packages), mpt(assets)]));
    let assets = [video(5), caption(11), carousel(12)];
    let both = [other, ours.clone()];
    let before = message(&both, &assets);
    let case = |name, service, packages: &[Vec<u8>]| {
        let after = counted(message(packages, &assets[1..2]), [1, 0, 0], [0, 1, 1]);
        let options = Options::captions_only(service);
        payload(name, options, 0, before.clone(), after)
    };
    vec![
        case("captions only of a service", Some(0x0401), &[ours]),
        case("captions only of a missing one", Some(0x0403), &both),
        case("captions only of all services", None, &both),
    ]
}

/// Narrowing refuses nothing for its wishes, and else as without them.
fn refused() -> Vec<Named> {
    let short = |name, options| {
        let case = table(name, options, m(), Narrowed::Refused(6));
        case.lent(m().len() - 1)
    };
    let long = vec![0; 65_540];
    vec![
        short("other assets off, output one byte short", NO_OTHERS),
        short("both off, output one byte short", NEITHER),
        table("both off, too long", NEITHER, long, Narrowed::Refused(5)),
        table("both off, nothing", NEITHER, vec![], Narrowed::Unchanged),
    ]
}
