//! The readings of 01's open sentences that concern narrowing: `r02 ...` is of reading 2 in docs/DECISIONS.md.
//! Most are an MPT with a video and a caption, captions off, with one thing about it that the reading speaks of.

use face::{Narrowed, Options};

use super::{Named, counted, cut, listed, packet, payload, table};
use crate::builders::{table as table_of, *};

pub(super) fn readings() -> Vec<Named> {
    [
        leftover_bytes(),
        last_of_the_service(),
        asset_layout(),
        one_message(),
        short_messages(),
        table_numbers(),
        same_bytes(),
        head_entries(),
        lengths_do_not_wrap(),
        cut_tables(),
        names_of_packages(),
        kind_alone(),
        flag_bits(),
        after_the_last_entry(),
        behind_the_table(),
        locations(),
        counts(),
        counts_beside_a_plt(),
        refused_in_copy_all(),
    ]
    .concat()
}

const NO_CAPTIONS_OF_0401: Options = Options {
    service: Some(0x0401),
    ..NO_CAPTIONS
};

/// A payload around the entries of an MPT: the caption goes, the video stays.
fn narrows(name: impl Into<String>, around: impl Fn(&[Vec<u8>]) -> Vec<u8>) -> Named {
    let after = cut(around(&[video(1)]));
    let before = around(&[video(1), caption(2)]);
    payload(name, NO_CAPTIONS, 0xf000, before, after)
}

/// A payload around the same entries that stays as it is.
fn stays(name: impl Into<String>, around: impl Fn(&[Vec<u8>]) -> Vec<u8>) -> Named {
    let before = around(&[video(1), caption(2)]);
    payload(name, NO_CAPTIONS, 0xf000, before, Narrowed::Unchanged)
}

fn leftover_bytes() -> Vec<Named> {
    let with = |tail: &'static [u8]| {
        move |entries: &[Vec<u8>]| whole(&pa_with_tail(&[mpt(entries)], tail))
    };
    vec![
        narrows("r02 nothing left over", with(&[])),
        narrows("r02 one byte left over stays", with(&[1])),
        narrows("r02 two bytes left over stay", with(&[1, 2])),
        narrows("r02 three bytes left over stay", with(&[0x20, 0xff, 0xff])),
        narrows("r02 four bytes are a table's head", with(&[1, 2, 0, 0])),
        stays(
            "r02 four bytes whose length does not fit",
            with(&[1, 2, 0, 1]),
        ),
    ]
}

fn last_of_the_service() -> Vec<Named> {
    let elsewhere = package(&[4, 1], &[5, 0]);
    let (ours, other) = (service_at(0x0401, 1), service_at(0x0402, 2));
    let of = |packages: [&Vec<u8>; 3]| plt(&packages.map(Vec::clone));
    let case = |name, packages, last: &Vec<u8>| {
        let after = listed(plt(std::slice::from_ref(last)));
        table(name, only(0x0401), of(packages), after)
    };
    vec![
        case(
            "r03 the last entry is elsewhere",
            [&ours, &elsewhere, &other],
            &elsewhere,
        ),
        case(
            "r03 the last entry is of type 0",
            [&elsewhere, &ours, &other],
            &ours,
        ),
        case(
            "r03 the last entry ends the table",
            [&other, &ours, &elsewhere],
            &elsewhere,
        ),
    ]
}

fn asset_layout() -> Vec<Named> {
    let case = |name: &str, clock: &[u8]| {
        let places = [vec![5, 2, 9, 9], here(3)];
        let mut removed = asset(&[7, 7, 7], "stpp", clock, &places, &[1, 1]);
        removed[..5].fill(0xff);
        let before = mpt(&[video(1), removed, carousel(2)]);
        let after = counted(mpt(&[video(1), carousel(2)]), [0, 1, 1], [1, 0, 0]);
        table(format!("r04 {name}"), NO_CAPTIONS, before, after)
    };
    vec![
        case("no clock", &[0]),
        case("no clock, all other bits on", &[0xfe]),
        case("a clock", &[1, 0, 0]),
        case("a clock, its first byte odd", &[1, 1, 0xfe]),
        case("a clock with four more bytes", &[0xff, 0, 1, 9, 9, 9, 9]),
        case(
            "a clock with four more bytes, all odd",
            &[1, 9, 1, 1, 1, 1, 1],
        ),
    ]
}

fn one_message() -> Vec<Named> {
    let message = |entries: &[Vec<u8>]| pa(&[mpt(entries)]);
    let both = [message(&[video(1), caption(2)]), message(&[caption(3)])];
    let first = cut(whole(&message(&[video(1)])));
    let numbered = |number: u16| {
        move |entries: &[Vec<u8>]| whole(&long_message(number, &message(entries)[7..]))
    };
    vec![
        payload(
            "r05 a second message is not read and goes",
            NO_CAPTIONS,
            0xf000,
            whole(&both.concat()),
            first,
        ),
        stays("r05 an aggregate", |entries| aggregate(&[message(entries)])),
        stays("r05 message 0x8003", numbered(0x8003)),
        stays("r05 message 1", numbered(1)),
        stays("r05 message 0x0100", numbered(0x0100)),
        stays("r05 message 0x7000", numbered(0x7000)),
    ]
}

/// Messages that do not fit, or have no table.
fn short_messages() -> Vec<Named> {
    let longer = |entries: &[Vec<u8>]| {
        let mut payload = whole(&pa(&[mpt(entries)]));
        payload[8] += 1;
        payload
    };
    let cut_to = |length: usize| move |_: &[Vec<u8>]| whole(&pa(&[]))[..length].to_vec();
    let body = |body: &'static [u8]| move |_: &[Vec<u8>]| whole(&long_message(0, body));
    vec![
        stays("r05 a message one byte longer than there is", longer),
        stays("r05 a payload of one byte", cut_to(1)),
        stays("r05 a payload of two bytes", cut_to(2)),
        stays("r05 a message's head cut short", cut_to(8)),
        stays("r05 a message's head alone", cut_to(9)),
        stays("r05 a message with no body", body(&[])),
        stays("r05 a PA message with no table", body(&[0])),
        stays("r05 a head entry cut short", body(&[1, 0x20, 5, 0])),
        stays("r05 more head entries than bytes", body(&[9; 20])),
    ]
}

fn table_numbers() -> Vec<Named> {
    let numbered =
        |number: u8| move |entries: &[Vec<u8>]| whole(&pa(&[mpt_of(number, entries, &[])]));
    vec![
        stays("r10 table 0x10 is no MPT", numbered(0x10)),
        narrows("r10 table 0x11 is an MPT", numbered(0x11)),
        narrows("r10 table 0x1F is an MPT", numbered(0x1f)),
        narrows("r10 table 0x20 is an MPT", numbered(0x20)),
        stays("r10 table 0x21 is no MPT", numbered(0x21)),
        stays(
            "r10 an MPT's bytes as table 0x80 not on identifier 0",
            numbered(0x80),
        ),
    ]
}

fn same_bytes() -> Vec<Named> {
    let ours = only(0x0401);
    let alone = plt(&[service_at(0x0401, 1)]);
    let inside = whole(&pa(std::slice::from_ref(&alone)));
    let longer = [&inside[..], &[1, 2, 3]].concat();
    let as_table = |name, options, answer| table(name, options, alone.clone(), answer);
    let as_payload = |name, identifier, bytes: &[u8], answer| {
        payload(name, ours, identifier, bytes.to_vec(), answer)
    };
    let as_packet = |name, bytes: &[u8]| {
        let after = listed(signalling(0, &inside));
        packet(name, ours, signalling(0, bytes), after)
    };
    let same = listed(inside.clone());
    let stays = Narrowed::Unchanged;
    vec![
        as_table("r14 a PLT to the same bytes", ours, listed(alone.clone())),
        as_table("r14 no service is named", NO_CAPTIONS, stays.clone()),
        as_payload("r14 a payload to the same bytes", 0, &inside, same.clone()),
        as_payload("r14 bytes after the message go", 0, &longer, same),
        as_payload("r14 a PLT on another identifier", 1, &longer, stays),
        as_packet("r14 a packet to the same bytes", &inside),
        as_packet("r14 bytes after a packet's message go", &longer),
    ]
}

fn head_entries() -> Vec<Named> {
    let around = |heads: &[Vec<u8>], entries: &[Vec<u8>]| {
        whole(&pa_with_heads(
            heads,
            &[table_of(0x77, &[9; 6]), mpt(entries)],
        ))
    };
    let case = |name: &str, count: usize, right: &[u8]| {
        let before = vec![vec![0xaa, 0xbb, 0xcc, 0xdd]; count];
        let mut after = before.clone();
        for (entry, &length) in after.iter_mut().zip(right) {
            entry[2..].copy_from_slice(&[0, length]);
        }
        let before = around(&before, &[video(1), caption(2)]);
        let after = cut(around(&after, &[video(1)]));
        payload(format!("r15 {name}"), NO_CAPTIONS, 0xf000, before, after)
    };
    vec![
        case("no head entry", 0, &[]),
        case("fewer head entries than tables", 1, &[6]),
        case("as many head entries as tables", 2, &[6, 25]),
        case("more head entries than tables", 3, &[6, 25]),
        case("255 head entries", 255, &[6, 25]),
    ]
}

fn lengths_do_not_wrap() -> Vec<Named> {
    let lengths = |bytes: [u8; 4]| {
        move |entries: &[Vec<u8>]| {
            let mut payload = whole(&pa(&[mpt(entries)]));
            payload[5..9].copy_from_slice(&bytes);
            payload
        }
    };
    let mut large = mpt_of(0x20, &[caption(1), caption(2)], &[0; 8]);
    let descriptors = 11 + 16;
    large[descriptors..descriptors + 2].fill(0xff);
    vec![
        stays("r16 message length 0xFFFFFFFF", lengths([0xff; 4])),
        stays(
            "r16 message length 0xFFFFFFF9",
            lengths([0xff, 0xff, 0xff, 0xf9]),
        ),
        stays("r16 message length 0x80000000", lengths([0x80, 0, 0, 0])),
        stays(
            "r16 message length 0x00010034, whose low half would fit",
            lengths([0, 1, 0, 52]),
        ),
        table(
            "r16 a size can pass 65,535",
            NO_CAPTIONS,
            large,
            Narrowed::Unchanged,
        ),
    ]
}

fn cut_tables() -> Vec<Named> {
    let with = |last: Vec<u8>| {
        move |entries: &[Vec<u8>]| whole(&pa_with_heads(&[], &[mpt(entries), last.clone()]))
    };
    let short = |table: Vec<u8>| table[..table.len() - 1].to_vec();
    vec![
        stays(
            "r18 a cut MPT behind a whole one",
            with(short(mpt(&[caption(3)]))),
        ),
        stays(
            "r18 a cut PLT behind an MPT",
            with(short(plt(&[service_at(0x0401, 1)]))),
        ),
        stays(
            "r18 a cut table of no known number",
            with(short(table_of(0x77, &[9; 6]))),
        ),
        narrows(
            "r18 a whole table of no known number",
            with(table_of(0x77, &[9; 6])),
        ),
        narrows(
            "r18 an unreadable MPT is no cut one",
            with(table_of(0x20, &[9; 6])),
        ),
    ]
}

fn names_of_packages() -> Vec<Named> {
    let names: [&[u8]; 4] = [&[4], &[4, 1], &[4, 1, 0], &[]];
    let packages = names.map(|name| package(name, &here(1)));
    let others = [&packages[..1], &packages[2..]].concat();
    vec![
        table(
            "r19 only a name of two bytes is a service",
            only(0x0401),
            plt(&packages),
            listed(plt(&packages[1..2])),
        ),
        table(
            "r19 no name of two bytes",
            only(0x0401),
            plt(&others),
            Narrowed::Unchanged,
        ),
    ]
}

fn kind_alone() -> Vec<Named> {
    let around = |entries: &[Vec<u8>]| whole(&pa(&[mpt(entries), mpt_of(0x11, entries, &[])]));
    let all = [video(5), caption(5), carousel(5)];
    let neither = Options {
        carousel: false,
        ..NO_CAPTIONS_OF_0401
    };
    let case = |name, options, answer| payload(name, options, 0xf001, around(&all), answer);
    let no_captions = counted(around(&[video(5), carousel(5)]), [0, 2, 2], [2, 0, 0]);
    let no_carousels = counted(around(&all[..2]), [2, 0, 2], [0, 2, 0]);
    let others = counted(around(&all[..1]), [0, 0, 2], [2, 2, 0]);
    vec![
        case("r20 captions go", NO_CAPTIONS_OF_0401, no_captions),
        case("r20 carousels go", NO_CAROUSELS, no_carousels),
        case("r20 captions and carousels go", neither, others),
        case("r20 all stay", only(0x0401), Narrowed::Unchanged),
    ]
}

fn flag_bits() -> Vec<Named> {
    let headed = |head: u8| {
        move |entries: &[Vec<u8>]| {
            let mut payload = whole(&pa(&[mpt(entries)]));
            payload[..2].copy_from_slice(&[head, 0xff]);
            payload
        }
    };
    vec![
        narrows("r21 flag bits 1 to 5 and the counter", headed(0x3e)),
        narrows("r21 flag bit 1", headed(0x02)),
        narrows("r21 flag bit 5", headed(0x20)),
        stays("r21 flag bit 0 is an aggregate", headed(0x01)),
        stays("r21 a first fragment", headed(0x40)),
        stays("r21 a middle fragment", headed(0x80)),
        stays("r21 a last fragment", headed(0xc0)),
    ]
}

fn after_the_last_entry() -> Vec<Named> {
    let with =
        |tail: &'static [u8]| move |entries: &[Vec<u8>]| whole(&pa(&[mpt_of(0x11, entries, tail)]));
    let [before, after] = [2, 1].map(|count| {
        let packages = [service_at(0x0401, 1), service_at(0x0402, 2)];
        let packages = packages[..usize::from(count)].concat();
        table_of(0x80, &[&[count][..], &packages, &[8, 9]].concat())
    });
    vec![
        narrows("r24 two bytes after an MPT's last entry", with(&[8, 9])),
        narrows("r24 an entry's bytes after the last", with(&[0; 18])),
        table(
            "r24 two bytes after a PLT's last entry",
            only(0x0401),
            before,
            listed(after),
        ),
    ]
}

/// An entry that ends behind its table, though inside the message, does not read.
fn behind_the_table() -> Vec<Named> {
    let shorter = |mut table: Vec<u8>| {
        table[3] -= 1;
        whole(&pa_with_heads(&[], &[table]))
    };
    let described = asset(&[1], "stpp", &[0], &[], &[7, 7]);
    let case = |name, identifier, table: Vec<u8>| {
        let bytes = shorter(table);
        let options = NO_CAPTIONS_OF_0401;
        payload(name, options, identifier, bytes, Narrowed::Unchanged)
    };
    let list = plt(&[service_at(0x0401, 1)]);
    vec![
        case("r24 an entry ends behind its MPT", 1, mpt(&[caption(1)])),
        case("r24 descriptors end behind their MPT", 1, mpt(&[described])),
        case("r24 an entry ends behind its PLT", 0, list),
    ]
}

/// A PLT whose last package, and an MPT whose last asset, is at a location of these bytes.
fn at(name: &str, location: &[u8], reads: bool) -> [Named; 2] {
    let entry = asset(&[1], "stpp", &[0], &[location.to_vec()], &[]);
    let list = plt(&[service_at(0x0401, 1), package(&[4, 2], location)]);
    let case = |form: &str, before, after| {
        let answer = if reads { after } else { Narrowed::Unchanged };
        table(
            format!("r25 {name}, {form}"),
            NO_CAPTIONS_OF_0401,
            before,
            answer,
        )
    };
    [
        case("PLT", list, listed(plt(&[service_at(0x0401, 1)]))),
        case("MPT", mpt(&[video(1), entry]), cut(mpt(&[video(1)]))),
    ]
}

fn locations() -> Vec<Named> {
    let sized = |(kind, size): (u8, usize)| {
        let mut location = vec![0; size];
        location[0] = kind;
        let right = at(&format!("location type {kind}"), &location, true);
        location.pop();
        let short = at(&format!("location type {kind} cut short"), &location, false);
        [right, short].concat()
    };
    let mut cases: Vec<_> = [(0, 3), (1, 13), (2, 37), (3, 7), (4, 37), (5, 2)]
        .into_iter()
        .flat_map(sized)
        .collect();
    cases.extend(at("location type 5 with a text", &[5, 3, 1, 2, 3], true));
    cases.extend(at("location type 6", &[6, 0, 0], false));
    cases.extend(at("location type 255", &[255, 0, 0], false));
    cases
}

fn counts() -> Vec<Named> {
    let (captions, carousels) = ([caption(1)], [carousel(2), carousel(3)]);
    let others = [video(4), video(5), video(6)];
    let assets = [&captions[..], &carousels, &others].concat();
    let mut unreadable = mpt(&assets);
    unreadable[10] += 1;
    let around = |first: &[Vec<u8>], last: &[Vec<u8>]| {
        let last = mpt_of(0x11, last, &[]);
        whole(&pa(&[mpt(first), unreadable.clone(), last]))
    };
    let case = |name, options, after| payload(name, options, 0, around(&assets, &captions), after);
    let no_captions = around(&[&carousels[..], &others].concat(), &[]);
    let no_carousels = around(&[&captions[..], &others].concat(), &captions);
    let (no_captions, no_carousels) = (
        counted(no_captions, [0, 2, 3], [2, 0, 0]),
        counted(no_carousels, [2, 0, 3], [0, 2, 0]),
    );
    vec![
        case("r26 captions go", NO_CAPTIONS, no_captions),
        case("r26 carousels go", NO_CAROUSELS, no_carousels),
        case("r26 nothing goes", ALL, Narrowed::Unchanged),
    ]
}

fn counts_beside_a_plt() -> Vec<Named> {
    let around = |entries: &[Vec<u8>]| whole(&pa(&[mpt(entries), plt(&[service_at(0x0401, 1)])]));
    let both = around(&[caption(1), video(2)]);
    let stayed = counted(both.clone(), [1, 0, 1], [0; 3]);
    let case = |name, options, answer| payload(name, options, 0, both.clone(), answer);
    let changed = cut(around(&[video(2)]));
    vec![
        case("r26 only the PLT changed", only(0x0401), stayed),
        case("r26 PLT and MPT changed", NO_CAPTIONS_OF_0401, changed),
    ]
}

fn refused_in_copy_all() -> Vec<Named> {
    let before = mpt(&[video(1), caption(2)]);
    let short = before.len() - 1;
    vec![
        table(
            "r27 copy-all, output one byte short",
            ALL,
            before.clone(),
            Narrowed::Refused(6),
        )
        .lent(short),
        table(
            "r27 copy-all, output as long",
            ALL,
            before,
            Narrowed::Unchanged,
        ),
    ]
}
