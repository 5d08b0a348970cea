//! Sizes at each limit: of the input, of the output, of a table's length and of its count of entries.
//! 01 takes inputs of up to 65,539 bytes; no table or packet is longer, and a program's room is 131,200.

use face::{Kind, Narrowed};

use super::{Named, built, counted, cut, listed, packet, payload, table};
use crate::builders::{table as table_of, *};

/// The longest input that is taken: a table or packet of the highest length.
const LONGEST: usize = 65_539;
/// The longest input and the longest output that a case can have.
const INPUT_ROOM: usize = 131_200;
const OUTPUT_ROOM: usize = 262_400;

pub(super) fn sizes() -> Vec<Named> {
    [
        short_inputs(),
        long_inputs(),
        outputs(),
        refusals(),
        lengths(),
        mpt_entries(),
        miscounted(),
        plt_entries(),
        many_tables(),
    ]
    .concat()
}

const KINDS: [(&str, Kind); 3] = [
    ("table", Kind::Table),
    ("payload", Kind::Payload),
    ("packet", Kind::Packet),
];

/// An MPT of a video and a caption as a table, in a payload and in a packet, and each without the caption.
fn usual(kind: Kind) -> [Vec<u8>; 2] {
    [vec![video(1), caption(2)], vec![video(1)]].map(|entries| match kind {
        Kind::Table => mpt(&entries),
        Kind::Payload => whole(&pa(&[mpt(&entries)])),
        Kind::Packet => tables(0xf000, &[mpt(&entries)]),
    })
}

/// The first bytes of what would be narrowed.
fn short_inputs() -> Vec<Named> {
    let case = |name: &str, kind: Kind, length: usize| {
        let bytes = usual(kind)[0][..length].to_vec();
        let name = format!("a {name} of {length} bytes");
        built(name, kind, NO_CAPTIONS, 0, bytes, Narrowed::Unchanged)
    };
    let lengths = [0, 1, 2, 3, 4, 5];
    let of_kind = |(name, kind)| lengths.map(|length| case(name, kind, length));
    KINDS.into_iter().flat_map(of_kind).collect()
}

/// What is narrowed, with bytes behind it that bring it to a length around the longest.
fn long_inputs() -> Vec<Named> {
    let case = |name: &str, kind: Kind, length: usize| {
        let [mut bytes, after] = usual(kind);
        bytes.resize(length, 0);
        let taken = length <= LONGEST;
        let answer = if taken {
            cut(after)
        } else {
            Narrowed::Refused(5)
        };
        let name = format!("a {name} of {length} bytes");
        built(name, kind, NO_CAPTIONS, 0, bytes, answer)
    };
    let mut cases = vec![case("packet", Kind::Packet, INPUT_ROOM)];
    for (name, kind) in KINDS {
        cases.extend([LONGEST - 1, LONGEST, LONGEST + 1].map(|length| case(name, kind, length)));
    }
    cases
}

/// Outputs shorter than, as long as and longer than the input.
fn outputs() -> Vec<Named> {
    let case = |name: &str, kind: Kind, form: &str, room: usize| {
        let [bytes, after] = usual(kind);
        let fits = room >= bytes.len();
        let answer = if fits {
            cut(after)
        } else {
            Narrowed::Refused(6)
        };
        let name = format!("a {name}, {form}");
        built(name, kind, NO_CAPTIONS, 0, bytes, answer).lent(room)
    };
    let of_kind = |(name, kind)| {
        let [input, after] = usual(kind).map(|bytes| bytes.len());
        [
            case(name, kind, "no output", 0),
            case(name, kind, "output as long as what stays", after),
            case(name, kind, "output one byte shorter", input - 1),
            case(name, kind, "output as long", input),
            case(name, kind, "output one byte longer", input + 1),
            case(name, kind, "the longest output", OUTPUT_ROOM),
        ]
    };
    KINDS.into_iter().flat_map(of_kind).collect()
}

/// Each refusal alone, and both at once.
fn refusals() -> Vec<Named> {
    let case = |name, length: usize, room: usize, answer| {
        table(name, NO_CAPTIONS, vec![0; length], answer).lent(room)
    };
    let refused = Narrowed::Refused;
    vec![
        case("nothing, no output", 0, 0, Narrowed::Unchanged),
        case("one byte, no output", 1, 0, refused(6)),
        case("longest, output shorter", LONGEST, LONGEST - 1, refused(6)),
        case(
            "too long, output as long",
            LONGEST + 1,
            LONGEST + 1,
            refused(5),
        ),
        case("too long, output shorter", LONGEST + 1, LONGEST, refused(5)),
        case("too long, no output", LONGEST + 1, 0, refused(5)),
    ]
}

/// An MPT of a video, whose descriptors bring it to the highest length, and of a caption before it.
fn longest_mpt() -> [Vec<u8>; 2] {
    let rest = LONGEST - mpt(&[caption(2), video(1)]).len();
    let long = asset(&[0x11], "hvc1", &[0], &[here(1)], &vec![7; rest]);
    [mpt(&[caption(2), long.clone()]), mpt(&[long])]
}

/// A packet of the highest length: an MPT of a video and a caption, and a table that fills it.
fn longest_packet() -> [Vec<u8>; 2] {
    let with = |entries: &[Vec<u8>], filler: usize| {
        tables(1, &[mpt(entries), table_of(0x77, &vec![7; filler])])
    };
    let both = [video(1), caption(2)];
    let rest = LONGEST - with(&both, 0).len();
    [with(&both, rest), with(&both[..1], rest)]
}

/// A length of 65,535 of a table and of a packet, and tables that say another length than they have.
fn lengths() -> Vec<Named> {
    let [long_table, short_table] = longest_mpt();
    let [long_packet, short_packet] = longest_packet();
    let [before, after] = usual(Kind::Table);
    let right = before.len() as u16 - 4;
    let longer = [&before[..], &[9]].concat();
    let says = |name, length: u16| {
        let mut bytes = before.clone();
        bytes[2..4].copy_from_slice(&length.to_be_bytes());
        table(name, NO_CAPTIONS, bytes, Narrowed::Unchanged)
    };
    let changes = |name, before, after| table(name, NO_CAPTIONS, before, cut(after));
    vec![
        changes("an MPT of length 65,535", long_table, short_table),
        packet(
            "a packet of length 65,535",
            NO_CAPTIONS,
            long_packet,
            cut(short_packet),
        ),
        says("a table says 65,535 bytes, which are not there", 65_535),
        says("a table says one byte more than there is", right + 1),
        says("a table says one byte less than there is", right - 1),
        says("a table says 0 bytes", 0),
        changes("a byte behind a table goes", longer, after),
    ]
}

/// MPTs of 0, 1 and 255 entries.
fn mpt_entries() -> Vec<Named> {
    let entry = |nth: usize| [video, caption, carousel][nth % 3](nth as u16);
    let mixed: Vec<_> = (0..255).map(entry).collect();
    let kept: Vec<_> = (0..255).filter(|nth| nth % 3 != 1).map(entry).collect();
    let captions = |count: u16| mpt(&(0..count).map(caption).collect::<Vec<_>>());
    let goes = |name, count: u16| {
        let after = counted(mpt(&[]), [0; 3], [count.into(), 0, 0]);
        table(name, NO_CAPTIONS, captions(count), after)
    };
    let stays = |name, count| table(name, NO_CAROUSELS, captions(count), Narrowed::Unchanged);
    let third = counted(mpt(&kept), [0, 85, 85], [85, 0, 0]);
    vec![
        stays("an MPT of no entry", 0),
        stays("an MPT of one entry that stays", 1),
        stays("an MPT of 255 entries that stay", 255),
        goes("an MPT of one entry that goes", 1),
        goes("an MPT of 255 entries that go", 255),
        table(
            "an MPT of 255, a third goes",
            NO_CAPTIONS,
            mpt(&mixed),
            third,
        ),
    ]
}

/// MPTs that count another number of entries than there are.
fn miscounted() -> Vec<Named> {
    let case = |name, count: u8| {
        let mut bytes = usual(Kind::Table)[0].clone();
        bytes[10] = count;
        table(name, NO_CAPTIONS, bytes, Narrowed::Unchanged)
    };
    vec![
        case("an MPT counts one entry more than there is", 3),
        case("an MPT counts one entry less than there is", 1),
        case("an MPT counts no entry where two are", 0),
        case("an MPT counts 255 entries where two are", 255),
    ]
}

/// PLTs of 0, 1 and 255 packages.
fn plt_entries() -> Vec<Named> {
    let service = |nth: u16| service_at(0x0400 + nth, nth);
    let case = |name, count: u16, ours: u16| {
        let before = plt(&(0..count).map(service).collect::<Vec<_>>());
        let there = ours < count;
        let after = if there {
            listed(plt(&[service(ours)]))
        } else {
            Narrowed::Unchanged
        };
        table(name, only(0x0400 + ours), before, after)
    };
    vec![
        case("a PLT of no entry", 0, 0),
        case("a PLT of one entry", 1, 0),
        case("a PLT of 255 entries, the first is ours", 255, 0),
        case("a PLT of 255 entries, the last is ours", 255, 254),
        case("a PLT of 255 entries, none is ours", 255, 255),
    ]
}

/// A message of 255 tables.
fn many_tables() -> Vec<Named> {
    let around = |entries: &[Vec<u8>]| whole(&pa(&vec![mpt(entries); 255]));
    let after = counted(around(&[]), [0; 3], [255, 0, 0]);
    let before = around(&[caption(1)]);
    vec![payload(
        "a message of 255 tables",
        NO_CAPTIONS,
        0,
        before,
        after,
    )]
}
