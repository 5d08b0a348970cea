//! The theorems: one stands word by word, and the bounds are kept.

use std::collections::BTreeSet;

use face::{Kind, Limits, Modes, Options};
use oracle::cases::{Calls, Case, Narrowing, Operation, Stream};
use oracle::theorems::{Bounds, theorem, theorems};

use crate::subject::LIMITS;
use oracle::builders::*;

/// 01's example 1.
#[test]
fn a_narrowing_stands_word_by_word() {
    let input = mpt(&[entry(0x11, "hvc1", 0xf100), entry(0x22, "stpp", 0xf130)]);
    let case = Case::Narrowing(Narrowing {
        with_modes: false,
        kind: Kind::Table,
        options: NO_CAPTIONS,
        modes: Modes::OFF,
        identifier: 0x1234,
        room: 50,
        input: &input,
    });
    let video = "0 ∷ 0 ∷ 0 ∷ 0 ∷ 0 ∷ 1 ∷ 17 ∷ 104 ∷ 118 ∷ 99 ∷ 49 ∷ 0 ∷ 1 ∷ 0 ∷ 241 ∷ 0 ∷ 0 ∷ 0";
    let caption =
        "0 ∷ 0 ∷ 0 ∷ 0 ∷ 0 ∷ 1 ∷ 34 ∷ 115 ∷ 116 ∷ 112 ∷ 112 ∷ 0 ∷ 1 ∷ 0 ∷ 241 ∷ 48 ∷ 0 ∷ 0";
    let table = format!("32 ∷ 5 ∷ 0 ∷ 43 ∷ 0 ∷ 2 ∷ 4 ∷ 0 ∷ 0 ∷ 0 ∷ 2 ∷ {video} ∷ {caption} ∷ []");
    let counts = "0 ∷ 1 ∷ 29 ∷ 0 ∷ 0 ∷ 1 ∷ 1 ∷ 0 ∷ 0";
    let result = format!("32 ∷ 5 ∷ 0 ∷ 25 ∷ 0 ∷ 2 ∷ 4 ∷ 0 ∷ 0 ∷ 0 ∷ 1 ∷ {video} ∷ []");
    let text = format!(
        "-- seed-7-case-2: table, 47 bytes
seed-7-case-2 : table 6 0 50 ({table}) ≡ {counts} ∷ {result}
unfolding table
seed-7-case-2 = refl
"
    );
    assert_eq!(theorem("seed-7-case-2", &case), Some(text));
}

/// The signature of a case's theorem, its second line.
fn signature(case: &Case) -> String {
    let text = theorem("seed-1-case-0", case).expect("a theorem");
    text.lines().nth(1).expect("a signature").to_owned()
}

#[test]
fn refusals_and_identifiers_are_told() {
    let narrowing = |kind| {
        signature(&Case::Narrowing(Narrowing {
            with_modes: false,
            kind,
            options: only(0x0401),
            modes: Modes::OFF,
            identifier: 0x1234,
            room: 1,
            input: &[1, 2],
        }))
    };
    let refused = "6 ∷ 0 ∷ 0 ∷ 0 ∷ 0 ∷ 0 ∷ 0 ∷ 0 ∷ 0 ∷ []";
    assert_eq!(
        narrowing(Kind::Payload),
        format!("seed-1-case-0 : payload 15 1025 4660 1 (1 ∷ 2 ∷ []) ≡ {refused}")
    );
    assert_eq!(
        narrowing(Kind::Packet),
        format!("seed-1-case-0 : packet 15 1025 0 1 (1 ∷ 2 ∷ []) ≡ {refused}")
    );
}

#[test]
fn a_stream_is_told_call_by_call_without_the_dropped() {
    let packet = hex("7F FF 00 01 AA");
    let stream = Stream {
        limits: LIMITS,
        options: NO_CAPTIONS,
        room: 7,
        chunks: vec![&packet, &packet[..1], &[0; 7]],
        cut: false,
    };
    let chunks =
        "(127 ∷ 255 ∷ 0 ∷ 1 ∷ 170 ∷ []) ∷ (127 ∷ []) ∷ (0 ∷ 0 ∷ 0 ∷ 0 ∷ 0 ∷ 0 ∷ 0 ∷ []) ∷ []";
    let first = "0 ∷ 5 ∷ 1 ∷ 1 ∷ 0 ∷ 0 ∷ 0 ∷ 0 ∷ 127 ∷ 255 ∷ 0 ∷ 1 ∷ 170";
    let second = "0 ∷ 0 ∷ 0 ∷ 0 ∷ 0 ∷ 0 ∷ 1 ∷ 0";
    let third = "6 ∷ 0 ∷ 0 ∷ 0 ∷ 0 ∷ 0 ∷ 1 ∷ 0";
    assert_eq!(
        signature(&Case::Stream(stream.clone())),
        format!(
            "seed-1-case-0 : stream 6 0 0 131078 65536 65536 32768 7 ({chunks}) \
             ≡ 0 ∷ {first} ∷ {second} ∷ {third} ∷ []"
        )
    );
    let refused = Stream {
        limits: Limits { maps: 5, ..LIMITS },
        chunks: Vec::new(),
        ..stream
    };
    assert_eq!(
        signature(&Case::Stream(refused)),
        "seed-1-case-0 : stream 6 0 0 131078 65536 65536 5 7 ([]) ≡ 3 ∷ []"
    );
}

fn calls<'a>(operations: &[Operation<'a>]) -> Case<'a> {
    Case::Calls(Calls {
        limits: LIMITS,
        options: NO_OTHERS,
        modes: Modes::OFF,
        operations: operations.to_vec(),
        cut: false,
    })
}

/// A push with an output of this length.
fn push(room: usize, chunk: &[u8]) -> Operation<'_> {
    Operation::Push { room, chunk }
}

#[test]
fn calls_with_outputs_of_one_length_are_told_as_a_stream() {
    let answer = "0 ∷ 0 ∷ 0 ∷ 0 ∷ 0 ∷ 0 ∷ 0 ∷ 1 ∷ 0 ∷ 6 ∷ 0 ∷ 0 ∷ 0 ∷ 0 ∷ 0 ∷ 1 ∷ 0 ∷ []";
    let two = [push(2, &[1]), Operation::Dropped, push(2, &[1, 2])];
    assert_eq!(
        signature(&calls(&two)),
        format!(
            "seed-1-case-0 : stream 23 0 0 131078 65536 65536 32768 2 \
             ((1 ∷ []) ∷ (1 ∷ 2 ∷ []) ∷ []) ≡ {answer}"
        )
    );
    assert_eq!(
        signature(&calls(&[Operation::Dropped])),
        "seed-1-case-0 : stream 23 0 0 131078 65536 65536 32768 0 ([]) ≡ 0 ∷ []"
    );
    let different = calls(&[push(2, &[1]), push(3, &[])]);
    assert_eq!(theorem("seed-1-case-0", &different), None);
}

/// Of a packet and of calls, the modes are the third number.
#[test]
fn modes_are_told_by_their_bits() {
    let narrowing = Narrowing {
        with_modes: true,
        kind: Kind::Packet,
        options: NO_CAPTIONS,
        modes: Modes::PLAIN_IP,
        identifier: 0,
        room: 0,
        input: &[],
    };
    let unchanged = "0 ∷ 0 ∷ 0 ∷ 0 ∷ 0 ∷ 0 ∷ 0 ∷ 0 ∷ 0 ∷ []";
    assert_eq!(
        signature(&Case::Narrowing(narrowing)),
        format!("seed-1-case-0 : packet 6 0 1 0 ([]) ≡ {unchanged}")
    );
    let Case::Calls(calls) = calls(&[]) else {
        unreachable!("calls are calls")
    };
    let calls = Calls {
        modes: Modes::PLAIN_IP,
        ..calls
    };
    assert_eq!(
        signature(&Case::Calls(calls)),
        "seed-1-case-0 : stream 23 0 1 131078 65536 65536 32768 0 ([]) ≡ 0 ∷ []"
    );
}

#[test]
fn a_start_without_captions_and_other_assets_is_refused() {
    let refused = Case::Calls(Calls {
        limits: LIMITS,
        options: Options {
            caption: false,
            ..NO_OTHERS
        },
        modes: Modes::OFF,
        operations: vec![],
        cut: false,
    });
    assert_eq!(
        signature(&refused),
        "seed-1-case-0 : stream 22 0 0 131078 65536 65536 32768 0 ([]) ≡ 9 ∷ []"
    );
}

/// The flag bytes of the theorems of the seeds' cases, or of their wished ones.
fn flags(file: &str, seed: &str) -> BTreeSet<u8> {
    let signatures = file.lines().filter(|line| line.contains(" ≡ "));
    let signatures = signatures.filter(|line| line.starts_with(seed));
    let flags = signatures.filter_map(|line| line.split(' ').nth(3));
    flags.map(|flags| flags.parse().expect("flags")).collect()
}

#[test]
fn wished_cases_come_behind_the_others_and_are_without_other_assets() {
    let bounds = Bounds {
        narrowing: 2,
        longest: 9_000,
        most: usize::MAX,
    };
    let file = theorems(0..60, bounds);
    let (first, last) = (file.find("\nwished-seed-"), file.rfind("\nseed-"));
    assert!(last.is_some() && last < first);
    assert!(flags(&file, "seed-").iter().all(|flags| *flags < 16));
    let wished = flags(&file, "wished-seed-");
    assert!(wished.iter().all(|flags| *flags >= 16) && wished.len() > 12);
    let streams = |line: &&str| line.starts_with("wished-seed-") && line.contains(" : stream ");
    assert!(file.lines().filter(streams).count() > 5);
}

#[test]
fn bounds_are_kept() {
    let bounds = Bounds {
        narrowing: usize::MAX,
        longest: 2_000,
        most: usize::MAX,
    };
    let count = |bounds| theorems(0..20, bounds).matches(" = refl\n").count();
    assert!(count(bounds) > 100);
    assert_eq!(count(Bounds { most: 9, ..bounds }), 27, "nine of each sort");
    let bounds = Bounds {
        narrowing: 0,
        ..bounds
    };
    let file = theorems(0..20, bounds);
    let streams = (0..20).map(|seed| maker::case(seed).bytes.len());
    assert_eq!(
        file.matches("\nseed-").count(),
        2 * streams.filter(|length| *length <= 2_000).count(),
        "a line that names it, and its proof"
    );
    assert_eq!(file.matches(" : stream ").count(), count(bounds));
    let file = theorems(0..0, bounds);
    assert!(file.starts_with("-- ") && file.ends_with("\n") && !file.contains("refl\n"));
}
