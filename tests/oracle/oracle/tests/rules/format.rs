//! The formats of cases and answers: what is written is read again, what can't be read ends the run, and
//! the answers stand byte by byte as the format says.

use face::{Kind, Limits, Modes};
use oracle::answers::answers;
use oracle::cases::{Calls, Case, Narrowing, Reader, Stream, Writer};
use original::Original;
use plain::Plain;

use crate::subject::LIMITS;
use oracle::builders::*;

fn stream<'a>(chunks: &[&'a [u8]]) -> Stream<'a> {
    Stream {
        limits: LIMITS,
        options: NO_CAPTIONS,
        room: 10,
        chunks: chunks.to_vec(),
        cut: false,
    }
}

pub fn narrowing(kind: Kind, input: &[u8]) -> Narrowing<'_> {
    Narrowing {
        with_modes: false,
        kind,
        options: only(0x0401),
        modes: Modes::OFF,
        identifier: 0x1234,
        room: 100,
        input,
    }
}

pub fn written(cases: &[Case]) -> Vec<u8> {
    let mut writer = Writer::default();
    for case in cases {
        match case {
            Case::Stream(stream) => writer.stream(stream),
            Case::Calls(calls) => writer.calls(calls),
            Case::Narrowing(narrowing) => writer.narrowing(narrowing),
        }
    }
    writer.bytes
}

pub fn read(bytes: &[u8]) -> Vec<Case<'_>> {
    Reader::new(bytes).collect()
}

/// The answers of both filters, which are the same.
fn answered(cases: &[u8]) -> Vec<u8> {
    let answer = answers::<Original>(cases);
    assert_eq!(answer, answers::<Plain>(cases));
    answer
}

#[test]
fn what_is_written_is_read_again() {
    let cases = [
        Case::Stream(stream(&[&[1, 2, 3], &[], &[4]])),
        Case::Narrowing(narrowing(Kind::Table, &[])),
        Case::Narrowing(narrowing(Kind::Payload, &[1])),
        Case::Stream(stream(&[])),
        Case::Narrowing(narrowing(Kind::Packet, &[1, 2])),
    ];
    assert_eq!(read(&written(&cases)), cases);
}

#[test]
fn what_the_maker_makes_fits_the_format() {
    for seed in 0..100 {
        let (made, inputs) = (maker::case(seed), maker::inputs(seed));
        let (calls, wished) = (maker::calls(seed), maker::wished_inputs(seed));
        let narrowings = inputs.iter().map(Narrowing::from);
        let (relay, packets) = (maker::plain_ip_calls(seed), maker::plain_ip_inputs(seed));
        let with_modes = wished.iter().chain(&packets);
        let narrowings = narrowings.chain(with_modes.map(Narrowing::with_modes));
        let mut cases = vec![Case::Stream(Stream::from(&made))];
        cases.extend([&calls, &relay].map(|made| Case::Calls(Calls::from(made))));
        cases.extend(narrowings.map(Case::Narrowing));
        assert_eq!(read(&written(&cases)), cases, "seed {seed}");
    }
}

#[test]
fn cases_stand_byte_by_byte() {
    let limits = Limits {
        work: 0x1001,
        total: 0x0203,
        most: 0x0405,
        maps: 0x0607,
    };
    let options = face::Options {
        eit: false,
        ..only(0x0401)
    };
    let case = Case::Stream(Stream {
        limits,
        options,
        ..stream(&[&[0xaa, 0xbb], &[0xcc]])
    });
    let head = "00 0B 0401 00001001 00000203 00000405 00000607 0000000A 0002 00000002 00000001";
    assert_eq!(written(&[case]), [hex(head), hex("AA BB CC")].concat());
    let case = Case::Narrowing(narrowing(Kind::Payload, &[0xaa]));
    assert_eq!(
        written(&[case]),
        hex("02 0F 0401 1234 00000064 00000001 AA")
    );
    let case = Narrowing {
        options: NO_EIT,
        ..narrowing(Kind::Packet, &[])
    };
    assert_eq!(
        written(&[Case::Narrowing(case)]),
        hex("03 03 0000 1234 00000064 00000000")
    );
}

#[test]
fn a_cut_head_or_input_ends_the_run() {
    let first = [Case::Narrowing(narrowing(Kind::Table, &[1]))];
    let kept = written(&first);
    for (second, chunks) in [
        (Case::Stream(stream(&[&[1], &[]])), 1),
        (Case::Narrowing(narrowing(Kind::Packet, &[1, 2])), 0),
    ] {
        let second = written(&[second]);
        let needed = second.len() - chunks;
        for cut in 0..needed {
            let bytes = [&kept, &second[..cut]].concat();
            assert_eq!(read(&bytes), first, "cut at {cut}");
        }
        assert_eq!(read(&second[..needed]).len(), 1);
    }
}

#[test]
fn a_cut_chunk_ends_the_run_after_the_calls_before_it() {
    let whole = written(&[Case::Stream(stream(&[&[1], &[2, 3]]))]);
    let answer = answered(&whole);
    let call = 1 + 7 * 4;
    assert_eq!(answer.len(), 1 + 2 * call + 4);
    let cut = |missing: usize| answered(&whole[..whole.len() - missing]);
    assert_eq!(cut(1), answer[..1 + call]);
    assert_eq!(cut(2), answer[..1 + call]);
    assert_eq!(cut(3), answer[..1]);
    let refused = Stream {
        limits: Limits { maps: 0, ..LIMITS },
        ..stream(&[&[1], &[2, 3]])
    };
    let mut bytes = written(&[Case::Stream(refused)]);
    bytes.pop();
    assert_eq!(answered(&bytes), [3]);
}

/// How many cases are read of one that is written and changed at one place, and one behind it.
pub fn read_with(case: Case, place: usize, bytes: &[u8]) -> usize {
    let mut all = written(&[case, Case::Narrowing(narrowing(Kind::Table, &[]))]);
    all[place..place + bytes.len()].copy_from_slice(bytes);
    read(&all).len()
}

#[test]
fn another_kind_or_flag_ends_the_run() {
    for case in [
        Case::Stream(stream(&[])),
        Case::Narrowing(narrowing(Kind::Table, &[])),
    ] {
        for kind in [5, 6, 10, 0xff] {
            assert_eq!(read_with(case.clone(), 0, &[kind]), 0);
        }
        assert_eq!(read_with(case.clone(), 1, &[15]), 2);
        for flags in [16, 0x80] {
            assert_eq!(read_with(case.clone(), 1, &[flags]), 0);
        }
    }
}

#[test]
fn a_case_that_passes_a_room_ends_the_run() {
    let case = || Case::Stream(stream(&[]));
    for (place, room) in [(4, 131_200), (8, 1_048_576), (16, 33_000), (20, 262_400)] {
        assert_eq!(read_with(case(), place, &u32::to_be_bytes(room)), 2);
        assert_eq!(read_with(case(), place, &u32::to_be_bytes(room + 1)), 0);
    }
    assert_eq!(read_with(case(), 12, &[0xff; 4]), 2, "M has no room");
    let case = || Case::Narrowing(narrowing(Kind::Payload, &[]));
    assert_eq!(read_with(case(), 6, &u32::to_be_bytes(262_400)), 2);
    assert_eq!(read_with(case(), 6, &u32::to_be_bytes(262_401)), 0);
}

#[test]
fn chunks_inputs_and_calls_have_rooms_too() {
    for (length, cases) in [(131_200, 1), (131_201, 0)] {
        let input = vec![0; length];
        let bytes = written(&[Case::Stream(stream(&[&input]))]);
        assert_eq!(read(&bytes).len(), cases);
        let bytes = written(&[Case::Narrowing(narrowing(Kind::Packet, &input))]);
        assert_eq!(read(&bytes).len(), cases);
    }
    for (calls, cases) in [(1_024, 1), (1_025, 0)] {
        let bytes = written(&[Case::Stream(stream(&vec![&[][..]; calls]))]);
        assert_eq!(read(&bytes).len(), cases);
    }
}

#[test]
fn a_stream_is_answered_call_by_call() {
    let packet = hex("7F FF 00 01 AA");
    let case = stream(&[&packet, &packet[..3], &[0; 8], &[1]]);
    let answer = [
        hex("00"),
        hex("00 00000005 00000001 00000001 00000000 00000000 00000000 00000000"),
        packet.clone(),
        hex("00 00000000 00000000 00000000 00000000 00000000 00000003 00000000"),
        hex("06 00000000 00000000 00000000 00000000 00000000 00000003 00000000"),
        hex("00 00000000 00000000 00000000 00000000 00000000 00000004 00000000"),
        hex("00000000"),
    ];
    assert_eq!(answered(&written(&[Case::Stream(case)])), answer.concat());
}

#[test]
fn a_refused_start_is_answered_and_the_next_case_follows() {
    let limits = Limits { work: 0, ..LIMITS };
    let refused = Case::Stream(Stream {
        limits,
        ..stream(&[&[1, 2], &[3]])
    });
    let options = face::Options {
        eit: false,
        ..NO_CAPTIONS
    };
    let next = Case::Stream(Stream {
        options,
        ..stream(&[])
    });
    assert_eq!(answered(&written(&[refused, next])), hex("01 00 00000001"));
}

#[test]
fn narrowings_are_answered() {
    let table = plt(&[service_at(0x0402, 1), service_at(0x0401, 2)]);
    let result = plt(&[service_at(0x0401, 2)]);
    let changed = narrowing(Kind::Table, &table);
    let answer = [hex("00 01 0000000B"), vec![0; 24], result].concat();
    assert_eq!(
        answered(&written(&[Case::Narrowing(changed.clone())])),
        answer
    );
    let refused = Narrowing {
        room: 1,
        ..changed.clone()
    };
    let unchanged = Narrowing {
        options: only(0x0403),
        ..changed
    };
    let bytes = written(&[Case::Narrowing(refused), Case::Narrowing(unchanged)]);
    assert_eq!(
        answered(&bytes),
        [vec![6], vec![0; 29], vec![0; 30]].concat()
    );
    let assets = mpt(&[caption(1), carousel(2), video(3), video(4)]);
    let case = Narrowing {
        options: NO_CAPTIONS,
        ..narrowing(Kind::Table, &assets)
    };
    let counts = "00000000 00000001 00000002 00000001 00000000 00000000";
    assert_eq!(
        answered(&written(&[Case::Narrowing(case)]))[6..30],
        hex(counts)
    );
}
