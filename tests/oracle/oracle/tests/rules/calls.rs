//! The format of calls and of narrowings with modes (case kinds 4 and 7 to 9): what stands where, what ends the run and
//! after which answers, and the answers byte by byte.

use face::{Engine, Kind, Limits, Modes, Options};
use oracle::answers::answers;
use oracle::cases::{Calls, Case, Narrowing, Operation};
use oracle::engine::Oracle;
use original::Original;
use plain::Plain;

use crate::format::{narrowing, read, read_with, written};
use crate::subject::LIMITS;
use oracle::builders::*;

/// Calls without other assets.
fn calls<'a>(operations: &[Operation<'a>]) -> Calls<'a> {
    Calls {
        limits: LIMITS,
        options: NO_OTHERS,
        modes: Modes::OFF,
        operations: operations.to_vec(),
        cut: false,
    }
}

fn push(room: usize, chunk: &[u8]) -> Operation<'_> {
    Operation::Push { room, chunk }
}

fn with_modes(kind: Kind, input: &[u8]) -> Narrowing<'_> {
    Narrowing {
        with_modes: true,
        options: Options {
            other: false,
            ..only(0x0401)
        },
        ..narrowing(kind, input)
    }
}

/// The answers of every filter that knows the options, which are the same.
fn answered(cases: &[u8]) -> Vec<u8> {
    let answer = answers::<Oracle>(cases);
    assert_eq!(answer, answers::<Plain>(cases));
    if read(cases)
        .iter()
        .all(|case| Original::knows(case.options(), case.modes()))
    {
        assert_eq!(answer, answers::<Original>(cases));
    }
    answer
}

/// The answers to calls, with a case behind them whose answer is 30 zeros.
fn answered_calls(calls: Calls) -> Vec<u8> {
    answered(&written(&[Case::Calls(calls), behind()]))
}

fn behind() -> Case<'static> {
    Case::Narrowing(narrowing(Kind::Table, &[]))
}

const BEHIND: [u8; 30] = [0; 30];
/// The length of a push's answer without its bytes.
const PUSH: usize = 1 + 7 * 4;

#[test]
fn what_is_written_is_read_again() {
    let cases = [
        Case::Calls(calls(&[push(7, &[1, 2]), Operation::Dropped, push(0, &[])])),
        Case::Narrowing(with_modes(Kind::Table, &[])),
        Case::Narrowing(narrowing(Kind::Table, &[])),
        Case::Calls(calls(&[])),
        Case::Narrowing(with_modes(Kind::Payload, &[1])),
        Case::Narrowing(with_modes(Kind::Packet, &[1, 2])),
    ];
    assert_eq!(read(&written(&cases)), cases);
}

#[test]
fn cases_stand_byte_by_byte() {
    let limits = Limits {
        work: 0x1001,
        total: 0x0203,
        most: 0x0405,
        maps: 0x0607,
    };
    let case = Calls {
        limits,
        options: Options::captions_only(Some(0x0401)),
        ..calls(&[
            push(0x0a0b, &[0xaa, 0xbb]),
            Operation::Dropped,
            push(1, &[]),
        ])
    };
    let head = "04 19 00 0401 00001001 00000203 00000405 00000607 0003";
    let operations = "00 00000A0B 00000002 AABB  01  00 00000001 00000000";
    assert_eq!(
        written(&[Case::Calls(case)]),
        [hex(head), hex(operations)].concat()
    );
    for (kind, number) in [
        (Kind::Table, "07"),
        (Kind::Payload, "08"),
        (Kind::Packet, "09"),
    ] {
        let rest = "1F 00 0401 1234 00000064 00000001 AA";
        let case = Case::Narrowing(with_modes(kind, &[0xaa]));
        assert_eq!(written(&[case]), hex(&format!("{number} {rest}")));
    }
}

/// The modes byte, in calls and in narrowings.
#[test]
fn modes_stand_behind_the_wishes() {
    let series = Calls {
        modes: Modes::PLAIN_IP,
        ..calls(&[])
    };
    let packet = Narrowing {
        modes: Modes::PLAIN_IP,
        ..with_modes(Kind::Packet, &[0xaa])
    };
    let cases = [Case::Calls(series), Case::Narrowing(packet)];
    let bytes = written(&cases);
    assert_eq!(bytes[..5], hex("04 17 01 0000"));
    assert_eq!(bytes[23..], hex("09 1F 01 0401 1234 00000064 00000001 AA"));
    assert_eq!(read(&bytes), cases);
}

#[test]
#[should_panic(expected = "no place")]
fn kinds_0_to_3_have_no_place_for_modes() {
    let case = Narrowing {
        modes: Modes::PLAIN_IP,
        ..narrowing(Kind::Table, &[])
    };
    written(&[Case::Narrowing(case)]);
}

#[test]
#[should_panic(expected = "no place")]
fn kinds_0_to_3_have_no_place_for_the_fourth_wish() {
    let case = Narrowing {
        with_modes: false,
        ..with_modes(Kind::Table, &[])
    };
    written(&[Case::Narrowing(case)]);
}

#[test]
fn wishes_above_31_or_modes_above_1_end_the_run() {
    for case in [
        Case::Calls(calls(&[])),
        Case::Narrowing(with_modes(Kind::Table, &[])),
        Case::Narrowing(with_modes(Kind::Packet, &[])),
    ] {
        for wishes in 0..=255 {
            let cases = if wishes < 32 { 2 } else { 0 };
            assert_eq!(read_with(case.clone(), 1, &[wishes]), cases);
        }
        for modes in 0..=255 {
            let cases = if modes < 2 { 2 } else { 0 };
            assert_eq!(read_with(case.clone(), 2, &[modes]), cases);
        }
    }
}

#[test]
fn kinds_that_have_not_landed_end_the_run() {
    for kind in [5, 6, 10] {
        assert_eq!(read_with(Case::Calls(calls(&[])), 0, &[kind]), 0);
    }
}

#[test]
fn a_head_that_passes_a_room_ends_the_run() {
    let case = || Case::Calls(calls(&[]));
    for (place, room) in [(5, 131_200), (9, 1_048_576), (17, 33_000)] {
        assert_eq!(read_with(case(), place, &u32::to_be_bytes(room)), 2);
        assert_eq!(read_with(case(), place, &u32::to_be_bytes(room + 1)), 0);
    }
    assert_eq!(read_with(case(), 13, &[0xff; 4]), 2, "M has no room");
    let case = || Case::Narrowing(with_modes(Kind::Payload, &[]));
    assert_eq!(read_with(case(), 7, &u32::to_be_bytes(262_400)), 2);
    assert_eq!(read_with(case(), 7, &u32::to_be_bytes(262_401)), 0);
    assert_eq!(read_with(case(), 11, &u32::to_be_bytes(131_201)), 0);
}

#[test]
fn there_are_at_most_1024_operations() {
    for (operations, cases) in [(1_024, 2), (1_025, 0)] {
        let case = calls(&vec![Operation::Dropped; operations]);
        let bytes = written(&[Case::Calls(case), behind()]);
        assert_eq!(read(&bytes).len(), cases);
    }
}

#[test]
fn a_cut_head_ends_the_run() {
    let first = [behind()];
    let kept = written(&first);
    for second in [
        Case::Calls(calls(&[])),
        Case::Narrowing(with_modes(Kind::Packet, &[1, 2])),
    ] {
        let second = written(&[second]);
        for cut in 0..second.len() {
            let bytes = [&kept, &second[..cut]].concat();
            assert_eq!(read(&bytes), first, "cut at {cut}");
        }
        assert_eq!(read(&[&kept[..], &second].concat()).len(), 2);
    }
}

/// Three operations, and the bytes of the head and of each.
fn three() -> (Vec<u8>, [usize; 4]) {
    let case = calls(&[push(9, &[1]), Operation::Dropped, push(9, &[2, 3])]);
    let bytes = written(&[Case::Calls(case), behind()]);
    (bytes, [23, 10, 1, 11])
}

#[test]
fn a_cut_operation_ends_the_run_after_those_before_it() {
    let (bytes, [head, first, second, third]) = three();
    let answer = answered(&bytes);
    assert_eq!(answer.len(), 1 + PUSH + 5 + PUSH + BEHIND.len());
    let (one, two) = (head + first, head + first + second);
    for cut in head..two + third {
        let there = match cut {
            _ if cut < one => 1,
            _ if cut < two => 1 + PUSH,
            _ => 1 + PUSH + 5,
        };
        assert_eq!(answered(&bytes[..cut]), answer[..there], "cut at {cut}");
    }
    let whole = 1 + PUSH + 5 + PUSH;
    assert_eq!(answered(&bytes[..two + third]), answer[..whole]);
}

#[test]
fn a_bad_operation_ends_the_run_after_those_before_it() {
    let (bytes, [head, first, second, _]) = three();
    let answer = answered(&bytes);
    let third = head + first + second;
    let changed = |place: usize, with: &[u8]| {
        let mut bytes = bytes.clone();
        bytes[place..place + with.len()].copy_from_slice(with);
        answered(&bytes)
    };
    for operation in 2..=255 {
        assert_eq!(changed(third, &[operation]), answer[..1 + PUSH + 5]);
        assert_eq!(changed(head, &[operation]), answer[..1]);
    }
    let output = third + 1;
    assert_eq!(changed(output, &u32::to_be_bytes(262_400)), answer);
    let past = u32::to_be_bytes(262_401);
    assert_eq!(changed(output, &past), answer[..1 + PUSH + 5]);
    assert_eq!(changed(head + 1, &past), answer[..1]);
}

#[test]
fn a_chunk_has_a_room() {
    for (length, there) in [(131_200, true), (131_201, false)] {
        let chunk = vec![0; length];
        let answer = answered_calls(calls(&[Operation::Dropped, push(0, &chunk)]));
        let rest: &[u8] = if there { &[5] } else { &[] };
        assert_eq!(answer[..6], hex("00 00 00000000"));
        assert_eq!(answer[6..].first(), rest.first());
        assert_eq!(
            answer.len(),
            if there { 6 + PUSH + BEHIND.len() } else { 6 }
        );
    }
}

/// After a refused start nothing is answered, and what can't be read past ends the run.
#[test]
fn after_a_refused_start_operations_are_read_past() {
    let refused = |limits, options| Calls {
        limits,
        options,
        ..calls(&[push(9, &[1]), Operation::Dropped, push(9, &[2, 3])])
    };
    let neither = Options {
        caption: false,
        ..NO_OTHERS
    };
    let no_maps = Limits { maps: 0, ..LIMITS };
    for (limits, options, number) in [
        (LIMITS, neither, 9),
        (no_maps, neither, 3),
        (no_maps, NO_OTHERS, 3),
        (Limits { work: 0, ..LIMITS }, NO_EIT, 1),
    ] {
        let case = refused(limits, options);
        let answer = [&[number][..], &BEHIND].concat();
        assert_eq!(answered_calls(case.clone()), answer);
        let bytes = written(&[Case::Calls(case), behind()]);
        let (head, first) = (23, 10);
        for (place, with) in [(head, 2), (head + first, 7), (head + 1, 0xff)] {
            let mut bytes = bytes.clone();
            bytes[place] = with;
            assert_eq!(answered(&bytes), [number], "{place}");
        }
        assert_eq!(answered(&bytes[..head + 5]), [number]);
    }
}

#[test]
fn operations_are_answered_one_after_the_other() {
    let packet = hex("7F FF 00 01 AA");
    let assets = tables(0xf001, &[mpt(&[video(5)])]);
    let list = tables(0, &[plt(&[service_at(0x0401, 0xf001)])]);
    let both = [list, assets].concat();
    let operations = [
        Operation::Dropped,
        push(5, &packet),
        push(4, &packet[..3]),
        push(6, &packet),
        Operation::Dropped,
        push(5, &packet[3..]),
        push(200, &both),
        Operation::Dropped,
    ];
    let narrowed = tables(0xf001, &[mpt(&[])]);
    let list = &both[..both.len() - tables(0xf001, &[mpt(&[video(5)])]).len()];
    let out = [list, &narrowed].concat();
    let length = hex(&format!("{:08X}", out.len()));
    let answer = [
        hex("00"),
        hex("00 00000000"),
        hex("00 00000005 00000001 00000001 00000000 00000000 00000000 00000000"),
        packet.clone(),
        hex("00 00000000 00000000 00000000 00000000 00000000 00000003 00000000"),
        hex("06 00000000 00000000 00000000 00000000 00000000 00000003 00000000"),
        hex("00 00000000"),
        hex("00 00000005 00000001 00000001 00000000 00000000 00000000 00000000"),
        packet.clone(),
        [hex("00"), length].concat(),
        hex("00000002 00000002 00000001 00000000 00000000 00000000"),
        out,
        hex("00 00000001"),
        BEHIND.to_vec(),
    ];
    assert_eq!(answered_calls(calls(&operations)), answer.concat());
}

#[test]
fn calls_without_operations_are_answered_by_their_start() {
    assert_eq!(answered_calls(calls(&[])), [&[0][..], &BEHIND].concat());
}

/// With other assets wanted a stream and calls, and narrowings with modes and without, are answered alike.
#[test]
fn the_kinds_are_answered_alike_where_both_can_ask() {
    for seed in 0..40 {
        let made = maker::case(seed);
        let stream = oracle::cases::Stream::from(&made);
        let pushes = stream.chunks.iter().map(|chunk| push(made.room, chunk));
        let mut operations: Vec<_> = pushes.take(1_023).collect();
        let stream = oracle::cases::Stream {
            chunks: stream.chunks[..operations.len()].to_vec(),
            ..stream
        };
        operations.push(Operation::Dropped);
        let calls = Calls {
            limits: made.limits,
            options: made.options,
            ..calls(&operations)
        };
        let mut by_stream = answered(&written(&[Case::Stream(stream)]));
        if by_stream.len() > 1 {
            by_stream.insert(by_stream.len() - 4, 0);
        }
        assert_eq!(answered(&written(&[Case::Calls(calls)])), by_stream);
        for input in maker::inputs(seed) {
            let [without, with] = [Narrowing::from(&input), Narrowing::with_modes(&input)]
                .map(|case| answered(&written(&[Case::Narrowing(case)])));
            assert_eq!(without, with, "seed {seed}");
        }
    }
}

/// The oracle and the second filter, and with other assets wanted the original, on what the maker makes.
#[test]
fn the_filters_agree_on_the_calls_of_the_first_seeds() {
    for seed in 0..150 {
        let (made, inputs) = (maker::calls(seed), maker::wished_inputs(seed));
        answered(&written(&[Case::Calls(Calls::from(&made))]));
        for input in &inputs {
            answered(&written(&[Case::Narrowing(Narrowing::with_modes(input))]));
        }
        let relay = maker::plain_ip_calls(seed);
        answered(&written(&[Case::Calls(Calls::from(&relay))]));
    }
}

/// What the maker says of its calls: each refusal occurs, and exact outputs are exact.
#[test]
fn the_makers_calls_are_refused_in_every_way() {
    let mut starts = [0; 10];
    let mut pushes = [0; 10];
    let mut exact = 0;
    for seed in 0..400 {
        let made = maker::calls(seed);
        let mut filter = match Plain::start(made.limits, made.options, made.modes) {
            Ok(filter) => filter,
            Err(number) => {
                starts[usize::from(number)] += 1;
                continue;
            }
        };
        starts[0] += 1;
        for (room, chunk) in Calls::from(&made).pushes() {
            exact += usize::from(room == filter.held() + chunk.len());
            let refusal = filter.push(chunk, room).err().unwrap_or(0);
            pushes[usize::from(refusal)] += 1;
        }
    }
    println!("{starts:?} {pushes:?} {exact}");
    assert!([1, 2, 3, 9].iter().all(|&number| starts[number] >= 5));
    assert!(starts[0] > 250 && pushes[0] > 4_000 && exact > 1_000);
    assert!(pushes[5] >= 10 && pushes[6] >= 20);
}
