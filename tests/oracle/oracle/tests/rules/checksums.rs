//! The recount of lengths and checksums: it finds each kind of damage, and what it finds right is right by the other
//! arithmetic too.

use std::fs;

use face::{Kind, Modes};
use oracle::answers::answers;
use oracle::cases::{Calls, Case, Narrowing, Operation, Selection, wished_of_seed};
use oracle::checksums::{Recount, recount};
use plain::Plain;

use crate::commands::command;
use crate::format::{narrowing, written};
use crate::subject::LIMITS;
use oracle::builders::*;
use oracle::datagrams::{Heads, IP};

/// The MMTP packet of an MPT with a caption, or without.
fn listing(captions: bool) -> Vec<u8> {
    let entries = if captions {
        vec![video(1), caption(2)]
    } else {
        vec![video(1)]
    };
    mmtp(2, 0xf001, &whole(&pa(&[mpt(&entries)])))
}

/// A narrowing of a packet as the only case, and the answer that it is changed to this.
fn changed_to(before: &[u8], after: &[u8]) -> (Vec<u8>, Vec<u8>) {
    let case = Narrowing {
        with_modes: true,
        options: NO_CAPTIONS,
        modes: Modes::PLAIN_IP,
        room: before.len(),
        ..narrowing(Kind::Packet, before)
    };
    let mut answer = vec![0, 1];
    answer.extend((after.len() as u32).to_be_bytes());
    answer.extend([0; 24]);
    answer.extend(after);
    (written(&[Case::Narrowing(case)]), answer)
}

/// A packet that is pushed in two chunks with junk before it, and the answer that it is written as this.
fn pushed(before: &[u8], after: &[u8]) -> (Vec<u8>, Vec<u8>) {
    let stream = [&[1, 2, 3][..], before].concat();
    let (first, rest) = stream.split_at(20);
    let case = Calls {
        limits: LIMITS,
        options: NO_CAPTIONS,
        modes: Modes::PLAIN_IP,
        operations: vec![
            Operation::Push {
                room: 500,
                chunk: first,
            },
            Operation::Dropped,
            Operation::Push {
                room: 500,
                chunk: rest,
            },
        ],
        cut: false,
    };
    let call = |out: &[u8]| [&[0][..], &(out.len() as u32).to_be_bytes(), &[0; 24], out].concat();
    let answer = [vec![0], call(&[]), vec![0; 5], call(after)].concat();
    (written(&[Case::Calls(case)]), answer)
}

/// Both ways in which a packet is answered.
fn both(before: &[u8], after: &[u8]) -> [Recount; 2] {
    [changed_to(before, after), pushed(before, after)]
        .map(|(cases, answers)| recount(&cases, &answers).expect("answers to these cases"))
}

fn right() -> Recount {
    Recount {
        verified: 1,
        ..Recount::default()
    }
}

#[test]
fn what_is_right_is_counted() {
    for heads in [
        Heads::v4(),
        Heads::v4().words(11),
        Heads::v6(),
        Heads::v4().unsummed(),
    ] {
        let (before, after) = (heads.around(&listing(true)), heads.around(&listing(false)));
        for recount in both(&before, &after) {
            assert_eq!(recount, right());
        }
    }
}

/// Each length and each checksum, by one.
#[test]
fn a_damaged_length_or_sum_is_found() {
    for (heads, ip_length) in [(Heads::v4(), IP + 2), (Heads::v6(), IP + 4)] {
        let (before, after) = (heads.around(&listing(true)), heads.around(&listing(false)));
        let mut places = vec![ip_length, heads.udp_length_at(), heads.udp_checksum_at()];
        if after[1] == 1 {
            places.push(IP + 10);
        }
        for at in places {
            for beside in [0, 1] {
                let mut wrong = after.clone();
                wrong[at + beside] ^= 1;
                for recount in both(&before, &wrong) {
                    assert_eq!((recount.verified, recount.wrong), (1, 1), "{at}");
                    assert!(recount.first.is_some());
                }
            }
        }
    }
}

/// The content is covered by the UDP checksum.
#[test]
fn damaged_content_is_found() {
    let heads = Heads::v6();
    let mut wrong = heads.around(&listing(false));
    *wrong.last_mut().expect("it has bytes") ^= 0x10;
    for recount in both(&heads.around(&listing(true)), &wrong) {
        assert_eq!(recount.wrong, 1);
    }
}

#[test]
fn a_zero_stays_in_ipv4_and_nowhere_else() {
    let (four, six) = (Heads::v4(), Heads::v6());
    let wrong = [
        (four.clone(), four.clone().unsummed()),
        (four.clone().unsummed(), four),
        (six.clone(), six.clone().unsummed()),
        (six.clone().unsummed(), six.unsummed()),
    ];
    for (before, after) in wrong {
        let (before, after) = (before.around(&listing(true)), after.around(&listing(false)));
        for recount in both(&before, &after) {
            assert_eq!(recount.wrong, 1);
        }
    }
}

/// 0 and 0xffff stand for the same sum; which one goes out is told.
#[test]
fn the_two_zeros_are_told_apart() {
    let heads = Heads::v4().with_udp_sum_zero(&listing(false));
    let heads = heads.with_header_sum_zero(&listing(false));
    let (before, after) = (heads.around(&listing(true)), heads.around(&listing(false)));
    assert_eq!(after[heads.udp_checksum_at()..][..2], [0xff, 0xff]);
    assert_eq!(after[IP + 10..IP + 12], [0, 0]);
    for (at, other) in [(heads.udp_checksum_at(), 0), (IP + 10, 0xff)] {
        let mut wrong = after.clone();
        wrong[at..at + 2].copy_from_slice(&[other; 2]);
        assert!(
            both(&before, &wrong)
                .iter()
                .all(|recount| recount.wrong == 1)
        );
    }
    assert!(
        both(&before, &after)
            .iter()
            .all(|recount| recount.wrong == 0)
    );
}

/// Heads that pass, and are passed on with all lengths and checksums right.
#[test]
fn what_must_pass_is_found() {
    let (four, six) = (Heads::v4(), Heads::v6());
    for heads in [
        four.clone().put(0, &[0x65]),
        four.clone().put(6, &[0x20]),
        four.clone().put(7, &[1]),
        four.clone().put(9, &[6]),
        four.clone().ports(9, 123),
        six.clone().put(0, &[0x40]),
        six.clone().put(6, &[44]),
        six.ports(9, 123),
    ] {
        let (before, after) = (heads.around(&listing(true)), heads.around(&listing(false)));
        for recount in both(&before, &after) {
            assert_eq!((recount.verified, recount.wrong), (1, 1), "{heads:?}");
        }
    }
    let mut before = four.around(&listing(true));
    before[four.udp_length_at()] ^= 1;
    let after = four.around(&listing(false));
    assert!(
        both(&before, &after)
            .iter()
            .all(|recount| recount.wrong == 1)
    );
}

#[test]
fn a_packet_from_nowhere_is_found() {
    let heads = Heads::v4();
    let foreign = heads.clone().ports(1, 2).around(&listing(false));
    let (cases, answers) = pushed(&heads.around(&listing(true)), &foreign);
    let recount = recount(&cases, &answers).expect("answers to these cases");
    assert!(
        recount
            .first
            .expect("it is wrong")
            .contains("comes from no packet")
    );
}

#[test]
fn what_was_not_rewritten_is_not_counted() {
    let packet = Heads::v4().around(&listing(true));
    let mut spoilt = packet.clone();
    spoilt[IP + 10] ^= 1;
    for packet in [&packet, &spoilt] {
        let (cases, answers) = pushed(packet, packet);
        assert_eq!(recount(&cases, &answers), Ok(Recount::default()));
    }
}

#[test]
fn answers_to_other_cases_are_an_error() {
    let packet = Heads::v4().around(&listing(true));
    let (cases, mut answers) = pushed(&packet, &packet);
    answers.push(0);
    assert!(recount(&cases, &answers).is_err());
    answers.truncate(answers.len() - 2);
    assert!(recount(&cases, &answers).is_err());
}

/// The second filter's answers to the maker's cases.
#[test]
fn the_second_filter_sums_as_the_recount_does() {
    let selection = Selection {
        series: true,
        narrowings: 8,
    };
    let of_seed = |seed| wished_of_seed(seed, selection, Modes::PLAIN_IP, None);
    let cases: Vec<u8> = (0..200).flat_map(of_seed).collect();
    let recount = recount(&cases, &answers::<Plain>(&cases)).expect("its own answers");
    assert_eq!(recount.first, None);
    assert!(recount.verified > 1_000, "{}", recount.verified);
}

/// How the command ends on these files, and the last line that it writes.
fn by_files(name: &str, (cases, answers): (Vec<u8>, Vec<u8>)) -> (Option<i32>, String) {
    let [first, second] = [("cases", cases), ("answers", answers)].map(|(what, bytes)| {
        let path = format!("{}/{name}-{what}", env!("CARGO_TARGET_TMPDIR"));
        fs::write(&path, bytes).expect("a file is written");
        path
    });
    let output = command(&["checksums", &first, &second], &[]);
    let text = String::from_utf8(output.stdout).expect("text");
    let last = text.lines().last().unwrap_or_default().to_owned();
    (output.status.code(), last)
}

/// It ends well only where packets were rewritten and all of them are right.
#[test]
fn the_command_tells_right_from_wrong() {
    let heads = Heads::v4();
    let (before, after) = (heads.around(&listing(true)), heads.around(&listing(false)));
    let mut wrong = after.clone();
    wrong[IP + 10] ^= 1;
    let line = |rewritten, wrong| {
        format!("checksums: {rewritten} plain IP packets rewritten, {wrong} wrong")
    };
    assert_eq!(
        by_files("right", pushed(&before, &after)),
        (Some(0), line(1, 0))
    );
    assert_eq!(
        by_files("wrong", pushed(&before, &wrong)),
        (Some(1), line(1, 1))
    );
    assert_eq!(
        by_files("none", pushed(&before, &before)),
        (Some(1), line(0, 0))
    );
    let (cases, answers) = pushed(&before, &after);
    let cut = (cases, answers[..answers.len() - 1].to_vec());
    assert_eq!(by_files("cut", cut), (Some(2), String::new()));
}
