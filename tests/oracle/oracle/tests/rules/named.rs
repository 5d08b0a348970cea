//! The named cases as a whole: each is found by one name, all kinds and answers occur, and the command writes
//! them in order.

use std::collections::BTreeSet;
use std::process::Command;

use face::{Kind, Modes, Narrowed, Options};
use maker::Operation;
use oracle::cases::{Calls, Case, Narrowing, Reader, Stream};
use oracle::named::{Answer, Named, NamedCalls, NamedStream, Reply, Requested};
use oracle::named::{named, requested, streams};

use crate::subject::{Subject, each_knowing_both};

fn damaged() -> Vec<Named> {
    let cases = named().into_iter();
    cases
        .filter(|case| case.name.starts_with("damaged "))
        .collect()
}

#[test]
fn names_are_unique() {
    let (cases, streams) = (named(), streams());
    let requested = requested();
    let names = cases.iter().map(|case| &case.name);
    let names = names.chain(streams.iter().map(|case| &case.name));
    let names = names.chain(requested.iter().map(|case| match case {
        Requested::Narrowing(case) => &case.name,
        Requested::Calls(calls) => &calls.name,
    }));
    let names: BTreeSet<_> = names.collect();
    assert_eq!(names.len(), cases.len() + streams.len() + requested.len());
}

/// The second filter answers as the original does, and both as is stated.
#[test]
fn answers_are_those_that_stand_beside_the_cases() {
    for case in named() {
        let found = Subject::original().answer(&case.input);
        if let Narrowed::Changed { out, .. } = &found {
            assert!(out.len() <= case.input.bytes.len(), "{}", case.name);
        }
        assert_eq!(found, Subject::plain().answer(&case.input), "{}", case.name);
        match case.answer {
            Some(answer) => assert_eq!(found, answer, "{}", case.name),
            None => assert!(case.name.starts_with("damaged "), "{}", case.name),
        }
    }
}

/// What a filter answers to a stream. After a refused call as much is held as before it.
fn ran(filter: &Subject, stream: &NamedStream) -> Answer {
    let case = &stream.case;
    let mut run = match (filter.start)(case.limits, case.options, Modes::OFF) {
        Ok(run) => run,
        Err(number) => return Answer::Refused(number),
    };
    let mut calls = Vec::new();
    for chunk in Stream::from(case).chunks {
        let held = run.held();
        let call = run.push(chunk, case.room);
        assert!(call.is_ok() || run.held() == held, "{}", stream.name);
        calls.push(call);
    }
    let dropped = run.dropped();
    Answer::Ran { calls, dropped }
}

#[test]
fn answers_are_those_that_stand_beside_the_streams() {
    for stream in streams() {
        let found = ran(&Subject::original(), &stream);
        assert_eq!(found, ran(&Subject::plain(), &stream), "{}", stream.name);
        match stream.answer {
            Some(answer) => assert_eq!(found, answer, "{}", stream.name),
            None => assert!(stream.name.starts_with("small "), "{}", stream.name),
        }
    }
}

/// What a filter answers to calls. After a refused push as much is held as before it.
pub fn asked(filter: &Subject, name: &str, case: &maker::Calls) -> Result<Vec<Reply>, u8> {
    let mut run = (filter.start)(case.limits, case.options, case.modes)?;
    let answer = |operation: &Operation| match operation {
        Operation::Push { room, chunk } => {
            let held = run.held();
            let call = run.push(chunk, *room);
            assert!(call.is_ok() || run.held() == held, "{name}");
            Reply::Push(call)
        }
        Operation::Dropped => Reply::Dropped(run.dropped()),
    };
    Ok(case.operations.iter().map(answer).collect())
}

/// Every filter that knows the options and modes answers as is stated.
#[test]
fn answers_are_those_that_stand_beside_the_cases_of_requests() {
    for case in requested() {
        match case {
            Requested::Narrowing(Named {
                name,
                input,
                answer,
            }) => {
                let answer = answer.expect("its answer stands beside it");
                each_knowing_both(input.options, input.modes, |filter| {
                    assert_eq!(filter.answer(&input), answer, "{name}");
                });
            }
            Requested::Calls(NamedCalls { name, case, answer }) => {
                each_knowing_both(case.options, case.modes, |filter| {
                    assert_eq!(asked(filter, &name, &case), answer, "{name}");
                })
            }
        }
    }
}

/// What is named for request 1: each flag byte, each refusal, and each kind with each answer.
#[test]
fn the_cases_of_request_1_occur() {
    let (mut starts, mut narrowed) = (BTreeSet::new(), BTreeSet::new());
    let (mut refused, mut changed) = (BTreeSet::new(), 0);
    for case in requested() {
        match case {
            Requested::Narrowing(case) => {
                narrowed.insert(case.input.options.flags());
                changed += usize::from(matches!(case.answer, Some(Narrowed::Changed { .. })));
            }
            Requested::Calls(calls) => {
                starts.insert(calls.case.options.flags());
                refused.extend(calls.answer.as_ref().err());
                let pushes = calls.answer.into_iter().flatten();
                refused.extend(pushes.filter_map(|reply| match reply {
                    Reply::Push(call) => call.err(),
                    Reply::Dropped(_) => None,
                }));
            }
        }
    }
    assert_eq!(starts, (0..32).collect());
    assert!((0..8).all(|wishes| narrowed.contains(&wishes) && narrowed.contains(&(16 | wishes))));
    assert_eq!(refused, BTreeSet::from([1, 2, 3, 5, 6, 9]));
    assert!(changed > 40, "{changed}");
}

/// Starts are refused by each number of 01 that one can have, and calls by each that one can have after a start.
#[test]
fn all_refusals_of_starts_and_calls_occur() {
    let (mut starts, mut pushes) = (BTreeSet::new(), BTreeSet::new());
    for stream in streams() {
        match ran(&Subject::original(), &stream) {
            Answer::Refused(number) => drop(starts.insert(number)),
            Answer::Ran { calls, .. } => pushes.extend(calls.into_iter().filter_map(Result::err)),
        }
    }
    assert_eq!(starts, BTreeSet::from([1, 2, 3]));
    assert_eq!(pushes, BTreeSet::from([5, 6]));
}

/// The side of the original that the bench measures. EIT off would drop a packet there, before it is narrowed.
#[test]
fn the_originals_packet_without_learning_narrows_alike() {
    let packets = named().into_iter();
    let packets: Vec<_> = packets
        .filter(|case| case.input.kind == Kind::Packet)
        .collect();
    let mut changed = 0;
    for Named { name, input, .. } in &packets {
        if let Narrowed::Changed { out, .. } = Subject::original().answer(input) {
            let options = Options {
                eit: true,
                ..input.options
            };
            let mut written = Vec::new();
            original::Parts::new(options).packet(&input.bytes, &mut written);
            assert_eq!(written, out, "{name}");
            changed += 1;
        }
    }
    assert!(changed > 20);
}

/// What cases there are of a kind: refused, unchanged and changed ones, and lengths.
struct Tally {
    refused: BTreeSet<u8>,
    unchanged: usize,
    changed: usize,
    lengths: BTreeSet<usize>,
}

fn tally(kind: Kind, cases: &[Named]) -> Tally {
    let mut tally = Tally {
        refused: BTreeSet::new(),
        unchanged: 0,
        changed: 0,
        lengths: BTreeSet::new(),
    };
    for case in cases.iter().filter(|case| case.input.kind == kind) {
        tally.lengths.insert(case.input.bytes.len());
        match Subject::original().answer(&case.input) {
            Narrowed::Refused(number) => drop(tally.refused.insert(number)),
            Narrowed::Unchanged => tally.unchanged += 1,
            Narrowed::Changed { .. } => tally.changed += 1,
        }
    }
    tally
}

const KINDS: [Kind; 3] = [Kind::Table, Kind::Payload, Kind::Packet];

#[test]
fn all_kinds_answers_and_lengths_occur() {
    for kind in KINDS {
        let tally = tally(kind, &named());
        assert_eq!(tally.refused, BTreeSet::from([5, 6]), "{kind:?}");
        assert!(tally.unchanged > 20 && tally.changed > 20, "{kind:?}");
        for length in [0, 1, 3, 4, 65_538, 65_539, 65_540] {
            assert!(tally.lengths.contains(&length), "{kind:?} {length}");
        }
    }
}

#[test]
fn at_least_300_are_damaged_and_small() {
    let damaged = damaged();
    assert!(damaged.len() >= 300);
    assert!(damaged.iter().all(|case| case.input.bytes.len() <= 420));
    for kind in KINDS {
        let tally = tally(kind, &damaged);
        assert!(tally.changed >= 15, "{kind:?} {}", tally.changed);
        assert!(tally.unchanged >= 50, "{kind:?} {}", tally.unchanged);
    }
}

/// What the command `oracle cases` writes.
pub fn cases(words: &[&str]) -> Vec<u8> {
    let output = Command::new(env!("CARGO_BIN_EXE_oracle"))
        .arg("cases")
        .args(words)
        .output()
        .expect("the command runs");
    assert!(output.status.success(), "{words:?}");
    output.stdout
}

#[test]
fn the_command_writes_them_in_order() {
    let (named, streams) = (named(), streams());
    let narrowings = named
        .iter()
        .map(|case| Case::Narrowing(Narrowing::from(&case.input)));
    let streams = streams
        .iter()
        .map(|stream| Case::Stream(Stream::from(&stream.case)));
    let requested = requested();
    let requested = requested.iter().map(|case| match case {
        Requested::Narrowing(case) => Case::Narrowing(Narrowing::with_modes(&case.input)),
        Requested::Calls(calls) => Case::Calls(Calls::from(&calls.case)),
    });
    let expected: Vec<_> = narrowings.chain(streams).chain(requested).collect();
    let bytes = cases(&["--named"]);
    assert!(bytes.len() < 1_500_000, "{} bytes", bytes.len());
    assert_eq!(Reader::new(&bytes).collect::<Vec<_>>(), expected);
}

#[test]
fn without_streams_the_narrowings_of_the_same_seeds_are_left() {
    let without = cases(&["--seeds", "0..60", "--streams", "0"]);
    let with = cases(&["--seeds", "0..60"]);
    let narrowing = |case: &Case| matches!(case, Case::Narrowing(_));
    let without: Vec<_> = Reader::new(&without).collect();
    let (left, streams): (Vec<_>, Vec<_>) = Reader::new(&with).partition(narrowing);
    assert_eq!(streams.len(), 60);
    assert!(without.iter().all(narrowing) && without.len() > 60);
    assert_eq!(without, left);
}

#[test]
fn of_calls_the_series_and_the_narrowings_can_be_had_alone() {
    let seeds = ["--seeds", "0..60", "--calls"];
    let words = |more: &[&'static str]| cases(&[&seeds, more].concat());
    let (all, series, narrowings) = (
        words(&[]),
        words(&["--narrowing", "0"]),
        words(&["--streams", "0"]),
    );
    let is_calls = |case: &Case| matches!(case, Case::Calls(_));
    let with_modes = |case: &Case| matches!(case, Case::Narrowing(case) if case.with_modes);
    let (calls, rest): (Vec<_>, Vec<_>) = Reader::new(&all).partition(is_calls);
    assert_eq!(calls.len(), 60);
    assert!(rest.iter().all(with_modes) && rest.len() == 60 * 8);
    assert_eq!(Reader::new(&series).collect::<Vec<_>>(), calls);
    assert_eq!(Reader::new(&narrowings).collect::<Vec<_>>(), rest);
}

#[test]
fn other_on_and_off_part_the_cases_of_the_same_seeds() {
    let words = |more: &[&'static str]| cases(&[&["--seeds", "0..60", "--calls"], more].concat());
    let (all, on, off) = (
        words(&[]),
        words(&["--other", "on"]),
        words(&["--other", "off"]),
    );
    let (wanted, unwanted): (Vec<_>, Vec<_>) =
        Reader::new(&all).partition(|case| case.options().other);
    assert!(wanted.len() > 100 && unwanted.len() > 100);
    assert_eq!(Reader::new(&on).collect::<Vec<_>>(), wanted);
    assert_eq!(Reader::new(&off).collect::<Vec<_>>(), unwanted);
    let few = words(&["--other", "off", "--streams", "0", "--narrowing", "1"]);
    assert_eq!(Reader::new(&few).count(), 60, "one is left of each seed");
}
