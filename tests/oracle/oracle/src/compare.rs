//! Comparing two filters on what the maker makes: `compare` the original with the plain one, `same` the
//! original at its own limits with the untouched one.

use std::fmt::Debug;
use std::ops::Range;

use face::{Call, Engine, Modes};
use original::{Original, Untouched};
use plain::Plain;

use crate::cases::{Narrowing, Stream};

/// How much was compared, how many streams and narrowings differed, and where the first difference is.
#[derive(Debug, Default)]
pub struct Outcome {
    pub streams: u64,
    pub calls: u64,
    pub bytes: u64,
    pub narrowings: u64,
    pub differences: u64,
    pub first: Option<String>,
}

impl Outcome {
    fn note(&mut self, seed: u64, compared: Result<(), String>) {
        if let Err(difference) = compared {
            self.differences += 1;
            self.first
                .get_or_insert(format!("seed {seed}: {difference}"));
        }
    }
}

/// The original and the plain filter on the seeds' streams and narrowings.
pub fn compare(seeds: Range<u64>) -> Outcome {
    let mut outcome = Outcome::default();
    for seed in seeds {
        let made = maker::case(seed);
        let compared = streams(&Stream::from(&made), &mut outcome);
        outcome.note(seed, compared);
        for (nth, input) in maker::inputs(seed).iter().enumerate() {
            let compared = narrowings(&Narrowing::from(input));
            outcome.narrowings += 1;
            outcome.note(
                seed,
                compared.map_err(|text| format!("narrowing {nth}, {text}")),
            );
        }
    }
    outcome
}

/// The start, then all calls one by one, each filter going on with its own state.
fn streams(case: &Stream, outcome: &mut Outcome) -> Result<(), String> {
    outcome.streams += 1;
    let original = Original::start(case.limits, case.options, Modes::OFF);
    let plain = Plain::start(case.limits, case.options, Modes::OFF);
    let (mut original, mut plain) = match (original, plain) {
        (Ok(original), Ok(plain)) => (original, plain),
        (original, plain) => return equal("start", &original.err(), &plain.err()),
    };
    for (nth, chunk) in case.chunks.iter().enumerate() {
        outcome.calls += 1;
        outcome.bytes += chunk.len() as u64;
        equal(
            &format!("call {nth}"),
            &observed(&mut original, chunk, case.room),
            &observed(&mut plain, chunk, case.room),
        )?;
    }
    equal("end", &original.dropped(), &plain.dropped())
}

/// All that a call shows: its answer, and the held bytes and dropped identifiers after it.
type Observed = (Result<Call, u8>, usize, u32);

fn observed<E: Engine>(engine: &mut E, chunk: &[u8], room: usize) -> Observed {
    let answer = engine.push(chunk, room);
    (answer, engine.held(), engine.dropped())
}

fn narrowings(case: &Narrowing) -> Result<(), String> {
    let &Narrowing {
        kind,
        options,
        modes,
        identifier,
        room,
        input,
        ..
    } = case;
    equal(
        &format!("{kind:?}"),
        &Original::narrow(kind, options, modes, identifier, input, room),
        &Plain::narrow(kind, options, modes, identifier, input, room),
    )
}

/// The original at its own limits and the untouched one, by bytes.
pub fn same(seeds: Range<u64>) -> Outcome {
    let mut outcome = Outcome::default();
    for seed in seeds {
        let made = maker::plain_case(seed);
        let compared = untouched(&Stream::from(&made), &mut outcome);
        outcome.note(seed, compared);
    }
    outcome
}

fn untouched(case: &Stream, outcome: &mut Outcome) -> Result<(), String> {
    outcome.streams += 1;
    let mut untouched = Untouched::new(case.options);
    let mut original = Original::start(original::OWN_LIMITS, case.options, Modes::OFF)
        .map_err(|number| format!("start: refused {number}"))?;
    for (nth, chunk) in case.chunks.iter().enumerate() {
        outcome.calls += 1;
        outcome.bytes += chunk.len() as u64;
        let answer = original.push(chunk, original::OWN_LIMITS.work);
        equal(
            &format!("call {nth}"),
            &answer.map(|call| call.out),
            &Ok(untouched.push(chunk)),
        )?;
    }
    Ok(())
}

fn equal<T: Debug + PartialEq>(place: &str, original: &T, other: &T) -> Result<(), String> {
    if original == other {
        return Ok(());
    }
    let (original, other) = (format!("{original:02x?}"), format!("{other:02x?}"));
    let pairs = original.bytes().zip(other.bytes());
    let at = pairs.take_while(|(one, other)| one == other).count();
    Err(format!(
        "{place}\n original: {}\n other:    {}",
        around(&original, at),
        around(&other, at)
    ))
}

/// A text from a little before its place `at`; an answer can have many bytes.
fn around(text: &str, at: usize) -> &str {
    &text[at.saturating_sub(100)..text.len().min(at + 200)]
}
