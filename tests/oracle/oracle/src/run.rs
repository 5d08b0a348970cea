//! `run`: one stream through one filter, each call told in a line of text.

use std::fmt::Write;

use face::{Call, Engine, Limits, Modes, Options};

/// The text that tells the run, and the bytes that were written.
#[derive(Debug, Default, PartialEq, Eq)]
pub struct Told {
    pub text: String,
    pub out: Vec<u8>,
}

/// Starts a filter and pushes the bytes. The first chunks have the lengths of `cuts`; what is left goes in
/// chunks of W-P.
pub fn run<E: Engine>(
    limits: Limits,
    options: Options,
    modes: Modes,
    room: usize,
    cuts: &[usize],
    bytes: &[u8],
) -> Told {
    let mut told = Told::default();
    let mut engine = match E::start(limits, options, modes) {
        Ok(engine) => engine,
        Err(number) => {
            told.line(&refused(number));
            return told;
        }
    };
    for chunk in chunks(bytes, cuts, limits.work - limits.packet()) {
        match engine.push(chunk, room) {
            Err(number) => told.line(&refused(number)),
            Ok(call) => {
                told.line(&counts(&call));
                told.out.extend(call.out);
            }
        }
    }
    told.line(&format!("dropped {}", engine.dropped()));
    told
}

/// The bytes in chunks of the lengths that are given, then of `most` bytes; the last has what is left.
fn chunks<'a>(bytes: &'a [u8], cuts: &[usize], most: usize) -> Vec<&'a [u8]> {
    let mut chunks = Vec::new();
    let mut rest = bytes;
    for &cut in cuts {
        let (chunk, after) = rest.split_at(cut.min(rest.len()));
        chunks.push(chunk);
        rest = after;
    }
    chunks.extend(rest.chunks(most));
    chunks
}

pub fn refused(number: u8) -> String {
    format!("refused {number}")
}

fn counts(call: &Call) -> String {
    let counts = &call.counts;
    format!(
        "bytes {} accepted {} written {} rewritten {} skipped {} held {} lost {}",
        counts.bytes,
        counts.accepted,
        counts.written,
        counts.rewritten,
        counts.skipped,
        call.held,
        counts.lost
    )
}

impl Told {
    fn line(&mut self, line: &str) {
        writeln!(self.text, "{line}").expect("a string takes every line");
    }
}
