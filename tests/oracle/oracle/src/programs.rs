//! 01's two programs: `filter` writes the filtered stream, `sums` a line of sums. A refusal prints one line
//! and nothing after it.

use std::io::{self, Read, Write};

use face::{Call, Counts, Engine, Limits, Modes, Options};

const CHUNK: usize = 32_768;
const LIMITS: Limits = Limits {
    work: 65_536,
    total: 65_536,
    most: 65_536,
    maps: 32_768,
};

/// An input of the two programs from a seed. The seeds take turns: a stream like a broadcast, one of tables, and one of
/// the maker's, which may be damaged or hostile. Seed 0 is the example: a service of six, without captions and carousels.
/// From seed 24 on other assets are not wanted.
pub fn input(seed: u64) -> Vec<u8> {
    let stream = match seed % 3 {
        0 => maker::air(seed, 100_000),
        1 => maker::dense(seed, 40_000),
        _ => maker::plain_case(seed).bytes,
    };
    let service = 0x0401 + (seed % 6) as u16;
    [&[flags(seed)][..], &service.to_be_bytes(), &stream].concat()
}

/// Without other assets captions are wanted, but for each eighth seed, which is refused.
fn flags(seed: u64) -> u8 {
    let wishes = 0b1100 ^ (seed % 16) as u8;
    let captions = u8::from(!seed.is_multiple_of(8));
    match seed {
        0..24 => wishes,
        _ => wishes | captions | Options::OTHER_OFF,
    }
}

/// Writes the filtered stream; "bytes held at the end are not written".
pub fn filter<E: Engine>(input: impl Read, mut output: impl Write) -> io::Result<()> {
    let end = stream::<E>(input, |call| output.write_all(&call.out))?;
    if let Err(number) = end {
        refused(&mut output, number)?;
    }
    output.flush()
}

/// Writes "a line of sums: packets accepted, packets written, packets rewritten, bytes skipped, bytes held
/// at the end, maps lost".
pub fn sums<E: Engine>(input: impl Read, mut output: impl Write) -> io::Result<()> {
    let mut sums = Counts::default();
    let end = stream::<E>(input, |call| {
        add(&mut sums, &call.counts);
        Ok(())
    })?;
    match end {
        Err(number) => refused(&mut output, number),
        Ok(held) => writeln!(
            output,
            "packets {} written {} rewritten {} skipped {} held {held} lost {}",
            sums.accepted, sums.written, sums.rewritten, sums.skipped, sums.lost
        ),
    }
}

/// Adds the counts that the line of sums tells.
fn add(sums: &mut Counts, counts: &Counts) {
    sums.accepted += counts.accepted;
    sums.written += counts.written;
    sums.rewritten += counts.rewritten;
    sums.skipped += counts.skipped;
    sums.lost += counts.lost;
}

fn refused(output: &mut impl Write, number: u8) -> io::Result<()> {
    writeln!(output, "refused {number}")
}

/// Pushes the stream and hands each call to `each`. Gives how many bytes are held at the end, or the
/// refusal.
fn stream<E: Engine>(
    mut input: impl Read,
    mut each: impl FnMut(Call) -> io::Result<()>,
) -> io::Result<Result<usize, u8>> {
    let Some(options) = options(&filled(&mut input, 3)?) else {
        return Ok(Err(8));
    };
    let mut engine = match E::start(LIMITS, options, Modes::OFF) {
        Ok(engine) => engine,
        Err(number) => return Ok(Err(number)),
    };
    loop {
        let chunk = filled(&mut input, CHUNK)?;
        if chunk.is_empty() {
            return Ok(Ok(engine.held()));
        }
        match engine.push(&chunk, LIMITS.work) {
            Ok(call) => each(call)?,
            Err(number) => return Ok(Err(number)),
        }
    }
}

/// The flag byte and the service. `None` is refusal 8: "input under three bytes", or a flag bit above bit 4 set.
fn options(head: &[u8]) -> Option<Options> {
    match *head {
        [flags @ 0..=Options::MOST_FLAGS, high, low] => {
            Some(Options::from_flags(flags, u16::from_be_bytes([high, low])))
        }
        _ => None,
    }
}

/// The next bytes, `most` of them unless the input ends: a chunk is filled from short reads, since cuts can
/// change the output.
fn filled(input: &mut impl Read, most: usize) -> io::Result<Vec<u8>> {
    let mut bytes = Vec::with_capacity(most);
    input.take(most as u64).read_to_end(&mut bytes)?;
    Ok(bytes)
}
