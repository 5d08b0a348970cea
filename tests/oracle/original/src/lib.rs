//! 000 itself, three times: `Original`, with 01's limits, counts and refusals, `Untouched`, as it is, and
//! `Parts`, each of its parts alone. The build puts 000 in (see `build.rs`); the readers that it calls are the
//! stand-ins beside this crate.

use face::{Call, Engine, Kind, Limits, Modes, Narrowed};
// What 000 takes from the module above it.
use face::{Options, Part};

include!(concat!(env!("OUT_DIR"), "/modules.rs"));

pub use parted::{Learned, Parts};

/// Limits at which `Original` and `Untouched` answer alike, as long as no more than 64 identifiers bring
/// MPTs: every packet fits, and T and M are 000's own.
pub const OWN_LIMITS: Limits = Limits {
    work: 131_078,
    total: 16 << 20,
    most: 4 << 20,
    maps: MAP_ROOM,
};

const MAP_ROOM: usize = 32_768;

/// The longest input of narrowing.
const NARROWED: usize = 65_539;

/// 000 with 01's limits.
pub struct Original {
    limits: Limits,
    filter: patched::Filter,
}

impl Original {
    /// Whether it can be asked with these options and modes: 000 has no wish of other assets, it wants them all, and it has
    /// no modes.
    pub fn knows(options: &Options, modes: &Modes) -> bool {
        options.other && modes.all_off()
    }
}

/// A wish that 000 does not know would be passed over in silence.
fn must_know(options: &Options) {
    assert!(
        Original::knows(options, &Modes::OFF),
        "the original wants all other assets, and can't be asked without them: {options:?}"
    );
}

/// So would a mode.
fn must_have_no_mode(modes: &Modes) {
    assert!(
        modes.all_off(),
        "the original has no modes, and can't be asked with one: {modes:?}"
    );
}

/// It panics where it is asked with options or modes that it does not know.
impl Engine for Original {
    fn start(limits: Limits, options: Options, modes: Modes) -> Result<Self, u8> {
        must_know(&options);
        must_have_no_mode(&modes);
        refuse_if(1, !(4_096..=131_078).contains(&limits.work))?;
        refuse_if(2, !(1..=16_777_216).contains(&limits.total))?;
        refuse_if(2, !(1..=limits.total).contains(&limits.most))?;
        refuse_if(3, limits.maps != MAP_ROOM)?;
        let filter = patched::Filter::start(limits, options);
        Ok(Self { limits, filter })
    }

    fn push(&mut self, chunk: &[u8], room: usize) -> Result<Call, u8> {
        refuse_if(5, chunk.len() > self.limits.work - self.limits.packet())?;
        refuse_if(6, room < self.held() + chunk.len())?;
        Ok(self.filter.call(chunk))
    }

    fn held(&self) -> usize {
        self.filter.held()
    }

    fn dropped(&self) -> u32 {
        self.filter.dropped()
    }

    fn narrow(
        kind: Kind,
        options: Options,
        modes: Modes,
        identifier: u16,
        input: &[u8],
        room: usize,
    ) -> Narrowed {
        must_know(&options);
        must_have_no_mode(&modes);
        let refusal =
            refuse_if(5, input.len() > NARROWED).and_then(|()| refuse_if(6, room < input.len()));
        match refusal {
            Err(number) => Narrowed::Refused(number),
            Ok(()) => patched::Filter::narrow(kind, options, identifier, input),
        }
    }
}

/// A refusal by 01's number. Asked in rising order, the lowest that applies is given.
fn refuse_if(number: u8, applies: bool) -> Result<(), u8> {
    if applies { Err(number) } else { Ok(()) }
}

/// 000 as it is, without limits, counts or refusals.
pub struct Untouched(untouched::Filter);

impl Untouched {
    pub fn new(options: Options) -> Self {
        must_know(&options);
        Self(untouched::Filter::new(options))
    }

    /// A stream, `first` bytes at once and the others in chunks of `size`; answers how many bytes were written. They stand
    /// one behind the other in the output or, not kept, each chunk's at its start.
    pub fn stream(
        &mut self,
        stream: &[u8],
        first: usize,
        size: usize,
        kept: bool,
        out: &mut Vec<u8>,
    ) -> usize {
        out.clear();
        let (start, rest) = stream.split_at(first);
        let pass = |chunk| {
            if !kept {
                out.clear();
            }
            let before = out.len();
            self.0.push(chunk, out);
            out.len() - before
        };
        let start = (first > 0).then_some(start);
        start.into_iter().chain(rest.chunks(size)).map(pass).sum()
    }

    /// The bytes that are written for a chunk.
    pub fn push(&mut self, chunk: &[u8]) -> Vec<u8> {
        let mut out = Vec::new();
        self.0.push(chunk, &mut out);
        out
    }
}
