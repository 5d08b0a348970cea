//! How a stream is cut into chunks, and how long an output each call is lent.
//! Both know what a filter would hold, so that they can lie exactly at an edge.

use face::{Limits, Options};

use crate::rng::Rng;
use crate::tags::Tag;
use crate::tlv;

/// Bounds that let a program with fixed rooms take every case.
pub(crate) const CUTS_MOST: usize = 1_024;
pub(crate) const CUT_MOST: usize = 131_200;
pub(crate) const ROOM_MOST: usize = 262_400;

#[derive(Clone, Copy, PartialEq, Eq)]
enum Style {
    /// The longest chunks that are taken.
    Longest,
    Any,
    Short,
    /// At the ends of packets, or a byte or two beside them.
    Ends,
    NearEnds,
    /// One byte each, for a while.
    Single,
    /// Some longer than is taken.
    Past,
}

/// The lengths of the chunks. `ends` are the offsets at which packets end; `past` has some chunks too long.
pub(crate) fn cuts(rng: &mut Rng, limits: &Limits, ends: &[usize], past: bool) -> Vec<usize> {
    let most = limits.work - limits.packet();
    let length = ends.last().copied().unwrap_or(0);
    let style = style(rng, past);
    let mut out = Vec::new();
    let mut at = 0;
    while at < length {
        let left = length - at;
        let scarce = out.len() + left.div_ceil(most) + 2 >= CUTS_MOST;
        let next = if scarce {
            most
        } else {
            wish(rng, style, most, at, ends)
        };
        let next = next.min(left);
        note_length(rng, next, most);
        out.push(next);
        at += next;
    }
    out
}

fn style(rng: &mut Rng, past: bool) -> Style {
    if past {
        rng.note(Tag::CutsPast);
        return Style::Past;
    }
    let (tag, style) = rng.weighted(&[
        (25, (Tag::CutsLongest, Style::Longest)),
        (20, (Tag::CutsAny, Style::Any)),
        (15, (Tag::CutsShort, Style::Short)),
        (12, (Tag::CutsAtEnds, Style::Ends)),
        (10, (Tag::CutsNearEnds, Style::NearEnds)),
        (10, (Tag::CutsSingle, Style::Single)),
    ]);
    rng.note(tag);
    style
}

fn wish(rng: &mut Rng, style: Style, most: usize, at: usize, ends: &[usize]) -> usize {
    if rng.chance(2) {
        return 0;
    }
    match style {
        Style::Longest => most,
        Style::Any => rng.within(0..=most),
        Style::Short => rng.within(0..=400.min(most)),
        Style::Single if rng.chance(98) => 1,
        Style::Single => most,
        Style::Past if rng.chance(50) => most + 1,
        Style::Past if rng.chance(5) => rng.within(most + 1..=CUT_MOST),
        Style::Past => rng.within(most.saturating_sub(600)..=most),
        Style::Ends | Style::NearEnds => {
            let further = ends.partition_point(|&end| end <= at) + rng.below(8);
            let end = ends[further.min(ends.len() - 1)];
            let beside = if style == Style::Ends {
                2
            } else {
                rng.below(5)
            };
            (end - at + beside).saturating_sub(2).min(most)
        }
    }
}

fn note_length(rng: &mut Rng, length: usize, most: usize) {
    if length == 0 {
        rng.note(Tag::ChunkEmpty);
    } else if length == most {
        rng.note(Tag::ChunkLongest);
    } else if length == most + 1 {
        rng.note(Tag::ChunkPastByOne);
    }
}

/// The length of the lent outputs, where the longest that some call needs is `needed`.
pub(crate) fn room(rng: &mut Rng, needed: usize, work: usize) -> usize {
    match rng.below(10) {
        0..3 => {
            rng.note(Tag::RoomExact);
            needed
        }
        3 => {
            rng.note(Tag::RoomMost);
            ROOM_MOST
        }
        _ => work.max(needed),
    }
}

/// A length that some call finds too short; `needed` is not 0.
pub(crate) fn short_room(rng: &mut Rng, needed: usize) -> usize {
    match rng.below(10) {
        0 | 1 => {
            rng.note(Tag::RoomNone);
            0
        }
        2 => rng.below(needed),
        _ => {
            rng.note(Tag::RoomOneShort);
            needed - 1
        }
    }
}

/// The longest output that some call of this case needs, if none is refused for its output.
pub(crate) fn needed(limits: &Limits, options: &Options, bytes: &[u8], cuts: &[usize]) -> usize {
    let mut held = Held::new(limits, options);
    let mut at = 0;
    let mut needed = 0;
    for &cut in cuts {
        let chunk = &bytes[at..at + cut];
        at += cut;
        if let Some(room) = held.needed(cut) {
            needed = needed.max(room);
            held.take(chunk);
        }
    }
    needed
}

/// What a filter holds from call to call.
pub(crate) struct Held {
    bytes: Vec<u8>,
    packet: usize,
    chunk_most: usize,
    copies_all: bool,
}

impl Held {
    pub(crate) fn new(limits: &Limits, options: &Options) -> Self {
        Self {
            bytes: Vec::new(),
            packet: limits.packet(),
            chunk_most: limits.work - limits.packet(),
            copies_all: options.copies_all(),
        }
    }

    /// The output that a call with a chunk of this length needs; none where the chunk is too long.
    pub(crate) fn needed(&self, chunk: usize) -> Option<usize> {
        (chunk <= self.chunk_most).then_some(self.bytes.len() + chunk)
    }

    /// A call with this chunk that is not refused.
    pub(crate) fn take(&mut self, chunk: &[u8]) {
        if !self.copies_all {
            self.bytes.extend_from_slice(chunk);
            self.bytes.drain(..taken(&self.bytes, self.packet));
        }
    }
}

/// How much of a run is taken from it as packets or skipped.
fn taken(run: &[u8], packet: usize) -> usize {
    let mut at = 0;
    while at + 4 <= run.len() {
        let length = 4 + usize::from(u16::from_be_bytes([run[at + 2], run[at + 3]]));
        let known = matches!(
            run[at + 1],
            tlv::IPV4 | tlv::IPV6 | tlv::COMPRESSED | tlv::CONTROL | tlv::NULL
        );
        let followed = run.get(at + length).is_none_or(|&next| next == tlv::SYNC);
        if run[at] != tlv::SYNC || !known || length > packet || !followed {
            at += 1;
        } else if at + length > run.len() {
            break;
        } else {
            at += length;
        }
    }
    at
}
