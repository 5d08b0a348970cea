//! The streams of the table: each has some 1 MiB, what a filter is to take out of it, and the length of its fragment room.

use std::rc::Rc;

use face::{Modes, Options, Part};
use oracle::builders::{ALL, NO_CAPTIONS, only};

const SIZE: usize = 1 << 20;
const SEED: u64 = 1;
/// The greatest packet that a filter takes.
pub const MAXIMUM: usize = 65_539;
/// A media packet as it is on the air.
const USUAL: usize = 1_400;
/// The entries of an MPT in which nothing is to be cut out.
const ENTRIES: usize = 8;
/// The smallest packet: a header with nothing behind it.
const SMALLEST: usize = 4;
/// T, the length of the fragment room, where a stream is not about fragments.
pub const TOTAL: usize = 1 << 20;
/// The greatest T.
const MOST: usize = 16 << 20;

/// Neither captions nor carousels.
pub const NEITHER: Options = Options {
    carousel: false,
    ..NO_CAPTIONS
};

/// All but EIT, which is no asset: no table changes.
pub const NO_EIT: Options = Options { eit: false, ..ALL };

pub struct Stream {
    pub name: String,
    pub options: Options,
    pub modes: Modes,
    /// T; M is the same.
    pub total: usize,
    pub bytes: Rc<[u8]>,
}

impl Stream {
    fn new(name: &str, options: Options, bytes: Vec<u8>) -> Self {
        Self {
            name: name.to_owned(),
            options,
            modes: Modes::OFF,
            total: TOTAL,
            bytes: bytes.into(),
        }
    }
}

/// All, in the order of the table.
pub fn streams() -> Vec<Stream> {
    let streams = [usual(), fragments(), plain_ip()];
    streams.into_iter().flatten().collect()
}

/// Of which neither captions nor carousels are wanted.
fn neither(name: &str, bytes: Vec<u8>) -> Stream {
    Stream::new(name, NEITHER, bytes)
}

fn usual() -> Vec<Stream> {
    let air = || maker::air(SEED, SIZE);
    let media = |part, packet| maker::media(SEED, part, packet, SIZE);
    vec![
        neither("air, no captions or carousels", air()),
        Stream::new("air, one service of six", only(0x0401), air()),
        neither("dense tables", maker::dense(SEED, SIZE)),
        Stream::new("copy-all", ALL, air()),
        neither("nulls of 188", maker::nulls(188, SIZE)),
        neither("garbage, random", maker::garbage(SEED, SIZE)),
        neither("garbage, zeros", vec![0; SIZE]),
        neither("tiny packets", maker::nulls(SMALLEST, SIZE)),
        neither("maximum packets, pass", media(Part::Other, MAXIMUM)),
        neither("maximum packets, dropped", media(Part::Carousel, MAXIMUM)),
        neither("media, all pass", media(Part::Other, USUAL)),
        neither("media, all dropped", media(Part::Carousel, USUAL)),
    ]
}

/// Messages in fragments, of so many identifiers at a time. They teach nothing and all of them go out, whatever is held:
/// where T is 65,536 the proved filter gives up what does not fit, as it is to; the original holds it, for it has no T that
/// a stream of 1 MiB could pass. They grow one after the other in the order in which they began; staggered they do not.
pub fn fragments() -> Vec<Stream> {
    let stream = |name: String, total, bytes| Stream {
        total,
        ..neither(&name, bytes)
    };
    let mut streams = Vec::new();
    for (body, length) in [(150, "150"), (1_400, "1,400")] {
        for (total, room) in [(65_536, "65,536"), (MOST, "16 MiB")] {
            for identifiers in [1, 5, 16, 256] {
                let name = format!("fragments over {identifiers} of {length}, T {room}");
                let bytes = maker::fragmented(SEED, identifiers, body, SIZE);
                streams.push(stream(name, total, bytes));
            }
        }
    }
    for identifiers in [16, 256] {
        let name = format!("staggered over {identifiers} of 1,400, T 16 MiB");
        let bytes = maker::staggered(SEED, identifiers, 1_400, SIZE);
        streams.push(stream(name, MOST, bytes));
    }
    streams
}

/// A signalling payload.
pub struct Piece<'a> {
    pub identifier: u16,
    /// Whole, first, middle or last: 0 to 3.
    pub place: u8,
    /// What is behind its first two bytes.
    pub body: &'a [u8],
}

/// The signalling payloads of the whole packets in a stream, if all are of MMTP with a header of 12 bytes, in compressed IP.
pub fn pieces(mut stream: &[u8]) -> Vec<Piece<'_>> {
    let mut pieces = Vec::new();
    while let [_, _, high, low, rest @ ..] = stream {
        let length = u16::from_be_bytes([*high, *low]);
        let Some((packet, behind)) = rest.split_at_checked(usize::from(length)) else {
            break;
        };
        stream = behind;
        // Three bytes of IP stand before the MMTP: type, identifier, payload.
        if let [
            _,
            _,
            _,
            _,
            2,
            high,
            low,
            _,
            _,
            _,
            _,
            _,
            _,
            _,
            _,
            flags,
            _,
            body @ ..,
        ] = packet
        {
            pieces.push(Piece {
                identifier: u16::from_be_bytes([*high, *low]),
                place: flags >> 6,
                body,
            });
        }
    }
    pieces
}

fn plain_ip() -> Vec<Stream> {
    let narrowed = |stream: Stream| Stream {
        modes: Modes::PLAIN_IP,
        ..stream
    };
    let air = || maker::plain_ip_air(SEED, SIZE);
    let none_goes = |mode: &str| {
        let name = format!("air in plain IP, none goes, mode {mode}");
        Stream::new(&name, NO_EIT, air())
    };
    let uncut = || maker::plain_ip_uncut(SEED, ENTRIES, SIZE / 256).concat();
    let absent = |mode: &str| {
        let name = format!("PLTs in plain IP, none goes, mode {mode}");
        let plts = maker::plain_ip_plts(SEED, SIZE / 256).concat();
        Stream::new(&name, only(0x0500), plts)
    };
    vec![
        neither("air in plain IP, mode off", air()),
        narrowed(neither("air in plain IP, mode on", air())),
        none_goes("off"),
        narrowed(none_goes("on")),
        neither("plain IP, none goes, mode off", uncut()),
        narrowed(neither("plain IP, none goes, mode on", uncut())),
        absent("off"),
        narrowed(absent("on")),
    ]
}

#[cfg(test)]
mod tests {
    use std::collections::BTreeSet;

    use original::Untouched;

    use super::{Stream, fragments, pieces, streams};

    /// How much of a stream goes out, in percent.
    fn share(stream: &Stream) -> usize {
        let mut out = Vec::new();
        Untouched::new(stream.options).stream(&stream.bytes, 0, 32_768, true, &mut out);
        100 * out.len() / stream.bytes.len()
    }

    #[test]
    fn streams_pass_or_not_as_their_names_say() {
        for stream in streams() {
            let expected = match &stream.name[..] {
                "air, no captions or carousels" => 85..=95,
                name if name.starts_with("air in plain IP, none") => 99..=100,
                name if name.starts_with("air in plain IP") => 85..=95,
                "air, one service of six" => 15..=25,
                "dense tables" => 60..=90,
                "garbage, random" | "garbage, zeros" => 0..=20,
                name if name.ends_with("dropped") => 0..=0,
                _ => 99..=100,
            };
            let share = share(&stream);
            assert!(expected.contains(&share), "{}: {share} %", stream.name);
        }
    }

    #[test]
    fn names_are_unique() {
        let streams = streams();
        let names: BTreeSet<_> = streams.iter().map(|stream| &stream.name).collect();
        assert_eq!(names.len(), streams.len());
    }

    /// The number in a name, with or without commas in it.
    fn number(word: &str) -> usize {
        word.replace(',', "").parse().expect("a number")
    }

    #[test]
    fn fragments_are_as_their_names_say() {
        let fragments = fragments();
        assert_eq!(fragments.len(), 4 * 2 * 2 + 2);
        for stream in &fragments {
            let words: Vec<_> = stream.name.split(' ').collect();
            let unit = words.get(7).map_or(1, |_| 1 << 20);
            assert_eq!(stream.total, number(words[6]) * unit, "{}", stream.name);
            let (identifiers, lengths): (BTreeSet<_>, BTreeSet<_>) = pieces(&stream.bytes)
                .into_iter()
                .filter(|piece| piece.place > 0)
                .map(|piece| (piece.identifier, piece.body.len()))
                .unzip();
            assert_eq!(identifiers.len(), number(words[2]), "{}", stream.name);
            assert_eq!(lengths, BTreeSet::from([number(words[4])]));
        }
    }
}
