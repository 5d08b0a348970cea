//! The tables: PLTs and MPTs with their packages, assets and locations.
//! Counts and lengths follow from what is there, unless a field asks for a wrong one.

use crate::rng::Rng;

pub(crate) const PLT: u8 = 0x80;
pub(crate) const MPT_FIRST: u8 = 0x11;
pub(crate) const MPT_LAST: u8 = 0x20;
/// The most entries that a table can count.
pub(crate) const ENTRIES_MOST: usize = 255;
/// The bytes of a table with the highest length, its head included.
pub(crate) const LONGEST: usize = 65_539;

#[derive(Debug, Clone, PartialEq, Eq)]
pub(crate) enum Location {
    /// Type 0: a packet identifier of this stream.
    Here(u16),
    /// Any other, type byte included.
    Raw(Vec<u8>),
}

impl Location {
    /// A location of type 1 to 5, or of one that does not exist.
    pub(crate) fn of_type(rng: &mut Rng, kind: u8) -> Self {
        let rest = match kind {
            1 => 12,
            2 | 4 => 36,
            3 => 6,
            5 => {
                let text = rng.pick(&[0, 1, 2, 9, 20, 255]);
                let mut raw = vec![kind, text];
                raw.extend(rng.bytes(usize::from(text)));
                return Self::Raw(raw);
            }
            _ => rng.within(0..=12),
        };
        let mut raw = vec![kind];
        raw.extend(rng.bytes(rest));
        Self::Raw(raw)
    }

    fn write(&self, out: &mut Vec<u8>) {
        match self {
            Self::Here(identifier) => {
                out.push(0);
                out.extend_from_slice(&identifier.to_be_bytes());
            }
            Self::Raw(raw) => out.extend_from_slice(raw),
        }
    }
}

/// What follows an asset's kind: no clock, a clock, or a clock with its timescale.
#[derive(Debug, Clone, Copy, PartialEq, Eq)]
pub(crate) enum Clock {
    None,
    Plain,
    Scaled,
}

#[derive(Debug, Clone, PartialEq, Eq)]
pub(crate) struct Asset {
    pub(crate) name: Vec<u8>,
    pub(crate) kind: [u8; 4],
    pub(crate) clock: Clock,
    pub(crate) locations: Vec<Location>,
    pub(crate) descriptors: Vec<u8>,
    /// Added to what it says of its descriptors' length; 0 leaves it right.
    pub(crate) overlong: u16,
}

impl Asset {
    /// The smallest entry: one location of type 0.
    pub(crate) fn plain(kind: &[u8; 4], identifier: u16) -> Self {
        Self {
            name: vec![0x11],
            kind: *kind,
            clock: Clock::None,
            locations: vec![Location::Here(identifier)],
            descriptors: Vec::new(),
            overlong: 0,
        }
    }

    pub(crate) fn identifier(&self) -> Option<u16> {
        self.locations.iter().find_map(|location| match location {
            Location::Here(identifier) => Some(*identifier),
            Location::Raw(_) => None,
        })
    }

    /// The bits beside the clock flags are set, since only the lowest may be looked at.
    fn write(&self, out: &mut Vec<u8>) {
        out.extend([0, 0, 0, 0, 1, self.name.len() as u8]);
        out.extend_from_slice(&self.name);
        out.extend_from_slice(&self.kind);
        match self.clock {
            Clock::None => out.push(0xfe),
            Clock::Plain => out.extend([0xff, 0x01, 0xfe]),
            Clock::Scaled => out.extend([0x01, 0x00, 0x03, 0, 1, 0x5f, 0x90]),
        }
        out.push(self.locations.len() as u8);
        for location in &self.locations {
            location.write(out);
        }
        let length = (self.descriptors.len() as u16).wrapping_add(self.overlong);
        out.extend_from_slice(&length.to_be_bytes());
        out.extend_from_slice(&self.descriptors);
    }
}

#[derive(Debug, Clone)]
pub(crate) struct Mpt {
    pub(crate) number: u8,
    pub(crate) version: u8,
    pub(crate) name: Vec<u8>,
    pub(crate) descriptors: Vec<u8>,
    pub(crate) assets: Vec<Asset>,
    /// Added to the count of entries; 0 leaves it right.
    pub(crate) miscount: u8,
    /// Bytes after the last entry, inside the table.
    pub(crate) trailing: Vec<u8>,
}

impl Mpt {
    pub(crate) fn of(assets: Vec<Asset>) -> Self {
        Self {
            number: MPT_LAST,
            version: 5,
            name: vec![4, 0],
            descriptors: Vec::new(),
            assets,
            miscount: 0,
            trailing: Vec::new(),
        }
    }

    pub(crate) fn write(&self) -> Vec<u8> {
        let mut body = vec![0, self.name.len() as u8];
        body.extend_from_slice(&self.name);
        body.extend_from_slice(&(self.descriptors.len() as u16).to_be_bytes());
        body.extend_from_slice(&self.descriptors);
        body.push((self.assets.len() as u8).wrapping_add(self.miscount));
        for asset in &self.assets {
            asset.write(&mut body);
        }
        body.extend_from_slice(&self.trailing);
        table(self.number, self.version, &body)
    }
}

#[derive(Debug, Clone, PartialEq, Eq)]
pub(crate) struct Package {
    pub(crate) name: Vec<u8>,
    pub(crate) location: Location,
}

#[derive(Debug, Clone)]
pub(crate) struct Plt {
    pub(crate) version: u8,
    pub(crate) packages: Vec<Package>,
    /// As in an MPT.
    pub(crate) miscount: u8,
    pub(crate) trailing: Vec<u8>,
}

impl Plt {
    pub(crate) fn of(packages: Vec<Package>) -> Self {
        Self {
            version: 1,
            packages,
            miscount: 0,
            trailing: Vec::new(),
        }
    }

    pub(crate) fn write(&self) -> Vec<u8> {
        let mut body = vec![(self.packages.len() as u8).wrapping_add(self.miscount)];
        for package in &self.packages {
            body.push(package.name.len() as u8);
            body.extend_from_slice(&package.name);
            package.location.write(&mut body);
        }
        body.extend_from_slice(&self.trailing);
        table(PLT, self.version, &body)
    }
}

/// A table of any number. A body past 65,535 bytes is cut there.
pub(crate) fn table(number: u8, version: u8, body: &[u8]) -> Vec<u8> {
    let length = body.len().min(usize::from(u16::MAX));
    let mut out = vec![number, version];
    out.extend_from_slice(&(length as u16).to_be_bytes());
    out.extend_from_slice(&body[..length]);
    out
}
