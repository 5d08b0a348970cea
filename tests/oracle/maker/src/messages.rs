//! Messages, PA messages among them, and the payloads that carry them: whole, aggregated or in fragments.
//! All is written as told; what is right or odd is chosen elsewhere.

pub(crate) const PA: u16 = 0x0000;
pub(crate) const DATA: u16 = 0x8003;
pub(crate) const CA: u16 = 0x8001;
/// Numbers at both sides of each border between 16- and 32-bit lengths.
pub(crate) const OTHERS: [u16; 10] = [
    0x0001, 0x6fff, 0x7000, 0x7fff, 0x8000, 0x8002, 0x8004, 0xefff, 0xf000, 0xffff,
];

pub(crate) fn message(number: u16, body: &[u8]) -> Vec<u8> {
    let long = matches!(number, PA | DATA | 0x7000..=0x7fff | 0xf000..);
    let mut out = number.to_be_bytes().to_vec();
    out.push(0);
    if long {
        out.extend_from_slice(&(body.len() as u32).to_be_bytes());
    } else {
        out.extend_from_slice(&(body.len() as u16).to_be_bytes());
    }
    out.extend_from_slice(body);
    out
}

/// A PA message whose parts can disagree with each other.
pub(crate) struct Pa {
    /// Head entries: number, version and length of a table.
    pub(crate) entries: Vec<[u8; 4]>,
    /// Added to the count of entries; 0 leaves it right.
    pub(crate) miscount: u8,
    pub(crate) tables: Vec<Vec<u8>>,
    /// Bytes after the tables, inside the message.
    pub(crate) leftover: Vec<u8>,
    /// What the message says of its length, where that is not the truth.
    pub(crate) length: Option<u32>,
    /// Bytes after the message.
    pub(crate) after: Vec<u8>,
}

impl Pa {
    /// With head entries that tell the truth of tables that have at least their head.
    pub(crate) fn of(tables: Vec<Vec<u8>>) -> Self {
        Self {
            entries: tables
                .iter()
                .map(|table| [table[0], table[1], table[2], table[3]])
                .collect(),
            miscount: 0,
            tables,
            leftover: Vec::new(),
            length: None,
            after: Vec::new(),
        }
    }

    pub(crate) fn write(&self) -> Vec<u8> {
        let mut body = vec![(self.entries.len() as u8).wrapping_add(self.miscount)];
        body.extend(self.entries.iter().flatten());
        body.extend(self.tables.iter().flatten());
        body.extend_from_slice(&self.leftover);
        let mut out = message(PA, &body);
        if let Some(length) = self.length {
            out[3..7].copy_from_slice(&length.to_be_bytes());
        }
        out.extend_from_slice(&self.after);
        out
    }
}

/// An unaggregated payload. `flags` gives bits 1 to 5 of the first byte, which it ignores.
pub(crate) fn whole(flags: u8, message: &[u8]) -> Vec<u8> {
    let mut out = vec![flags & 0x3e, 0];
    out.extend_from_slice(message);
    out
}

/// The content of an aggregated payload, without its two first bytes.
pub(crate) fn aggregate(wide: bool, messages: &[Vec<u8>]) -> Vec<u8> {
    let mut out = Vec::new();
    for message in messages {
        out.extend(aggregate_length(wide, message.len()));
        out.extend_from_slice(message);
    }
    out
}

pub(crate) fn aggregate_length(wide: bool, length: usize) -> Vec<u8> {
    if wide {
        (length as u32).to_be_bytes().to_vec()
    } else {
        (length as u16).to_be_bytes().to_vec()
    }
}

/// The first byte's low bits for an aggregated payload.
pub(crate) fn aggregate_flags(wide: bool) -> u8 {
    if wide { 3 } else { 1 }
}

#[derive(Clone, Copy)]
pub(crate) enum Place {
    First = 1,
    Middle = 2,
    Last = 3,
}

pub(crate) fn fragment(place: Place, flags: u8, body: &[u8]) -> Vec<u8> {
    let mut out = vec![(place as u8) << 6 | flags & 0x3f, 0x55];
    out.extend_from_slice(body);
    out
}

/// The content in fragments that end at these rising offsets; the last ends with the content.
pub(crate) fn fragments(flags: u8, content: &[u8], ends: &[usize]) -> Vec<Vec<u8>> {
    let mut out = Vec::new();
    let mut at = 0;
    for &end in ends {
        let place = if out.is_empty() {
            Place::First
        } else {
            Place::Middle
        };
        out.push(fragment(place, flags, &content[at..end]));
        at = end;
    }
    // Only the first's flags count, so the last's are other ones.
    out.push(fragment(Place::Last, !flags, &content[at..]));
    out
}
