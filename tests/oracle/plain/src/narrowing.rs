//! 01 "Narrowing": a table, a payload or a packet without the entries that are not wanted. `None` everywhere
//! means unchanged. Nothing learned is looked at (DECISIONS R9).

use crate::finding::HEAD;
use crate::ip;
use crate::payload::{Mmtp, mmtp};
use crate::reader::Reader;
use crate::rules::wants;
use crate::tables::{self, AssetEntry, Mpt, Pa, Plt, Table};
use face::{Modes, Options, Part};

/// Counts of captions, carousels and others, in this order (DECISIONS R26).
type Kinds = [u32; 3];

pub struct Changed {
    pub out: Vec<u8>,
    pub stayed: Kinds,
    pub went: Kinds,
}

/// A packet by its type; of the other bytes of its head the mark stays and the length is put right.
pub fn narrow_packet(options: &Options, modes: &Modes, packet: &[u8]) -> Option<Changed> {
    let mmtp = mmtp(packet).filter(Mmtp::is_signalling)?;
    let datagram = ip::datagram(packet).filter(|_| modes.plain_ip);
    if !mmtp.rewritable && datagram.is_none() {
        return None;
    }
    let changed = narrow_payload(options, mmtp.identifier, mmtp.payload)?;
    let mut out = packet[..packet.len() - mmtp.payload.len()].to_vec();
    out.extend(changed.out);
    let length = be16(out.len() - HEAD);
    out[2..HEAD].copy_from_slice(&length);
    if let Some(datagram) = datagram {
        datagram.work_out(&mut out[HEAD..]);
    }
    Some(Changed { out, ..changed })
}

/// A whole PA message by itself; other flag bits and the counter do not matter (DECISIONS R21).
pub fn narrow_payload(options: &Options, identifier: u16, payload: &[u8]) -> Option<Changed> {
    let mut reader = Reader::new(payload);
    let head = reader.take(2)?;
    if head[0] & 0b1100_0001 != 0 {
        return None;
    }
    let message = tables::message(reader.rest()).filter(|message| message.number == tables::PA)?;
    let mut narrowing = Narrowing::new(options, identifier);
    let body = narrowing.pa(&tables::pa(message.body)?)?;
    let mut out = head.to_vec();
    out.extend(message.number.to_be_bytes());
    out.push(message.version);
    let length = u32::try_from(body.len()).expect("no longer than it was");
    out.extend(length.to_be_bytes());
    out.extend(body);
    Some(narrowing.changed(out))
}

/// A table by itself is one on identifier 0; what follows its own length goes where it changes.
pub fn narrow_table(options: &Options, table: &[u8]) -> Option<Changed> {
    let mut narrowing = Narrowing::new(options, 0);
    let out = narrowing.table(&tables::table(table)?)?;
    Some(narrowing.changed(out))
}

/// What goes along with narrowing: the counts grow with each readable MPT.
struct Narrowing<'a> {
    options: &'a Options,
    identifier: u16,
    stayed: Kinds,
    went: Kinds,
}

impl<'a> Narrowing<'a> {
    fn new(options: &'a Options, identifier: u16) -> Self {
        Self {
            options,
            identifier,
            stayed: [0; 3],
            went: [0; 3],
        }
    }

    fn changed(self, out: Vec<u8>) -> Changed {
        Changed {
            out,
            stayed: self.stayed,
            went: self.went,
        }
    }

    /// Where a table changed, each head entry takes the length of the table in the same place, as far as both go.
    fn pa(&mut self, pa: &Pa) -> Option<Vec<u8>> {
        if pa.ends_in_cut_table() {
            return None;
        }
        let changed: Vec<_> = pa.tables.iter().map(|table| self.table(table)).collect();
        if changed.iter().all(Option::is_none) {
            return None;
        }
        let both = changed.iter().zip(&pa.tables);
        let tables: Vec<&[u8]> = both
            .map(|(changed, table)| changed.as_deref().unwrap_or(table.bytes))
            .collect();
        let mut out = pa.head.to_vec();
        for (entry, table) in out[1..].chunks_exact_mut(4).zip(&tables) {
            entry[2..].copy_from_slice(&table[2..4]);
        }
        out.extend(tables.concat());
        out.extend(pa.rest);
        Some(out)
    }

    fn table(&mut self, table: &Table) -> Option<Vec<u8>> {
        let body = match (tables::plt(table), tables::mpt(table)) {
            (Some(plt), _) => self.plt_only(&plt)?,
            (_, Some(mpt)) => self.mpt_without(&mpt)?,
            _ => return None,
        };
        let mut out = table.bytes[..2].to_vec();
        out.extend(be16(body.len()));
        out.extend(body);
        Some(out)
    }

    /// The last entry that names the service, at any location (DECISIONS R3).
    fn plt_only(&self, plt: &Plt) -> Option<Vec<u8>> {
        let service = self.options.service.filter(|_| self.identifier == 0)?;
        let mut entries = plt.packages.iter();
        let last = entries.rfind(|entry| entry.service == Some(service))?;
        Some([&[1], last.bytes, plt.rest].concat())
    }

    /// Entries go by kind alone (DECISIONS R20).
    fn mpt_without(&mut self, mpt: &Mpt) -> Option<Vec<u8>> {
        let wanted = |entry: &&AssetEntry| wants(self.options, entry.part);
        let (stay, go): (Vec<_>, Vec<_>) = mpt.assets.iter().partition(wanted);
        count(&mut self.stayed, &stay);
        count(&mut self.went, &go);
        if go.is_empty() {
            return None;
        }
        let mut out = mpt.head.to_vec();
        out.push(u8::try_from(stay.len()).expect("no more than there were"));
        out.extend(stay.iter().flat_map(|entry| entry.bytes));
        out.extend(mpt.rest);
        Some(out)
    }
}

fn count(kinds: &mut Kinds, entries: &[&AssetEntry]) {
    for entry in entries {
        match entry.part {
            Part::Caption => kinds[0] += 1,
            Part::Carousel => kinds[1] += 1,
            Part::Other => kinds[2] += 1,
        }
    }
}

pub fn be16(length: usize) -> [u8; 2] {
    let length = u16::try_from(length).expect("no longer than it was");
    length.to_be_bytes()
}
