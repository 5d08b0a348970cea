//! What the replacements call: 01's limits and counts, and narrowing by itself. `build.rs` makes this file
//! a child of the patched 000, whose private names are thereby in reach.

use std::cell::Cell;

use face::{Call, Counts, Kind, Limits, Narrowed, Options, Part};

use super::{
    EIT_PID, Filter, TABLE_MPT_FIRST, TABLE_MPT_LAST, TABLE_PLT, part_of, plt_only, starts_packet,
};

/// Map lists that are held at most.
const MAPS: usize = 64;

/// What the patched filter carries beside 000's own state.
#[derive(Debug)]
pub(crate) struct Inside {
    pub(super) limits: Limits,
    /// Counts of the present call.
    pub(super) counts: Counts,
    /// On for narrowing by itself. Then a packet teaches nothing, so that nothing is dropped.
    pub(super) alone: bool,
    /// The entries that narrowing by itself met: how many of each kind stayed, and went. A cell, since 000
    /// narrows by shared reference.
    entries: Cell<[[u32; 3]; 2]>,
}

impl Inside {
    fn new(limits: Limits, alone: bool) -> Self {
        Self {
            limits,
            counts: Counts::default(),
            alone,
            entries: Cell::default(),
        }
    }
}

/// What the replacements call.
impl Filter {
    /// 01's packet limit: what is longer than P, its header counted, starts no packet.
    pub(super) fn starts_packet(&self, bytes: &[u8], at: usize) -> bool {
        let length = 4 + usize::from(u16::from_be_bytes([bytes[at + 2], bytes[at + 3]]));
        starts_packet(bytes, at) && length <= self.inside.limits.packet()
    }

    /// 01's 64 places: a list that finds none is lost and counted as such.
    pub(super) fn has_place(&mut self, pid: u16) -> bool {
        let has_place = self.maps.len() < MAPS || self.maps.contains_key(&pid);
        self.inside.counts.lost += u64::from(!has_place);
        has_place
    }

    /// An accepted packet. It has four bytes at least, so it was written if the output grew.
    pub(super) fn counted_packet(&mut self, packet: &[u8], out: &mut Vec<u8>) {
        let before = out.len();
        self.packet(packet, out);
        self.inside.counts.accepted += 1;
        self.inside.counts.written += u64::from(out.len() > before);
    }

    /// An MPT that is narrowed; where it reads, its entries are counted by kind, those that stay and those that go.
    pub(super) fn counted_mpt_without(&self, table: &[u8]) -> Option<Vec<u8>> {
        if self.inside.alone
            && let Some(read) = isdb::mmttables::package_table(table)
        {
            let mut entries = self.inside.entries.get();
            for asset in read.assets {
                let part = part_of(&asset.kind);
                entries[usize::from(!self.wanted(part))][place(part)] += 1;
            }
            self.inside.entries.set(entries);
        }
        self.mpt_without(table)
    }
}

/// What the crate calls.
impl Filter {
    pub(crate) fn start(limits: Limits, options: Options) -> Self {
        Self::new(options, Inside::new(limits, false))
    }

    pub(crate) fn call(&mut self, chunk: &[u8]) -> Call {
        self.inside.counts = Counts::default();
        let mut out = Vec::new();
        self.push(chunk, &mut out);
        self.inside.counts.bytes = out.len() as u64;
        Call {
            counts: self.inside.counts,
            held: self.held(),
            out,
        }
    }

    pub(crate) fn held(&self) -> usize {
        self.held.len()
    }

    /// The size of the drop set; 0x8000 is one more with EIT off, unless it is in the set already.
    pub(crate) fn dropped(&self) -> u32 {
        let eit = !self.options.eit && !self.drop.contains(&EIT_PID);
        self.drop.len() as u32 + u32::from(eit)
    }

    /// Narrowing by itself. EIT is no wish of narrowing, and on it drops nothing.
    pub(crate) fn narrow(kind: Kind, options: Options, identifier: u16, input: &[u8]) -> Narrowed {
        let options = Options {
            eit: true,
            ..options
        };
        let mut filter = Self::new(options, Inside::new(crate::OWN_LIMITS, true));
        let changed = match kind {
            Kind::Table => filter.narrowed_table(input),
            Kind::Payload => filter.rewrite(identifier, input),
            Kind::Packet => filter.narrowed_packet(input),
        };
        let [stayed, went] = filter.inside.entries.get();
        match changed {
            Some(out) => Narrowed::Changed { out, stayed, went },
            None => Narrowed::Unchanged,
        }
    }

    /// A table by itself is taken as one on identifier 0.
    fn narrowed_table(&self, table: &[u8]) -> Option<Vec<u8>> {
        match *table.first()? {
            TABLE_PLT => plt_only(table, self.options.service?),
            TABLE_MPT_FIRST..=TABLE_MPT_LAST => self.counted_mpt_without(table),
            _ => None,
        }
    }

    /// A packet by itself: 000 looks at its type alone, and needs four bytes.
    fn narrowed_packet(&mut self, packet: &[u8]) -> Option<Vec<u8>> {
        if packet.len() < 4 {
            return None;
        }
        let mut out = Vec::new();
        self.packet(packet, &mut out);
        (self.inside.counts.rewritten == 1).then_some(out)
    }
}

/// The place of a kind in the counts of entries.
fn place(part: Part) -> usize {
    match part {
        Part::Caption => 0,
        Part::Carousel => 1,
        Part::Other => 2,
    }
}
