//! 000 in parts, for the bench: narrowing, learning and the rules, each called by itself. `build.rs` makes this file a
//! child of 000 in parts, whose private names are thereby in reach.

use std::collections::{BTreeMap, BTreeSet};

use face::{Options, Part};

use super::Filter;

/// What 000 knows, in its own words.
#[derive(Debug, PartialEq, Eq)]
pub struct Learned {
    pub plt_seen: bool,
    pub packages: BTreeMap<u16, u16>,
    pub maps: BTreeMap<u16, Vec<(u16, Part)>>,
    pub data: BTreeSet<u16>,
    pub pieces: BTreeMap<u16, (u8, Vec<u8>)>,
}

pub struct Parts(Filter);

impl Parts {
    pub fn new(options: Options) -> Self {
        crate::must_know(&options);
        Self(Filter::new(options))
    }

    /// Appends a signalling packet, narrowed or as it is. Nothing learned, nothing is dropped.
    pub fn packet(&mut self, packet: &[u8], out: &mut Vec<u8>) {
        self.0.packet(packet, out);
    }

    /// Writes each packet of `size` bytes so to an output that is empty, and answers how many bytes that were.
    pub fn packets(&mut self, packets: &[u8], size: usize, out: &mut Vec<u8>) -> usize {
        let write = |packet| {
            out.clear();
            self.packet(packet, out);
            out.len()
        };
        packets.chunks_exact(size).map(write).sum()
    }

    /// Narrows the payload of each packet of `size` bytes and answers how many bytes that made. The payload stands at
    /// `body`, its identifier at `identifier`.
    pub fn rewrites(&self, packets: &[u8], size: usize, identifier: usize, body: usize) -> usize {
        let narrow = |packet: &[u8]| {
            let number = u16::from_be_bytes([packet[identifier], packet[identifier + 1]]);
            self.rewrite(number, &packet[body..])
        };
        let length = |narrowed: Option<Vec<u8>>| narrowed.map_or(0, |payload| payload.len());
        packets.chunks_exact(size).map(narrow).map(length).sum()
    }

    /// A payload narrowed, or nothing where it stays.
    pub fn rewrite(&self, identifier: u16, payload: &[u8]) -> Option<Vec<u8>> {
        self.0.rewrite(identifier, payload)
    }

    /// Learns from a payload. Answers whether the rules are to be worked out.
    pub fn observe(&mut self, identifier: u16, payload: &[u8]) -> bool {
        self.0.changed = false;
        self.0.observe(identifier, payload);
        self.0.changed
    }

    /// Works the rules out.
    pub fn decide(&mut self) {
        self.0.decide();
    }

    pub fn learned(&self) -> Learned {
        Learned {
            plt_seen: self.0.plt_seen,
            packages: self.0.packages.clone(),
            maps: self.0.maps.clone(),
            data: self.0.data.clone(),
            pieces: self.0.pieces.clone(),
        }
    }

    /// What the rules drop. That EIT off drops 0x8000 is no part of it.
    pub fn dropped(&self) -> &BTreeSet<u16> {
        &self.0.drop
    }
}
