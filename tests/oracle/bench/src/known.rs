//! What the proved code knows, in the arrays and rooms that the driver is lent. It requires that these hold a state:
//! zeros hold the empty one, and nothing but `observe` writes to them afterwards.

use std::collections::{BTreeMap, BTreeSet};

use face::{Options, Part};
use original::Learned;

/// A set of identifiers, a bit for each.
type Set = [u64; 1024];

/// The numbers of the map room: 512 for each list.
const MAP_ROOM: usize = 64 * LIST;
const LIST: usize = 512;

/// 000's own limits on fragments: all of them, and one message.
const TOTAL: usize = 16 << 20;
const MOST: usize = 4 << 20;

unsafe extern "C" {
    fn driver_observe(
        payload: *const u8,
        length: usize,
        identifier: u16,
        most: usize,
        seen: bool,
        services: usize,
        lists: usize,
        fragments: usize,
        leading: usize,
        kept: &mut Kept,
        room: *mut u16,
        room_length: usize,
        bodies: *mut u8,
        bodies_length: usize,
        after: &mut [usize; 7],
    );
    fn driver_decide(
        flags: u8,
        service: u16,
        seen: bool,
        services: usize,
        lists: usize,
        fragments: usize,
        leading: usize,
        kept: &Kept,
        room: *const u16,
        room_length: usize,
        set: &mut Set,
    );
}

/// What is kept: the data set, packages, heads of lists and of fragments, laid out as the proved code has them.
#[repr(C)]
struct Kept {
    carousels: Set,
    packages: [u32; 255],
    maps: [u32; 64],
    heads: [u64; 256],
}

/// How much is known: whether a PLT was seen, how many packages, lists and fragments there are, and how many of these lead.
#[derive(Default)]
struct Extent {
    seen: bool,
    services: usize,
    lists: usize,
    fragments: usize,
    leading: usize,
}

pub struct Known {
    extent: Extent,
    kept: Box<Kept>,
    room: Vec<u16>,
    bodies: Vec<u8>,
    drop: Box<Set>,
}

impl Known {
    pub fn new() -> Self {
        Self {
            extent: Extent::default(),
            kept: Box::new(Kept {
                carousels: [0; 1024],
                packages: [0; 255],
                maps: [0; 64],
                heads: [0; 256],
            }),
            room: vec![0; MAP_ROOM],
            bodies: vec![0; TOTAL],
            drop: Box::new([0; 1024]),
        }
    }

    /// Learns from a payload. Answers whether the rules are to be worked out.
    pub fn observe(&mut self, identifier: u16, payload: &[u8]) -> bool {
        let mut after = [0; 7];
        // SAFETY: all are whole and apart, the driver keeps none, and together they hold a state.
        unsafe {
            driver_observe(
                payload.as_ptr(),
                payload.len(),
                identifier,
                MOST,
                self.extent.seen,
                self.extent.services,
                self.extent.lists,
                self.extent.fragments,
                self.extent.leading,
                &mut self.kept,
                self.room.as_mut_ptr(),
                self.room.len(),
                self.bodies.as_mut_ptr(),
                self.bodies.len(),
                &mut after,
            );
        }
        let [seen, services, lists, fragments, leading, _lost, changed] = after;
        self.extent = Extent {
            seen: seen == 1,
            services,
            lists,
            fragments,
            leading,
        };
        changed == 1
    }

    /// Works the rules out.
    pub fn decide(&mut self, options: Options) {
        // SAFETY: as above.
        unsafe {
            driver_decide(
                options.flags(),
                options.service.unwrap_or(0),
                self.extent.seen,
                self.extent.services,
                self.extent.lists,
                self.extent.fragments,
                self.extent.leading,
                &self.kept,
                self.room.as_ptr(),
                self.room.len(),
                &mut self.drop,
            );
        }
    }

    /// What is known, in 000's words.
    pub fn learned(&self) -> Learned {
        Learned {
            plt_seen: self.extent.seen,
            packages: self.kept.packages[..self.extent.services]
                .iter()
                .map(|package| ((package >> 16) as u16, *package as u16))
                .collect(),
            maps: (0..self.extent.lists).map(|nth| self.list(nth)).collect(),
            data: members(&self.kept.carousels),
            pieces: self.pieces(),
        }
    }

    pub fn dropped(&self) -> BTreeSet<u16> {
        members(&self.drop)
    }

    /// A list: its identifier, and the identifiers and kinds of its assets.
    fn list(&self, nth: usize) -> (u16, Vec<(u16, Part)>) {
        let (identifier, count) = (self.kept.maps[nth] >> 16, self.kept.maps[nth] & 0xffff);
        let numbers = &self.room[LIST * nth..][..2 * count as usize];
        let asset = |pair: &[u16]| (pair[0], part(pair[1]));
        (identifier as u16, numbers.chunks(2).map(asset).collect())
    }

    /// The fragments: their identifiers, flags and bodies. Those that lead stand one after the other at the front of the
    /// room, the others so at its end.
    fn pieces(&self) -> BTreeMap<u16, (u8, Vec<u8>)> {
        let heads = &self.kept.heads[..self.extent.fragments];
        let (leading, others) = heads.split_at(self.extent.leading.min(heads.len()));
        let behind: usize = others.iter().map(length).sum();
        let end = self.bodies.len() - behind;
        let mut pieces = packed(leading, &self.bodies);
        pieces.extend(packed(others, &self.bodies[end..]));
        pieces
    }
}

/// The length in a fragment's head.
fn length(head: &u64) -> usize {
    (head & 0xff_ffff_ffff) as usize
}

/// The fragments whose bodies stand one after the other at the front of these bytes.
fn packed(heads: &[u64], mut rest: &[u8]) -> BTreeMap<u16, (u8, Vec<u8>)> {
    let piece = |head: &u64| {
        let (body, behind) = rest.split_at(length(head));
        rest = behind;
        ((head >> 48) as u16, ((head >> 40) as u8, body.to_vec()))
    };
    heads.iter().map(piece).collect()
}

/// The kind of an asset by its number.
fn part(number: u16) -> Part {
    [Part::Caption, Part::Carousel, Part::Other][usize::from(number)]
}

fn members(set: &Set) -> BTreeSet<u16> {
    let has = |identifier: &u16| set[usize::from(identifier / 64)] >> (identifier % 64) & 1 == 1;
    (0..=u16::MAX).filter(has).collect()
}
