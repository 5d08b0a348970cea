//! A stream on its way through a fresh filter, chunk by chunk: by the original, by the proved code, and copied with no
//! filter at all. All three read the same bytes and write to an output that is there already; each chunk's bytes go to
//! its start. The proved filter has 01's limits at 000's sizes, and counts; the original has neither.

use std::hint::black_box;
use std::rc::Rc;

use face::{Engine, Limits, Modes, Options};
use original::Untouched;
use plain::Plain;

use crate::measure::Turn;

/// The rooms of 01 at their greatest, but for the fragments.
const WORK: usize = 131_078;
const MAPS: usize = 32_768;

unsafe extern "C" {
    fn driver_stream(
        stream: *const u8,
        length: usize,
        first: usize,
        size: usize,
        kept: bool,
        flags: u8,
        service: u16,
        modes: u8,
        work: *mut u8,
        work_length: usize,
        bodies: *mut u8,
        bodies_length: usize,
        maps: *mut u16,
        maps_length: usize,
        out: *mut u8,
        room: usize,
    ) -> usize;
}

/// The first `first` bytes are one chunk, if there are any; those behind them are chunks of `size`.
#[derive(Clone)]
pub struct Passage {
    pub stream: Rc<[u8]>,
    pub options: Options,
    pub modes: Modes,
    /// The length of the fragment room.
    pub total: usize,
    pub first: usize,
    pub size: usize,
}

impl Passage {
    /// How many calls it takes.
    pub fn calls(&self) -> usize {
        let rest = self.stream.len() - self.first;
        usize::from(self.first > 0) + rest.div_ceil(self.size)
    }

    /// Compares what both filters write, all of it; answers how many bytes that is. In a mode that the original does not
    /// know the second filter takes its place.
    pub fn compared(&self, name: &str) -> usize {
        let mut rooms = Rooms::new(self.total, self.stream.len());
        let mut out = Vec::new();
        if self.modes.all_off() {
            self.by_original(true, &mut out);
        } else {
            self.by_plain(&mut out);
        }
        let written = rooms.pass(self, true);
        assert!(rooms.out[..written] == out, "{name}");
        written
    }

    /// The proved filter's fragment room, zeros before, after the stream.
    pub fn room(&self) -> Vec<u8> {
        let mut rooms = Rooms::new(self.total, 0);
        rooms.pass(self, false);
        rooms.bodies
    }

    pub fn original(&self) -> Turn {
        let (passage, mut out) = (self.clone(), Vec::with_capacity(2 * WORK));
        Box::new(move || passage.by_original(false, &mut out))
    }

    /// Its rooms are there before the first turn: to make them is no work of the filter's.
    pub fn proved(&self) -> Turn {
        let (passage, mut rooms) = (self.clone(), Rooms::new(self.total, 0));
        Box::new(move || rooms.pass(&passage, false))
    }

    /// The chunks behind the first, copied.
    pub fn copied(&self) -> Turn {
        let (passage, mut out) = (self.clone(), vec![0; 2 * WORK]);
        let mut copy = move |chunk: &[u8]| {
            out[..chunk.len()].copy_from_slice(chunk);
            black_box(&mut out).len()
        };
        Box::new(move || {
            let rest = &passage.stream[passage.first..];
            rest.chunks(passage.size).map(&mut copy).sum()
        })
    }

    fn by_plain(&self, out: &mut Vec<u8>) {
        let limits = Limits {
            work: WORK,
            total: self.total,
            most: self.total,
            maps: MAPS,
        };
        let mut filter = Plain::start(limits, self.options, self.modes).expect("a start");
        let (first, rest) = self.stream.split_at(self.first);
        for chunk in first
            .chunks(first.len().max(1))
            .chain(rest.chunks(self.size))
        {
            out.extend(filter.push(chunk, 2 * WORK).expect("a call").out);
        }
    }

    fn by_original(&self, kept: bool, out: &mut Vec<u8>) -> usize {
        Untouched::new(self.options).stream(&self.stream, self.first, self.size, kept, out)
    }
}

/// What the proved filter is lent.
struct Rooms {
    work: Vec<u8>,
    bodies: Vec<u8>,
    maps: Vec<u16>,
    out: Vec<u8>,
}

impl Rooms {
    /// With a fragment room of T bytes, and an output for the bytes of one call and so many more.
    fn new(total: usize, more: usize) -> Self {
        Self {
            work: vec![0; WORK],
            bodies: vec![0; total],
            maps: vec![0; MAPS],
            out: vec![0; 2 * WORK + more],
        }
    }

    /// The proved side of `Untouched::stream`, with a fresh filter.
    fn pass(&mut self, passage: &Passage, kept: bool) -> usize {
        // SAFETY: all are whole and apart, and the driver keeps none.
        unsafe {
            driver_stream(
                passage.stream.as_ptr(),
                passage.stream.len(),
                passage.first,
                passage.size,
                kept,
                passage.options.flags(),
                passage.options.service.unwrap_or(0),
                passage.modes.bits(),
                self.work.as_mut_ptr(),
                self.work.len(),
                self.bodies.as_mut_ptr(),
                self.bodies.len(),
                self.maps.as_mut_ptr(),
                self.maps.len(),
                self.out.as_mut_ptr(),
                self.out.len(),
            )
        }
    }
}
