//! A second filter, written from 01, from 02's requests and from the readings of both (docs/DECISIONS.md) alone, to
//! recount what the original answers, and to answer what the original does not know. Everything learned is an
//! ordered list, and each decision is worked out from the lists anew. This file has the calls and their refusals;
//! the other files follow 01's sections.

mod finding;
mod ip;
mod learning;
mod narrowing;
mod payload;
mod reader;
mod rules;
mod tables;

use face::{Call, Counts, Engine, Kind, Limits, Modes, Narrowed, Options};
use finding::Found;
use learning::Learned;
use narrowing::{Changed, narrow_packet, narrow_payload, narrow_table};
use rules::Rules;

/// The longest table, payload or packet that is narrowed.
const MOST_NARROWED: usize = 65_539;

pub struct Plain {
    limits: Limits,
    options: Options,
    modes: Modes,
    held: Vec<u8>,
    learned: Learned,
}

impl Engine for Plain {
    fn start(limits: Limits, options: Options, modes: Modes) -> Result<Self, u8> {
        if !(4_096..=131_078).contains(&limits.work) {
            return Err(1);
        }
        if !(1..=16_777_216).contains(&limits.total) || !(1..=limits.total).contains(&limits.most) {
            return Err(2);
        }
        if limits.maps != 32_768 {
            return Err(3);
        }
        if !options.other && !options.caption {
            return Err(9);
        }
        Ok(Self {
            limits,
            options,
            modes,
            held: Vec::new(),
            learned: Learned::default(),
        })
    }

    /// The refusals hold in copy-all too (DECISIONS R27).
    fn push(&mut self, chunk: &[u8], room: usize) -> Result<Call, u8> {
        if chunk.len() > self.limits.work - self.limits.packet() {
            return Err(5);
        }
        if room < self.held.len() + chunk.len() {
            return Err(6);
        }
        let mut call = Call {
            counts: Counts::default(),
            held: 0,
            out: Vec::new(),
        };
        if self.options.copies_all() {
            call.out.extend_from_slice(chunk);
        } else {
            self.read(chunk, &mut call);
        }
        call.counts.bytes = call.out.len() as u64;
        call.held = self.held.len();
        Ok(call)
    }

    fn held(&self) -> usize {
        self.held.len()
    }

    fn dropped(&self) -> u32 {
        self.rules().dropped()
    }

    fn narrow(
        kind: Kind,
        options: Options,
        modes: Modes,
        identifier: u16,
        input: &[u8],
        room: usize,
    ) -> Narrowed {
        if input.len() > MOST_NARROWED {
            return Narrowed::Refused(5);
        }
        if room < input.len() {
            return Narrowed::Refused(6);
        }
        let changed = match kind {
            Kind::Table => narrow_table(&options, input),
            Kind::Payload => narrow_payload(&options, identifier, input),
            Kind::Packet => narrow_packet(&options, &modes, input),
        };
        match changed {
            None => Narrowed::Unchanged,
            Some(Changed { out, stayed, went }) => Narrowed::Changed { out, stayed, went },
        }
    }
}

impl Plain {
    fn rules(&self) -> Rules<'_> {
        Rules {
            options: &self.options,
            learned: &self.learned,
        }
    }

    /// The chunk goes on where the held bytes end.
    fn read(&mut self, chunk: &[u8], call: &mut Call) {
        let mut run = std::mem::take(&mut self.held);
        run.extend_from_slice(chunk);
        let mut at = 0;
        loop {
            match finding::find(&run[at..], self.limits.packet()) {
                Found::NoStart => {
                    call.counts.skipped += 1;
                    at += 1;
                }
                Found::Unfinished => break,
                Found::Packet(length) => {
                    self.accept(&run[at..at + length], call);
                    at += length;
                }
            }
        }
        run.drain(..at);
        self.held = run;
    }

    /// A packet is observed before any drop; one that was not read passes.
    fn accept(&mut self, packet: &[u8], call: &mut Call) {
        call.counts.accepted += 1;
        if let Some(mmtp) = payload::mmtp(packet) {
            if mmtp.is_signalling() {
                call.counts.lost +=
                    self.learned
                        .observe(mmtp.identifier, mmtp.payload, &self.limits);
            }
            if !self.rules().writes(&mmtp) {
                return;
            }
        }
        call.counts.written += 1;
        match narrow_packet(&self.options, &self.modes, packet) {
            None => call.out.extend_from_slice(packet),
            Some(changed) => {
                call.counts.rewritten += 1;
                call.out.extend(changed.out);
            }
        }
    }
}
