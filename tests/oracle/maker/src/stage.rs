//! The scheduler: sends the packets of a broadcast one after the other, its tables, media,
//! fragments still under way, and the packets that belong to nobody.

use std::collections::VecDeque;

use crate::broadcast::Broadcast;
use crate::ip;
use crate::messages::{self, Pa, Place};
use crate::mmtp::{self, MEDIA, SIGNALLING};
use crate::rng::Rng;
use crate::signalling::{self, ODD};
use crate::tags::Tag;
use crate::tlv::{self, Carrier};

/// How often, in percent, a stage of plain IP sends a packet in it.
const PLAIN_IP: usize = 75;

pub(crate) struct Stage {
    pub(crate) rng: Rng,
    pub(crate) broadcast: Broadcast,
    pub(crate) packets: Vec<Vec<u8>>,
    /// Most packets are carried in plain IP.
    pub(crate) plain_ip: bool,
    /// Fragments not sent yet, by identifier.
    pending: Vec<(u16, VecDeque<Vec<u8>>)>,
}

impl Stage {
    pub(crate) fn new(rng: Rng, broadcast: Broadcast) -> Self {
        Self {
            rng,
            broadcast,
            packets: Vec::new(),
            plain_ip: false,
            pending: Vec::new(),
        }
    }

    fn push(&mut self, carrier: Carrier, mmtp: &[u8]) {
        self.packets.push(tlv::carry(&mut self.rng, carrier, mmtp));
    }

    fn send(&mut self, identifier: u16, kind: u8, payload: &[u8]) {
        let mmtp = mmtp::packet(&mut self.rng, identifier, kind, payload);
        self.carry(&mmtp);
    }

    /// In some carrier that is read, or in one of plain IP that may be odd.
    fn carry(&mut self, mmtp: &[u8]) {
        if self.in_plain_ip() {
            self.packets.push(ip::packet(&mut self.rng, mmtp));
            return;
        }
        let carrier = tlv::carrier(&mut self.rng);
        self.push(carrier, mmtp);
    }

    /// Whether the next packet is carried in plain IP; where none is, nothing is drawn.
    fn in_plain_ip(&mut self) -> bool {
        self.plain_ip && self.rng.chance(PLAIN_IP)
    }

    pub(crate) fn signal(&mut self, identifier: u16, payload: &[u8]) {
        self.send(identifier, SIGNALLING, payload);
    }

    /// A message as one rewritable packet, for scenes that leave its way through the layers to no chance.
    pub(crate) fn signal_plainly(&mut self, identifier: u16, message: &[u8]) {
        let payload = messages::whole(0, message);
        let mmtp = mmtp::packet(&mut self.rng, identifier, SIGNALLING, &payload);
        if self.in_plain_ip() {
            self.packets.push(ip::usual(&mut self.rng, &mmtp));
        } else {
            self.push(Carrier::Compressed(0x61), &mmtp);
        }
    }

    pub(crate) fn media(&mut self, identifier: u16) {
        let kind = if self.rng.chance(80) {
            MEDIA
        } else {
            self.rng.note(Tag::OtherPayloadType);
            self.rng.pick(&[1, 3, 4, 32, 63])
        };
        let size = if self.rng.chance(5) { 1_400 } else { 90 };
        let payload = self.rng.some_bytes(0..=size);
        self.send(identifier, kind, &payload);
    }

    /// Payloads of one message, at once or with other packets between them.
    fn deliver(&mut self, identifier: u16, payloads: Vec<Vec<u8>>) {
        if payloads.len() > 1 && self.rng.chance(60) {
            self.rng.note(Tag::Interleaved);
            self.pending.push((identifier, payloads.into()));
            return;
        }
        for payload in payloads {
            self.signal(identifier, &payload);
        }
    }

    fn send_pending(&mut self) {
        if self.pending.is_empty() {
            return;
        }
        let nth = self.rng.below(self.pending.len());
        let (identifier, queue) = &mut self.pending[nth];
        let identifier = *identifier;
        match queue.pop_front() {
            Some(payload) => self.signal(identifier, &payload),
            None => {
                self.pending.swap_remove(nth);
            }
        }
    }

    pub(crate) fn announce_plt(&mut self, odd: usize) {
        let mut tables = vec![signalling::plt(&mut self.rng, &self.broadcast, odd)];
        if self.rng.chance(odd / 3) && !self.broadcast.services.is_empty() {
            self.rng.note(Tag::MptOnZero);
            let nth = self.rng.below(self.broadcast.services.len());
            tables.push(self.mpt(nth, odd));
        }
        let identifier = if self.rng.chance(odd / 3) {
            self.rng.note(Tag::PltNotOnZero);
            self.broadcast.identifier(&mut self.rng)
        } else {
            0
        };
        self.announce(identifier, tables, odd);
    }

    pub(crate) fn announce_mpt(&mut self, nth: usize, odd: usize) {
        let mut tables = vec![self.mpt(nth, odd)];
        if self.rng.chance(odd / 2) {
            self.rng.note(Tag::SeveralMpts);
            let other = self.rng.below(self.broadcast.services.len());
            tables.push(self.mpt(other, odd));
        }
        self.announce(self.broadcast.services[nth].mpt, tables, odd);
    }

    fn mpt(&mut self, nth: usize, odd: usize) -> Vec<u8> {
        signalling::mpt(&mut self.rng, &self.broadcast.services[nth], odd)
    }

    fn announce(&mut self, identifier: u16, tables: Vec<Vec<u8>>, odd: usize) {
        let message = signalling::pa(&mut self.rng, tables, odd);
        let payloads = signalling::payloads(&mut self.rng, &message);
        self.deliver(identifier, payloads);
    }

    /// The PLT and each service's MPT, so that the filter knows the broadcast.
    pub(crate) fn announce_all(&mut self) {
        self.announce_plt(0);
        for nth in 0..self.broadcast.services.len() {
            self.announce_mpt(nth, 0);
        }
    }

    /// The same in whole messages, for scenes about fragments or about one table alone.
    pub(crate) fn announce_plainly(&mut self) {
        let plt = signalling::plt(&mut self.rng, &self.broadcast, 0);
        self.signal_plainly(0, &Pa::of(vec![plt]).write());
        for nth in 0..self.broadcast.services.len() {
            let mpt = self.mpt(nth, 0);
            let identifier = self.broadcast.services[nth].mpt;
            self.signal_plainly(identifier, &Pa::of(vec![mpt]).write());
        }
    }

    /// One media packet for each identifier: what comes out of these tells what was learned.
    pub(crate) fn probe(&mut self) {
        for identifier in self.broadcast.identifiers() {
            self.media(identifier);
        }
    }

    /// One message for each identifier, which teaches nothing.
    pub(crate) fn signal_all(&mut self) {
        for identifier in self.broadcast.identifiers() {
            let message = signalling::other_message(&mut self.rng);
            self.signal_plainly(identifier, &message);
        }
    }

    pub(crate) fn play(&mut self, steps: usize) {
        for _ in 0..steps {
            match self.rng.below(100) {
                0..52 => {
                    let all = self.broadcast.identifiers();
                    let identifier = self.rng.pick(&all);
                    self.media(identifier);
                }
                52..58 => self.announce_plt(ODD),
                58..70 if !self.broadcast.services.is_empty() => {
                    let nth = self.rng.below(self.broadcast.services.len());
                    self.announce_mpt(nth, ODD);
                }
                58..82 => self.send_pending(),
                82..87 => self.background(),
                87..95 => self.stray(),
                _ => {
                    self.rng.note(Tag::Evolved);
                    self.broadcast.evolve(&mut self.rng);
                }
            }
        }
    }

    /// Packets that carry no MMTP, and what would be one if its type existed.
    fn background(&mut self) {
        let unknown = self.rng.pick(&[0x00, 0x04, 0x7f, 0xfd]);
        let (tag, kind) = self.rng.pick(&[
            (Tag::TypeControl, tlv::CONTROL),
            (Tag::TypeNull, tlv::NULL),
            (Tag::TypeUnknown, unknown),
            (Tag::CompressedShort, tlv::COMPRESSED),
        ]);
        self.rng.note(tag);
        let most = if kind == tlv::COMPRESSED { 2 } else { 60 };
        let payload = self.rng.some_bytes(0..=most);
        self.packets.push(tlv::packet(kind, &payload));
    }

    /// Packets that belong to nothing: unread ones, cut ones, signalling without its beginning.
    pub(crate) fn stray(&mut self) {
        let all = self.broadcast.identifiers();
        let identifier = self.rng.pick(&all);
        match self.rng.below(6) {
            0 => self.unread(identifier),
            1 => {
                let kind = self.rng.pick(&[MEDIA, SIGNALLING, SIGNALLING]);
                let mmtp = mmtp::bare(&mut self.rng, identifier, kind);
                self.carry(&mmtp);
            }
            2 => self.cut_carrier(identifier),
            3 => {
                let message = signalling::other_message(&mut self.rng);
                let payloads = signalling::payloads(&mut self.rng, &message);
                self.deliver(identifier, payloads);
            }
            _ => self.stray_fragment(identifier),
        }
    }

    fn unread(&mut self, identifier: u16) {
        let payload = self.rng.some_bytes(0..=40);
        let mmtp = mmtp::packet(&mut self.rng, identifier, MEDIA, &payload);
        let carrier = tlv::unread_carrier(&mut self.rng);
        self.push(carrier, &mmtp);
    }

    /// A packet that ends before its MMTP begins, or shortly after.
    fn cut_carrier(&mut self, identifier: u16) {
        self.rng.note(Tag::CarrierCut);
        let mmtp = mmtp::packet(&mut self.rng, identifier, MEDIA, &[]);
        let carrier = tlv::carrier(&mut self.rng);
        let mut packet = tlv::carry(&mut self.rng, carrier, &mmtp);
        packet.truncate(4 + self.rng.below(packet.len() - 4));
        self.packets.push(tlv::packet(packet[1], &packet[4..]));
    }

    fn stray_fragment(&mut self, identifier: u16) {
        let body = self.rng.some_bytes(0..=20);
        let (tag, payload) = match self.rng.below(5) {
            0 => (Tag::EmptyPayload, Vec::new()),
            1 => (Tag::OneBytePayload, vec![self.rng.byte()]),
            2 => (Tag::OneByteWhole, vec![self.rng.byte() & 0x3f]),
            3 => (
                Tag::StrayMiddle,
                messages::fragment(Place::Middle, 0, &body),
            ),
            _ => (Tag::StrayLast, messages::fragment(Place::Last, 0, &body)),
        };
        self.rng.note(tag);
        self.signal(identifier, &payload);
    }
}
