//! Clean streams for benchmarks: one like a broadcast on the air, in compressed IP or in plain IP, one dense with tables, and
//! streams of packets that are all alike. Their broadcast never changes, so that a seed decides only the order and the
//! media.

use face::Part;

use crate::ip;
use crate::messages::{self, Pa};
use crate::mmtp::{MEDIA, SIGNALLING};
use crate::rng::Rng;
use crate::tables::{Asset, Location, Mpt, Package, Plt};
use crate::tlv::{self, Carrier, IPV4_HEADER, NULL, UDP_HEADER};

const SERVICES: u16 = 6;
/// Media packets between two bursts of tables.
const BURST_EACH: usize = 60;
const AIR_PACKET: usize = 1_400;
/// The first identifier of messages in fragments. No table names any of them.
const FRAGMENTED: u16 = 0x2000;
/// The number of a message that is not looked into. Five bytes stand before its body.
const UNREAD: u16 = 0x8000;
/// What stands before a payload: the TLV, the compressed IP and the MMTP header.
const HEADERS: usize = tlv::HEADER + 3 + 12;
/// The same in plain IPv4.
const PLAIN_HEADERS: usize = tlv::HEADER + IPV4_HEADER + UDP_HEADER + 12;
const KINDS: [&[u8; 4]; 6] = [b"hvc1", b"mp4a", b"mp4a", b"stpp", b"aapp", b"asgd"];

/// The stream under way. It ends with a null packet, so that it has exactly the length asked for.
struct Stream {
    rng: Rng,
    bytes: Vec<u8>,
    size: usize,
    /// All packets of MMTP are in plain IPv4, not in compressed IP.
    plain_ip: bool,
}

impl Stream {
    fn new(rng: Rng, size: usize) -> Self {
        Self {
            rng,
            bytes: Vec::with_capacity(size),
            size,
            plain_ip: false,
        }
    }

    /// The length of what stands before a payload.
    fn headers(&self) -> usize {
        if self.plain_ip {
            PLAIN_HEADERS
        } else {
            HEADERS
        }
    }

    fn full(&self) -> bool {
        self.size < self.bytes.len() + tlv::HEADER
    }

    /// Once a packet no longer fits in front of a null packet, that one ends the stream.
    fn push(&mut self, packet: &[u8]) {
        if self.full() {
            return;
        }
        let left = self.size - self.bytes.len();
        if packet.len() + tlv::HEADER <= left {
            self.bytes.extend_from_slice(packet);
            return;
        }
        let rest = vec![0; left - tlv::HEADER];
        self.bytes.extend(tlv::packet(NULL, &rest));
    }

    /// Whether another packet of this length fits in a stream that only whole packets make up.
    fn takes(&self, packet: usize) -> bool {
        self.bytes.len() + packet <= self.size
    }

    fn send(&mut self, identifier: u16, kind: u8, payload: &[u8]) {
        let packet = self.packet(identifier, kind, payload);
        self.push(&packet);
    }

    fn packet(&mut self, identifier: u16, kind: u8, payload: &[u8]) -> Vec<u8> {
        let mut header = vec![0, kind];
        header.extend_from_slice(&identifier.to_be_bytes());
        header.extend(self.rng.bytes(8));
        header.extend_from_slice(payload);
        if self.plain_ip {
            return ip::usual(&mut self.rng, &header);
        }
        tlv::carry(&mut self.rng, Carrier::Compressed(0x61), &header)
    }

    /// The PLT, and the MPT of each service.
    fn burst(&mut self) {
        self.send(0, SIGNALLING, &messages::whole(0, &plt()));
        for service in 0..SERVICES {
            let payload = messages::whole(0, &mpt(service, 1));
            self.send(mpt_identifier(service), SIGNALLING, &payload);
        }
    }
}

fn mpt_identifier(service: u16) -> u16 {
    0xf000 + service
}

/// Each service has its own identifiers, but that of the last kind is shared by all.
fn asset_identifier(service: u16, nth: usize) -> u16 {
    if nth + 1 == KINDS.len() {
        0xf0ff
    } else {
        0xf100 + 0x20 * service + nth as u16
    }
}

fn plt() -> Vec<u8> {
    let packages = (0..SERVICES).map(|service| Package {
        name: (0x0400 + service).to_be_bytes().to_vec(),
        location: Location::Here(mpt_identifier(service)),
    });
    Pa::of(vec![Plt::of(packages.collect()).write()]).write()
}

/// The MPT message of a service, with its assets as often as told.
fn mpt(service: u16, times: usize) -> Vec<u8> {
    let assets = (0..times * KINDS.len()).map(|nth| {
        let nth = nth % KINDS.len();
        Asset::plain(KINDS[nth], asset_identifier(service, nth))
    });
    let mut mpt = Mpt::of(assets.collect());
    mpt.name = (0x0400 + service).to_be_bytes().to_vec();
    Pa::of(vec![mpt.write()]).write()
}

pub(crate) fn air(seed: u64, size: usize) -> Vec<u8> {
    on_air(Stream::new(Rng::new(seed, 4), size))
}

pub(crate) fn plain_ip_air(seed: u64, size: usize) -> Vec<u8> {
    on_air(Stream {
        plain_ip: true,
        ..Stream::new(Rng::new(seed, 13), size)
    })
}

fn on_air(mut stream: Stream) -> Vec<u8> {
    while !stream.full() {
        stream.burst();
        for _ in 0..BURST_EACH {
            let service = stream.rng.below(usize::from(SERVICES)) as u16;
            let nth = stream
                .rng
                .weighted(&[(30, 0), (4, 1), (4, 2), (1, 3), (4, 4), (1, 5)]);
            let length = AIR_PACKET - stream.headers();
            let payload = stream.rng.bytes(length);
            stream.send(asset_identifier(service, nth), MEDIA, &payload);
        }
    }
    stream.bytes
}

pub(crate) fn dense(seed: u64, size: usize) -> Vec<u8> {
    let mut stream = Stream::new(Rng::new(seed, 5), size);
    stream.send(0, SIGNALLING, &messages::whole(0, &plt()));
    while !stream.full() {
        let service = stream.rng.below(usize::from(SERVICES)) as u16;
        let message = mpt(service, stream.rng.within(1..=12));
        let identifier = mpt_identifier(service);
        match stream.rng.below(8) {
            0 => {
                let ends = [stream.rng.below(message.len())];
                for payload in messages::fragments(0, &message, &ends) {
                    stream.send(identifier, SIGNALLING, &payload);
                }
            }
            1 => {
                let mut payload = vec![messages::aggregate_flags(false), 0];
                payload.extend(messages::aggregate(false, &[message, plt()]));
                stream.send(identifier, SIGNALLING, &payload);
            }
            2 => stream.send(0, SIGNALLING, &messages::whole(0, &plt())),
            3 => stream.send(asset_identifier(service, 0), MEDIA, &[0; 60]),
            _ => stream.send(identifier, SIGNALLING, &messages::whole(0, &message)),
        }
    }
    stream.bytes
}

pub(crate) fn nulls(packet: usize, size: usize) -> Vec<u8> {
    tlv::packet(NULL, &vec![0; packet - tlv::HEADER]).repeat(size / packet)
}

pub(crate) fn media(seed: u64, part: Part, packet: usize, size: usize) -> Vec<u8> {
    let mut stream = Stream::new(Rng::new(seed, 6), size);
    stream.burst();
    let nth = match part {
        Part::Other => 0,
        Part::Caption => 3,
        Part::Carousel => 4,
    };
    while stream.takes(packet) {
        let payload = stream.rng.bytes(packet - HEADERS);
        let packet = stream.packet(asset_identifier(0, nth), MEDIA, &payload);
        stream.bytes.extend(packet);
    }
    stream.bytes
}

pub(crate) fn fragmented(seed: u64, identifiers: u16, body: usize, size: usize) -> Vec<u8> {
    in_thirds(Rng::new(seed, 7), identifiers, body, size, |_| 0)
}

pub(crate) fn staggered(seed: u64, identifiers: u16, body: usize, size: usize) -> Vec<u8> {
    in_thirds(Rng::new(seed, 15), identifiers, body, size, |nth| nth % 3)
}

/// Steps, in each of which every identifier sends the next third of its message, from the step on at which it begins.
fn in_thirds(
    rng: Rng,
    identifiers: u16,
    body: usize,
    size: usize,
    begins: impl Fn(usize) -> usize,
) -> Vec<u8> {
    let mut stream = Stream::new(rng, size);
    stream.burst();
    let mut messages = vec![Vec::new(); usize::from(identifiers)];
    let mut step = 0;
    while stream.bytes.len() < size {
        let begun = messages.iter_mut().enumerate();
        for (nth, message) in begun.filter(|(nth, _)| begins(*nth) <= step) {
            let third = (step - begins(nth)) % 3;
            if third == 0 {
                *message = thirds(&mut stream.rng, body);
            }
            let packet = stream.packet(FRAGMENTED + nth as u16, SIGNALLING, &message[third]);
            stream.bytes.extend(packet);
        }
        step += 1;
    }
    stream.bytes
}

/// The payloads of a message in three fragments with bodies of this length, which teaches nothing.
fn thirds(rng: &mut Rng, third: usize) -> Vec<Vec<u8>> {
    let body = rng.bytes(3 * third - 5);
    let message = messages::message(UNREAD, &body);
    messages::fragments(0, &message, &[third, 2 * third])
}

pub(crate) fn garbage(seed: u64, size: usize) -> Vec<u8> {
    Rng::new(seed, 8).bytes(size)
}

/// The kinds of entries that stay without captions and carousels.
const STAYING: [&[u8; 4]; 4] = [b"hvc1", b"mp4a", b"asgd", b"hvc1"];

pub(crate) fn plain_ip_uncut(seed: u64, entries: usize, packets: usize) -> Vec<Vec<u8>> {
    let assets = (0..entries).map(|nth| {
        let nth = nth % STAYING.len();
        Asset::plain(STAYING[nth], asset_identifier(0, nth))
    });
    let message = Pa::of(vec![Mpt::of(assets.collect()).write()]).write();
    plain_ip_same(seed, mpt_identifier(0), &message, packets)
}

pub(crate) fn plain_ip_plts(seed: u64, packets: usize) -> Vec<Vec<u8>> {
    plain_ip_same(seed, 0, &plt(), packets)
}

/// So many packets in plain IPv4 with the same message.
fn plain_ip_same(seed: u64, identifier: u16, message: &[u8], packets: usize) -> Vec<Vec<u8>> {
    let mut stream = Stream {
        plain_ip: true,
        ..Stream::new(Rng::new(seed, 14), 0)
    };
    let payload = messages::whole(0, message);
    let packet = |_| stream.packet(identifier, SIGNALLING, &payload);
    (0..packets).map(packet).collect()
}
