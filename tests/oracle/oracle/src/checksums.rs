//! `checksums`: recounts what a filter's answers have in plain IP packets that were rewritten, lengths and checksums both, and
//! whether they could be rewritten at all. It rests on the maker's arithmetic and on the formats of cases and answers, and
//! asks no filter.

use std::collections::HashSet;

use face::Kind;
use maker::sums::{self, IPV4_CHECKSUM, UDP, UDP_CHECKSUM};

use crate::cases::{Calls, Case, Narrowing, Operation, Reader, Stream};

/// How many rewritten packets there were, how many of them are wrong, and what is wrong with the first.
#[derive(Debug, Default, PartialEq, Eq)]
pub struct Recount {
    pub verified: u64,
    pub wrong: u64,
    pub first: Option<String>,
}

/// Recounts the answers to these cases. An error: they are not answers to them.
pub fn recount(cases: &[u8], answers: &[u8]) -> Result<Recount, String> {
    let mut recount = Recount::default();
    let mut answers = Answers { rest: answers };
    for (nth, case) in Reader::new(cases).enumerate() {
        let place = format!("case {nth}");
        let cut = || format!("{place}: its answer is cut");
        match case {
            Case::Stream(stream) => answers.stream(&stream).ok_or_else(cut)?,
            Case::Calls(calls) => {
                let pushes = answers.calls(&calls).ok_or_else(cut)?;
                if calls.modes.plain_ip && !calls.options.copies_all() {
                    recount.calls(&place, &pushes);
                }
            }
            Case::Narrowing(narrowing) => {
                let changed = answers.narrowing().ok_or_else(cut)?;
                recount.narrowing(&place, &narrowing, changed);
            }
        }
    }
    if !answers.rest.is_empty() {
        return Err("there are bytes behind the last answer".to_owned());
    }
    Ok(recount)
}

/// A push that was not refused: its chunk, and what was written.
type Pushed<'a> = (&'a [u8], &'a [u8]);

impl Recount {
    /// Outputs are whole packets. One of plain IP that is no packet of the input was rewritten, and comes from one that is.
    fn calls(&mut self, place: &str, pushes: &[Pushed]) {
        let input: Vec<u8> = pushes
            .iter()
            .flat_map(|(chunk, _)| *chunk)
            .copied()
            .collect();
        let found = candidates(&input);
        for packet in pushes.iter().flat_map(|(_, out)| packets(out)) {
            let Some(packet) = packet else {
                self.note(place, Err("an output is no row of packets".to_owned()));
                break;
            };
            if is_plain_ip(packet) && !found.contains(packet) {
                let origins = found.iter().filter(|before| could_become(before, packet));
                self.note(place, of_origins(origins.copied(), packet));
            }
        }
    }

    fn narrowing(&mut self, place: &str, case: &Narrowing, changed: Option<&[u8]>) {
        if let Some(packet) = changed
            && case.kind == Kind::Packet
            && case.modes.plain_ip
            && is_plain_ip(case.input)
        {
            self.note(place, verify(case.input, packet));
        }
    }

    fn note(&mut self, place: &str, verified: Result<(), String>) {
        self.verified += 1;
        if let Err(what) = verified {
            self.wrong += 1;
            self.first.get_or_insert(format!("{place}: {what}"));
        }
    }
}

/// The type of a TLV packet, IPv4 and IPv6.
const V4: u8 = 1;
const V6: u8 = 2;
const TLV_HEAD: usize = 4;
const UDP_HEAD: usize = 8;
const CLOCK_PORT: u16 = 123;

fn is_plain_ip(packet: &[u8]) -> bool {
    packet.len() >= TLV_HEAD && matches!(packet[1], V4 | V6)
}

/// All that could be packets of plain IP in these bytes, wherever they were cut and whatever is between them.
fn candidates(bytes: &[u8]) -> HashSet<&[u8]> {
    let at = 0..bytes.len();
    at.filter_map(|at| front(&bytes[at..]))
        .filter(|packet| is_plain_ip(packet))
        .collect()
}

/// The packet at the front, as long as its own length says.
fn front(bytes: &[u8]) -> Option<&[u8]> {
    match *bytes {
        [0x7f, _, high, low, ..] => {
            bytes.get(..TLV_HEAD + usize::from(u16::from_be_bytes([high, low])))
        }
        _ => None,
    }
}

/// The packets of an output, and at the end `None` where bytes are left that are none.
fn packets(mut out: &[u8]) -> Vec<Option<&[u8]>> {
    let mut all = Vec::new();
    while !out.is_empty() {
        let packet = front(out);
        all.push(packet);
        out = packet.map_or(&[], |packet| &out[packet.len()..]);
    }
    all
}

/// Whether a packet could have been rewritten to this one: what no length and no checksum depends on is the same, up to the
/// MMTP header that every packet has.
fn could_become(before: &[u8], packet: &[u8]) -> bool {
    let [before, packet] =
        [before, packet].map(|packet| Parts::of(packet).map(|parts| parts.fixed()));
    before.is_some() && before == packet
}

/// Right by one of the packets from which it can come.
fn of_origins<'a>(origins: impl Iterator<Item = &'a [u8]>, packet: &[u8]) -> Result<(), String> {
    let none = Err("it comes from no packet of the input".to_owned());
    origins
        .map(|before| verify(before, packet))
        .reduce(|one, other| one.or(other))
        .unwrap_or(none)
}

/// The parts of a packet of plain IP.
struct Parts<'a> {
    kind: u8,
    tlv_length: u16,
    head: &'a [u8],
    udp: &'a [u8],
}

impl<'a> Parts<'a> {
    fn of(packet: &'a [u8]) -> Option<Self> {
        let (tlv, ip) = packet.split_at_checked(TLV_HEAD)?;
        let header = match tlv[1] {
            V4 => usize::from(ip.first()? & 0x0f) * 4,
            _ => 40,
        };
        let (head, udp) = ip.split_at_checked(header)?;
        let whole = head.len() >= 20 && udp.len() >= UDP_HEAD;
        whole.then_some(Self {
            kind: tlv[1],
            tlv_length: number(tlv, 2),
            head,
            udp,
        })
    }

    /// Its bytes with lengths and checksums taken out, as far as the MMTP header goes.
    fn fixed(&self) -> Vec<u8> {
        let (skipped, end) = (self.ip_length_at(), UDP_HEAD + 12);
        let mut fixed = vec![self.kind];
        fixed.extend(&self.head[..skipped]);
        fixed.extend(&self.head[skipped + 2..]);
        if self.kind == V4 {
            let checksum = 1 + IPV4_CHECKSUM - 2;
            fixed.drain(checksum..checksum + 2);
        }
        fixed.extend(&self.udp[..4]);
        fixed.extend(&self.udp[UDP_HEAD..end.min(self.udp.len())]);
        fixed
    }

    fn ip_length_at(&self) -> usize {
        if self.kind == V4 { 2 } else { 4 }
    }

    fn addresses(&self) -> &[u8] {
        match self.kind {
            V4 => &self.head[12..20],
            _ => &self.head[8..40],
        }
    }

    fn udp_checksum(&self) -> u16 {
        number(self.udp, UDP_CHECKSUM)
    }

    /// A whole UDP datagram that is not to the port of clocks. Of the TLV head nothing but the type is asked.
    fn is_rewritable(&self) -> bool {
        let (version, next) = (
            self.head[0] >> 4,
            self.head[if self.kind == V4 { 9 } else { 6 }],
        );
        let right_version = version == if self.kind == V4 { 4 } else { 6 };
        let whole = self.kind != V4 || number(self.head, 6) << 2 == 0;
        let agrees = |(_, found, right): &(_, u16, usize)| usize::from(*found) == *right;
        let lengths = self.lengths()[1..].iter().all(agrees);
        right_version && next == UDP && whole && lengths && number(self.udp, 2) != CLOCK_PORT
    }

    /// The lengths that stand in it, each beside the one that it must have.
    fn lengths(&self) -> [(&'static str, u16, usize); 3] {
        let payload = self.head.len() + self.udp.len();
        let ip = if self.kind == V4 {
            payload
        } else {
            self.udp.len()
        };
        [
            ("the TLV length", self.tlv_length, payload),
            ("the IP length", number(self.head, self.ip_length_at()), ip),
            ("the UDP length", number(self.udp, 4), self.udp.len()),
        ]
    }
}

/// Whether a packet has the lengths and checksums that it must have when it was rewritten from another.
fn verify(before: &[u8], packet: &[u8]) -> Result<(), String> {
    let both = (Parts::of(before), Parts::of(packet));
    let (Some(before), Some(after)) = both else {
        return Err("it has no whole heads".to_owned());
    };
    if !before.is_rewritable() {
        return Err("it comes from a packet that passes".to_owned());
    }
    for (name, found, right) in after.lengths() {
        equal(name, usize::from(found), right)?;
    }
    if after.kind == V4 {
        let found = number(after.head, IPV4_CHECKSUM);
        let right = sums::ipv4_checksum(after.head);
        equal("the header checksum", found.into(), right.into())?;
    }
    let stays = after.kind == V4 && before.udp_checksum() == 0;
    let right = if stays {
        0
    } else {
        sums::udp_checksum(after.addresses(), after.udp)
    };
    equal(
        "the UDP checksum",
        after.udp_checksum().into(),
        right.into(),
    )
}

fn equal(name: &str, found: usize, right: usize) -> Result<(), String> {
    if found == right {
        return Ok(());
    }
    Err(format!("{name} is {found:#06x}, not {right:#06x}"))
}

fn number(bytes: &[u8], at: usize) -> u16 {
    u16::from_be_bytes([bytes[at], bytes[at + 1]])
}

/// Answers, read along the cases that they are to. `None`: they are cut.
struct Answers<'a> {
    rest: &'a [u8],
}

impl<'a> Answers<'a> {
    fn stream(&mut self, case: &Stream) -> Option<()> {
        if self.bytes(1)? != [0] {
            return Some(());
        }
        for _ in &case.chunks {
            self.push()?;
        }
        self.bytes(if case.cut { 0 } else { 4 })?;
        Some(())
    }

    /// The pushes that were not refused.
    fn calls<'c>(&mut self, case: &Calls<'c>) -> Option<Vec<Pushed<'c>>>
    where
        'a: 'c,
    {
        let mut pushes = Vec::new();
        if self.bytes(1)? != [0] {
            return Some(pushes);
        }
        for operation in &case.operations {
            match *operation {
                Operation::Push { chunk, .. } => {
                    pushes.extend(self.push()?.map(|out| (chunk, out)));
                }
                Operation::Dropped => drop(self.bytes(5)?),
            }
        }
        Some(pushes)
    }

    /// What a push has written, unless it was refused.
    fn push(&mut self) -> Option<Option<&'a [u8]>> {
        let refusal = self.bytes(1)?[0];
        let length = self.long()?;
        self.bytes(6 * 4)?;
        let out = self.bytes(length)?;
        Some((refusal == 0).then_some(out))
    }

    /// The bytes of a narrowing that is changed.
    fn narrowing(&mut self) -> Option<Option<&'a [u8]>> {
        let changed = self.bytes(2)? == [0, 1];
        let length = self.long()?;
        self.bytes(6 * 4)?;
        let out = self.bytes(length)?;
        Some(changed.then_some(out))
    }

    fn long(&mut self) -> Option<usize> {
        let taken = self.bytes(4)?;
        Some(u32::from_be_bytes([taken[0], taken[1], taken[2], taken[3]]) as usize)
    }

    fn bytes(&mut self, count: usize) -> Option<&'a [u8]> {
        let (taken, rest) = self.rest.split_at_checked(count)?;
        self.rest = rest;
        Some(taken)
    }
}
