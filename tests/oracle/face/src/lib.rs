//! What the filters of this workspace have in common: options, modes, limits, counts and answers, in the words of 01 and 02,
//! and the trait that each filter answers. It holds no rule of the filter itself.

/// What is wanted of a broadcast: one service or all, and the four wishes.
#[derive(Debug, Clone, Copy, PartialEq, Eq)]
pub struct Options {
    pub service: Option<u16>,
    pub caption: bool,
    pub carousel: bool,
    pub eit: bool,
    /// Other assets: every listed asset that is neither caption nor carousel.
    pub other: bool,
}

impl Options {
    /// The flag bit that tells what is not wanted: other assets are wanted by whoever does not speak of them.
    pub const OTHER_OFF: u8 = 0x10;
    /// The greatest flag byte that has a meaning.
    pub const MOST_FLAGS: u8 = 0x1f;

    /// The captions-only profile, of one service or of all. Written are tables and all other signalling, control and clock
    /// packets, caption assets, and media that no list names; tables list caption assets alone. Dropped are other assets,
    /// carousels and EIT.
    pub fn captions_only(service: Option<u16>) -> Self {
        Self {
            service,
            caption: true,
            carousel: false,
            eit: false,
            other: false,
        }
    }

    /// The flag byte of the programs: bits 0 to 3 are caption, carousel, EIT, service named; bit 4 is other assets not
    /// wanted.
    pub fn from_flags(flags: u8, service: u16) -> Self {
        Self {
            service: (flags & 8 != 0).then_some(service),
            caption: flags & 1 != 0,
            carousel: flags & 2 != 0,
            eit: flags & 4 != 0,
            other: flags & Self::OTHER_OFF == 0,
        }
    }

    pub fn flags(&self) -> u8 {
        let other = if self.other { 0 } else { Self::OTHER_OFF };
        u8::from(self.caption)
            | u8::from(self.carousel) << 1
            | u8::from(self.eit) << 2
            | u8::from(self.service.is_some()) << 3
            | other
    }

    pub fn copies_all(&self) -> bool {
        self.service.is_none() && self.caption && self.carousel && self.eit && self.other
    }
}

/// The modes that 02's requests add. All off is the base, and what is meant where nobody speaks of them.
#[derive(Debug, Clone, Copy, Default, PartialEq, Eq)]
pub struct Modes {
    /// Request 2: tables in plain IPv4 and IPv6 packets are narrowed too.
    pub plain_ip: bool,
}

impl Modes {
    pub const OFF: Self = Self { plain_ip: false };
    pub const PLAIN_IP: Self = Self { plain_ip: true };

    /// The modes byte of cases: bit 0 is plain IP. `None`: a bit is set that has no meaning.
    pub fn from_bits(bits: u8) -> Option<Self> {
        let plain_ip = bits & 1 != 0;
        (bits <= 1).then_some(Self { plain_ip })
    }

    pub fn bits(&self) -> u8 {
        u8::from(self.plain_ip)
    }

    pub fn all_off(&self) -> bool {
        *self == Self::OFF
    }
}

/// An asset's kind.
#[derive(Debug, Clone, Copy, PartialEq, Eq)]
pub enum Part {
    Caption,
    Carousel,
    Other,
}

/// The lengths of the lent rooms, and one message's limit.
#[derive(Debug, Clone, Copy, PartialEq, Eq)]
pub struct Limits {
    /// W: bytes of the work room.
    pub work: usize,
    /// T: bytes of the fragment room.
    pub total: usize,
    /// M: bytes of one message.
    pub most: usize,
    /// Numbers of the map room.
    pub maps: usize,
}

impl Limits {
    /// P: the longest packet, its header included.
    pub fn packet(&self) -> usize {
        (self.work / 2).min(65_539)
    }
}

/// What a call reports.
#[derive(Debug, Clone, Copy, Default, PartialEq, Eq)]
pub struct Counts {
    pub bytes: u64,
    pub accepted: u64,
    pub written: u64,
    pub rewritten: u64,
    pub skipped: u64,
    pub lost: u64,
}

/// An accepted call: its counts, the bytes it wrote, and how many bytes are held after it.
#[derive(Debug, Clone, PartialEq, Eq)]
pub struct Call {
    pub counts: Counts,
    pub held: usize,
    pub out: Vec<u8>,
}

/// What is narrowed.
#[derive(Debug, Clone, Copy, PartialEq, Eq)]
pub enum Kind {
    Table,
    Payload,
    Packet,
}

/// What narrowing answers. The counts are of captions, carousels and others, in this order.
#[derive(Debug, Clone, PartialEq, Eq)]
pub enum Narrowed {
    Refused(u8),
    Unchanged,
    Changed {
        out: Vec<u8>,
        stayed: [u32; 3],
        went: [u32; 3],
    },
}

/// A filter by 01 and the requests of 02. Refusals are their numbers; a refused call changes nothing.
pub trait Engine: Sized {
    fn start(limits: Limits, options: Options, modes: Modes) -> Result<Self, u8>;
    /// `room` is the length of the output that is lent.
    fn push(&mut self, chunk: &[u8], room: usize) -> Result<Call, u8>;
    /// Bytes held now.
    fn held(&self) -> usize;
    /// How many packet identifiers the present rules drop.
    fn dropped(&self) -> u32;
    /// `identifier` is read for a payload alone; `room` is the length of the output that is lent.
    fn narrow(
        kind: Kind,
        options: Options,
        modes: Modes,
        identifier: u16,
        input: &[u8],
        room: usize,
    ) -> Narrowed;
}
